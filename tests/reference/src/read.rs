//! The independent reader: cause 1, then 2, 3, 12, 4 and 13 record by record, in the order of the check list.

use crate::bytes::{ACTIVITY, CREW, EXTRA, JOB, RECORD};
use std::collections::{BTreeMap, BTreeSet};

pub const MOST_BYTES: usize = 49_152;
pub const MOST_ACTIVITIES: usize = 64;

/// A refusal's number and the value that goes with it (a place, an activity, a count).
#[derive(Clone, Copy, Debug, PartialEq)]
pub struct Refusal {
    pub number: u8,
    pub value: u64,
}

/// The ends of an arc: activities named from 1, as the file names them.
pub type Ends = (usize, usize);

/// Activities are indexed from 0 in the lists. Each type has arcs of its own, and each of them its wait.
#[derive(Clone, Default)]
pub struct Plan {
    pub durations: Vec<u32>,
    pub demands: Vec<[u32; 8]>,
    pub kinds: usize,
    pub available: [u32; 8],
    pub job: BTreeMap<Ends, u64>,
    pub extra: BTreeMap<Ends, u64>,
}

impl Plan {
    pub fn size(&self) -> usize {
        self.durations.len()
    }

    /// By its duration in the file, and not by what it demands.
    pub fn is_milestone(&self, place: usize) -> bool {
        self.durations[place] == 0
    }

    pub fn has_milestones(&self) -> bool {
        (0..self.size()).any(|place| self.is_milestone(place))
    }

    /// All arcs, each once though it may be of both types, by from and then to.
    pub fn arcs(&self) -> BTreeSet<Ends> {
        self.bonds().map(|(pair, _)| pair).collect()
    }

    /// Every arc of either type with its wait. Where a pair is of both types it comes twice, since both waits bind.
    pub fn bonds(&self) -> impl Iterator<Item = (Ends, u64)> + '_ {
        self.job.iter().chain(&self.extra).map(|(&pair, &wait)| (pair, wait))
    }

    pub fn has_waits(&self) -> bool {
        self.bonds().any(|(_, wait)| wait > 0)
    }
}

pub fn read(file: &[u8]) -> Result<Plan, Refusal> {
    if file.is_empty() || !file.len().is_multiple_of(RECORD) || file.len() > MOST_BYTES {
        return Err(Refusal { number: 1, value: 0 });
    }
    let mut plan = Plan::default();
    let mut last = ACTIVITY;
    let mut named = BTreeSet::new();
    for (place, record) in file.chunks(RECORD).enumerate() {
        let refuse = |number| Refusal { number, value: place as u64 };
        if !follows(last, record[0]) {
            return Err(refuse(2));
        }
        last = record[0];
        if !take(&mut plan, record) {
            return Err(refuse(3));
        }
        if takes_no_time(record) && demands_something(record) {
            return Err(refuse(12));
        }
        if !spare_is_zero(record) {
            return Err(refuse(4));
        }
        // Type, from and to: the same pair in the other type is another arc, and with another wait it is the same.
        if is_arc(record) && !named.insert(&record[..3]) {
            return Err(refuse(13));
        }
    }
    // Only the end of the file shows that the crew record never came.
    if last == ACTIVITY {
        return Err(Refusal { number: 2, value: (file.len() / RECORD) as u64 });
    }
    Ok(plan)
}

/// Which type may come after which. `last` is activity at the start of the file.
fn follows(last: u8, next: u8) -> bool {
    match last {
        ACTIVITY => next == ACTIVITY || next == CREW,
        CREW | JOB => next == JOB || next == EXTRA,
        _ => next == EXTRA,
    }
}

/// Adds the record to the plan; false when a field is outside its rule.
fn take(plan: &mut Plan, record: &[u8]) -> bool {
    match record[0] {
        ACTIVITY => take_activity(plan, record),
        CREW => take_crew(plan, record),
        _ => take_arc(plan, record),
    }
}

fn take_activity(plan: &mut Plan, record: &[u8]) -> bool {
    let number = plan.size() + 1;
    plan.durations.push(two_bytes(record, 2));
    plan.demands.push(eight(record));
    number <= MOST_ACTIVITIES && record[1] as usize == number
}

fn take_crew(plan: &mut Plan, record: &[u8]) -> bool {
    plan.kinds = record[1] as usize;
    plan.available = eight(record);
    let zero_beyond = |values: &[u32; 8]| values.iter().skip(plan.kinds).all(|&value| value == 0);
    (1..=8).contains(&plan.kinds) && zero_beyond(&plan.available) && plan.demands.iter().all(zero_beyond)
}

fn take_arc(plan: &mut Plan, record: &[u8]) -> bool {
    let (from, to) = (record[1] as usize, record[2] as usize);
    let known = 1..=plan.size();
    let good = known.contains(&from) && known.contains(&to) && from != to;
    let arcs = if record[0] == JOB { &mut plan.job } else { &mut plan.extra };
    arcs.insert((from, to), two_bytes(record, 4).into());
    good
}

pub fn is_arc(record: &[u8]) -> bool {
    record[0] == JOB || record[0] == EXTRA
}

fn takes_no_time(record: &[u8]) -> bool {
    record[0] == ACTIVITY && record[2..4] == [0, 0]
}

/// Whether any of the eight demands is above 0; how many kinds there are is not known yet.
fn demands_something(record: &[u8]) -> bool {
    record[4..20].iter().any(|&byte| byte != 0)
}

fn spare_is_zero(record: &[u8]) -> bool {
    let spare: &[usize] = match record[0] {
        ACTIVITY => &[20, 21, 22, 23],
        CREW => &[2, 3, 20, 21, 22, 23],
        _ => &[3, 6, 7, 8, 9, 10, 11, 12, 13, 14, 15, 16, 17, 18, 19, 20, 21, 22, 23],
    };
    spare.iter().all(|&at| record[at] == 0)
}

fn two_bytes(record: &[u8], at: usize) -> u32 {
    record[at] as u32 + 256 * record[at + 1] as u32
}

fn eight(record: &[u8]) -> [u32; 8] {
    std::array::from_fn(|kind| two_bytes(record, 4 + 2 * kind))
}
