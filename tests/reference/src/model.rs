//! The independent operations: order, needs by trying all subsets, earliest starts, crew check.
//! Slow and plain on purpose: each follows its sentence of the paper.

use crate::read::{read, Ends, Plan, Refusal};
use std::collections::BTreeSet;

/// Activities that `needs_by_subsets` can try all subsets of.
pub const MOST_TRIED: usize = 16;

/// `before[i][j]`: arcs lead from activity i to activity j in one step or more (index 0 unused).
pub struct Order {
    before: Vec<Vec<bool>>,
}

impl Order {
    pub fn of(size: usize, arcs: &BTreeSet<Ends>) -> Order {
        let mut before = vec![vec![false; size + 1]; size + 1];
        for &(from, to) in arcs {
            before[from][to] = true;
        }
        for middle in 1..=size {
            let onward = before[middle].clone();
            for row in before.iter_mut().filter(|row| row[middle]) {
                row.iter_mut().zip(&onward).for_each(|(reached, &next)| *reached |= next);
            }
        }
        Order { before }
    }

    pub fn size(&self) -> usize {
        self.before.len() - 1
    }

    pub fn lowest_before_itself(&self) -> Option<usize> {
        (1..=self.size()).find(|&activity| self.before[activity][activity])
    }

    /// The order of the nodes 0 to m + 1: the start before all others, the end after all others.
    pub fn is_before(&self, from: usize, to: usize) -> bool {
        let end = self.size() + 1;
        if from > end || to > end {
            return false;
        }
        if from == 0 || to == end {
            return from != to;
        }
        from != end && to != 0 && self.before[from][to]
    }

    /// The activities that are ordered with this one, as a set.
    fn related(&self, activity: usize) -> u64 {
        let ordered = |&other: &usize| self.before[activity][other] || self.before[other][activity];
        (1..=self.size()).filter(ordered).fold(0, |set, other| set | 1 << (other - 1))
    }

    pub fn related_sets(&self) -> Vec<u64> {
        (1..=self.size()).map(|activity| self.related(activity)).collect()
    }
}

/// The members of a set, ascending, as indexes from 0.
pub fn members(set: u64) -> impl Iterator<Item = usize> {
    (0..64 - set.leading_zeros() as usize).filter(move |bit| set >> bit & 1 == 1)
}

/// The need of a kind, and which sizes a set shown for it may have (bit n: size n is possible).
#[derive(Clone, Copy)]
pub struct Need {
    pub units: u32,
    pub sizes: u128,
}

pub fn needs_by_subsets(plan: &Plan, order: &Order) -> Vec<Need> {
    assert!(plan.size() <= MOST_TRIED, "too many activities to try all subsets");
    let related = order.related_sets();
    let mut needs = vec![Need { units: 0, sizes: 0 }; plan.kinds];
    for set in 0..1_u64 << plan.size() {
        if members(set).any(|bit| related[bit] & set != 0) {
            continue;
        }
        for (kind, need) in needs.iter_mut().enumerate() {
            weigh(plan, kind, set, need);
        }
    }
    needs
}

fn weigh(plan: &Plan, kind: usize, set: u64, need: &mut Need) {
    let demand = |bit: usize| plan.demands[bit][kind];
    let sum = members(set).map(demand).sum();
    if sum > need.units {
        *need = Need { units: sum, sizes: 0 };
    }
    if sum == need.units && members(set).all(|bit| demand(bit) > 0) {
        need.sizes |= 1 << set.count_ones();
    }
}

/// Everything that the paper determines of a readable plan without a circle.
pub struct Facts {
    pub plan: Plan,
    /// The job order.
    pub job: Order,
    /// The plan order.
    pub order: Order,
    pub needs: Vec<Need>,
}

pub struct Case {
    pub bytes: Vec<u8>,
    pub facts: Result<Facts, Refusal>,
}

impl Case {
    pub fn new(bytes: Vec<u8>) -> Case {
        Case::with(bytes, needs_by_subsets)
    }

    /// For plans with too many activities to try: needs known otherwise, any size of set possible.
    pub fn claimed(bytes: Vec<u8>, needs: &[u32]) -> Case {
        Case::with(bytes, |_, _| needs.iter().map(|&units| Need { units, sizes: u128::MAX }).collect())
    }

    fn with(bytes: Vec<u8>, weigh: impl FnOnce(&Plan, &Order) -> Vec<Need>) -> Case {
        let facts = read(&bytes).and_then(|plan| {
            let (job, order) = ordered(&plan)?;
            let needs = weigh(&plan, &order);
            Ok(Facts { plan, job, order, needs })
        });
        Case { bytes, facts }
    }
}

/// The job order and the plan order, or cause 5 or 6.
pub fn ordered(plan: &Plan) -> Result<(Order, Order), Refusal> {
    let job = Order::of(plan.size(), &plan.job.keys().copied().collect());
    let all = Order::of(plan.size(), &plan.arcs());
    for (number, order) in [(5, &job), (6, &all)] {
        if let Some(activity) = order.lowest_before_itself() {
            return Err(Refusal { number, value: activity as u64 });
        }
    }
    Ok((job, all))
}

/// Why lists of starts and worked durations are refused as 10.
#[derive(Clone, Copy)]
pub enum BadLists {
    Length,
    WorkedZero,
    WorkedMilestone,
}

#[derive(Clone, Copy, Debug, PartialEq)]
pub enum Crew {
    Fits,
    Broken { from: usize, to: usize },
    Overload { period: u64, kind: usize },
}

impl Facts {
    /// The lowest kind (from 1) whose need exceeds its availability, with that need.
    pub fn overloaded(&self) -> Option<(usize, Need)> {
        let kind = (0..self.plan.kinds).find(|&kind| self.needs[kind].units > self.plan.available[kind])?;
        Some((kind + 1, self.needs[kind]))
    }

    pub fn needs_written(&self) -> Vec<u32> {
        self.needs.iter().map(|need| need.units).collect()
    }

    /// The least starts that keep every arc with its wait: raised along arcs, as often as the longest way can have arcs. The
    /// end comes last, at the largest finish, for which no wait counts.
    pub fn starts_written(&self) -> Vec<u32> {
        let mut starts = vec![0_u64; self.plan.size()];
        let finish = |starts: &[u64], place: usize| starts[place] + u64::from(self.plan.durations[place]);
        for _ in 0..self.plan.size() {
            for ((from, to), wait) in self.plan.bonds() {
                starts[to - 1] = starts[to - 1].max(finish(&starts, from - 1) + wait);
            }
        }
        starts.push((0..self.plan.size()).map(|place| finish(&starts, place)).max().unwrap_or(0));
        starts.into_iter().map(|start| start.try_into().expect("no start leaves 32 bits")).collect()
    }

    /// The paper's starts, which know of no waits: raised until every one is the largest finish of all before it in the order.
    pub fn starts_of_paper(&self) -> Vec<u32> {
        let size = self.plan.size();
        let mut starts = vec![0; size + 1];
        for _ in 0..=size {
            for to in 1..=size + 1 {
                let earlier = (1..=size).filter(|&from| self.order.is_before(from, to));
                starts[to - 1] =
                    earlier.map(|from| starts[from - 1] + self.plan.durations[from - 1]).max().unwrap_or(0);
            }
        }
        starts
    }

    pub fn flow_bytes_needed(&self) -> usize {
        let size = self.plan.size();
        24 * (size * size.saturating_sub(1) / 2 + 2 * size + 1)
    }

    /// Both lists have an entry for each activity; a milestone is worked 0, and no other activity is.
    pub fn bad_lists(&self, starts: &[u32], durations: &[u32]) -> Option<BadLists> {
        let size = self.plan.size();
        if starts.len() != size || durations.len() != size {
            return Some(BadLists::Length);
        }
        (0..size).find_map(|place| match durations[place] {
            0 => (!self.plan.is_milestone(place)).then_some(BadLists::WorkedZero),
            _ => self.plan.is_milestone(place).then_some(BadLists::WorkedMilestone),
        })
    }

    pub fn crew(&self, starts: &[u32], durations: &[u32]) -> Result<Crew, Refusal> {
        if self.bad_lists(starts, durations).is_some() {
            return Err(Refusal { number: 10, value: self.plan.size() as u64 });
        }
        let work: Vec<(u64, u64)> =
            starts.iter().zip(durations).map(|(&s, &d)| (s as u64, s as u64 + d as u64)).collect();
        let late = |&((from, to), wait): &(Ends, u64)| work[from - 1].1 + wait > work[to - 1].0;
        let broken = self.plan.bonds().filter(late).map(|(pair, _)| pair).min();
        Ok(match broken {
            Some((from, to)) => Crew::Broken { from, to },
            None => self.first_overload(&work).map_or(Crew::Fits, |(period, kind)| Crew::Overload { period, kind }),
        })
    }

    /// Short work is walked through period by period. Otherwise only periods in which some
    /// activity begins are tried: from any other period to the next, what is occupied only falls.
    fn first_overload(&self, work: &[(u64, u64)]) -> Option<(u64, usize)> {
        let last = work.iter().map(|&(_, finish)| finish).max().unwrap_or(0);
        let mut periods: Vec<u64> = (1..=last.min(400)).collect();
        if last > 400 {
            periods = work.iter().map(|&(start, _)| start + 1).collect();
            periods.sort();
        }
        periods.into_iter().find_map(|period| Some((period, self.kind_overloaded_in(period, work)?)))
    }

    fn kind_overloaded_in(&self, period: u64, work: &[(u64, u64)]) -> Option<usize> {
        let at_work = |activity: &usize| work[*activity].0 < period && work[*activity].1 >= period;
        let occupied = |kind: usize| -> u64 {
            (0..work.len()).filter(at_work).map(|activity| self.plan.demands[activity][kind] as u64).sum()
        };
        (0..self.plan.kinds).find(|&kind| occupied(kind) > self.plan.available[kind] as u64).map(|kind| kind + 1)
    }
}
