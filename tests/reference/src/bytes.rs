//! Building plan files: a draft holds what a file is to say, `bytes` writes it down.

use std::collections::BTreeMap;
use std::ops::Range;

pub const RECORD: usize = 24;
pub const ACTIVITY: u8 = 1;
pub const CREW: u8 = 2;
pub const JOB: u8 = 3;
pub const EXTRA: u8 = 4;

/// Where an arc record has its wait.
pub const WAIT: Range<usize> = 4..6;

pub type Arc = (u8, u8);
/// The waits of arcs, by type and pair; those of the others are 0.
pub type Waits = BTreeMap<(u8, Arc), u16>;

#[derive(Clone)]
pub struct Activity {
    pub duration: u16,
    pub demands: [u16; 8],
}

pub const MILESTONE: Activity = Activity { duration: 0, demands: [0; 8] };

#[derive(Clone)]
pub struct Draft {
    pub activities: Vec<Activity>,
    pub kinds: u8,
    pub available: [u16; 8],
    pub job: Vec<Arc>,
    pub extra: Vec<Arc>,
    pub waits: Waits,
}

impl Draft {
    /// A plan of one kind from (duration, demand) pairs: most written-out cases are of this form.
    pub fn of_one_kind(activities: &[(u16, u16)], available: u16, job: &[Arc], extra: &[Arc]) -> Draft {
        let activity = |&(duration, demand): &(u16, u16)| Activity { duration, demands: first(demand) };
        Draft {
            activities: activities.iter().map(activity).collect(),
            kinds: 1,
            available: first(available),
            job: job.to_vec(),
            extra: extra.to_vec(),
            waits: Waits::new(),
        }
    }

    /// The same arcs with these waits, and no others.
    pub fn with_waits(&self, waits: impl IntoIterator<Item = ((u8, Arc), u16)>) -> Draft {
        Draft { waits: waits.into_iter().collect(), ..self.clone() }
    }

    /// Every arc with its type, in file order.
    pub fn arcs(&self) -> Vec<(u8, Arc)> {
        let job = self.job.iter().map(|&arc| (JOB, arc));
        job.chain(self.extra.iter().map(|&arc| (EXTRA, arc))).collect()
    }

    pub fn with_available(&self, available: [u16; 8]) -> Draft {
        Draft { available, ..self.clone() }
    }

    pub fn bytes(&self) -> Vec<u8> {
        let mut file = Vec::new();
        for (place, activity) in self.activities.iter().enumerate() {
            file.extend(activity_record(place as u8 + 1, activity.duration, &activity.demands));
        }
        file.extend(crew_record(self.kinds, &self.available));
        for (kind, arc) in self.arcs() {
            file.extend(waiting(arc_record(kind, arc), self.waits.get(&(kind, arc)).copied().unwrap_or(0)));
        }
        file
    }
}

pub fn first(value: u16) -> [u16; 8] {
    [value, 0, 0, 0, 0, 0, 0, 0]
}

pub fn activity_record(number: u8, duration: u16, demands: &[u16; 8]) -> [u8; RECORD] {
    let mut record = eight_values(demands);
    record[0] = ACTIVITY;
    record[1] = number;
    record[2..4].copy_from_slice(&duration.to_le_bytes());
    record
}

pub fn crew_record(kinds: u8, available: &[u16; 8]) -> [u8; RECORD] {
    let mut record = eight_values(available);
    record[0] = CREW;
    record[1] = kinds;
    record
}

pub fn arc_record(kind: u8, arc: Arc) -> [u8; RECORD] {
    let mut record = [0; RECORD];
    record[..3].copy_from_slice(&[kind, arc.0, arc.1]);
    record
}

/// The arc record with this wait.
pub fn waiting(mut record: [u8; RECORD], wait: u16) -> [u8; RECORD] {
    record[WAIT].copy_from_slice(&wait.to_le_bytes());
    record
}

fn eight_values(values: &[u16; 8]) -> [u8; RECORD] {
    let mut record = [0; RECORD];
    for (kind, value) in values.iter().enumerate() {
        record[4 + 2 * kind..6 + 2 * kind].copy_from_slice(&value.to_le_bytes());
    }
    record
}

pub fn hex(bytes: &[u8]) -> String {
    let records = bytes.chunks(RECORD).map(|record| record.iter().map(|byte| format!("{byte:02x}")).collect());
    records.collect::<Vec<String>>().join(" ")
}
