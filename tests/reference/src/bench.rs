//! One comparison for each operation: the library's reply against what the paper determines,
//! every answer and every lent byte and number, and by the rules where the paper leaves it free.

use crate::bytes::{hex, JOB, RECORD};
use crate::check;
use crate::crew;
use crate::model::{Case, Facts};
use crate::planner::{Planner, Reply};
use crate::random::Random;
use crate::read::Refusal;
use crate::tally::Tally;
use std::cmp::Ordering;
use std::fmt::Debug;

pub struct Bench {
    pub planner: Planner,
    pub tally: Tally,
    pub random: Random,
    /// A stream of its own for the reports, which not every plan has: a seed names the same plans with and without them.
    pub reported: Random,
}

/// An answer as the interface packs it: the number in the low byte, its values above.
pub fn answer(number: u64, rest: u64) -> u64 {
    number | rest << 8
}

pub fn refused(refusal: &Refusal) -> u64 {
    answer(refusal.number as u64, refusal.value)
}

pub fn overloaded(kind: u64, need: u64, size: u64) -> u64 {
    answer(7, kind | need << 8 | size << 40)
}

/// What an operation must return and leave in the lent memory.
pub struct Due<T> {
    pub answer: u64,
    pub after: Vec<T>,
}

impl Bench {
    pub fn new(seed: u64) -> Bench {
        let (random, reported) = (Random::new(seed), Random::new(!seed));
        Bench { planner: Planner::new(), tally: Tally::default(), random, reported }
    }

    /// Every operation on one plan: lent slices exact, and too short or longer at random.
    pub fn all(&mut self, case: &Case) {
        self.verdict(case);
        for length in self.lengths(case, |facts| facts.plan.kinds) {
            self.needs(case, length);
        }
        for length in self.lengths(case, |facts| facts.plan.size() + 1) {
            self.starts(case, length);
        }
        for length in self.lengths(case, |_| RECORD) {
            self.overload(case, length);
        }
        for length in self.lengths(case, Facts::flow_bytes_needed) {
            for kind in self.kinds(case) {
                self.flow(case, kind, length);
            }
        }
        self.sheets(case);
        self.trims(case);
        self.reports(case);
        for _ in 0..3 {
            let (starts, durations) = crew::lists(&mut self.random, case);
            self.crew_check(case, &starts, &durations);
        }
    }

    /// The length needed, and another one. A refused plan needs none, so any two will do.
    pub fn lengths(&mut self, case: &Case, needed: impl FnOnce(&Facts) -> usize) -> [usize; 2] {
        match &case.facts {
            Err(_) => [self.random.index(100), self.random.index(4)],
            Ok(facts) => {
                let exact = needed(facts);
                let longer = exact + 1 + self.random.index(60);
                let shorter = self.random.index(exact);
                [exact, self.random.pick(&[exact - 1, exact - 1, longer, longer, shorter, 0])]
            }
        }
    }

    /// The kinds to ask a flow or a sheet of: all of the plan, and one that is none of them. Some of those
    /// would become 1 if only their low bits were looked at.
    pub fn kinds(&mut self, case: &Case) -> Vec<u64> {
        let most = case.facts.as_ref().map_or(1, |facts| facts.plan.kinds as u64);
        let none = self.random.pick(&[0, most + 1, 9, 256, 257, (1 << 32) + 1, 1 << 63 | 1, u64::MAX]);
        (1..=most).chain([none]).collect()
    }

    pub fn verdict(&mut self, case: &Case) {
        let shown = self.set(case);
        let reply = self.planner.verdict(&case.bytes);
        self.note_plan(case, reply.answer);
        let due = match &case.facts {
            Err(refusal) => refused(refusal),
            Ok(facts) => match facts.overloaded() {
                None => answer(0, facts.plan.size() as u64 | (facts.plan.kinds as u64) << 8),
                Some((kind, need)) => overloaded(kind as u64, need.units as u64, shown.count_ones() as u64),
            },
        };
        self.settle(case, "Verdict", &reply, Ok(Due { answer: due, after: Vec::new() }));
    }

    /// What the number alone does not say: what sort of plan was read, and which arc is refused as 13.
    fn note_plan(&mut self, case: &Case, verdict: u64) {
        if let Ok(facts) = &case.facts {
            let has = facts.plan.has_milestones();
            self.tally.note(if has { "plan with milestones" } else { "plan without milestones" });
            self.tally.note(if facts.plan.has_waits() { "plan with waits" } else { "plan without waits" });
            for (pair, wait) in &facts.plan.job {
                facts.plan.extra.get(pair).into_iter().for_each(|other| self.note_both(wait.cmp(other)));
            }
        }
        if verdict & 255 == 13 {
            let job = case.bytes.get(RECORD * (verdict >> 8) as usize) == Some(&JOB);
            self.tally.note(if job { "13: a job arc" } else { "13: an extra arc" });
        }
    }

    /// A pair in both types, by the job arc's wait next to the extra arc's.
    fn note_both(&mut self, waits: Ordering) {
        self.tally.note(match waits {
            Ordering::Equal => "pair in both types, with one wait",
            Ordering::Greater => "pair in both types, the job arc's wait longer",
            Ordering::Less => "pair in both types, the extra arc's wait longer",
        });
    }

    /// The set that goes with the verdict; returns it for the verdict's size.
    fn set(&mut self, case: &Case) -> u64 {
        let reply = self.planner.set(&case.bytes);
        let rule = match &case.facts {
            Ok(facts) if facts.overloaded().is_some() => check::set(facts, reply.answer),
            _ if reply.answer != 0 => Err(format!("set {:#x}, expected 0 where no overload is shown", reply.answer)),
            _ => Ok(()),
        };
        let due = rule.map(|()| Due { answer: reply.answer, after: Vec::new() });
        self.settle(case, "Set", &reply, due);
        reply.answer
    }

    pub fn needs(&mut self, case: &Case, length: usize) {
        let lent = self.random.numbers(length);
        let reply = self.planner.needs(&case.bytes, &lent);
        let due = numbers_due(case, lent, Facts::needs_written);
        self.settle(case, "Needs", &reply, Ok(due));
    }

    pub fn starts(&mut self, case: &Case, length: usize) {
        let lent = self.random.numbers(length);
        let reply = self.planner.starts(&case.bytes, &lent);
        let due = numbers_due(case, lent, Facts::starts_written);
        self.settle(case, "Starts", &reply, Ok(due));
    }

    pub fn overload(&mut self, case: &Case, length: usize) {
        let lent = self.random.bytes(length);
        let reply = self.planner.overload(&case.bytes, &lent);
        let due = overload_due(case, lent, &reply);
        self.settle(case, "Overload", &reply, due);
    }

    pub fn flow(&mut self, case: &Case, kind: u64, length: usize) -> Reply<u8> {
        let lent = self.random.bytes(length);
        let reply = self.planner.flow(&case.bytes, kind, &lent);
        let due = flow_due(case, kind, lent, &reply).map_err(|why| format!("kind {kind}: {why}"));
        self.settle(case, "Flow", &reply, due);
        reply
    }

    pub fn settle<T: PartialEq + Debug>(
        &mut self,
        case: &Case,
        operation: &'static str,
        reply: &Reply<T>,
        due: Result<Due<T>, String>,
    ) {
        let outcome = due.and_then(|due| agree(reply, &due));
        if operation != "Set" {
            self.tally.see(operation, reply.answer);
        }
        self.tally.count(&case.bytes, operation, outcome);
    }
}

pub fn agree<T: PartialEq + Debug>(reply: &Reply<T>, due: &Due<T>) -> Result<(), String> {
    if let Some(harm) = reply.harm {
        return Err(harm.to_string());
    }
    if reply.answer != due.answer {
        return Err(format!("answered {}, expected {}", spelled(reply.answer), spelled(due.answer)));
    }
    match reply.after.iter().zip(&due.after).enumerate().find(|(_, (is, must))| is != must) {
        Some((place, (is, must))) => {
            let answered = spelled(due.answer);
            Err(format!("answered {answered}; lent element {place} is then {is:?}, expected {must:?}"))
        }
        None => Ok(()),
    }
}

pub fn spelled(answer: u64) -> String {
    format!("number {} with {} ({:#x})", answer & 255, answer >> 8, answer >> 8)
}

pub fn unchanged<T>(refusal: u64, lent: Vec<T>) -> Due<T> {
    Due { answer: refusal, after: lent }
}

pub fn too_short(needed: usize) -> u64 {
    answer(9, needed as u64)
}

/// Numbers written to the front of the lent slice, the rest as it was.
fn numbers_due(case: &Case, lent: Vec<u32>, written: impl FnOnce(&Facts) -> Vec<u32>) -> Due<u32> {
    let facts = match &case.facts {
        Err(refusal) => return unchanged(refused(refusal), lent),
        Ok(facts) => facts,
    };
    let mut after = written(facts);
    let needed = after.len();
    if lent.len() < needed {
        return unchanged(too_short(needed), lent);
    }
    after.extend(&lent[needed..]);
    Due { answer: answer(0, needed as u64), after }
}

fn overload_due(case: &Case, lent: Vec<u8>, reply: &Reply<u8>) -> Result<Due<u8>, String> {
    let facts = match &case.facts {
        Err(refusal) => return Ok(unchanged(refused(refusal), lent)),
        Ok(_) if lent.len() < RECORD => return Ok(unchanged(too_short(RECORD), lent)),
        Ok(facts) => facts,
    };
    if facts.overloaded().is_none() {
        return Ok(unchanged(answer(0, 0), lent));
    }
    check::overload_record(facts, &reply.after[..RECORD])
        .map_err(|why| format!("answered {}: {why}", spelled(reply.answer)))?;
    Ok(Due { answer: answer(0, 1), after: front_written(lent, reply, RECORD) })
}

/// The file's causes, then 8, then 9: what Flow and Sheet refuse before they look at the needs.
pub fn asked(case: &Case, kind: u64, length: usize, needed: impl FnOnce(&Facts) -> usize) -> Result<&Facts, u64> {
    let facts = case.facts.as_ref().map_err(refused)?;
    let (kinds, needed) = (facts.plan.kinds as u64, needed(facts));
    if !(1..=kinds).contains(&kind) {
        return Err(answer(8, kinds));
    }
    if length < needed {
        return Err(too_short(needed));
    }
    Ok(facts)
}

fn flow_due(case: &Case, kind: u64, lent: Vec<u8>, reply: &Reply<u8>) -> Result<Due<u8>, String> {
    let facts = match asked(case, kind, lent.len(), Facts::flow_bytes_needed) {
        Err(refusal) => return Ok(unchanged(refusal, lent)),
        Ok(facts) => facts,
    };
    if let Some((lowest, need)) = facts.overloaded() {
        // The set is free and need not be the verdict's; its size must be that of some such set.
        let size = (1..=64).find(|&size| size == reply.answer >> 48 && need.sizes >> size & 1 == 1);
        return Ok(unchanged(overloaded(lowest as u64, need.units as u64, size.unwrap_or(0)), lent));
    }
    let count = reply.answer >> 8;
    if reply.answer & 255 != 0 || count > (lent.len() / RECORD) as u64 {
        return Err(format!("answered {}, expected a flow", spelled(reply.answer)));
    }
    let written = RECORD * count as usize;
    let records = &reply.after[..written];
    check::flow(facts, kind as usize, records).map_err(|why| format!("{why}; flow {}", hex(records)))?;
    Ok(Due { answer: reply.answer, after: front_written(lent, reply, written) })
}

/// The front as the library wrote it (checked by the rules), the rest as it was lent.
fn front_written(lent: Vec<u8>, reply: &Reply<u8>, written: usize) -> Vec<u8> {
    [&reply.after[..written], &lent[written..]].concat()
}
