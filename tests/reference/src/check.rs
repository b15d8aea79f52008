//! The rules for what the paper leaves free: the flow shown and the set shown.

use crate::bytes::RECORD;
use crate::model::{members, Facts};

pub const FLOW: u8 = 33;
pub const OVERLOAD: u8 = 32;

type Checked = Result<(), String>;

struct Pass {
    from: usize,
    to: usize,
    units: u64,
}

/// Checks the records of a flow of `kind` (from 1) in an accepted plan.
pub fn flow(facts: &Facts, kind: usize, records: &[u8]) -> Checked {
    let mut passes: Vec<Pass> = Vec::new();
    for record in records.chunks(RECORD) {
        let pass = read_record(facts, kind, record)?;
        if passes.last().is_some_and(|last| (last.from, last.to) >= (pass.from, pass.to)) {
            return Err(format!("record {} to {} does not ascend", pass.from, pass.to));
        }
        passes.push(pass);
    }
    equations(facts, kind, &passes)?;
    unused(facts, kind, &passes)
}

fn read_record(facts: &Facts, kind: usize, record: &[u8]) -> Result<Pass, String> {
    let (from, to) = (record[2] as usize, record[3] as usize);
    let units = four_bytes(&record[4..8]);
    let fail = |what: &str| Err(format!("flow record {from} to {to}: {what}"));
    if record[0] != FLOW || record[1] as usize != kind {
        return fail("wrong type or kind");
    }
    if units == 0 {
        return fail("no units");
    }
    if !facts.order.is_before(from, to) {
        return fail("units against the plan order");
    }
    let between_activities = from >= 1 && to <= facts.plan.size();
    // A handover that the job order forces, through other jobs too, is not added; one that takes an extra arc is.
    let added = between_activities && !facts.job.is_before(from, to);
    if record[8] != added as u8 {
        return fail("wrong added mark");
    }
    if record[9..].iter().any(|&byte| byte != 0) {
        return fail("a spare byte is not zero");
    }
    Ok(Pass { from, to, units })
}

/// Equation 1 at each activity, equation 2 at the start and the end.
fn equations(facts: &Facts, kind: usize, passes: &[Pass]) -> Checked {
    let end = facts.plan.size() + 1;
    for node in 0..=end {
        let into: u64 = passes.iter().filter(|pass| pass.to == node).map(|pass| pass.units).sum();
        let out: u64 = passes.iter().filter(|pass| pass.from == node).map(|pass| pass.units).sum();
        let available = facts.plan.available[kind - 1] as u64;
        let expected = match node {
            0 => (0, available),
            _ if node == end => (available, 0),
            _ => [facts.plan.demands[node - 1][kind - 1] as u64; 2].into(),
        };
        if (into, out) != expected {
            return Err(format!("node {node}: {into} into and {out} out of it, expected {expected:?}"));
        }
    }
    Ok(())
}

/// Straight from start to end goes exactly what the need leaves over. Every unrelated set is met
/// by the other units, so this also proves that no such set demands more than the need.
fn unused(facts: &Facts, kind: usize, passes: &[Pass]) -> Checked {
    let end = facts.plan.size() + 1;
    let straight: u64 = passes.iter().filter(|pass| (pass.from, pass.to) == (0, end)).map(|pass| pass.units).sum();
    let expected = facts.plan.available[kind - 1] as u64 - facts.needs[kind - 1].units as u64;
    if straight != expected {
        return Err(format!("{straight} unused, expected {expected}"));
    }
    Ok(())
}

/// Checks a set shown for the lowest overloaded kind.
pub fn set(facts: &Facts, set: u64) -> Checked {
    let (kind, need) = facts.overloaded().ok_or("a set shown where nothing is overloaded")?;
    let size = facts.plan.size();
    if members(set).any(|bit| bit >= size) {
        return Err(format!("set {set:#x} holds more than the {size} activities"));
    }
    if members(set).any(|bit| facts.plan.demands[bit][kind - 1] == 0) {
        return Err(format!("set {set:#x} holds an activity without demand of kind {kind}"));
    }
    let related = facts.order.related_sets();
    if members(set).any(|bit| related[bit] & set != 0) {
        return Err(format!("set {set:#x} holds ordered activities"));
    }
    let sum: u64 = members(set).map(|bit| facts.plan.demands[bit][kind - 1] as u64).sum();
    if sum != need.units as u64 {
        return Err(format!("set {set:#x} demands {sum} of kind {kind}, the need is {}", need.units));
    }
    Ok(())
}

/// Checks an overload record.
pub fn overload_record(facts: &Facts, record: &[u8]) -> Checked {
    let (kind, need) = facts.overloaded().ok_or("a record where nothing is overloaded")?;
    let word = record[8..16].iter().rev().fold(0_u64, |word, &byte| word << 8 | byte as u64);
    set(facts, word)?;
    let mut expected = [0; RECORD];
    expected[..3].copy_from_slice(&[OVERLOAD, kind as u8, word.count_ones() as u8]);
    expected[4..8].copy_from_slice(&need.units.to_le_bytes());
    expected[8..16].copy_from_slice(&word.to_le_bytes());
    if record != expected {
        return Err(format!("overload record {record:?}, expected {expected:?}"));
    }
    Ok(())
}

fn four_bytes(bytes: &[u8]) -> u64 {
    bytes.iter().rev().fold(0, |number, &byte| number << 8 | byte as u64)
}
