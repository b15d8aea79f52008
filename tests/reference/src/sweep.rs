//! Random plans small enough to try all subsets of.

use crate::bench::Bench;
use crate::bytes::{Activity, Arc, Draft, Waits, MILESTONE};
use crate::model::{needs_by_subsets, ordered, Case, MOST_TRIED};
use crate::random::Random;
use crate::read::read;

/// Of each type, so that 64 activities, the crew, both types and some arcs more stay within 2,048 records.
const MOST_ARCS: usize = 980;

pub fn random_plans(bench: &mut Bench, count: usize) {
    for turn in 0..count {
        let most = if turn % 8 == 0 { MOST_TRIED } else { 9 };
        let size = bench.random.index(most + 1);
        let mut draft = random_draft(&mut bench.random, size, u16::MAX);
        if bench.random.percent(15) {
            add_circle(&mut bench.random, &mut draft);
        }
        crowd(&mut bench.random, &mut draft);
        let case = Case::new(draft.bytes());
        bench.all(&case);
        equal_flows(bench, &draft);
    }
}

/// Demands go up to `most`; in half of the plans some activities are milestones. Arcs run forward in a random order of
/// the activities, so that their numbers say nothing, some are of both types, and in half of the plans some have waits. No
/// type names a pair twice.
pub fn random_draft(random: &mut Random, size: usize, most: u16) -> Draft {
    let kinds = random.between(1, 8) as u8;
    let highest = random.pick(&[1, 3, 10, most]);
    let idle = random.pick(&[0, 20, 60]);
    let milestones = random.pick(&[0, 0, 15, 50]);
    let mut activity = |_| match random.percent(milestones) {
        true => MILESTONE,
        false => random_activity(random, kinds, highest, idle),
    };
    let activities = (0..size).map(&mut activity).collect();
    let mut line: Vec<u8> = (1..=size as u8).collect();
    random.shuffle(&mut line);
    let mut job = random_arcs(random, &line);
    let mut extra = random_arcs(random, &line);
    repeat_some(random, &mut job, &mut extra);
    let mut draft = Draft { activities, kinds, available: [0; 8], job, extra, waits: Waits::new() };
    wait_some(random, &mut draft);
    draft
}

/// Gives some arcs waits, or none: short ones next to durations, any at all, or those at the ends of their bytes.
pub fn wait_some(random: &mut Random, draft: &mut Draft) {
    let (share, longest) = (random.pick(&[0, 0, 30, 100]), random.pick(&[3, 300, 65_535]));
    for arc in draft.arcs() {
        if random.percent(share) {
            let any = random.between(1, longest) as u16;
            draft.waits.insert(arc, random.pick(&[any, any, any, 1, 255, 256, 65_535]));
        }
    }
}

fn random_activity(random: &mut Random, kinds: u8, highest: u16, idle: u64) -> Activity {
    let duration = random.pick(&[1, 1, 2, 3, 7, 255, 256, 65_535]);
    let mut demands = [0; 8];
    for demand in &mut demands[..kinds as usize] {
        *demand = if random.percent(idle) { 0 } else { random.between(0, highest as u64) as u16 };
    }
    Activity { duration, demands }
}

fn random_arcs(random: &mut Random, line: &[u8]) -> Vec<Arc> {
    let density = random.pick(&[0, 3, 10, 25, 60]);
    let pairs = (0..line.len()).flat_map(|from| (from + 1..line.len()).map(move |to| (from, to)));
    let mut arcs: Vec<Arc> = Vec::new();
    for (from, to) in pairs {
        if random.percent(density) {
            arcs.push((line[from], line[to]));
        }
    }
    random.shuffle(&mut arcs);
    arcs.truncate(MOST_ARCS);
    arcs
}

/// Repeats some arcs in the other type.
fn repeat_some(random: &mut Random, job: &mut Vec<Arc>, extra: &mut Vec<Arc>) {
    for _ in 0..random.pick(&[0, 0, 1, 4]) {
        let (arcs, others) = if random.percent(30) { (&*extra, &mut *job) } else { (&*job, &mut *extra) };
        if !arcs.is_empty() {
            add_arc(others, random.pick(arcs));
        }
    }
}

/// Adds an arc to those of its type, where it is not among them.
pub fn add_arc(arcs: &mut Vec<Arc>, arc: Arc) {
    if !arcs.contains(&arc) {
        arcs.push(arc);
    }
}

/// Closes a circle round some activities, through job arcs alone or through both types.
pub fn add_circle(random: &mut Random, draft: &mut Draft) {
    let mut round: Vec<u8> = (1..=draft.activities.len() as u8).collect();
    random.shuffle(&mut round);
    round.truncate(random.between(2, 4) as usize);
    if round.len() < 2 {
        return;
    }
    let in_job = random.percent(40);
    for place in 0..round.len() {
        let arc = (round[place], round[(place + 1) % round.len()]);
        add_arc(if in_job || random.percent(30) { &mut draft.job } else { &mut draft.extra }, arc);
    }
}

/// Availabilities at the needs, one less and one more, and at both ends of what a file can say.
fn crowd(random: &mut Random, draft: &mut Draft) {
    let plan = read(&draft.bytes()).unwrap_or_else(|refusal| panic!("a built plan is refused: {refusal:?}"));
    let needs = match ordered(&plan) {
        Ok((_, order)) => needs_by_subsets(&plan, &order).iter().map(|need| need.units).collect(),
        Err(_) => vec![1; plan.kinds],
    };
    draft.available = around(random, &needs);
}

pub fn around(random: &mut Random, needs: &[u32]) -> [u16; 8] {
    let generous = random.percent(65);
    let mut available = [0; 8];
    for (kind, &need) in needs.iter().enumerate() {
        let above = [need, need, need + 1, need + random.below(9) as u32, 65_535];
        let any = [need, need, need + 1, need.saturating_sub(1), 0];
        let chosen = if generous { random.pick(&above) } else { random.pick(&any) };
        available[kind] = chosen.min(65_535) as u16;
    }
    available
}

/// The same arcs in another order, job and extra arcs apart, and with other waits, must give the same flows.
pub fn equal_flows(bench: &mut Bench, draft: &Draft) {
    let mut other = Draft { waits: Waits::new(), ..draft.clone() };
    for arcs in [&mut other.job, &mut other.extra] {
        bench.random.shuffle(arcs);
    }
    wait_some(&mut bench.random, &mut other);
    same_flows(bench, &draft.bytes(), &other.bytes(), draft.kinds);
}

pub fn same_flows(bench: &mut Bench, file: &[u8], twin: &[u8], kinds: u8) {
    let lent = vec![0xA7; 24 * 2145];
    for kind in 1..=kinds as u64 {
        let (one, two) = (bench.planner.flow(file, kind, &lent), bench.planner.flow(twin, kind, &lent));
        // Only accepted plans have flows; the rest is compared elsewhere.
        let equal = one.answer & 255 != 0 || (one.answer, one.after) == (two.answer, two.after);
        let outcome = if equal { Ok(()) } else { Err(format!("kind {kind}: another flow of the same arcs")) };
        bench.tally.count(file, "Flow of equal plans", outcome);
    }
}
