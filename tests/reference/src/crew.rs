//! The crew check against the model, and starts and worked durations to try on a plan: tight, loose, extreme and of the
//! wrong form.

use crate::bench::{agree, answer, refused, Bench, Due};
use crate::model::{BadLists, Case, Crew};
use crate::random::Random;
use crate::read::Plan;
use crate::tally::{BROKEN, OVERLOAD};

impl Bench {
    pub fn crew_check(&mut self, case: &Case, starts: &[u32], durations: &[u32]) {
        let reply = self.planner.crew_check(&case.bytes, starts, durations);
        let due = match &case.facts {
            Err(refusal) => refused(refusal),
            Ok(facts) => match facts.crew(starts, durations) {
                Err(refusal) => refused(&refusal),
                Ok(Crew::Fits) => 0,
                Ok(Crew::Broken { from, to }) => answer(BROKEN, from as u64 | (to as u64) << 8),
                Ok(Crew::Overload { period, kind }) => answer(OVERLOAD, kind as u64 | period << 8),
            },
        };
        let outcome = agree(&reply, &Due { answer: due, after: Vec::new() })
            .map_err(|why| format!("{why}; starts {starts:?}, durations {durations:?}"));
        self.tally.see("Crew check", reply.answer);
        let notes = [noted, noted_waits].map(|noted| noted(case, starts, durations, reply.answer));
        notes.into_iter().flatten().for_each(|what| self.tally.note(what));
        self.tally.count(&case.bytes, "Crew check", outcome);
    }
}

/// What the number alone does not say: why lists are refused, and that there were milestones.
fn noted(case: &Case, starts: &[u32], durations: &[u32], answer: u64) -> Option<&'static str> {
    let facts = case.facts.as_ref().ok()?;
    let milestones = facts.plan.has_milestones();
    match (answer & 255, facts.bad_lists(starts, durations)) {
        (10, Some(BadLists::Length)) => Some("10: lists not m long"),
        (10, Some(BadLists::WorkedZero)) => Some("10: worked 0"),
        (10, Some(BadLists::WorkedMilestone)) => Some("10: a milestone worked"),
        (0, None) if milestones => Some("crew with milestones fits"),
        (BROKEN, None) if milestones => Some("crew with milestones breaks an arc"),
        (OVERLOAD, None) if milestones => Some("crew with milestones overloads"),
        _ => None,
    }
}

/// The same of waits: that there were any, and that the broken arc would be kept without.
fn noted_waits(case: &Case, starts: &[u32], durations: &[u32], answer: u64) -> Option<&'static str> {
    let facts = case.facts.as_ref().ok().filter(|facts| facts.plan.has_waits())?;
    let (from, to) = ((answer >> 8 & 255) as usize, (answer >> 16) as usize);
    match answer & 255 {
        0 => Some("crew with waits fits"),
        OVERLOAD => Some("crew with waits overloads"),
        BROKEN if facts.plan.arcs().contains(&(from, to)) => {
            let finish = u64::from(*starts.get(from - 1)?) + u64::from(*durations.get(from - 1)?);
            let kept = finish <= u64::from(*starts.get(to - 1)?);
            kept.then_some("crew with waits breaks an arc only by its wait")
        }
        _ => None,
    }
}

pub fn lists(random: &mut Random, case: &Case) -> (Vec<u32>, Vec<u32>) {
    let facts = match &case.facts {
        // Any lists will do where the plan itself is refused.
        Err(_) => return (words(random, 70), words(random, 70)),
        Ok(facts) => facts,
    };
    let (mut starts, mut durations) = match random.below(10) {
        0..=2 => keeping_arcs(random, &facts.plan),
        3..=4 => just_keeping(random, &facts.plan),
        5..=6 => anything(random, &facts.plan, &|random| random.below(6) as u32),
        _ => anything(random, &facts.plan, &extreme),
    };
    if random.percent(15) {
        spoil(random, &mut starts, &mut durations);
    }
    (starts, durations)
}

fn words(random: &mut Random, most: usize) -> Vec<u32> {
    let length = random.index(most);
    random.numbers(length)
}

/// Each activity begins when all before it have finished and the waits for it are over, or somewhat later. Later activities
/// may have lower numbers, so starts are raised until nothing changes.
pub fn keeping_arcs(random: &mut Random, plan: &Plan) -> (Vec<u32>, Vec<u32>) {
    let size = plan.size();
    let longest = random.pick(&[1, 3, 20, 1_000_000]);
    let latest = random.pick(&[0, 0, 2, 20, 1_000_000]);
    let durations = worked(random, plan, &|random| random.between(1, longest) as u32);
    let mut starts: Vec<u32> = (0..size).map(|_| random.between(0, latest) as u32).collect();
    for _ in 0..size {
        for ((from, to), wait) in plan.bonds() {
            starts[to - 1] = starts[to - 1].max(starts[from - 1] + durations[from - 1] + wait as u32);
        }
    }
    (starts, durations)
}

/// The same at the edge: perhaps all of them as late as 32 bits can start, then perhaps one of them sooner, or a period later.
fn just_keeping(random: &mut Random, plan: &Plan) -> (Vec<u32>, Vec<u32>) {
    let (mut starts, durations) = keeping_arcs(random, plan);
    if random.percent(50) {
        let later = u32::MAX - starts.iter().copied().max().unwrap_or(0);
        starts.iter_mut().for_each(|start| *start += later);
    }
    if !starts.is_empty() && random.percent(70) {
        let (place, sooner) = (random.index(starts.len()), random.pick(&[1, 1, 2, 65_535, u32::MAX]));
        starts[place] = starts[place].wrapping_sub(sooner);
    }
    (starts, durations)
}

pub fn anything(random: &mut Random, plan: &Plan, value: &dyn Fn(&mut Random) -> u32) -> (Vec<u32>, Vec<u32>) {
    let starts = (0..plan.size()).map(|_| value(random)).collect();
    let durations = worked(random, plan, &|random| value(random).max(1));
    (starts, durations)
}

/// Milestones keep 0; how long any other activity is worked is free of the file.
fn worked(random: &mut Random, plan: &Plan, value: &dyn Fn(&mut Random) -> u32) -> Vec<u32> {
    let one = |place| if plan.is_milestone(place) { 0 } else { value(random) };
    (0..plan.size()).map(one).collect()
}

/// Values whose sums leave 32 bits.
fn extreme(random: &mut Random) -> u32 {
    let any = random.next() as u32;
    random.pick(&[0, 1, 2, u32::MAX, u32::MAX, u32::MAX - 1, 1 << 31, (1 << 31) - 1, any])
}

/// A list that is not m long, a milestone that is worked, or another activity worked 0.
fn spoil(random: &mut Random, starts: &mut Vec<u32>, durations: &mut Vec<u32>) {
    let place = random.index(durations.len() + 1);
    match (random.below(7), durations.get_mut(place)) {
        (0, _) => starts.push(0),
        (1, _) => durations.push(1),
        (2, _) => drop(starts.pop()),
        (3, _) => drop(durations.pop()),
        (_, Some(duration)) if *duration > 0 => *duration = 0,
        (_, Some(duration)) => *duration = random.pick(&[1, 1, 7, u32::MAX]),
        (_, None) => {}
    }
}
