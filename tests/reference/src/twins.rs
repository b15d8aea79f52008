//! Random plans with other waits: what does not read waits gives the same bytes, starts are the least that keep all arcs, and
//! a wait that is longer by so many periods than it may be moves the receiver by so many.

use crate::bench::Bench;
use crate::bytes::{Arc, Draft, Waits};
use crate::cases::same;
use crate::model::{Case, MOST_TRIED};
use crate::planner::{Planner, Reply};
use crate::read::{read, MOST_ACTIVITIES};
use crate::sweep::{add_circle, around, random_draft, wait_some};
use crate::tally::BROKEN;

pub fn twins(bench: &mut Bench, count: usize) {
    for turn in 0..count {
        // Every tenth plan may have as many activities as a file can have, and is not held to all subsets.
        let most = if turn % 10 == 0 { MOST_ACTIVITIES } else { 10 };
        let size = bench.random.between(2, most as u64) as usize;
        let mut draft = random_draft(&mut bench.random, size, 1_000);
        let needs = bench.planner.needs(&draft.bytes(), &[0; 8]).after[..draft.kinds as usize].to_vec();
        draft.available = around(&mut bench.random, &needs);
        if bench.random.percent(10) {
            add_circle(&mut bench.random, &mut draft);
        }
        let without = Draft { waits: Waits::new(), ..draft.clone() };
        let mut other = without.clone();
        wait_some(&mut bench.random, &mut other);
        for twin in [&without, &other] {
            same_but_for_starts(bench, &draft, twin);
            let file = twin.bytes();
            let case = if size <= MOST_TRIED { Case::new(file) } else { Case::claimed(file, &needs) };
            bench.all(&case);
            least(bench, &case);
            slack(bench, twin, &case);
        }
        of_paper(bench, &Case::claimed(without.bytes(), &needs));
    }
}

/// Verdict, set, needs, overload record and flows, all bytes that were lent included.
fn same_but_for_starts(bench: &mut Bench, draft: &Draft, twin: &Draft) {
    let files = [draft.bytes(), twin.bytes()];
    let lent = bench.random.bytes(24 * 2145);
    alike(bench, &files, "Verdict with other waits", |planner, file| planner.verdict(file));
    alike(bench, &files, "Set with other waits", |planner, file| planner.set(file));
    alike(bench, &files, "Needs with other waits", |planner, file| planner.needs(file, &[7; 9]));
    alike(bench, &files, "Overload with other waits", |planner, file| planner.overload(file, &lent[..30]));
    for kind in 1..=draft.kinds.into() {
        alike(bench, &files, "Flow with other waits", |planner, file| planner.flow(file, kind, &lent));
    }
}

/// The replies are too long to be shown.
fn alike<T: PartialEq>(
    bench: &mut Bench,
    files: &[Vec<u8>; 2],
    operation: &str,
    ask: impl Fn(&mut Planner, &[u8]) -> Reply<T>,
) {
    let [one, two] = files.each_ref().map(|file| ask(&mut bench.planner, file));
    let equal = (one.answer, one.after) == (two.answer, two.after);
    let outcome = if equal { Ok(()) } else { Err("not what it is with the first waits".to_string()) };
    bench.tally.count(&files[1], operation, outcome);
}

/// What Starts writes keeps every arc, by the crew check; with any activity a period sooner an arc to it is broken.
fn least(bench: &mut Bench, case: &Case) {
    let Ok(facts) = &case.facts else { return };
    let size = facts.plan.size();
    let starts = &bench.planner.starts(&case.bytes, &vec![0; size + 1]).after[..size];
    let found = bench.planner.crew_check(&case.bytes, starts, &facts.plan.durations).answer;
    same(bench, &case.bytes, "Crew check of the earliest starts", &[found & 255 == BROKEN], &[false]);
    for place in (0..size).filter(|&place| starts[place] > 0) {
        let mut sooner = starts.to_vec();
        sooner[place] -= 1;
        let found = bench.planner.crew_check(&case.bytes, &sooner, &facts.plan.durations).answer;
        let due = (BROKEN, place as u64 + 1);
        same(bench, &case.bytes, "Crew check of a start too early", &[(found & 255, found >> 16)], &[due]);
    }
}

/// A wait that fills the time between its two activities changes nothing; one that is longer moves the second by the rest.
fn slack(bench: &mut Bench, draft: &Draft, case: &Case) {
    let Ok(facts) = &case.facts else { return };
    if draft.arcs().is_empty() {
        return;
    }
    let arc: (u8, Arc) = bench.random.pick(&draft.arcs());
    let [from, to] = [arc.1 .0, arc.1 .1].map(|number| usize::from(number) - 1);
    let lent = vec![0; facts.plan.size() + 1];
    let starts = bench.planner.starts(&case.bytes, &lent).after;
    let between = starts[to].wrapping_sub(starts[from]).wrapping_sub(facts.plan.durations[from]);
    let more = bench.random.pick(&[0, 0, 1, 2, 1_000]);
    let Ok(wait) = u16::try_from(u64::from(between) + u64::from(more)) else { return };
    let mut longer = draft.clone();
    longer.waits.insert(arc, wait);
    let file = longer.bytes();
    let moved = bench.planner.starts(&file, &lent).after;
    same(bench, &file, "Start after a longer wait", &[moved[from], moved[to]], &[starts[from], starts[to] + more]);
    if more == 0 {
        same(bench, &file, "Starts after a wait that fits", &moved, &starts);
    }
}

/// Where every wait is 0, starts are the paper's.
fn of_paper(bench: &mut Bench, case: &Case) {
    let Ok(facts) = &case.facts else { return };
    let due = facts.starts_of_paper();
    let starts = bench.planner.starts(&case.bytes, &vec![0; due.len()]).after;
    same(bench, &case.bytes, "Starts of the paper", &starts, &due);
    assert!(!read(&case.bytes).expect("it is readable").has_waits());
}
