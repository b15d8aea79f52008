//! Milestones: files and crews with their answers written out.

use crate::bench::{answer, overloaded, Bench};
use crate::bytes::{activity_record, Arc, Draft};
use crate::cases::{accepted, crew as crew_of, expect, same, NO_ARCS};
use crate::model::Case;
use crate::readings::{activity, crew, read, with};
use crate::tally::{BROKEN, OVERLOAD};

pub fn milestones(bench: &mut Bench) {
    causes(bench);
    alone(bench);
    crews(bench);
}

/// Within a record 2, 3, 12, 4; an earlier record before all; any of the eight kinds, whatever K is.
fn causes(bench: &mut Bench) {
    let milestone = |number| activity_record(number, 0, &[0; 8]);
    read(bench, &[milestone(1), crew()], accepted(1, 1));
    read(bench, &[with(milestone(1), 20, 1), crew()], answer(4, 0));
    read(bench, &[milestone(2), crew()], answer(3, 0));
    for (kind, demand) in (0..8).flat_map(|kind| [1, 256, 65_535].map(|demand| (kind, demand))) {
        let demands = std::array::from_fn(|other| if other == kind { demand } else { 0 });
        let faulty = activity_record(2, 0, &demands);
        read(bench, &[activity(1), faulty, crew()], answer(12, 1));
        read(bench, &[activity(1), faulty, with(crew(), 1, 8)], answer(12, 1));
        read(bench, &[activity(1), faulty], answer(12, 1));
        read(bench, &[activity(1), with(faulty, 23, 1), crew()], answer(12, 1));
        read(bench, &[activity(1), with(faulty, 1, 3), crew()], answer(3, 1));
        read(bench, &[activity(1), with(faulty, 0, 5), crew()], answer(2, 1));
        read(bench, &[with(activity(1), 20, 1), faulty, crew()], answer(4, 0));
        read(bench, &[with(activity(1), 2, 0), faulty, crew()], answer(12, 0));
        read(bench, &[activity(1), faulty, with(activity(3), 0, 9)], answer(12, 1));
        // A demand beyond K is found at the crew record, which comes later.
        read(bench, &[activity_record(1, 1, &[9; 8]), faulty, crew()], answer(12, 1));
    }
    let many: Vec<_> = (1..=64).map(milestone).collect();
    read(bench, &[&many[..], &[activity_record(65, 0, &[1; 8]), crew()]].concat(), answer(3, 64));
}

/// Milestones and nothing else, without arcs and in a row: all start at 0, and so does the end.
fn alone(bench: &mut Bench) {
    for size in [1, 2, 63, 64] {
        let row: Vec<Arc> = (1..size as u8).map(|from| (from, from + 1)).collect();
        for arcs in [NO_ARCS, &row] {
            let file = Draft::of_one_kind(&vec![(0, 0); size], 3, arcs, NO_ARCS).bytes();
            expect(bench, &file, "Verdict", |bench| bench.planner.verdict(&file).answer, accepted(size as u64, 1));
            let starts = bench.planner.starts(&file, &vec![9; size + 1]).after;
            same(bench, &file, "Starts", &starts, &vec![0; size + 1]);
            bench.all(&Case::claimed(file, &[0]));
        }
    }
}

fn crews(bench: &mut Bench) {
    let last = u32::MAX;
    let broken = |from: u64, to: u64| answer(BROKEN, from | to << 8);
    let between = Draft::of_one_kind(&[(3, 2), (0, 0), (1, 2)], 2, &[(1, 2)], &[(2, 3)]);
    let file = between.bytes();
    expect(bench, &file, "Verdict", |bench| bench.planner.verdict(&file).answer, accepted(3, 1));
    crew_of(bench, &between, &[0, 3, 3], &[3, 0, 1], 0);
    crew_of(bench, &between, &[0, last, last], &[9, 0, 1], 0);
    crew_of(bench, &between, &[0, 2, 3], &[3, 0, 1], broken(1, 2));
    crew_of(bench, &between, &[0, 4, 3], &[3, 0, 1], broken(2, 3));
    crew_of(bench, &between, &[0, 3, 4], &[3, 1, 1], answer(10, 3));
    crew_of(bench, &between, &[0, 0, 0], &[3, last, 1], answer(10, 3));
    crew_of(bench, &between, &[0, 3, 3], &[0, 0, 1], answer(10, 3));
    crew_of(bench, &between, &[0, 3, 3], &[3, 0, 0], answer(10, 3));
    crew_of(bench, &between, &[0, 3], &[3, 0, 1], answer(10, 3));
    // One arc less: both jobs may be at work at once, and so they are.
    let loose = Draft { extra: vec![], ..between };
    let file = loose.bytes();
    expect(bench, &file, "Verdict", |bench| bench.planner.verdict(&file).answer, overloaded(1, 4, 2));
    crew_of(bench, &loose, &[2, 7, 4], &[5, 0, 1], answer(OVERLOAD, 1 | 5 << 8));
    crew_of(bench, &loose, &[2, 7, 7], &[5, 0, 1], 0);
    // An activity without demands is no milestone.
    let idle = Draft::of_one_kind(&[(1, 0), (1, 2)], 2, NO_ARCS, NO_ARCS);
    crew_of(bench, &idle, &[0, 0], &[1, 1], 0);
    crew_of(bench, &idle, &[0, 0], &[0, 1], answer(10, 2));
}
