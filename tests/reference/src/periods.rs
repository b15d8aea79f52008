//! The load of a period. Two jobs share the periods in which both are at work, and no other: what is due is written down by the first and
//! the last of these, not by adding up.

use crate::bench::{answer, Bench};
use crate::bytes::{Activity, Draft, Waits};
use crate::cases::{crew, expect};
use crate::model::Case;
use crate::tally::OVERLOAD;
use std::ops::RangeInclusive;

const BOTH: [[u16; 8]; 2] = [[1, 2, 3, 4, 5, 6, 7, 8], [9, 8, 7, 6, 5, 4, 3, 2]];

pub fn periods(bench: &mut Bench) {
    edges(bench);
    kinds(bench);
    own(bench);
    most(bench);
}

fn over(period: u64, kind: usize) -> u64 {
    answer(OVERLOAD, (kind as u64 + 1) | period << 8)
}

fn without_arcs(demands: &[[u16; 8]], available: [u16; 8]) -> Draft {
    let activities = demands.iter().map(|&demands| Activity { duration: 1, demands }).collect();
    Draft { activities, kinds: 8, available, job: Vec::new(), extra: Vec::new(), waits: Waits::new() }
}

/// One too few for both jobs of the kinds that are short, and enough of the others.
fn pair(short: &dyn Fn(usize) -> bool) -> Draft {
    without_arcs(&BOTH, std::array::from_fn(|kind| 10 - short(kind) as u16))
}

/// Each starts and finishes before, with and after the other, in the first periods of all and in the last that 32 bits can start.
fn edges(bench: &mut Bench) {
    let pairs = |values: RangeInclusive<u32>| -> Vec<[u32; 2]> {
        values.clone().flat_map(|one| values.clone().map(move |other| [one, other])).collect()
    };
    for kind in 0..8 {
        let draft = pair(&|other| other == kind);
        for starts in [pairs(0..=3), pairs(u32::MAX - 3..=u32::MAX)].concat() {
            for durations in pairs(1..=3) {
                let finish = |job: usize| u64::from(starts[job]) + u64::from(durations[job]);
                let (first, last) = (u64::from(starts[0].max(starts[1])) + 1, finish(0).min(finish(1)));
                crew(bench, &draft, &starts, &durations, if first <= last { over(first, kind) } else { 0 });
            }
        }
    }
}

/// Any of the kinds are short in the one period that both jobs share: the lowest is named.
fn kinds(bench: &mut Bench) {
    for short in 1..256_u32 {
        let draft = pair(&|kind| short >> kind & 1 == 1);
        crew(bench, &draft, &[4, 0], &[2, 5], over(5, short.trailing_zeros() as usize));
        crew(bench, &draft, &[5, 0], &[2, 5], 0);
    }
}

/// Eight jobs, each of a kind of its own; of one kind there is nobody, so its job is too much as soon as it starts.
fn own(bench: &mut Bench) {
    let starts = [3, 1, 4, 1, 5, 9, 2, 6];
    let demands: [[u16; 8]; 8] = std::array::from_fn(|job| std::array::from_fn(|kind| (kind == job) as u16));
    for short in 0..8 {
        let draft = without_arcs(&demands, std::array::from_fn(|kind| (kind != short) as u16));
        crew(bench, &draft, &starts, &[2; 8], over(u64::from(starts[short]) + 1, short));
    }
}

/// The largest load: 64 jobs that demand 65,535 of each kind, at work together and one after the other.
fn most(bench: &mut Bench) {
    let file = without_arcs(&[[u16::MAX; 8]; 64], [u16::MAX; 8]).bytes();
    let case = Case::claimed(file.clone(), &[64 * 65_535; 8]);
    let apart: Vec<u32> = (0..64).collect();
    for (starts, durations, due) in
        [(&[7; 64][..], [1; 64], over(8, 0)), (&apart, [1; 64], 0), (&apart, [2; 64], over(2, 0))]
    {
        expect(bench, &file, "Crew check", |bench| bench.planner.crew_check(&file, starts, &durations).answer, due);
        bench.crew_check(&case, starts, &durations);
    }
}
