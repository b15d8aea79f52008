//! Waits on arcs: files, starts and crews with their answers written out.

use crate::bench::{answer, Bench};
use crate::bytes::{arc_record, waiting, Activity, Arc, Draft, Waits, EXTRA, JOB};
use crate::cases::{accepted, crew as crew_of, expect, same, NO_ARCS};
use crate::model::Case;
use crate::read::MOST_ACTIVITIES;
use crate::readings::{activity, crew, read, with, Record};
use crate::tally::{BROKEN, OVERLOAD};

/// At the ends of one byte, of two and of the sign, and one whose two bytes differ.
const WAITS: [u16; 9] = [0, 1, 2, 255, 256, 258, 32_768, 65_534, 65_535];

pub fn waits(bench: &mut Bench) {
    causes(bench);
    edges(bench);
    both_types(bench);
    several(bench);
    chains(bench);
    milestones(bench);
    ends(bench);
    nobody_works(bench);
}

fn broken(from: u64, to: u64) -> u64 {
    answer(BROKEN, from | to << 8)
}

/// The starts as written out, then every operation against the model.
fn starts(bench: &mut Bench, draft: &Draft, due: &[u32]) {
    let file = draft.bytes();
    let reply = bench.planner.starts(&file, &vec![9; due.len()]);
    same(bench, &file, "Starts", &[reply.answer], &[answer(0, due.len() as u64)]);
    same(bench, &file, "Starts", &reply.after, due);
    bench.all(&Case::new(file));
}

/// Bytes 4 and 5 of an arc take any values. Byte 3 and those from 6 on are spare, whatever the wait, and a wait hides nothing.
fn causes(bench: &mut Bench) {
    let mut arcs = |records: &[Record], due| {
        read(bench, &[&[activity(1), activity(2), activity(3), crew()], records].concat(), due);
    };
    for kind in [JOB, EXTRA] {
        let [arc, other] = [(1, 2), (2, 3)].map(|pair| arc_record(kind, pair));
        for (wait, next) in WAITS.into_iter().zip(WAITS.into_iter().rev()) {
            arcs(&[waiting(arc, wait)], accepted(3, 1));
            arcs(&[waiting(other, wait), waiting(arc, next)], accepted(3, 1));
            arcs(&[with(waiting(arc, wait), 0, 9)], answer(2, 4));
            arcs(&[with(waiting(arc, wait), 2, 4)], answer(3, 4));
            arcs(&[with(waiting(arc, wait), 2, 1)], answer(3, 4));
            for byte in [3].into_iter().chain(6..24) {
                arcs(&[with(waiting(arc, wait), byte, 1)], answer(4, 4));
                arcs(&[waiting(arc, next), with(waiting(other, wait), byte, 255)], answer(4, 5));
            }
        }
        for byte in [4, 5] {
            (1..=255).for_each(|value| arcs(&[with(arc, byte, value)], accepted(3, 1)));
        }
    }
    let [job, extra] = [JOB, EXTRA].map(|kind| arc_record(kind, (1, 2)));
    arcs(&[waiting(job, 7), waiting(extra, 9)], accepted(3, 1));
    arcs(&[waiting(job, 7), waiting(extra, 9), waiting(extra, 8)], answer(13, 6));
    arcs(&[waiting(job, 7), with(waiting(extra, 9), 6, 1)], answer(4, 5));
}

/// Two jobs and one arc, of each type and either way: the second starts when the first is done and was waited for.
fn edges(bench: &mut Bench) {
    let last = u32::MAX;
    let (begins, durations) = ([0, 5, last - 65_536, last - 1, last], [1, 2, 65_536, last]);
    for (kind, wait) in [JOB, EXTRA].into_iter().flat_map(|kind| WAITS.map(|wait| (kind, wait))) {
        for turned in [false, true] {
            let in_order = |one, two| if turned { [two, one] } else { [one, two] };
            let arc = if turned { (2, 1) } else { (1, 2) };
            let draft = two_jobs(&[kind], arc).with_waits([((kind, arc), wait)]);
            let second = 3 + u32::from(wait);
            starts(bench, &draft, &[&in_order(0, second)[..], &[second + 3]].concat());
            for (begin, worked) in begins.into_iter().flat_map(|begin| durations.map(|worked| (begin, worked))) {
                let ready = u64::from(begin) + u64::from(worked) + u64::from(wait);
                // Also where a sum of 32 bits would come to, and the latest start of all.
                let nexts = [ready - 1, ready, ready + 1, ready & 0xFFFF_FFFF, last.into(), 0];
                for next in nexts.into_iter().filter_map(|next| u32::try_from(next).ok()) {
                    let due = if u64::from(next) < ready { broken(arc.0.into(), arc.1.into()) } else { 0 };
                    crew_of(bench, &draft, &in_order(begin, next), &in_order(worked, 1), due);
                }
            }
        }
    }
}

/// Two jobs of duration 3 with one arc of these types.
fn two_jobs(kinds: &[u8], arc: Arc) -> Draft {
    let [job, extra] = [JOB, EXTRA].map(|kind| if kinds.contains(&kind) { vec![arc] } else { vec![] });
    Draft::of_one_kind(&[(3, 1), (3, 1)], 2, &job, &extra)
}

/// A pair as a job arc and as an extra arc: both waits bind, so that the longer one decides, whichever type has it.
fn both_types(bench: &mut Bench) {
    for (job, extra, longer) in [
        (0, 0, 0),
        (0, 9, 9),
        (9, 0, 9),
        (4, 9, 9),
        (9, 4, 9),
        (9, 9, 9),
        (255, 256, 256),
        (256, 255, 256),
        (65_535, 1, 65_535),
        (1, 65_535, 65_535),
        (65_535, 65_535, 65_535),
    ] {
        let draft = two_jobs(&[JOB, EXTRA], (1, 2)).with_waits([((JOB, (1, 2)), job), ((EXTRA, (1, 2)), extra)]);
        starts(bench, &draft, &[0, 3 + longer, 6 + longer]);
        crew_of(bench, &draft, &[10, 15 + longer], &[5, 1], 0);
        crew_of(bench, &draft, &[10, 14 + longer], &[5, 1], broken(1, 2));
        crew_of(bench, &draft, &[10, 15], &[5, 1], if longer > 0 { broken(1, 2) } else { 0 });
    }
}

/// Arcs that meet, with waits that decide otherwise than durations would.
fn several(bench: &mut Bench) {
    let activities = [(2, 0), (3, 0), (4, 0), (1, 0)];
    let draft = Draft::of_one_kind(&activities, 0, &[(3, 4), (1, 2), (2, 4)], &[(1, 3), (1, 2), (3, 4)]);
    let waits = [(JOB, (1, 2), 5), (EXTRA, (1, 2), 1), (EXTRA, (1, 3), 20), (EXTRA, (3, 4), 2), (JOB, (3, 4), 1)];
    let draft = draft.with_waits(waits.map(|(kind, arc, wait)| ((kind, arc), wait)));
    starts(bench, &draft, &[0, 7, 22, 28, 29]);
    let worked = [2, 3, 4, 1];
    crew_of(bench, &draft, &[0, 7, 22, 28], &worked, 0);
    // By from and then to, whichever type and place in the file the arc has, and whether its wait is needed to break it.
    crew_of(bench, &draft, &[0, 6, 22, 28], &worked, broken(1, 2));
    crew_of(bench, &draft, &[0, 7, 21, 28], &worked, broken(1, 3));
    crew_of(bench, &draft, &[0, 7, 22, 27], &worked, broken(3, 4));
    crew_of(bench, &draft, &[0, 6, 1, 0], &worked, broken(1, 2));
    crew_of(bench, &draft, &[0, 7, 21, 0], &worked, broken(1, 3));
    crew_of(bench, &draft, &[0, 25, 22, 27], &worked, broken(2, 4));
    // Worked longer than in the file, and shorter: the wait comes after what was worked.
    crew_of(bench, &draft, &[0, 9, 24, 30], &[4, 3, 4, 1], 0);
    crew_of(bench, &draft, &[0, 8, 24, 30], &[4, 3, 4, 1], broken(1, 2));
    crew_of(bench, &draft, &[0, 6, 21, 24], &[1, 3, 1, 1], 0);
    crew_of(bench, &draft, &[0, 6, 20, 24], &[1, 3, 1, 1], broken(1, 3));
}

/// The latest starts that there are: as many activities as can be, in a row, with durations and waits at their greatest. The
/// other type names the same pairs with shorter waits, or not at all.
fn chains(bench: &mut Bench) {
    let row: Vec<Arc> = (1..MOST_ACTIVITIES as u8).map(|from| (from, from + 1)).collect();
    let back: Vec<Arc> = row.iter().map(|&(from, to)| (to, from)).collect();
    for (duration, demand) in [(65_535, 65_535), (1, 1), (0, 0)] {
        let step = 65_535 + u32::from(duration);
        let upwards: Vec<u32> = (0..64).map(|place| place * step).collect();
        let downwards = upwards.iter().rev().copied().collect();
        for (arcs, mut due) in [(&row, upwards), (&back, downwards)] {
            due.push(63 * step + u32::from(duration));
            for (kind, shorter) in [(JOB, None), (EXTRA, None), (JOB, Some(65_534)), (EXTRA, Some(0))] {
                let file = chain(arcs, duration, demand, kind, shorter).bytes();
                let wrote = bench.planner.starts(&file, &[9; MOST_ACTIVITIES + 1]).after;
                same(bench, &file, "Starts", &wrote, &due);
                bench.all(&Case::claimed(file, &[u32::from(demand); 8]));
            }
        }
    }
}

fn chain(arcs: &[Arc], duration: u16, demand: u16, kind: u8, shorter: Option<u16>) -> Draft {
    let activities = vec![Activity { duration, demands: [demand; 8] }; MOST_ACTIVITIES];
    let mut draft =
        Draft { activities, kinds: 8, available: [demand; 8], job: vec![], extra: vec![], waits: Waits::new() };
    for (named, wait) in [(kind, Some(65_535)), (JOB + EXTRA - kind, shorter)] {
        let Some(wait) = wait else { continue };
        *if named == JOB { &mut draft.job } else { &mut draft.extra } = arcs.to_vec();
        draft.waits.extend(arcs.iter().map(|&arc| ((named, arc), wait)));
    }
    draft
}

/// Waits before a milestone and after it, also where it is the first of all or the last.
fn milestones(bench: &mut Bench) {
    let between = Draft::of_one_kind(&[(3, 2), (0, 0), (1, 2)], 2, &[(1, 2)], &[(2, 3)]);
    let between = between.with_waits([((JOB, (1, 2)), 4), ((EXTRA, (2, 3)), 5)]);
    starts(bench, &between, &[0, 7, 12, 13]);
    crew_of(bench, &between, &[0, 7, 12], &[3, 0, 1], 0);
    crew_of(bench, &between, &[0, 6, 12], &[3, 0, 1], broken(1, 2));
    crew_of(bench, &between, &[0, 7, 11], &[3, 0, 1], broken(2, 3));
    crew_of(bench, &between, &[0, 8, 12], &[3, 0, 1], broken(2, 3));
    crew_of(bench, &between, &[0, 5, 10], &[1, 0, 1], 0);
    crew_of(bench, &between, &[0, 7, 12], &[3, 4, 1], answer(10, 3));
    let first = Draft::of_one_kind(&[(0, 0), (2, 1)], 1, &[(1, 2)], NO_ARCS).with_waits([((JOB, (1, 2)), 6)]);
    starts(bench, &first, &[0, 6, 8]);
    crew_of(bench, &first, &[3, 9], &[0, 2], 0);
    crew_of(bench, &first, &[3, 8], &[0, 2], broken(1, 2));
    // A milestone's own finish is its start, which the end follows like any other.
    let last = Draft::of_one_kind(&[(2, 1), (0, 0)], 1, NO_ARCS, &[(1, 2)]).with_waits([((EXTRA, (1, 2)), 6)]);
    starts(bench, &last, &[0, 8, 8]);
    crew_of(bench, &last, &[u32::MAX - 8, u32::MAX], &[2, 0], 0);
    crew_of(bench, &last, &[u32::MAX - 7, u32::MAX], &[2, 0], broken(1, 2));
}

/// The end is at the last finish, after which nobody waits.
fn ends(bench: &mut Bench) {
    let in_row = Draft::of_one_kind(&[(9, 1), (1, 1)], 1, &[(1, 2)], NO_ARCS).with_waits([((JOB, (1, 2)), 100)]);
    starts(bench, &in_row, &[0, 109, 110]);
    let beside = Draft::of_one_kind(&[(50, 1), (1, 1), (2, 1)], 2, NO_ARCS, &[(2, 3)]);
    starts(bench, &beside.with_waits([((EXTRA, (2, 3)), 10)]), &[0, 0, 11, 50]);
    starts(bench, &beside.with_waits([((EXTRA, (2, 3)), 47)]), &[0, 0, 48, 50]);
    starts(bench, &beside.with_waits([((EXTRA, (2, 3)), 48)]), &[0, 0, 49, 51]);
}

/// A wait occupies nobody: another job has the whole crew in it, and is too much in the period before and in the one after.
fn nobody_works(bench: &mut Bench) {
    let draft = Draft::of_one_kind(&[(2, 2), (2, 2), (3, 2)], 2, &[(1, 2)], NO_ARCS).with_waits([((JOB, (1, 2)), 3)]);
    let over = |period: u64| answer(OVERLOAD, 1 | period << 8);
    let file = draft.bytes();
    expect(bench, &file, "Verdict", |bench| bench.planner.verdict(&file).answer & 255, 7);
    crew_of(bench, &draft, &[0, 5, 2], &[2, 2, 3], 0);
    crew_of(bench, &draft, &[0, 5, 1], &[2, 2, 3], over(2));
    crew_of(bench, &draft, &[0, 5, 3], &[2, 2, 3], over(6));
    crew_of(bench, &draft, &[0, 4, 1], &[2, 2, 3], broken(1, 2));
}
