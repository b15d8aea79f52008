//! Plans with more activities than subsets can be tried of. The library's needs are taken as a
//! claim and proved both ways by what it shows: with each need as availability the flows prove
//! that it is enough, with one less the set shown proves that it is not.

use crate::bench::{answer, Bench};
use crate::bytes::{arc_record, Activity, Draft, Waits, EXTRA, RECORD};
use crate::cases::expect;
use crate::model::{ordered, Case, MOST_TRIED};
use crate::read::{read, MOST_ACTIVITIES, MOST_BYTES};
use crate::sweep::{add_circle, around, equal_flows, random_draft};

/// So that a need of 64 activities is still an availability that a file can name.
const MOST_DEMAND: u16 = 1_000;

pub fn big_plans(bench: &mut Bench, count: usize) {
    for turn in 0..count {
        let random = bench.random.between(MOST_TRIED as u64 + 1, MOST_ACTIVITIES as u64) as usize;
        let size = if turn % 4 == 0 { MOST_ACTIVITIES } else { random };
        let draft = random_draft(&mut bench.random, size, MOST_DEMAND);
        prove_needs(bench, &draft);
        let mut round = draft;
        add_circle(&mut bench.random, &mut round);
        bench.all(&Case::claimed(round.bytes(), &[]));
    }
}

pub fn prove_needs(bench: &mut Bench, draft: &Draft) {
    let kinds = draft.kinds as usize;
    assert!(read(&draft.bytes()).and_then(|plan| ordered(&plan)).is_ok(), "nothing to prove of a refused plan");
    let reply = bench.planner.needs(&draft.bytes(), &[0; 8]);
    let needs = &reply.after[..kinds];
    let Some(enough) = as_available(needs) else {
        return bench.tally.count(&draft.bytes(), "Needs", Err(format!("needs {needs:?} above any sum of demands")));
    };
    let mut claim = |available| bench.all(&Case::claimed(draft.with_available(available).bytes(), needs));
    claim(enough);
    for kind in (0..kinds).filter(|&kind| needs[kind] > 0) {
        let mut short = enough;
        short[kind] -= 1;
        claim(short);
    }
    let other = around(&mut bench.random, needs);
    bench.all(&Case::claimed(draft.with_available(other).bytes(), needs));
    equal_flows(bench, &draft.with_available(enough));
}

fn as_available(needs: &[u32]) -> Option<[u16; 8]> {
    let mut available = [0; 8];
    for (value, &need) in available.iter_mut().zip(needs) {
        *value = u16::try_from(need).ok()?;
    }
    Some(available)
}

/// The bounds of the file: its length, its activities, its records, and the greatest sums.
pub fn bounds(bench: &mut Bench) {
    for length in [0, 1, 23, MOST_BYTES + 1, MOST_BYTES + RECORD] {
        let zeros = Case::new(vec![0; length]);
        assert!(matches!(zeros.facts, Err(refusal) if refusal.number == 1));
        bench.all(&zeros);
    }
    let full = greatest(MOST_ACTIVITIES);
    bench.all(&Case::claimed(full.bytes(), &[64 * 65_535; 8]));
    bench.all(&Case::new(greatest(MOST_ACTIVITIES + 1).bytes()));
    chain(bench, &full);
    most_records(bench);
}

/// Every field of every activity at its greatest and no arcs: all activities are the one set.
fn greatest(size: usize) -> Draft {
    let activity = Activity { duration: 65_535, demands: [65_535; 8] };
    let activities = vec![activity; size];
    Draft { activities, kinds: 8, available: [65_535; 8], job: vec![], extra: vec![], waits: Waits::new() }
}

/// In a chain each activity is its own greatest set, and the starts are as late as can be without waits.
fn chain(bench: &mut Bench, full: &Draft) {
    let mut draft = full.clone();
    draft.job = (1..MOST_ACTIVITIES as u8).map(|from| (from + 1, from)).collect();
    bench.all(&Case::claimed(draft.bytes(), &[65_535; 8]));
    draft.extra.push((1, 64));
    bench.all(&Case::claimed(draft.bytes(), &[65_535; 8]));
}

/// 2,048 records are read, to the last byte of the last, which is held to the first of its type; one record more is not.
fn most_records(bench: &mut Bench) {
    let arcs = MOST_BYTES / RECORD - MOST_ACTIVITIES - 1;
    let mut draft = greatest(MOST_ACTIVITIES);
    // All pairs upwards but the last 33, which leaves 64 unrelated to 31 and above.
    let pairs = (1..=64).flat_map(|to| (1..to).map(move |from| (from, to)));
    draft.extra = pairs.clone().take(arcs).collect();
    bench.all(&Case::claimed(draft.bytes(), &[2 * 65_535; 8]));
    // One chain of job arcs, and of its pairs, its own arcs among them, as many as there is room for as extra arcs.
    draft.job = (1..64).map(|from| (from, from + 1)).collect();
    draft.extra = pairs.take(arcs - draft.job.len()).collect();
    let mut file = draft.bytes();
    assert!(file.len() == MOST_BYTES);
    bench.all(&Case::claimed(file.clone(), &[65_535; 8]));
    for value in [1, 255] {
        file[MOST_BYTES - 1] = value;
        bench.all(&Case::claimed(file.clone(), &[]));
    }
    file[MOST_BYTES - 1] = 0;
    let mut again = file.clone();
    again[MOST_BYTES - RECORD..].copy_from_slice(&arc_record(EXTRA, draft.extra[0]));
    let due = answer(13, 2_047);
    expect(bench, &again, "Verdict", |bench| bench.planner.verdict(&again).answer, due);
    bench.all(&Case::claimed(again, &[65_535; 8]));
    file.extend(arc_record(EXTRA, (1, 2)));
    bench.all(&Case::claimed(file, &[]));
}
