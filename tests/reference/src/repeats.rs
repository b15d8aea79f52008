//! No arc twice: files with their answers written out, and random plans into which copies of arcs are put.

use crate::bench::{answer, Bench};
use crate::bytes::{arc_record, crew_record, first, waiting, Arc, Draft, EXTRA, JOB, RECORD, WAIT};
use crate::cases::{accepted, expect, same};
use crate::model::{Case, MOST_TRIED};
use crate::read::MOST_ACTIVITIES;
use crate::readings::{activity, crew, read, with, Record};
use crate::sweep::{add_circle, around, random_draft, same_flows};

pub fn repeats(bench: &mut Bench, count: usize) {
    causes(bench);
    for turn in 0..count {
        let most = if turn % 10 == 0 { MOST_ACTIVITIES } else { 9 };
        let sample = some_plan(bench, most);
        for kind in [JOB, EXTRA] {
            if !arcs_of(&mut sample.draft.clone(), kind).is_empty() {
                copied(bench, &sample, kind);
                spare_byte(bench, &sample, kind);
                other_type(bench, &sample, kind);
                turned(bench, &sample, kind);
            }
        }
    }
}

/// Within a record 2, 4, 13 (its pair kept the rules before, so there is no 3), and an earlier record before all.
fn causes(bench: &mut Bench) {
    let mut arcs = |records: &[Record], due| {
        read(bench, &[&[activity(1), activity(2), activity(3), crew()], records].concat(), due);
    };
    for (kind, circle) in [(JOB, 5), (EXTRA, 6)] {
        let [arc, other, turned] = [(1, 2), (2, 3), (2, 1)].map(|pair| arc_record(kind, pair));
        arcs(&[arc, arc], answer(13, 5));
        arcs(&[arc, arc, arc], answer(13, 5));
        arcs(&[arc, other, arc], answer(13, 6));
        arcs(&[arc, other, arc, other], answer(13, 6));
        arcs(&[arc, other, other, arc], answer(13, 6));
        arcs(&[arc, turned], answer(circle, 1));
        arcs(&[arc, turned, arc], answer(13, 6));
        arcs(&[arc, turned, turned], answer(13, 6));
        arcs(&[arc, with(arc, 0, 9)], answer(2, 5));
        for byte in [3].into_iter().chain(6..24) {
            arcs(&[arc, with(arc, byte, 1)], answer(4, 5));
            arcs(&[with(arc, byte, 1), arc], answer(4, 4));
        }
        // With another wait it is the same pair.
        for (one, two) in [(0, 1), (1, 0), (1, 256), (65_535, 65_534), (65_535, 65_535)] {
            arcs(&[waiting(arc, one), waiting(arc, two)], answer(13, 5));
            arcs(&[waiting(arc, one), waiting(other, two), waiting(arc, two), arc], answer(13, 6));
            arcs(&[waiting(arc, one), with(waiting(arc, two), 3, 1)], answer(4, 5));
            arcs(&[waiting(arc, one), waiting(turned, two)], answer(circle, 1));
        }
        for (byte, number) in [(0, 2), (1, 3), (2, 3), (3, 4), (23, 4)] {
            arcs(&[arc, with(other, byte, 9), arc], answer(number, 5));
            arcs(&[arc, arc, with(other, byte, 9)], answer(13, 5));
        }
    }
    let (job, extra, back) = (arc_record(JOB, (1, 2)), arc_record(EXTRA, (1, 2)), arc_record(EXTRA, (2, 1)));
    arcs(&[job, extra], accepted(3, 1));
    arcs(&[job, job, extra], answer(13, 5));
    arcs(&[job, extra, extra], answer(13, 6));
    arcs(&[job, back], answer(6, 1));
    arcs(&[job, back, back], answer(13, 6));
    arcs(&[extra, job], answer(2, 5));
    let many: Vec<Record> = (1..=64).map(activity).collect();
    for pair in [(1, 64), (64, 1), (64, 63)] {
        for arc in [JOB, EXTRA].map(|kind| arc_record(kind, pair)) {
            let file = [&many[..], &[crew(), arc, arc]].concat().concat();
            expect(bench, &file, "Verdict", |bench| bench.planner.verdict(&file).answer, answer(13, 66));
            bench.all(&Case::claimed(file, &[2 * 63]));
        }
    }
    read(bench, &[with(activity(1), 2, 0), activity(2), crew(), job, job], answer(12, 0));
    read(bench, &[activity(1), activity(2), crew_record(1, &first(1)), job, job], answer(13, 4));
}

/// A readable plan with arcs, sometimes with a circle, and the needs that the library gives of it.
struct Sample {
    draft: Draft,
    needs: Vec<u32>,
    round: bool,
}

impl Sample {
    /// All subsets are tried of a small plan; a large one has the needs of the sample as long as it has its order.
    fn case(&self, file: Vec<u8>) -> Case {
        match self.draft.activities.len() {
            0..=MOST_TRIED => Case::new(file),
            _ => Case::claimed(file, &self.needs),
        }
    }
}

fn some_plan(bench: &mut Bench, most: usize) -> Sample {
    loop {
        let size = bench.random.between(2, most as u64) as usize;
        let mut draft = random_draft(&mut bench.random, size, 1_000);
        if draft.job.is_empty() && draft.extra.is_empty() {
            continue;
        }
        let needs = bench.planner.needs(&draft.bytes(), &[0; 8]).after[..draft.kinds as usize].to_vec();
        draft.available = around(&mut bench.random, &needs);
        let round = bench.random.percent(20);
        if round {
            add_circle(&mut bench.random, &mut draft);
        }
        return Sample { draft, needs, round };
    }
}

fn arcs_of(draft: &mut Draft, kind: u8) -> &mut Vec<Arc> {
    if kind == JOB {
        &mut draft.job
    } else {
        &mut draft.extra
    }
}

/// The place in the file of an arc that stands at this place among those of its type.
fn place_in_file(draft: &Draft, kind: u8, place: usize) -> usize {
    draft.activities.len() + 1 + place + if kind == JOB { 0 } else { draft.job.len() }
}

/// Up to three copies at any places of their type, of one arc or of several; then all arcs of the type once more.
fn copied(bench: &mut Bench, sample: &Sample, kind: u8) {
    for copies in 1..=3 {
        let mut draft = sample.draft.clone();
        let arcs = arcs_of(&mut draft, kind);
        let (one, several) = (bench.random.pick(arcs), bench.random.percent(40));
        for _ in 0..copies {
            let arc = if several { bench.random.pick(arcs) } else { one };
            arcs.insert(bench.random.index(arcs.len() + 1), arc);
        }
        refused(bench, sample, &draft, kind, copies);
    }
    let mut draft = sample.draft.clone();
    let arcs = arcs_of(&mut draft, kind);
    let copies = arcs.len();
    if sample.draft.activities.len() <= MOST_TRIED {
        arcs.extend_from_within(..);
        refused(bench, sample, &draft, kind, copies);
    }
}

/// 13 with the first place whose arc stands before it too, found by looking back from each. Some copies get other waits, which
/// makes no difference: what is left in the end is the first.
fn refused(bench: &mut Bench, sample: &Sample, draft: &Draft, kind: u8, copies: usize) {
    let arcs = if kind == JOB { &draft.job } else { &draft.extra };
    let again: Vec<usize> = (0..arcs.len()).filter(|&place| arcs[..place].contains(&arcs[place])).collect();
    let mut file = draft.bytes();
    for place in again.iter().map(|&place| RECORD * place_in_file(draft, kind, place)) {
        if bench.random.percent(50) {
            file[place..][WAIT].copy_from_slice(&(bench.random.next() as u16).to_le_bytes());
        }
    }
    let due = answer(13, place_in_file(draft, kind, again[0]) as u64);
    expect(bench, &file, "Verdict", |bench| bench.planner.verdict(&file).answer, due);
    bench.all(&sample.case(file.clone()));
    mended(bench, sample, file, copies);
}

/// Whoever takes out the record that 13 names, until none is named, takes out as many as there are copies, and is left with a
/// plan that is answered as the one without them.
fn mended(bench: &mut Bench, sample: &Sample, mut file: Vec<u8>, copies: usize) {
    let mut taken = 0;
    loop {
        let verdict = bench.planner.verdict(&file).answer;
        let at = RECORD * (verdict >> 8) as usize;
        if verdict & 255 != 13 || at >= file.len() {
            break;
        }
        file.drain(at..at + RECORD);
        taken += 1;
    }
    same(bench, &file, "copies taken out", &[taken], &[copies]);
    alike(bench, &sample.draft, &file);
    same_flows(bench, &sample.draft.bytes(), &file, sample.draft.kinds);
}

/// Verdicts but for the set, needs and starts.
fn alike(bench: &mut Bench, draft: &Draft, file: &[u8]) {
    let before = draft.bytes();
    let told = |answer: u64| if answer & 255 == 7 { answer & 0xFFFF_FFFF_FFFF } else { answer };
    let verdicts = [&before[..], file].map(|file| told(bench.planner.verdict(file).answer));
    same(bench, file, "Verdict without copies", &verdicts[1..], &verdicts[..1]);
    let needs = [&before[..], file].map(|file| bench.planner.needs(file, &[7; 8]).after);
    same(bench, file, "Needs without copies", &needs[1], &needs[0]);
    let starts = [&before[..], file].map(|file| bench.planner.starts(file, &[7; MOST_ACTIVITIES + 1]).after);
    same(bench, file, "Starts without copies", &starts[1], &starts[0]);
}

/// A copy with a spare byte that is not zero is refused for that, be it the earlier or the later one.
fn spare_byte(bench: &mut Bench, sample: &Sample, kind: u8) {
    let mut draft = sample.draft.clone();
    let arcs = arcs_of(&mut draft, kind);
    let one = bench.random.index(arcs.len());
    let two = bench.random.between(one as u64 + 1, arcs.len() as u64) as usize;
    arcs.insert(two, arcs[one]);
    let mut file = draft.bytes();
    // The later one first, and then both.
    for place in [two, one].map(|place| place_in_file(&draft, kind, place)) {
        let any = bench.random.between(6, 23) as usize;
        file[RECORD * place + bench.random.pick(&[3, any, any])] = bench.random.between(1, 255) as u8;
        let due = answer(4, place as u64);
        expect(bench, &file, "Verdict", |bench| bench.planner.verdict(&file).answer, due);
        bench.all(&sample.case(file.clone()));
    }
}

/// The same pair in the other type is no fault. It adds nothing to the plan order.
fn other_type(bench: &mut Bench, sample: &Sample, kind: u8) {
    let mut draft = sample.draft.clone();
    let arc = bench.random.pick(arcs_of(&mut draft, kind));
    let others = arcs_of(&mut draft, JOB + EXTRA - kind);
    if others.contains(&arc) {
        return;
    }
    others.insert(bench.random.index(others.len() + 1), arc);
    let file = draft.bytes();
    // A circle that was one of the plan order only may be one of job arcs now.
    if !sample.round {
        alike(bench, &sample.draft, &file);
    }
    bench.all(&sample.case(file));
}

/// The other way round it is another pair: with it there is a circle, and no 13.
fn turned(bench: &mut Bench, sample: &Sample, kind: u8) {
    if sample.round {
        return;
    }
    let mut draft = sample.draft.clone();
    let arcs = arcs_of(&mut draft, kind);
    let (from, to) = bench.random.pick(arcs);
    arcs.insert(bench.random.index(arcs.len() + 1), (to, from));
    let file = draft.bytes();
    let number = bench.planner.verdict(&file).answer & 255;
    same(bench, &file, "Verdict of a turned pair", &[number], &[if kind == JOB { 5 } else { 6 }]);
    bench.all(&sample.case(file));
}
