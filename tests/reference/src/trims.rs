//! Trim: plans with what is left of them written out, random plans next to the independent trim, plans of as many activities as
//! can be next to one that asks the library's verdict, and what the example program says of the examples.

use crate::bench::{agree, answer, overloaded, Bench, Due};
use crate::bytes::{Activity, Arc, Draft, Waits, EXTRA, JOB, RECORD};
use crate::cases::{expect, four, plan_a, same, NO_ARCS};
use crate::model::{needs_by_subsets, ordered, Case};
use crate::random::Random;
use crate::read::{read, MOST_ACTIVITIES, MOST_BYTES};
use crate::sweep::{add_arc, random_draft};
use crate::trim::{accepted, considered, may_go, taken_out, trimmed, without};
use std::fs;

const BIG_PLANS: usize = 12;
const STORED: &str = "tests/c/expected";

pub fn trims(bench: &mut Bench, count: usize) {
    written_out(bench);
    other_kinds(bench);
    order_of_causes(bench);
    for turn in 0..count {
        let size = bench.random.between(2, if turn % 20 == 0 { 12 } else { 9 }) as usize;
        let draft = needy(&mut bench.random, size);
        let case = Case::new(draft.bytes());
        bench.trims(&case);
        finished(bench, &case.bytes);
        if accepted(&case.bytes, 8) {
            note(bench, &case.bytes);
        }
    }
    for turn in 0..BIG_PLANS {
        big(bench, turn);
    }
    stored(bench);
}

/// Exactly these extra arcs are left, in the order in which they stand in the file. Then every operation against the model.
fn leaves(bench: &mut Bench, draft: &Draft, left: &[Arc]) {
    let (file, due) = (draft.bytes(), Draft { extra: left.to_vec(), ..draft.clone() }.bytes());
    for more in [0, 1, 30] {
        writes(bench, &file, &due, more);
    }
    bench.all(&Case::new(file));
}

/// The trimmed plan is this one, and what was lent behind it is unchanged.
fn writes(bench: &mut Bench, file: &[u8], due: &[u8], more: usize) {
    let lent = bench.random.bytes(file.len() + more);
    let after = [due, &lent[due.len()..]].concat();
    let due = Due { answer: answer(0, (due.len() / RECORD) as u64), after };
    bench.tally.count(file, "Trim", agree(&bench.planner.trim(file, &lent), &due));
}

/// Three jobs of two workers each, of which no three may be at work at once: an arc between any two of them is enough.
fn two_of_three(job: &[Arc], extra: &[Arc]) -> Draft {
    Draft::of_one_kind(&[(1, 2); 3], 4, job, extra)
}

fn written_out(bench: &mut Bench) {
    // By from, then to, wherever they stand in the file: the last of them is the one that must stay.
    for extra in [[(1, 2), (2, 3)], [(2, 3), (1, 2)]] {
        leaves(bench, &two_of_three(NO_ARCS, &extra), &[(2, 3)]);
    }
    leaves(bench, &two_of_three(NO_ARCS, &[(3, 2), (1, 3)]), &[(3, 2)]);
    leaves(bench, &two_of_three(NO_ARCS, &[(2, 3), (1, 3), (1, 2)]), &[(2, 3)]);
    leaves(bench, &two_of_three(NO_ARCS, &[(1, 3), (1, 2)]), &[(1, 3)]);
    leaves(bench, &two_of_three(NO_ARCS, &[(3, 1)]), &[(3, 1)]);
    // What is left keeps its order in the file.
    let row = Draft::of_one_kind(&[(1, 1); 4], 1, NO_ARCS, &[(3, 4), (1, 4), (1, 2), (1, 3), (2, 3), (2, 4)]);
    leaves(bench, &row, &[(3, 4), (1, 2), (2, 3)]);
    leaves(bench, &plan_a(), &[(1, 2), (2, 4)]);
    leaves(bench, &four(&[(1, 3), (1, 4), (2, 3), (2, 4)]), &[(1, 4), (2, 3)]);
    // With job arcs: of a pair that is one, and of one that they order through a third job, the extra arc goes.
    leaves(bench, &two_of_three(&[(2, 3)], &[(2, 3)]), &[]);
    leaves(bench, &two_of_three(&[(1, 2)], &[(2, 3), (1, 2), (1, 3)]), &[]);
    let row = Draft::of_one_kind(&[(1, 1); 3], 1, &[(1, 2), (2, 3)], &[(1, 3), (1, 2)]);
    leaves(bench, &row, &[]);
    // An arc with a wait stays, needed or not, and counts: what it makes superfluous goes, though it comes before it.
    for wait in [1, 255, 256, 65_280, 65_535] {
        let waits = |draft: Draft, arc: Arc| draft.with_waits([((EXTRA, arc), wait)]);
        leaves(bench, &waits(two_of_three(NO_ARCS, &[(2, 3), (1, 2)]), (1, 2)), &[(1, 2)]);
        leaves(bench, &waits(two_of_three(NO_ARCS, &[(2, 3), (1, 2)]), (2, 3)), &[(2, 3)]);
        leaves(bench, &waits(two_of_three(&[(1, 2)], &[(1, 2), (1, 3)]), (1, 2)), &[(1, 2)]);
        leaves(bench, &waits(Draft::of_one_kind(&[(1, 1); 3], 9, NO_ARCS, &[(3, 1), (1, 2)]), (3, 1)), &[(3, 1)]);
        // The wait of the job arc is not that of the extra arc.
        leaves(bench, &two_of_three(&[(1, 2)], &[(1, 2)]).with_waits([((JOB, (1, 2)), wait)]), &[]);
    }
    // Nothing to take out, nothing to keep, and a milestone between two jobs, which passes order on.
    leaves(bench, &Draft::of_one_kind(&[], 4, NO_ARCS, NO_ARCS), &[]);
    leaves(bench, &two_of_three(&[(3, 1)], NO_ARCS), &[]);
    leaves(bench, &Draft::of_one_kind(&[(1, 1); 3], 3, NO_ARCS, &[(3, 2), (2, 1), (3, 1)]), &[]);
    let past = |extra: &[Arc]| Draft::of_one_kind(&[(1, 1), (0, 0), (1, 1)], 1, NO_ARCS, extra);
    leaves(bench, &past(&[(2, 3), (1, 2)]), &[(2, 3), (1, 2)]);
    leaves(bench, &past(&[(2, 3), (1, 2), (1, 3)]), &[(1, 3)]);
}

/// Every kind must fit: an arc that kind 1 can do without stays for another, whichever that is.
fn other_kinds(bench: &mut Bench) {
    for (kinds, kind) in (1..=8).flat_map(|kinds: u8| (0..usize::from(kinds)).map(move |kind| (kinds, kind))) {
        let mut demands = [0; 8];
        demands[..usize::from(kinds)].fill(1);
        let mut available = demands.map(|demand| 2 * demand);
        available[kind] = 1;
        let activities = vec![Activity { duration: 1, demands }; 2];
        let draft = Draft { activities, kinds, available, job: vec![], extra: vec![(2, 1)], waits: Waits::new() };
        leaves(bench, &draft, &[(2, 1)]);
        available[kind] = 2;
        leaves(bench, &draft.with_available(available), &[]);
    }
}

/// Circles, then 9 with the length of the given file, then 7.
fn order_of_causes(bench: &mut Bench) {
    // Of the one's 144 bytes 120 are left; the other has 96.
    let (fine, over) = (two_of_three(NO_ARCS, &[(1, 2), (2, 3)]), two_of_three(NO_ARCS, NO_ARCS));
    let [round, in_job] = [(NO_ARCS, [(1, 2), (2, 1)]), (&[(1, 2), (2, 1)], [(1, 3), (3, 1)])]
        .map(|(job, extra)| two_of_three(job, &extra));
    for (draft, length, due) in [
        (&round, 0, answer(6, 1)),
        (&round, 144, answer(6, 1)),
        (&in_job, 0, answer(5, 1)),
        (&in_job, 192, answer(5, 1)),
        (&over, 0, answer(9, 96)),
        (&over, 95, answer(9, 96)),
        (&over, 96, overloaded(1, 6, 3)),
        (&over, 200, overloaded(1, 6, 3)),
        (&fine, 0, answer(9, 144)),
        (&fine, 119, answer(9, 144)),
        (&fine, 120, answer(9, 144)),
        (&fine, 143, answer(9, 144)),
        (&fine, 144, answer(0, 5)),
        (&fine, 168, answer(0, 5)),
    ] {
        let file = draft.bytes();
        expect(bench, &file, "Trim", |bench| bench.planner.trim(&file, &vec![5; length]).answer, due);
    }
}

/// A random plan for whose need the extra arcs matter: what is available lies between the need with them and without.
fn needy(random: &mut Random, size: usize) -> Draft {
    let mut draft = random_draft(random, size, 1_000);
    for _ in 0..random.below(4) {
        if let Some(arc) = draft.job.get(random.index(draft.job.len().max(1))) {
            add_arc(&mut draft.extra, *arc);
        }
    }
    random.shuffle(&mut draft.extra);
    let job_alone = Draft { extra: vec![], ..draft.clone() };
    let [least, most] = [&draft, &job_alone].map(needs);
    for (kind, (&least, &most)) in least.iter().zip(&most).enumerate() {
        let between = random.between(least.into(), most.into()) as u32;
        let chosen = random.pick(&[least, least, between, between, most, most.saturating_sub(1).max(least)]);
        draft.available[kind] = chosen as u16;
    }
    // Some are refused all the same.
    if random.percent(5) {
        draft.available[0] = draft.available[0].saturating_sub(1);
    }
    draft
}

fn needs(draft: &Draft) -> Vec<u32> {
    let plan = read(&draft.bytes()).expect("a built plan is readable");
    let (_, order) = ordered(&plan).expect("a built plan has no circle");
    needs_by_subsets(&plan, &order).iter().map(|need| need.units).collect()
}

/// What is left of an accepted plan: trimmed again it is the same, and no arc, nor any few of them, may go as well.
fn finished(bench: &mut Bench, file: &[u8]) {
    let reply = bench.planner.trim(file, &vec![7; file.len()]);
    let written = reply.after.get(..RECORD * (reply.answer >> 8) as usize);
    let Some(left) = written.filter(|_| reply.answer & 255 == 0) else { return };
    writes(bench, left, left, 0);
    bench.kept(file, left);
    let available = read(left).map_or([0; 8], |plan| plan.available);
    let needs = bench.planner.needs(left, &[0; 8]).after;
    let fits = needs.iter().zip(&available).all(|(need, available)| need <= available);
    same(bench, left, "Trim: needs of what is left", &[fits], &[true]);
    let places = considered(left);
    let mut further: Vec<Vec<usize>> = places.iter().map(|&place| vec![place]).collect();
    for _ in 0..3 {
        let some: Vec<usize> = places.iter().copied().filter(|_| bench.random.percent(40)).collect();
        further.extend((!some.is_empty()).then_some(some));
    }
    further.extend((!places.is_empty()).then_some(places));
    bench.no_fewer(left, further);
}

/// What the plans that were tried tell apart: most of these would be trimmed otherwise by another rule.
fn note(bench: &mut Bench, file: &[u8]) {
    let (given, due, places) = (read(file).expect("it is accepted").extra, trimmed(file), considered(file));
    let left = read(&due).expect("it is accepted");
    let by = |places: Vec<usize>, kinds| taken_out(file, &places, |left| accepted(left, kinds)) != due;
    let sorted = |places: &[usize], key: &dyn Fn(&[u8]) -> (u8, u8)| {
        let mut places = places.to_vec();
        places.sort_by_key(|&place| key(&file[RECORD * place..]));
        places
    };
    let is_extra = |&place: &usize| file[RECORD * place] == EXTRA;
    let all: Vec<usize> = (0..file.len() / RECORD).filter(is_extra).collect();
    let in_file = all.iter().copied().filter(|place| places.contains(place)).collect();
    let stays: Vec<(usize, &[u8])> = due.chunks(RECORD).enumerate().filter(|(_, record)| record[0] == EXTRA).collect();
    let waiting = stays.iter().filter(|(_, record)| !may_go(record)).map(|&(place, _)| place).collect();
    for (what, holds) in [
        ("trim: no extra arc goes", !given.is_empty() && left.extra.len() == given.len()),
        ("trim: some extra arcs go", !left.extra.is_empty() && left.extra.len() < given.len()),
        ("trim: all extra arcs go", !given.is_empty() && left.extra.is_empty()),
        ("trim: of an arc in both types the extra arc goes", left.job.keys().any(|arc| given.get(arc) == Some(&0))),
        ("trim: an arc stays for its wait alone", by(sorted(&all, &|record| (record[1], record[2])), 8)),
        ("trim: an arc with a wait is needed", !accepted(&without(&due, &waiting), 8)),
        ("trim: an arc stays for a kind above 1", by(places.clone(), 1)),
        ("trim: otherwise in file order", by(in_file, 8)),
        ("trim: otherwise from the last arc on", by(places.iter().rev().copied().collect(), 8)),
        ("trim: otherwise by to, then from", by(sorted(&places, &|record| (record[2], record[1])), 8)),
        ("trim: arcs stay out of the order of their ends", !stays.is_sorted_by_key(|(_, record)| &record[1..3])),
    ] {
        if holds {
            bench.tally.note(what);
        }
    }
}

/// The library's verdict says what is accepted: that it is right of such plans is shown elsewhere.
fn big(bench: &mut Bench, turn: usize) {
    let mut draft = many_arcs(&mut bench.random, turn == 0);
    let job_alone = Draft { extra: vec![], ..draft.clone() };
    let [least, most] = [&draft, &job_alone].map(|draft| bench.planner.needs(&draft.bytes(), &[0; 8]).after);
    for kind in 0..usize::from(draft.kinds) {
        let between = bench.random.between(least[kind].into(), most[kind].into());
        draft.available[kind] = bench.random.pick(&[least[kind] as u16, between as u16, between as u16]);
    }
    let file = draft.bytes();
    let due = taken_out(&file, &considered(&file), |left| bench.planner.verdict(left).answer & 255 == 0);
    writes(bench, &file, &due, 40 * (turn % 2));
    finished(bench, &file);
}

/// 64 activities with many extra arcs, as many as a file can have or fewer, of which those from every eighth activity have waits.
fn many_arcs(random: &mut Random, full: bool) -> Draft {
    let draft = random_draft(random, MOST_ACTIVITIES, 1_000);
    let mut line: Vec<u8> = (1..=MOST_ACTIVITIES as u8).collect();
    random.shuffle(&mut line);
    let pairs = (0..line.len()).flat_map(|from| (from + 1..line.len()).map(move |to| (from, to)));
    let mut extra: Vec<Arc> = pairs.map(|(from, to)| (line[from], line[to])).collect();
    random.shuffle(&mut extra);
    let job = extra[..random.index(60)].to_vec();
    let room = MOST_BYTES / RECORD - MOST_ACTIVITIES - 1 - job.len();
    random.shuffle(&mut extra);
    extra.truncate(if full { room } else { random.between(50, 900) as usize });
    let waits = extra.iter().filter(|arc| arc.0 % 8 == 0).map(|&arc| ((EXTRA, arc), 256)).collect();
    Draft { job, extra, waits, ..draft }
}

/// What tests/c has stored of what the example program says: the records kept, and the arcs that went, in file order.
fn stored(bench: &mut Bench) {
    let folder = fs::read_dir(STORED).expect("there are stored outputs").flatten();
    let names = folder.map(|entry| entry.file_name().to_string_lossy().into_owned());
    let mut plans: Vec<String> = names.filter_map(|name| name.strip_suffix(".trimmed").map(str::to_string)).collect();
    plans.sort();
    same(bench, &[], "stored trim", &plans, &["a", "comfort", "cured", "d"].map(str::to_string));
    for plan in plans {
        let file = fs::read(format!("examples/{plan}.plan")).expect("the example is there");
        let due = trimmed(&file);
        let kept: Vec<&[u8]> = due.chunks(RECORD).collect();
        let gone = file.chunks(RECORD).filter(|record| !kept.contains(record));
        let went: String = gone.map(|record| format!("extra {} {} went\n", record[1], record[2])).collect();
        let said = format!("kept {} of {} records\n{went}", kept.len(), file.len() / RECORD);
        let text = fs::read_to_string(format!("{STORED}/{plan}.trimmed")).unwrap_or_default();
        let differ = || Err(format!("{plan}.trimmed does not say {said:?}"));
        bench.tally.count(&file, "stored trim", if text.starts_with(&said) { Ok(()) } else { differ() });
    }
}
