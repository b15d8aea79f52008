//! The added mark: flows with their marks written out, and random plans next to others of the same plan order, whose marks
//! are the same, or all 0, or 1 wherever both ends are activities.

use crate::bench::{agree, answer, Bench, Due};
use crate::bytes::{Arc, Draft, RECORD};
use crate::cases::{same, NO_ARCS};
use crate::check::FLOW;
use crate::model::{Case, Facts, Order, MOST_TRIED};
use crate::random::Random;
use crate::read::{Ends, MOST_ACTIVITIES, MOST_BYTES};
use crate::sweep::{around, random_draft};
use std::collections::BTreeSet;

/// Byte 8 of a flow record.
const MARK: usize = 8;

pub fn added(bench: &mut Bench, count: usize) {
    ways(bench);
    several(bench);
    rows(bench);
    for turn in 0..count {
        // Every tenth plan may have as many activities as a file can have, and is not held to all subsets.
        let most = if turn % 10 == 0 { MOST_ACTIVITIES } else { 10 };
        let (draft, case) = enough_available(bench, most);
        bench.all(&case);
        related(bench, &draft, &case);
    }
}

/// The only flow of kind 1, each record as its from, to, units and mark, and what was lent behind it. Then every operation
/// against the model.
fn written(bench: &mut Bench, case: &Case, due: &[[u8; 4]]) {
    let lent = vec![7; case.facts.as_ref().map_or(0, Facts::flow_bytes_needed)];
    let mut after = lent.clone();
    for (record, &[from, to, units, mark]) in after.chunks_mut(RECORD).zip(due) {
        record.fill(0);
        record[..=MARK].copy_from_slice(&[FLOW, 1, from, to, units, 0, 0, 0, mark]);
    }
    let due = Due { answer: answer(0, due.len() as u64), after };
    let outcome = agree(&bench.planner.flow(&case.bytes, 1, &lent), &due);
    bench.tally.count(&case.bytes, "Flow with its marks", outcome);
    bench.all(case);
}

/// Jobs 1 and 3 occupy the whole crew, job 2 occupies nobody, and 4 is a milestone: all units go from 1 to 3, whichever way
/// leads there. Then the same with the numbers turned round.
fn ways(bench: &mut Bench) {
    let cases: [(&[Arc], &[Arc], u8); 22] = [
        // By an arc of their own.
        (&[(1, 3)], &[], 0),
        (&[], &[(1, 3)], 1),
        (&[(1, 3)], &[(1, 3)], 0),
        // Through a third: forced where all of the way is job arcs.
        (&[(1, 2), (2, 3)], &[], 0),
        (&[(1, 4), (4, 3)], &[], 0),
        (&[(1, 2)], &[(2, 3)], 1),
        (&[(2, 3)], &[(1, 2)], 1),
        (&[], &[(1, 2), (2, 3)], 1),
        (&[(1, 2), (2, 3)], &[(1, 2), (2, 3)], 0),
        (&[(1, 2)], &[(1, 2), (2, 3)], 1),
        // Through both of the others.
        (&[(1, 2), (2, 4), (4, 3)], &[], 0),
        (&[(2, 4), (4, 3)], &[(1, 2)], 1),
        (&[(1, 2), (4, 3)], &[(2, 4)], 1),
        (&[(1, 2), (2, 4)], &[(4, 3)], 1),
        // Two ways at once: one of job arcs is enough, and two with an extra arc each are not.
        (&[(1, 2), (2, 3)], &[(1, 3)], 0),
        (&[(1, 3)], &[(1, 2), (2, 3)], 0),
        (&[(1, 2), (2, 3)], &[(1, 4), (4, 3)], 0),
        (&[(1, 4), (4, 3)], &[(1, 2), (2, 3)], 0),
        (&[(1, 2), (4, 3)], &[(2, 3), (1, 4)], 1),
        // A job before both or after both orders neither of them.
        (&[(2, 1), (2, 3)], &[(1, 3)], 1),
        (&[(1, 2), (3, 2)], &[(1, 3)], 1),
        (&[(4, 1), (3, 2)], &[(1, 3)], 1),
    ];
    for turn in [|number: u8| number, |number: u8| 5 - number] {
        let turned = |arcs: &[Arc]| -> Vec<Arc> { arcs.iter().map(|&(from, to)| (turn(from), turn(to))).collect() };
        let jobs = [1, 2, 3, 4].map(|number| [(1, 2), (1, 0), (1, 2), (0, 0)][usize::from(turn(number)) - 1]);
        for (job, extra, mark) in cases {
            let draft = Draft::of_one_kind(&jobs, 2, &turned(job), &turned(extra));
            let mut due = [[0, turn(1), 2, 0], [turn(1), turn(3), 2, mark], [turn(3), 5, 2, 0]];
            due.sort();
            written(bench, &Case::new(draft.bytes()), &due);
        }
    }
}

/// Flows of several handovers, each with a mark of its own, and flows of none. From the start and to the end it is 0.
fn several(bench: &mut Bench) {
    let row = Draft::of_one_kind(&[(1, 2); 4], 2, &[(1, 2), (3, 4)], &[(2, 3)]);
    let due = [[0, 1, 2, 0], [1, 2, 2, 0], [2, 3, 2, 1], [3, 4, 2, 0], [4, 5, 2, 0]];
    written(bench, &Case::new(row.bytes()), &due);
    // Past job 2, which occupies nobody, job 1 hands over to 3 by job arcs and to 4 by an extra arc.
    let fork = Draft::of_one_kind(&[(1, 2), (1, 0), (1, 1), (1, 1)], 3, &[(1, 2), (2, 3)], &[(2, 4)]);
    let due = [[0, 1, 2, 0], [0, 5, 1, 0], [1, 3, 1, 0], [1, 4, 1, 1], [3, 5, 1, 0], [4, 5, 1, 0]];
    written(bench, &Case::new(fork.bytes()), &due);
    let apart = Draft::of_one_kind(&[(1, 1), (1, 2)], 5, NO_ARCS, NO_ARCS);
    let due = [[0, 1, 1, 0], [0, 2, 2, 0], [0, 3, 2, 0], [1, 3, 1, 0], [2, 3, 2, 0]];
    written(bench, &Case::new(apart.bytes()), &due);
    written(bench, &Case::new(Draft::of_one_kind(&[], 4, NO_ARCS, NO_ARCS).bytes()), &[[0, 1, 4, 0]]);
}

/// The first of a row hands over to the last, past idle jobs or milestones: by job arcs alone, with one arc of the row in both
/// types, and with that one as an extra arc only.
fn rows(bench: &mut Bench) {
    for (size, between) in [4, 5, 64].into_iter().flat_map(|size: u8| [(size, (1, 0)), (size, (0, 0))]) {
        let jobs = [vec![(3, 2)], vec![between; usize::from(size) - 2], vec![(1, 2)]].concat();
        let row: Vec<Arc> = (1..size).map(|from| (from, from + 1)).collect();
        for arc in [row[0], row[row.len() / 2], row[row.len() - 1]] {
            let others: Vec<Arc> = row.iter().copied().filter(|&other| other != arc).collect();
            for (job, extra, mark) in [(&row, NO_ARCS, 0), (&row, &[arc], 0), (&others, &[arc], 1)] {
                let case = Case::claimed(Draft::of_one_kind(&jobs, 2, job, extra).bytes(), &[2]);
                written(bench, &case, &[[0, 1, 2, 0], [1, size, 2, mark], [size, size + 1, 2, 0]]);
            }
        }
    }
}

/// A random plan with what it needs, by the library's needs; small plans are held to all subsets.
fn enough_available(bench: &mut Bench, most: usize) -> (Draft, Case) {
    let size = bench.random.between(2, most as u64) as usize;
    let mut draft = random_draft(&mut bench.random, size, 1_000);
    let needs = bench.planner.needs(&draft.bytes(), &[0; 8]).after[..draft.kinds as usize].to_vec();
    let some = around(&mut bench.random, &needs);
    draft.available = std::array::from_fn(|kind| needs.get(kind).map_or(0, |&need| some[kind].max(need as u16)));
    let case = if size <= MOST_TRIED { Case::new(draft.bytes()) } else { Case::claimed(draft.bytes(), &needs) };
    (draft, case)
}

/// The flows of a plan next to those of its twins, which have the same records but for marks.
fn related(bench: &mut Bench, draft: &Draft, case: &Case) {
    let Ok(facts) = &case.facts else { return };
    let twins = twins(&mut bench.random, draft, &facts.job);
    let (lent, mut handovers) = (bench.random.bytes(facts.flow_bytes_needed() + 5), vec![]);
    let is_handover = |record: &[u8]| record[2] >= 1 && usize::from(record[3]) <= facts.plan.size();
    for kind in 1..=draft.kinds.into() {
        let flow = bench.planner.flow(&case.bytes, kind, &lent);
        let count = if flow.answer & 255 == 0 { (flow.answer >> 8) as usize } else { 0 };
        for (operation, twin, mark) in &twins {
            let mut after = flow.after.clone();
            for record in after.chunks_exact_mut(RECORD).take(count).filter(|record| is_handover(record)) {
                record[MARK] = mark.unwrap_or(record[MARK]);
            }
            let outcome = agree(&bench.planner.flow(twin, kind, &lent), &Due { answer: flow.answer, after });
            bench.tally.count(twin, operation, outcome.map_err(|why| format!("kind {kind}: {why}")));
        }
        let records = flow.after.chunks_exact(RECORD).take(count).filter(|record| is_handover(record));
        handovers.extend(records.map(|record| ((record[2].into(), record[3].into()), record[MARK])));
    }
    by_orders(bench, &case.bytes, facts, &handovers);
}

/// Plans of the same plan order, each with the mark of all handovers where they do not keep their own. Three have the same
/// job order too, said by more arcs, as far as a file has room, or by fewer.
fn twins(random: &mut Random, draft: &Draft, order: &Order) -> [(&'static str, Vec<u8>, Option<u8>); 5] {
    let (job, extra, numbers) = (&draft.job, &draft.extra, 1..=draft.activities.len() as u8);
    let forces = |&(from, to): &Arc| order.is_before(from.into(), to.into());
    let through = |&(from, to): &Arc| numbers.clone().any(|third| forces(&(from, third)) && forces(&(third, to)));
    let pairs = numbers.clone().flat_map(|from| numbers.clone().map(move |to| (from, to)));
    let mut forced: Vec<Arc> = pairs.filter(forces).collect();
    random.shuffle(&mut forced);
    let room = (MOST_BYTES - draft.bytes().len()) / RECORD;
    let fewer: Vec<Arc> = job.iter().copied().filter(|arc| !through(arc)).collect();
    let all = joined(job, extra, extra.len());
    let file = |job: &[Arc], extra: &[Arc]| Draft { job: job.into(), extra: extra.into(), ..draft.clone() }.bytes();
    [
        ("Flow with the job order as job arcs", file(&joined(job, &forced, room), extra), None),
        ("Flow with the job order as extra arcs", file(job, &joined(extra, &forced, room)), None),
        ("Flow without job arcs that others force", file(&fewer, extra), None),
        ("Flow with all arcs as job arcs", file(&all, NO_ARCS), Some(0)),
        ("Flow with all arcs as extra arcs", file(NO_ARCS, &all), Some(1)),
    ]
}

/// The arcs, and up to so many of the others that are not among them.
fn joined(arcs: &[Arc], others: &[Arc], most: usize) -> Vec<Arc> {
    arcs.iter().chain(others.iter().filter(|arc| !arcs.contains(arc)).take(most)).copied().collect()
}

/// Every handover goes by the plan order, and is marked where it does not go by the job order. Those marked, of all kinds
/// together, close no circle with the job arcs.
fn by_orders(bench: &mut Bench, file: &[u8], facts: &Facts, handovers: &[(Ends, u8)]) {
    let mut arcs: BTreeSet<Ends> = facts.plan.job.keys().copied().collect();
    for &((from, to), mark) in handovers {
        let (in_job, in_plan) = (facts.job.is_before(from, to), facts.order.is_before(from, to));
        same(bench, file, "Handover by the orders", &[(from, to, in_plan, mark != 0)], &[(from, to, true, !in_job)]);
        let named = [&facts.plan.job, &facts.plan.extra].map(|arcs| arcs.contains_key(&(from, to)));
        bench.tally.note(match (in_job, named) {
            (_, [true, _]) => "handover along a job arc",
            (true, _) => "handover through other jobs",
            (_, [_, true]) => "handover along an extra arc",
            _ => "handover on a way with an extra arc",
        });
        arcs.extend((mark != 0).then_some((from, to)));
    }
    let circle = Order::of(facts.plan.size(), &arcs).lowest_before_itself();
    same(bench, file, "Job arcs and added handovers", &[circle], &[None]);
}
