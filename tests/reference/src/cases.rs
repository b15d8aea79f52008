//! Plans A to F and the readings of open points, with the answers written out by hand: they hold
//! the library and the independent operations to the same letter.

use crate::bench::{answer, overloaded, spelled, Bench};
use crate::bytes::{Arc, Draft};
use crate::model::Case;
use crate::tally::{BROKEN, OVERLOAD};
use std::fmt::Debug;

const FOUR: [(u16, u16); 4] = [(1, 2), (2, 2), (3, 2), (1, 2)];
pub const NO_ARCS: &[Arc] = &[];

/// Plan A with other extra arcs.
pub fn four(extra: &[Arc]) -> Draft {
    Draft::of_one_kind(&FOUR, 4, NO_ARCS, extra)
}

pub fn plan_a() -> Draft {
    four(&[(1, 2), (2, 4)])
}

fn plan_f(demand: u16) -> Draft {
    Draft::of_one_kind(&[(1, demand)], 4, NO_ARCS, NO_ARCS)
}

pub fn accepted(size: u64, kinds: u64) -> u64 {
    answer(0, size | kinds << 8)
}

pub fn plans_a_to_f(bench: &mut Bench) {
    let b = four(&[(1, 2), (1, 3), (1, 4)]);
    let c = four(NO_ARCS);
    let d = four(&[(1, 3), (1, 4), (2, 3), (2, 4)]);
    let e = four(&[(1, 2), (2, 1)]);
    let e_as_job = Draft::of_one_kind(&FOUR, 4, &[(1, 2), (2, 1)], NO_ARCS);
    let empty = Draft::of_one_kind(&[], 0, NO_ARCS, NO_ARCS);
    judged(bench, &plan_a(), accepted(4, 1), 0, Some(4));
    judged(bench, &b, overloaded(1, 6, 3), 0b1110, Some(6));
    judged(bench, &c, overloaded(1, 8, 4), 0b1111, Some(8));
    judged(bench, &d, accepted(4, 1), 0, Some(4));
    judged(bench, &e, answer(6, 1), 0, None);
    judged(bench, &e_as_job, answer(5, 1), 0, None);
    judged(bench, &plan_f(4), accepted(1, 1), 0, Some(4));
    judged(bench, &plan_f(5), overloaded(1, 5, 1), 0b1, Some(5));
    judged(bench, &empty, accepted(0, 1), 0, Some(0));
    report_of_a(bench);
    crews(bench);
}

/// The verdict, the set and the need as written out, then every operation against the model.
fn judged(bench: &mut Bench, draft: &Draft, verdict: u64, set: u64, need: Option<u32>) {
    let file = draft.bytes();
    expect(bench, &file, "Verdict", |bench| bench.planner.verdict(&file).answer, verdict);
    expect(bench, &file, "Set", |bench| bench.planner.set(&file).answer, set);
    if let Some(need) = need {
        let wrote = bench.planner.needs(&file, &[9]).after;
        let differ = || Err(format!("wrote {wrote:?}, written out is {need}"));
        bench.tally.count(&file, "Needs", if wrote == [need] { Ok(()) } else { differ() });
    }
    every_length(bench, &Case::new(file));
}

pub fn expect(bench: &mut Bench, file: &[u8], operation: &str, ask: impl FnOnce(&mut Bench) -> u64, due: u64) {
    let got = ask(bench);
    let differ = || format!("answered {}, written out is {}", spelled(got), spelled(due));
    bench.tally.count(file, operation, if got == due { Ok(()) } else { Err(differ()) });
}

pub fn same<T: PartialEq + Debug>(bench: &mut Bench, file: &[u8], operation: &str, got: &[T], due: &[T]) {
    let differ = || format!("{got:?}, and not {due:?}");
    bench.tally.count(file, operation, if got == due { Ok(()) } else { Err(differ()) });
}

/// Every operation with every length of lent slice up to somewhat more than needed.
fn every_length(bench: &mut Bench, case: &Case) {
    bench.all(case);
    let left = bench.left(case);
    let most = case.facts.as_ref().map_or(24, |facts| facts.flow_bytes_needed());
    for length in 0..most + 26 {
        bench.overload(case, length);
        bench.trim(case, length, &left);
        bench.needs(case, length.min(20));
        bench.starts(case, length.min(20));
        for kind in [0, 1, 2, 257] {
            bench.flow(case, kind, length);
        }
    }
}

/// The starts and the only flow of plan A, as the report prints them.
fn report_of_a(bench: &mut Bench) {
    let file = plan_a().bytes();
    let starts = bench.planner.starts(&file, &[9; 5]);
    let right = starts.answer == answer(0, 5) && starts.after == [0, 1, 0, 3, 4];
    bench.tally.count(&file, "Starts", if right { Ok(()) } else { Err(format!("wrote {:?}", starts.after)) });
    let flow = bench.planner.flow(&file, 1, &[7; 24 * 15]);
    let lines = [(0, 1, 0), (0, 3, 0), (1, 2, 1), (2, 4, 1), (3, 5, 0), (4, 5, 0)];
    let mut due = vec![7; 24 * 15];
    for (place, (from, to, added)) in lines.into_iter().enumerate() {
        due[24 * place..24 * (place + 1)].fill(0);
        due[24 * place..24 * place + 9].copy_from_slice(&[33, 1, from, to, 2, 0, 0, 0, added]);
    }
    let right = flow.answer == answer(0, 6) && flow.after == due;
    bench.tally.count(&file, "Flow", if right { Ok(()) } else { Err(format!("wrote {:?}", flow.after)) });
}

fn crews(bench: &mut Bench) {
    let (a, c) = (plan_a(), four(NO_ARCS));
    let last = u32::MAX;
    let broken = |from: u64, to: u64| answer(BROKEN, from | to << 8);
    let over = |period: u64, kind: u64| answer(OVERLOAD, kind | period << 8);
    crew(bench, &a, &[0, 1, 0, 3], &[1, 2, 3, 1], 0);
    crew(bench, &a, &[0, 1, 0, 2], &[1, 2, 3, 1], broken(2, 4));
    crew(bench, &c, &[0; 4], &[1; 4], over(1, 1));
    crew(bench, &c, &[0, 0, 1, 1], &[1; 4], 0);
    crew(bench, &c, &[0, 0, 1, 1], &[2, 2, 1, 1], over(2, 1));
    // Nothing wraps: the last period, and a finish beyond 32 bits.
    crew(bench, &plan_f(5), &[last], &[last], over(4_294_967_296, 1));
    crew(bench, &plan_f(5), &[last], &[1], over(4_294_967_296, 1));
    crew(bench, &plan_f(4), &[last], &[last], 0);
    crew(bench, &a, &[last, last, 0, last], &[last, 1, 1, 1], broken(1, 2));
    crew(bench, &a, &[0, last, 0, 1], &[1, 2, 1, 1], broken(2, 4));
    // The lists come first, the arcs before any overload, and arcs count as listed.
    crew(bench, &a, &[0; 3], &[1; 4], answer(10, 4));
    crew(bench, &a, &[0; 4], &[1; 5], answer(10, 4));
    crew(bench, &a, &[0; 4], &[1, 1, 0, 1], answer(10, 4));
    crew(bench, &a, &[0; 4], &[1; 4], broken(1, 2));
    crew(bench, &four(&[(2, 4), (2, 3), (1, 4)]), &[0, 9, 9, 9], &[1; 4], broken(2, 3));
    let in_both = Draft::of_one_kind(&FOUR, 4, &[(2, 3)], &[(2, 4), (2, 3), (1, 4)]);
    crew(bench, &in_both, &[0, 9, 9, 9], &[1; 4], broken(2, 3));
    crew(bench, &Draft::of_one_kind(&FOUR, 4, &[(3, 4)], &[(1, 2)]), &[0; 4], &[1; 4], broken(1, 2));
    crew(bench, &Draft::of_one_kind(&[], 0, NO_ARCS, NO_ARCS), &[], &[], 0);
}

pub fn crew(bench: &mut Bench, draft: &Draft, starts: &[u32], durations: &[u32], due: u64) {
    let file = draft.bytes();
    expect(bench, &file, "Crew check", |bench| bench.planner.crew_check(&file, starts, durations).answer, due);
    bench.crew_check(&Case::new(file), starts, durations);
}
