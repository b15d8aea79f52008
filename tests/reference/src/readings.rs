//! Open points of the file format and of the order of causes, each as a file with its answer
//! written out by hand.

use crate::bench::{answer, overloaded, Bench};
use crate::bytes::{activity_record, arc_record, crew_record, first, Activity, Draft, Waits, EXTRA, JOB, RECORD};
use crate::cases::{accepted, expect, four, plan_a};
use crate::model::Case;

pub type Record = [u8; RECORD];

pub fn activity(number: u8) -> Record {
    activity_record(number, 1, &first(2))
}

pub fn crew() -> Record {
    crew_record(1, &first(9))
}

/// The record with one byte changed.
pub fn with(mut record: Record, byte: usize, value: u8) -> Record {
    record[byte] = value;
    record
}

pub fn readings(bench: &mut Bench) {
    order_of_records(bench);
    fields(bench);
    spare_bytes(bench);
    circles(bench);
    lowest_kind(bench);
    order_of_causes(bench);
}

pub fn read(bench: &mut Bench, records: &[Record], due: u64) {
    let file = records.concat();
    expect(bench, &file, "Verdict", |bench| bench.planner.verdict(&file).answer, due);
    bench.all(&Case::new(file));
}

fn order_of_records(bench: &mut Bench) {
    let arc = arc_record(JOB, (1, 2));
    // The crew record is missed last, after every activity's own faults.
    read(bench, &[activity(1)], answer(2, 1));
    read(bench, &[activity(1), activity(2), activity(3)], answer(2, 3));
    read(bench, &[activity(1), with(activity(2), 23, 1)], answer(4, 1));
    read(bench, &[with(activity(1), 1, 9)], answer(3, 0));
    // An arc with no crew record before it is refused where it stands.
    read(bench, &[activity(1), activity(2), arc], answer(2, 2));
    read(bench, &[arc, crew()], answer(2, 0));
    read(bench, &[activity(1), crew(), activity(2)], answer(2, 2));
    read(bench, &[activity(1), crew(), crew()], answer(2, 2));
    read(bench, &[activity(1), activity(2), crew(), arc, crew()], answer(2, 4));
    let (job, extra) = (arc, arc_record(EXTRA, (1, 2)));
    read(bench, &[activity(1), activity(2), crew(), extra, job], answer(2, 4));
    read(bench, &[activity(1), activity(2), crew(), job, extra], accepted(2, 1));
    for unknown in [0, 5, 6, 7, 32, 33, 255] {
        read(bench, &[with(activity(1), 0, unknown), crew()], answer(2, 0));
        read(bench, &[activity(1), crew(), with(arc, 0, unknown)], answer(2, 2));
    }
    // The type comes before the fields and the spare bytes of its record, an earlier record before all.
    read(bench, &[with(with(activity(9), 0, 9), 23, 1), crew()], answer(2, 0));
    read(bench, &[with(activity(1), 23, 1), with(activity(2), 0, 9)], answer(4, 0));
    read(bench, &[with(activity(9), 23, 1), crew()], answer(3, 0));
}

fn fields(bench: &mut Bench) {
    let second = [0, 1, 0, 0, 0, 0, 0, 0];
    read(bench, &[with(activity(1), 2, 0), crew()], answer(12, 0));
    read(bench, &[activity(1), activity(1), crew()], answer(3, 1));
    read(bench, &[activity(0), crew()], answer(3, 0));
    for kinds in [0, 9, 255] {
        read(bench, &[activity(1), with(crew(), 1, kinds)], answer(3, 1));
    }
    // Demands and availabilities beyond K are fields of the crew record, before its spare bytes.
    let beyond = activity_record(1, 1, &second);
    read(bench, &[beyond, activity(2), crew()], answer(3, 2));
    read(bench, &[beyond, activity(2), with(crew(), 20, 1)], answer(3, 2));
    read(bench, &[beyond, with(activity(2), 20, 1), crew()], answer(4, 1));
    read(bench, &[beyond], answer(2, 1));
    read(bench, &[activity(1), crew_record(1, &second)], answer(3, 1));
    read(bench, &[beyond, crew_record(2, &second)], accepted(1, 2));
    for ends in [(0, 1), (1, 0), (1, 3), (3, 1), (1, 1), (2, 2), (255, 1), (1, 255)] {
        for kind in [JOB, EXTRA] {
            read(bench, &[activity(1), activity(2), crew(), arc_record(kind, ends)], answer(3, 3));
        }
    }
    read(bench, &[crew(), arc_record(JOB, (1, 2))], answer(3, 1));
    // The 65th activity is refused whatever its number says.
    let many: Vec<Record> = (1..=64).map(activity).collect();
    for number in [0, 1, 64, 65, 66] {
        read(bench, &[&many[..], &[activity(number), crew()]].concat(), answer(3, 64));
    }
    let (file, due) = ([&many[..], &[crew_record(1, &first(128))]].concat().concat(), accepted(64, 1));
    expect(bench, &file, "Verdict", |bench| bench.planner.verdict(&file).answer, due);
}

fn spare_bytes(bench: &mut Bench) {
    let records = [activity(1), activity(2), crew(), arc_record(JOB, (1, 2)), arc_record(EXTRA, (2, 1))];
    let mut spare = vec![(0, 20..24), (1, 20..24), (2, 2..4), (2, 20..24)];
    // Bytes 4 and 5 of an arc are its wait.
    spare.extend([3, 4].into_iter().flat_map(|arc| [(arc, 3..4), (arc, 6..24)]));
    for (place, bytes) in spare {
        for byte in bytes {
            let mut damaged = records;
            damaged[place][byte] = 1;
            read(bench, &damaged, answer(4, place as u64));
        }
    }
}

fn circles(bench: &mut Bench) {
    let of = |job: &[(u8, u8)], extra: &[(u8, u8)]| Draft::of_one_kind(&[(1, 0); 5], 0, job, extra).bytes();
    let mut circle = |job, extra, due| {
        let file = of(job, extra);
        expect(bench, &file, "Verdict", |bench| bench.planner.verdict(&file).answer, due);
        bench.all(&Case::new(file));
    };
    // A circle of job arcs comes first, though a lower activity is on another circle.
    circle(&[(4, 5), (5, 4)], &[(1, 2), (2, 1)], answer(5, 4));
    circle(&[(3, 5), (5, 4), (4, 3)], &[], answer(5, 3));
    // Circles may mix types; leading into one, or out of one, is not being on it.
    circle(&[(1, 3), (3, 4)], &[(4, 3)], answer(6, 3));
    circle(&[(4, 2), (3, 1)], &[(2, 5), (5, 4), (4, 1)], answer(6, 2));
    circle(&[(5, 4), (4, 3), (3, 2)], &[(2, 5)], answer(6, 2));
    circle(&[(5, 4), (4, 3), (3, 2), (2, 1)], &[(5, 1), (5, 4)], accepted(5, 1));
}

/// Two kinds overloaded, the second worse: the first is named, and its set and need are shown.
fn lowest_kind(bench: &mut Bench) {
    let activities = [[1, 0, 50], [0, 3, 50], [0, 3, 50]].map(|demands: [u16; 3]| Activity {
        duration: 1,
        demands: std::array::from_fn(|kind| demands.get(kind).copied().unwrap_or(0)),
    });
    let activities = activities.to_vec();
    let mut draft = Draft { activities, kinds: 3, available: [0; 8], job: vec![], extra: vec![], waits: Waits::new() };
    for (available, due) in [
        ([1, 5, 0], overloaded(2, 6, 2)),
        ([0, 5, 0], overloaded(1, 1, 1)),
        ([1, 6, 149], overloaded(3, 150, 3)),
        ([1, 6, 150], accepted(3, 3)),
    ] {
        draft.available[..3].copy_from_slice(&available);
        let file = draft.bytes();
        expect(bench, &file, "Verdict", |bench| bench.planner.verdict(&file).answer, due);
        // Flow gives the same refusal whatever kind is asked, but 8 and 9 come before it.
        for kind in 1..=3 {
            let flow = |bench: &mut Bench, length| bench.planner.flow(&file, kind, &vec![0; length]).answer;
            expect(bench, &file, "Flow", |bench| flow(bench, 239), answer(9, 240));
            let sheet = |bench: &mut Bench, length| bench.planner.sheet(&file, kind, 0, &vec![0; length]).answer;
            expect(bench, &file, "Sheet", |bench| sheet(bench, 2_459), answer(9, 2_460));
            if due & 255 == 7 {
                expect(bench, &file, "Flow", |bench| flow(bench, 240), due);
                expect(bench, &file, "Sheet", |bench| sheet(bench, 2_460), due);
            }
        }
        let trim = |bench: &mut Bench, length| bench.planner.trim(&file, &vec![0; length]).answer;
        expect(bench, &file, "Trim", |bench| trim(bench, 95), answer(9, 96));
        expect(bench, &file, "Trim", |bench| trim(bench, 96), if due & 255 == 7 { due } else { answer(0, 4) });
        expect(bench, &file, "Flow", |bench| bench.planner.flow(&file, 4, &[]).answer, answer(8, 3));
        expect(bench, &file, "Sheet", |bench| bench.planner.sheet(&file, 4, 1, &[]).answer, answer(8, 3));
        bench.all(&Case::new(file));
    }
}

fn order_of_causes(bench: &mut Bench) {
    let (fine, round) = (plan_a().bytes(), four(&[(1, 2), (2, 1)]).bytes());
    let over = four(&[]).bytes();
    let mut asks = |file: &[u8], operation: &str, ask: fn(&mut Bench, &[u8]) -> u64, due| {
        expect(bench, file, operation, |bench| ask(bench, file), due);
    };
    // An accepted plan with too few bytes for a record is refused, not "none".
    asks(&fine, "Overload", |bench, file| bench.planner.overload(file, &[5; 23]).answer, answer(9, 24));
    asks(&fine, "Overload", |bench, file| bench.planner.overload(file, &[5; 24]).answer, answer(0, 0));
    asks(&over, "Overload", |bench, file| bench.planner.overload(file, &[5; 24]).answer, answer(0, 1));
    // Needs and starts count numbers and are given for overloaded plans too.
    asks(&over, "Needs", |bench, file| bench.planner.needs(file, &[]).answer, answer(9, 1));
    asks(&over, "Needs", |bench, file| bench.planner.needs(file, &[5; 2]).answer, answer(0, 1));
    asks(&over, "Starts", |bench, file| bench.planner.starts(file, &[5; 4]).answer, answer(9, 5));
    asks(&over, "Starts", |bench, file| bench.planner.starts(file, &[5; 6]).answer, answer(0, 5));
    // Trim asks for as many bytes as the file has, also where it refuses the plan or leaves less of it.
    asks(&over, "Trim", |bench, file| bench.planner.trim(file, &[5; 119]).answer, answer(9, 120));
    asks(&over, "Trim", |bench, file| bench.planner.trim(file, &[5; 120]).answer, overloaded(1, 8, 4));
    asks(&fine, "Trim", |bench, file| bench.planner.trim(file, &[5; 167]).answer, answer(9, 168));
    asks(&fine, "Trim", |bench, file| bench.planner.trim(file, &[5; 168]).answer, answer(0, 7));
    // Circles come before everything that concerns what is lent or asked.
    asks(&round, "Needs", |bench, file| bench.planner.needs(file, &[]).answer, answer(6, 1));
    asks(&round, "Starts", |bench, file| bench.planner.starts(file, &[]).answer, answer(6, 1));
    asks(&round, "Overload", |bench, file| bench.planner.overload(file, &[]).answer, answer(6, 1));
    asks(&round, "Flow", |bench, file| bench.planner.flow(file, 0, &[]).answer, answer(6, 1));
    asks(&round, "Trim", |bench, file| bench.planner.trim(file, &[]).answer, answer(6, 1));
    asks(&round, "Crew check", |bench, file| bench.planner.crew_check(file, &[], &[]).answer, answer(6, 1));
    asks(&fine, "Flow", |bench, file| bench.planner.flow(file, 0, &[]).answer, answer(8, 1));
    asks(&fine, "Flow", |bench, file| bench.planner.flow(file, 1, &[]).answer, answer(9, 24 * 15));
}
