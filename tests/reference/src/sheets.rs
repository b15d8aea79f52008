//! Crew sheets with pages written out by hand, pages that are just filled, the largest flows, and the pages that are
//! stored for tests/c.

use crate::bench::{answer, overloaded, Bench};
use crate::big::prove_needs;
use crate::bytes::{Activity, Arc, Draft, Waits, JOB};
use crate::cases::{expect, four, plan_a};
use crate::model::{Case, Facts};
use crate::random::Random;
use crate::read::MOST_ACTIVITIES;
use crate::sheet::PAGE;
use crate::sweep::wait_some;
use std::collections::BTreeSet;
use std::fs;

const LAYERED_PLANS: usize = 8;
const STORED: &str = "tests/c/expected";

pub fn sheets(bench: &mut Bench) {
    page_of_a(bench);
    widest_columns(bench);
    just_filled(bench);
    order_of_causes(bench);
    every_ask(bench);
    for _ in 0..LAYERED_PLANS {
        let draft = layered(&mut bench.random);
        prove_needs(bench, &draft);
    }
    stored(bench);
}

/// A page of the plan, and what is wrong with it next to these lines, each without the blanks behind it.
fn printed(bench: &mut Bench, file: &[u8], kind: u64, page: u64, count: u64, lines: &[(usize, &str)]) {
    let reply = bench.planner.sheet(file, kind, page, &[7; PAGE + 1]);
    let text = String::from_utf8_lossy(&reply.after[..PAGE]).into_owned();
    let is: Vec<&str> = text.split('\n').collect();
    let wrong = lines.iter().find(|&&(place, words)| is[place] != words.to_string() + &" ".repeat(40 - words.len()));
    let outcome = match wrong {
        _ if reply.answer != answer(0, count) || reply.after[PAGE] != 7 => Err(format!("answered {}", reply.answer)),
        _ if is.len() != 61 => Err(format!("{} lines", is.len() - 1)),
        Some((place, words)) => Err(format!("line {place} is {:?}, written out is {words:?}", is[*place])),
        None => Ok(()),
    };
    bench.tally.count(file, "Sheet", outcome);
}

fn page_of_a(bench: &mut Bench) {
    let lines = [
        "KIND 1   1",
        "  0   1        2          0",
        "  0   3        2          0",
        "  1   2        2          1",
        "  2   4        2          3",
        "  3   5        2          4",
        "  4   5        2          4",
    ];
    let blank = (lines.len()..60).map(|place| (place, ""));
    let all: Vec<(usize, &str)> = lines.into_iter().enumerate().chain(blank).collect();
    printed(bench, &plan_a().bytes(), 1, 1, 1, &all);
}

/// A chain with every number at its greatest, waits included. It has 65 records, six of them on the second page.
fn widest_columns(bench: &mut Bench) {
    let activity = Activity { duration: 65_535, demands: [65_535; 8] };
    let job: Vec<Arc> = (1..MOST_ACTIVITIES as u8).map(|from| (from, from + 1)).collect();
    let waits = job.iter().map(|&arc| ((JOB, arc), 65_535)).collect();
    let activities = vec![activity; MOST_ACTIVITIES];
    let file = Draft { activities, kinds: 8, available: [65_535; 8], job, extra: vec![], waits }.bytes();
    let first = [(0, "KIND 8   1"), (1, "  0   1    65535          0"), (2, "  1   2    65535     131070")];
    let last =
        [(0, "KIND 8   2"), (1, " 59  60    65535    7733130"), (6, " 64  65    65535    8322945"), (7, ""), (59, "")];
    printed(bench, &file, 8, 1, 2, &first);
    printed(bench, &file, 8, 2, 2, &last);
}

/// Flows of so many records: unrelated activities of one unit have two each, and a unit to spare is one more.
fn just_filled(bench: &mut Bench) {
    let pages = [(0, 1), (1, 1), (2, 1), (58, 1), (59, 1), (60, 2), (117, 2), (118, 2), (119, 3), (128, 3), (129, 3)];
    for (records, count) in pages {
        let (size, spare) = (records / 2, records % 2);
        let file = Draft::of_one_kind(&vec![(1, 1); size], (size + spare) as u16, &[], &[]).bytes();
        for (page, due) in [(count, answer(0, count)), (count + 1, answer(11, count))] {
            expect(bench, &file, "Sheet", |bench| bench.planner.sheet(&file, 1, page, &[0; PAGE]).answer, due);
        }
        bench.all(&Case::claimed(file, &[size as u32]));
    }
}

/// Circles, then 8, 9, 7, 11, whatever else is wrong.
fn order_of_causes(bench: &mut Bench) {
    let (fine, round, over) = (plan_a(), four(&[(1, 2), (2, 1)]), four(&[]));
    let seven = overloaded(1, 8, 4);
    for (draft, kind, page, length, due) in [
        (&round, 0, 0, 0, answer(6, 1)),
        (&round, 1, 1, PAGE, answer(6, 1)),
        (&over, 0, 0, 0, answer(8, 1)),
        (&over, 2, 1, PAGE, answer(8, 1)),
        (&over, 1, 0, PAGE - 1, answer(9, 2_460)),
        (&over, 1, 0, PAGE, seven),
        (&over, 1, 1, PAGE, seven),
        (&over, 1, u64::MAX, PAGE, seven),
        (&fine, 0, 0, 0, answer(8, 1)),
        (&fine, 1 << 32 | 1, 1, PAGE, answer(8, 1)),
        (&fine, 1, 0, 0, answer(9, 2_460)),
        (&fine, 1, 1, PAGE - 1, answer(9, 2_460)),
        (&fine, 1, 0, PAGE, answer(11, 1)),
        (&fine, 1, 2, PAGE, answer(11, 1)),
        (&fine, 1, 1 << 32 | 1, PAGE, answer(11, 1)),
        (&fine, 1, 1, PAGE, answer(0, 1)),
    ] {
        let file = draft.bytes();
        expect(bench, &file, "Sheet", |bench| bench.planner.sheet(&file, kind, page, &vec![5; length]).answer, due);
    }
}

/// Plans of each verdict with kinds, pages and lengths of every sort.
fn every_ask(bench: &mut Bench) {
    let plans = [plan_a(), four(&[]), four(&[(1, 2), (2, 1)]), Draft::of_one_kind(&[], 3, &[], &[])];
    for case in plans.map(|draft| Case::new(draft.bytes())) {
        let starts = case.facts.as_ref().map_or(vec![], Facts::starts_written);
        for kind in [0, 1, 2, 9, 257, 1 << 32, u64::MAX] {
            let shown = bench.shown(&case, kind, &starts);
            for page in [0, 1, 2, 257, 1 << 32 | 1, u64::MAX] {
                for length in [0, 1, 41, PAGE - 1, PAGE, PAGE + 1, 2 * PAGE, 24 * 2145] {
                    bench.sheet(&case, kind, page, length, &shown);
                }
            }
        }
    }
}

/// 64 activities in layers, none of them idle: plans like these had the largest flows of those tried, about 130 records
/// and up to 140.
fn layered(random: &mut Random) -> Draft {
    let (layers, density) = (random.between(2, 8) as usize, random.pick(&[20, 50]));
    let mut line: Vec<u8> = (1..=MOST_ACTIVITIES as u8).collect();
    random.shuffle(&mut line);
    let layer = |place: usize| place * layers / MOST_ACTIVITIES;
    let mut extra = vec![];
    for from in 0..MOST_ACTIVITIES {
        for to in (0..MOST_ACTIVITIES).filter(|&to| layer(from) < layer(to)) {
            if random.percent(density) {
                extra.push((line[from], line[to]));
            }
        }
    }
    let job = extra.split_off(extra.len() / 2);
    let mut activity = |_| Activity {
        duration: random.between(1, 9) as u16,
        demands: std::array::from_fn(|_| random.between(1, 1_000) as u16),
    };
    let activities = (0..MOST_ACTIVITIES).map(&mut activity).collect();
    let mut draft = Draft { activities, kinds: 8, available: [0; 8], job, extra, waits: Waits::new() };
    wait_some(random, &mut draft);
    draft
}

/// The pages that tests/c has stored are those of the independent sheet, for every kind of these plans, and no other.
fn stored(bench: &mut Bench) {
    let mut names = BTreeSet::new();
    for plan in ["a", "cured", "hall", "handed_back"] {
        let file = fs::read(format!("examples/{plan}.plan")).expect("the example is there");
        let case = claimed(bench, file);
        let facts = case.facts.as_ref().expect("the example is accepted");
        for kind in 1..=facts.plan.kinds as u64 {
            let shown = bench.shown(&case, kind, &facts.starts_written());
            for (text, page) in shown.pages.iter().zip(1..) {
                let name = format!("{plan}_{kind}_{page}.txt");
                let same = fs::read(format!("{STORED}/{name}")).is_ok_and(|stored| stored == *text);
                let differ = || Err(format!("{STORED}/{name} is not the page"));
                bench.tally.count(&case.bytes, "stored sheet", if same { Ok(()) } else { differ() });
                names.insert(name);
            }
        }
    }
    let folder = fs::read_dir(STORED).expect("there are stored pages").flatten();
    let stored = folder.map(|entry| entry.file_name().to_string_lossy().into_owned());
    let there: BTreeSet<String> = stored.filter(|name| name.ends_with(".txt")).collect();
    let differ = || Err(format!("{there:?} are stored, not {names:?}"));
    bench.tally.count(&[], "stored sheet", if there == names { Ok(()) } else { differ() });
}

/// The needs as the library gives them; the flows prove them. Of a refusal, which no example may get, the rest is no count.
fn claimed(bench: &mut Bench, file: Vec<u8>) -> Case {
    let reply = bench.planner.needs(&file, &[0; 8]);
    Case::claimed(file, reply.after.get(..(reply.answer >> 8) as usize).unwrap_or(&reply.after))
}
