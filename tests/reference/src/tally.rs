//! Counting: what passed, what failed, and which answers were seen at all.

use crate::bytes::hex;
use crate::trap;
use std::collections::BTreeMap;

const MOST_PRINTED: u64 = 10;
pub const BROKEN: u64 = 254;
pub const OVERLOAD: u64 = 255;

/// What every operation but the report refuses of a file by itself, in the order in which it is tested.
const FILE: [u64; 8] = [1, 2, 3, 12, 4, 13, 5, 6];
/// The operations, each with what else it answers.
const OTHERS: [(&str, &[u64]); 9] = [
    ("Verdict", &[7, 0]),
    ("Needs", &[9, 0]),
    ("Starts", &[9, 0]),
    ("Overload", &[9, 0]),
    ("Flow", &[8, 9, 7, 0]),
    ("Sheet", &[8, 9, 7, 11, 0]),
    ("Trim", &[9, 7, 0]),
    ("Crew check", &[10, BROKEN, OVERLOAD, 0]),
    ("Report", &[9, 0]),
];
/// What a number alone does not say.
const NOTES: [&str; 36] = [
    "no overload",
    "sheet of one page",
    "sheet of more pages",
    "10: lists not m long",
    "10: worked 0",
    "10: a milestone worked",
    "crew with milestones fits",
    "crew with milestones breaks an arc",
    "crew with milestones overloads",
    "plan with milestones",
    "plan without milestones",
    "13: a job arc",
    "13: an extra arc",
    "pair in both types, with one wait",
    "pair in both types, the job arc's wait longer",
    "pair in both types, the extra arc's wait longer",
    "plan with waits",
    "plan without waits",
    "crew with waits fits",
    "crew with waits breaks an arc only by its wait",
    "crew with waits overloads",
    "handover along a job arc",
    "handover through other jobs",
    "handover along an extra arc",
    "handover on a way with an extra arc",
    "trim: no extra arc goes",
    "trim: some extra arcs go",
    "trim: all extra arcs go",
    "trim: of an arc in both types the extra arc goes",
    "trim: an arc stays for its wait alone",
    "trim: an arc with a wait is needed",
    "trim: an arc stays for a kind above 1",
    "trim: otherwise in file order",
    "trim: otherwise from the last arc on",
    "trim: otherwise by to, then from",
    "trim: arcs stay out of the order of their ends",
];

#[derive(Default)]
pub struct Tally {
    passed: u64,
    failed: u64,
    answers: BTreeMap<(&'static str, u64), u64>,
    notes: BTreeMap<&'static str, u64>,
}

impl Tally {
    /// Counts one comparison. The expectation and the answer are written down only if it failed.
    pub fn count(&mut self, plan: &[u8], operation: &str, outcome: Result<(), String>) {
        match outcome {
            Ok(()) => self.passed += 1,
            Err(why) => self.fail(plan, operation, &why),
        }
        trap::note(self.passed, self.failed);
    }

    fn fail(&mut self, plan: &[u8], operation: &str, why: &str) {
        self.failed += 1;
        if self.failed <= MOST_PRINTED {
            println!("FAILED {operation}: {why}");
            println!("  plan {}", hex(plan));
        }
        if self.failed == MOST_PRINTED + 1 {
            println!("further failures are only counted");
        }
    }

    /// Notes an answer of the library, right or wrong.
    pub fn see(&mut self, operation: &'static str, answer: u64) {
        let (number, rest) = (answer & 255, answer >> 8);
        *self.answers.entry((operation, number)).or_default() += 1;
        match (operation, number, rest) {
            ("Overload", 0, 0) => self.note("no overload"),
            ("Sheet", 0, 1) => self.note("sheet of one page"),
            ("Sheet", 0, _) => self.note("sheet of more pages"),
            _ => {}
        }
    }

    pub fn note(&mut self, what: &'static str) {
        *self.notes.entry(what).or_default() += 1;
    }

    /// Prints how often each answer was seen; one that never was is a failure of its own.
    pub fn close(&mut self) {
        for (operation, others) in OTHERS {
            // The report says in its text what of the file is refused.
            let file: &[u64] = if operation == "Report" { &[] } else { &FILE };
            let numbers = file.iter().chain(others);
            let seen: Vec<(u64, u64)> = numbers.map(|&number| (number, self.seen(operation, number))).collect();
            let words: Vec<String> = seen.iter().map(|(number, count)| format!("{number}:{count}")).collect();
            println!("seen of {operation}, number:count: {}", words.join(" "));
            for (number, count) in seen {
                self.must_be_seen(&format!("{operation}: {number}"), count);
            }
        }
        for what in NOTES {
            let count = self.notes.get(what).copied().unwrap_or(0);
            println!("seen {what}: {count}");
            self.must_be_seen(what, count);
        }
    }

    fn seen(&self, operation: &'static str, number: u64) -> u64 {
        self.answers.get(&(operation, number)).copied().unwrap_or(0)
    }

    fn must_be_seen(&mut self, what: &str, count: u64) {
        let outcome = if count > 0 { Ok(()) } else { Err(format!("{what} was never seen")) };
        self.count(&[], "answers seen", outcome);
    }

    pub fn print_last_line(&self) {
        println!("{} passed, {} failed", self.passed, self.failed);
    }

    pub fn all_passed(&self) -> bool {
        self.failed == 0
    }
}
