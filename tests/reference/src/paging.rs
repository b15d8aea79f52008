//! Crew sheets of a plan: every kind and page, and kinds and pages that there are not, each byte for byte against the
//! independent sheet of the flow that the library gives.

use crate::bench::{answer, asked, unchanged, Bench, Due};
use crate::bytes::RECORD;
use crate::model::{Case, Facts};
use crate::sheet::{pages, PAGE};

/// What Flow has answered of a kind, and the pages that its records make.
pub struct Shown {
    flow: u64,
    pub pages: Vec<Vec<u8>>,
}

impl Bench {
    pub fn sheets(&mut self, case: &Case) {
        let starts = case.facts.as_ref().map_or(vec![], Facts::starts_written);
        for kind in self.kinds(case) {
            let shown = self.shown(case, kind, &starts);
            let [exact, other] = self.lengths(case, |_| PAGE);
            for page in self.pages_asked(&shown) {
                self.sheet(case, kind, page, exact, &shown);
            }
            let any = self.random.next() % (shown.pages.len() as u64 + 2);
            self.sheet(case, kind, any, other, &shown);
        }
    }

    /// The flow is checked as any other. Where there is none, there are no pages.
    pub fn shown(&mut self, case: &Case, kind: u64, starts: &[u32]) -> Shown {
        let needed = match asked(case, kind, usize::MAX, |_| 0) {
            Err(flow) => return Shown { flow, pages: vec![] },
            Ok(facts) => facts.flow_bytes_needed(),
        };
        let reply = self.flow(case, kind, needed);
        let records = reply.after.get(..RECORD * (reply.answer >> 8) as usize);
        let pages = match records {
            Some(records) if reply.answer & 255 == 0 => pages(kind, records, starts),
            _ => vec![],
        };
        Shown { flow: reply.answer, pages }
    }

    /// All pages, those next to them, and one that is none. Some of those would be page 1 if only their low bits were
    /// looked at. Without a flow any page will do.
    fn pages_asked(&mut self, shown: &Shown) -> Vec<u64> {
        let count = shown.pages.len() as u64;
        let none = self.random.pick(&[256, 257, 1 << 32, (1 << 32) + 1, 1 << 63 | 1, u64::MAX]);
        match count {
            0 => vec![self.random.pick(&[0, 1, none])],
            _ => (0..=count + 1).chain([none]).collect(),
        }
    }

    pub fn sheet(&mut self, case: &Case, kind: u64, page: u64, length: usize, shown: &Shown) {
        let lent = self.random.bytes(length);
        let reply = self.planner.sheet(&case.bytes, kind, page, &lent);
        let due = Ok(sheet_due(case, kind, page, lent, shown));
        self.settle(case, "Sheet", &reply, due);
    }
}

fn sheet_due(case: &Case, kind: u64, page: u64, lent: Vec<u8>, shown: &Shown) -> Due<u8> {
    let facts = match asked(case, kind, lent.len(), |_| PAGE) {
        Err(refusal) => return unchanged(refusal, lent),
        Ok(facts) => facts,
    };
    if facts.overloaded().is_some() {
        return unchanged(shown.flow, lent);
    }
    let count = shown.pages.len() as u64;
    match shown.pages.get(page.wrapping_sub(1) as usize) {
        None => unchanged(answer(11, count), lent),
        Some(text) => Due { answer: answer(0, count), after: [text, &lent[PAGE..]].concat() },
    }
}
