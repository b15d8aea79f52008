//! The report of a plan: byte for byte against the lines that the plan's own facts make, with the flows and the set that the
//! library gives.

use crate::bench::{answer, too_short, unchanged, Bench, Due};
use crate::bytes::RECORD;
use crate::model::{members, Case, Facts};

/// What is asked for: the longest report's first lines, 32 bytes for each flow record of eight kinds, and 78 more.
const ROOM: usize = 1024 + 48 * 64 + 8 * 32 * (64 * 63 / 2 + 2 * 64 + 1) + 78;
/// Half a million bytes are lent and looked at each time: so not of every plan.
const ONE_IN: usize = 8;

impl Bench {
    pub fn reports(&mut self, case: &Case) {
        if self.reported.index(ONE_IN) == 0 {
            let text = self.lines(case).into_bytes();
            let other = self.reported.pick(&[ROOM - 1, ROOM + 1, text.len(), 0]);
            self.report(case, ROOM, &text);
            self.report(case, other, &text);
        }
    }

    pub fn report(&mut self, case: &Case, length: usize, text: &[u8]) {
        let lent = vec![self.reported.next() as u8; length];
        let reply = self.planner.report(&case.bytes, &lent);
        let due = match lent.get(text.len()..) {
            Some(rest) if length >= ROOM => Due { answer: answer(0, text.len() as u64), after: [text, rest].concat() },
            _ => unchanged(too_short(ROOM), lent),
        };
        self.settle(case, "Report", &reply, Ok(due));
    }

    fn lines(&mut self, case: &Case) -> String {
        match &case.facts {
            Err(refusal) if refusal.number == 1 => "refused 1\n".to_string(),
            Err(refusal) => format!("refused {} {}\n", refusal.number, refusal.value),
            Ok(facts) => match facts.overloaded() {
                None => self.accepted_lines(case, facts),
                Some((kind, need)) => {
                    let shown = members(self.planner.set(&case.bytes).answer).map(|bit| format!(" {}", bit + 1));
                    format!("refused 7 {kind} {}{}\n", need.units, shown.collect::<String>())
                }
            },
        }
    }

    fn accepted_lines(&mut self, case: &Case, facts: &Facts) -> String {
        let (plan, starts) = (&facts.plan, facts.starts_written());
        let mut text = format!("plan {} {}\n", plan.size(), plan.kinds);
        for (k, need) in facts.needs_written().iter().enumerate() {
            text += &format!("need {} {need} {}\n", k + 1, plan.available[k]);
        }
        for (i, start) in starts[..plan.size()].iter().enumerate() {
            text += &format!("start {} {start}\n", i + 1);
        }
        text += &format!("end {}\n", starts[plan.size()]);
        for kind in 1..=plan.kinds {
            let flow = self.planner.flow(&case.bytes, kind as u64, &vec![0; facts.flow_bytes_needed()]);
            for record in flow.after.chunks(RECORD).take((flow.answer >> 8) as usize) {
                let units = u32::from_le_bytes([record[4], record[5], record[6], record[7]]);
                text += &format!("flow {} {} {} {units} {}\n", record[1], record[2], record[3], record[8]);
            }
        }
        text
    }
}
