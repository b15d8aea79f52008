//! Trim of a plan: byte for byte against the independent trim where all subsets can be tried, and by its rules where they
//! cannot.

use crate::bench::{answer, refused, spelled, too_short, unchanged, Bench, Due};
use crate::bytes::RECORD;
use crate::model::{Case, MOST_TRIED};
use crate::trim::{considered, may_go, trimmed, without};

/// What the verdict of a plan is, and what Trim must leave of it where it is accepted.
pub struct Left {
    verdict: u64,
    pub plan: Vec<u8>,
}

impl Bench {
    pub fn trims(&mut self, case: &Case) {
        let left = self.left(case);
        // A refused file gets as many bytes as it has too: it is not to be copied before it is judged.
        let [_, other] = self.lengths(case, |_| case.bytes.len());
        for length in [case.bytes.len(), other] {
            self.trim(case, length, &left);
        }
    }

    pub fn left(&mut self, case: &Case) -> Left {
        let verdict = self.planner.verdict(&case.bytes).answer;
        let plan = match &case.facts {
            Ok(facts) if facts.overloaded().is_some() => vec![],
            Ok(facts) if facts.plan.size() <= MOST_TRIED => trimmed(&case.bytes),
            Ok(_) => self.left_by_rules(&case.bytes),
            Err(_) => vec![],
        };
        Left { verdict, plan }
    }

    pub fn trim(&mut self, case: &Case, length: usize, left: &Left) {
        let lent = self.random.bytes(length);
        let reply = self.planner.trim(&case.bytes, &lent);
        let due = Ok(trim_due(case, lent, left));
        self.settle(case, "Trim", &reply, due);
    }

    /// What Trim itself leaves of an accepted plan, held to the rules.
    fn left_by_rules(&mut self, file: &[u8]) -> Vec<u8> {
        let reply = self.planner.trim(file, &vec![7; file.len()]);
        let written = reply.after.get(..RECORD * (reply.answer >> 8) as usize).filter(|_| reply.answer & 255 == 0);
        let Some(left) = written else {
            let differ = format!("answered {}, expected a plan", spelled(reply.answer));
            self.tally.count(file, "Trim", Err(differ));
            return vec![];
        };
        self.kept(file, left);
        let mut places = considered(left);
        self.random.shuffle(&mut places);
        places.truncate(3);
        self.no_fewer(left, places.into_iter().map(|place| vec![place]).collect());
        left.to_vec()
    }

    /// The plan left has the verdict of the given one, and its records in their order, but for some that may go.
    pub fn kept(&mut self, file: &[u8], left: &[u8]) {
        let mut next = left.chunks(RECORD).peekable();
        let gone = file.chunks(RECORD).filter(|record| next.next_if_eq(record).is_none());
        let only = gone.filter(|record| !may_go(record)).count() == 0 && next.next().is_none();
        let outcome = if only { Ok(()) } else { Err("other records are left than may be".to_string()) };
        self.tally.count(file, "Trim: records left", outcome);
        let verdicts = [file, left].map(|plan| self.planner.verdict(plan).answer);
        let differ = || Err(format!("the verdict is then {}", spelled(verdicts[1])));
        let equal = verdicts[0] == verdicts[1];
        self.tally.count(file, "Trim: verdict of what is left", if equal { Ok(()) } else { differ() });
    }

    /// Without the records at any of these places, of what was left, a kind is overloaded.
    pub fn no_fewer(&mut self, left: &[u8], further: Vec<Vec<usize>>) {
        for gone in further {
            let fewer = without(left, &gone.iter().copied().collect());
            let verdict = self.planner.verdict(&fewer).answer;
            let spare = || Err(format!("without the records {gone:?} it is {}", spelled(verdict)));
            self.tally.count(left, "Trim: nothing more may go", if verdict & 255 == 7 { Ok(()) } else { spare() });
        }
    }
}

fn trim_due(case: &Case, lent: Vec<u8>, left: &Left) -> Due<u8> {
    let needed = case.bytes.len();
    match &case.facts {
        Err(refusal) => unchanged(refused(refusal), lent),
        Ok(_) if lent.len() < needed => unchanged(too_short(needed), lent),
        Ok(facts) if facts.overloaded().is_some() => unchanged(left.verdict, lent),
        Ok(_) => {
            let (plan, count) = (&left.plan, left.plan.len() / RECORD);
            Due { answer: answer(0, count as u64), after: [plan, &lent[plan.len()..]].concat() }
        }
    }
}
