//! The planner under test: the operations of the static library, called with guarded memory only.
//! Which library is tested is decided by the linker; nothing here stands in for it.

use crate::guard::{Lent, Plain};
use crate::trap::about_to_call;

extern "C" {
    fn yaffledesk_verdict(plan: *const u8, len: usize) -> u64;
    fn yaffledesk_set(plan: *const u8, len: usize) -> u64;
    fn yaffledesk_needs(plan: *const u8, len: usize, out: *mut u32, out_len: usize) -> u64;
    fn yaffledesk_starts(plan: *const u8, len: usize, out: *mut u32, out_len: usize) -> u64;
    fn yaffledesk_flow(plan: *const u8, len: usize, kind: u64, out: *mut u8, out_len: usize) -> u64;
    fn yaffledesk_sheet(plan: *const u8, len: usize, kind: u64, page: u64, out: *mut u8, out_len: usize) -> u64;
    fn yaffledesk_trim(plan: *const u8, len: usize, out: *mut u8, out_len: usize) -> u64;
    fn yaffledesk_overload(plan: *const u8, len: usize, out: *mut u8, out_len: usize) -> u64;
    fn yaffledesk_report(plan: *const u8, len: usize, out: *mut u8, out_len: usize) -> u64;
    fn yaffledesk_crew_check(
        plan: *const u8,
        len: usize,
        starts: *const u32,
        starts_len: usize,
        durations: *const u32,
        durations_len: usize,
    ) -> u64;
}

/// What came back: the answer, the lent memory afterwards, and any harm to what was not to be written.
pub struct Reply<T> {
    pub answer: u64,
    pub after: Vec<T>,
    pub harm: Option<&'static str>,
}

pub struct Planner {
    plan: Lent<u8>,
    bytes: Lent<u8>,
    text: Lent<u8>,
    numbers: Lent<u32>,
    starts: Lent<u32>,
    durations: Lent<u32>,
}

impl Planner {
    pub fn new() -> Planner {
        Planner {
            plan: Lent::new(1 << 16),
            bytes: Lent::new(1 << 16),
            text: Lent::new(1 << 20),
            numbers: Lent::new(1 << 12),
            starts: Lent::new(1 << 12),
            durations: Lent::new(1 << 12),
        }
    }

    pub fn verdict(&mut self, plan: &[u8]) -> Reply<u8> {
        self.lend_plan("Verdict", plan);
        // SAFETY: the pointer and length are those of the lent plan.
        let answer = unsafe { yaffledesk_verdict(self.plan.pointer(), self.plan.length()) };
        Reply { answer, after: Vec::new(), harm: harm_to_input(&self.plan, plan) }
    }

    pub fn set(&mut self, plan: &[u8]) -> Reply<u8> {
        self.lend_plan("Set", plan);
        // SAFETY: as in `verdict`.
        let answer = unsafe { yaffledesk_set(self.plan.pointer(), self.plan.length()) };
        Reply { answer, after: Vec::new(), harm: harm_to_input(&self.plan, plan) }
    }

    pub fn needs(&mut self, plan: &[u8], lent: &[u32]) -> Reply<u32> {
        self.lend_plan("Needs", plan);
        self.numbers.fill(lent);
        let (out, length) = (self.numbers.pointer(), self.numbers.length());
        // SAFETY: pointers and lengths are those of the lent plan and numbers, two separate mappings.
        let answer = unsafe { yaffledesk_needs(self.plan.pointer(), self.plan.length(), out, length) };
        reply(answer, &self.numbers, harm_to_input(&self.plan, plan))
    }

    pub fn starts(&mut self, plan: &[u8], lent: &[u32]) -> Reply<u32> {
        self.lend_plan("Starts", plan);
        self.numbers.fill(lent);
        let (out, length) = (self.numbers.pointer(), self.numbers.length());
        // SAFETY: as in `needs`.
        let answer = unsafe { yaffledesk_starts(self.plan.pointer(), self.plan.length(), out, length) };
        reply(answer, &self.numbers, harm_to_input(&self.plan, plan))
    }

    pub fn flow(&mut self, plan: &[u8], kind: u64, lent: &[u8]) -> Reply<u8> {
        self.lend_plan("Flow", plan);
        self.bytes.fill(lent);
        let (out, length) = (self.bytes.pointer(), self.bytes.length());
        // SAFETY: as in `needs`, with bytes lent instead of numbers.
        let answer = unsafe { yaffledesk_flow(self.plan.pointer(), self.plan.length(), kind, out, length) };
        reply(answer, &self.bytes, harm_to_input(&self.plan, plan))
    }

    pub fn sheet(&mut self, plan: &[u8], kind: u64, page: u64, lent: &[u8]) -> Reply<u8> {
        self.lend_plan("Sheet", plan);
        self.bytes.fill(lent);
        let (out, length) = (self.bytes.pointer(), self.bytes.length());
        // SAFETY: as in `flow`.
        let answer = unsafe { yaffledesk_sheet(self.plan.pointer(), self.plan.length(), kind, page, out, length) };
        reply(answer, &self.bytes, harm_to_input(&self.plan, plan))
    }

    pub fn trim(&mut self, plan: &[u8], lent: &[u8]) -> Reply<u8> {
        self.lend_plan("Trim", plan);
        self.bytes.fill(lent);
        let (out, length) = (self.bytes.pointer(), self.bytes.length());
        // SAFETY: as in `flow`.
        let answer = unsafe { yaffledesk_trim(self.plan.pointer(), self.plan.length(), out, length) };
        reply(answer, &self.bytes, harm_to_input(&self.plan, plan))
    }

    pub fn overload(&mut self, plan: &[u8], lent: &[u8]) -> Reply<u8> {
        self.lend_plan("Overload", plan);
        self.bytes.fill(lent);
        let (out, length) = (self.bytes.pointer(), self.bytes.length());
        // SAFETY: as in `flow`.
        let answer = unsafe { yaffledesk_overload(self.plan.pointer(), self.plan.length(), out, length) };
        reply(answer, &self.bytes, harm_to_input(&self.plan, plan))
    }

    pub fn report(&mut self, plan: &[u8], lent: &[u8]) -> Reply<u8> {
        self.lend_plan("Report", plan);
        self.text.fill(lent);
        let (out, length) = (self.text.pointer(), self.text.length());
        // SAFETY: as in `flow`.
        let answer = unsafe { yaffledesk_report(self.plan.pointer(), self.plan.length(), out, length) };
        reply(answer, &self.text, harm_to_input(&self.plan, plan))
    }

    pub fn crew_check(&mut self, plan: &[u8], starts: &[u32], durations: &[u32]) -> Reply<u8> {
        self.lend_plan("Crew check", plan);
        self.starts.fill(starts);
        self.durations.fill(durations);
        let (begin, begins) = (self.starts.pointer(), self.starts.length());
        let (worked, count) = (self.durations.pointer(), self.durations.length());
        // SAFETY: pointers and lengths are those of the three lent inputs.
        let answer =
            unsafe { yaffledesk_crew_check(self.plan.pointer(), self.plan.length(), begin, begins, worked, count) };
        let harm = harm_to_input(&self.plan, plan)
            .or(harm_to_input(&self.starts, starts))
            .or(harm_to_input(&self.durations, durations));
        Reply { answer, after: Vec::new(), harm }
    }

    fn lend_plan(&mut self, operation: &'static str, plan: &[u8]) {
        about_to_call(operation, plan);
        self.plan.fill(plan);
    }
}

fn reply<T: Plain>(answer: u64, lent: &Lent<T>, harm: Option<&'static str>) -> Reply<T> {
    let before = (!lent.canaries_live()).then_some("memory before the lent slice was written");
    Reply { answer, after: lent.content().to_vec(), harm: harm.or(before) }
}

fn harm_to_input<T: Plain>(lent: &Lent<T>, given: &[T]) -> Option<&'static str> {
    if lent.content() != given {
        return Some("an input was written");
    }
    (!lent.canaries_live()).then_some("memory before an input was written")
}
