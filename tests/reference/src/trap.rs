//! Turns a fault inside the library (a guard page touched, an abort, a call that never ends) into
//! a failure that names the operation and the plan.

use crate::bytes::hex;
use std::sync::atomic::{AtomicU64, Ordering};
use std::sync::Mutex;

extern "C" {
    fn signal(number: i32, handler: extern "C" fn(i32)) -> usize;
    fn alarm(seconds: u32) -> u32;
}

const ILLEGAL: i32 = 4;
const TRAP: i32 = 5;
const ABORT: i32 = 6;
const BUS: i32 = 7;
const ARITHMETIC: i32 = 8;
const SEGMENT: i32 = 11;
const ALARM: i32 = 14;
const MOST_SECONDS: u32 = 180;

static UNDER_WAY: Mutex<(&str, Vec<u8>)> = Mutex::new(("no operation", Vec::new()));
static PASSED: AtomicU64 = AtomicU64::new(0);
static FAILED: AtomicU64 = AtomicU64::new(0);

pub fn install() {
    for number in [ILLEGAL, TRAP, ABORT, BUS, ARITHMETIC, SEGMENT, ALARM] {
        // SAFETY: the handler never returns; the faults come from the library, not from printing.
        unsafe { signal(number, report) };
    }
    // SAFETY: only sets the clock for ALARM.
    unsafe { alarm(MOST_SECONDS) };
}

/// Called before each call into the library.
pub fn about_to_call(operation: &'static str, plan: &[u8]) {
    let mut under_way = UNDER_WAY.lock().expect("one thread");
    under_way.0 = operation;
    under_way.1.clear();
    under_way.1.extend_from_slice(plan);
}

pub fn note(passed: u64, failed: u64) {
    PASSED.store(passed, Ordering::Relaxed);
    FAILED.store(failed, Ordering::Relaxed);
}

extern "C" fn report(number: i32) {
    if let Ok(under_way) = UNDER_WAY.try_lock() {
        println!("FAILED {}: signal {number}", under_way.0);
        println!("  plan {}", hex(&under_way.1));
    }
    let failed = FAILED.load(Ordering::Relaxed) + 1;
    println!("{} passed, {failed} failed", PASSED.load(Ordering::Relaxed));
    std::process::exit(1);
}
