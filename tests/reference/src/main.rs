//! Holds the static library to an independent reading of the paper. The seed names the run; give
//! another one as the argument or in REFERENCE_SEED.

#![deny(unsafe_code)]

mod added;
mod bench;
mod big;
mod bytes;
mod cases;
mod check;
mod crew;
mod damage;
#[allow(unsafe_code)]
mod guard;
mod milestones;
mod model;
mod paging;
mod passing;
mod periods;
#[allow(unsafe_code)]
mod planner;
mod random;
mod read;
mod readings;
mod repeats;
mod reporting;
mod sheet;
mod sheets;
mod sweep;
mod tally;
#[allow(unsafe_code)]
mod trap;
mod trim;
mod trimming;
mod trims;
mod twins;
mod waits;

use std::process::ExitCode;
use std::time::Instant;

const SEED: u64 = 20_261_115;
const RANDOM_PLANS: usize = 6_000;
const BIG_PLANS: usize = 60;
const DAMAGED_PLANS: usize = 8;
const PASSING_PLANS: usize = 800;
const REPEATED_PLANS: usize = 400;
const TWIN_PLANS: usize = 400;
const ADDED_PLANS: usize = 1_200;
const TRIMMED_PLANS: usize = 6_000;

fn seed() -> u64 {
    let given = std::env::args().nth(1).or_else(|| std::env::var("REFERENCE_SEED").ok());
    given.map_or(SEED, |word| word.parse().expect("the seed is a whole number"))
}

fn main() -> ExitCode {
    let begun = Instant::now();
    let seed = seed();
    println!("seed {seed}");
    trap::install();
    let mut bench = bench::Bench::new(seed);
    let mut part = |name: &str, run: &dyn Fn(&mut bench::Bench)| {
        run(&mut bench);
        println!("{name}: done after {:.1} s", begun.elapsed().as_secs_f64());
    };
    part("plans A to F", &cases::plans_a_to_f);
    part("open points", &readings::readings);
    part("bounds", &big::bounds);
    part("periods", &periods::periods);
    part("crew sheets", &sheets::sheets);
    part("milestones", &milestones::milestones);
    part("milestones left out", &|bench| passing::passing(bench, PASSING_PLANS));
    part("repeated arcs", &|bench| repeats::repeats(bench, REPEATED_PLANS));
    part("waits", &waits::waits);
    part("other waits", &|bench| twins::twins(bench, TWIN_PLANS));
    part("added marks", &|bench| added::added(bench, ADDED_PLANS));
    part("trimmed plans", &|bench| trims::trims(bench, TRIMMED_PLANS));
    part("random plans", &|bench| sweep::random_plans(bench, RANDOM_PLANS));
    part("damaged plans", &|bench| damage::damaged_plans(bench, DAMAGED_PLANS));
    part("big plans", &|bench| big::big_plans(bench, BIG_PLANS));
    bench.tally.close();
    bench.tally.print_last_line();
    if bench.tally.all_passed() {
        ExitCode::SUCCESS
    } else {
        ExitCode::FAILURE
    }
}
