//! Valid files with bytes damaged, cut short, lengthened, with records moved about and with arcs repeated.

use crate::bench::Bench;
use crate::bytes::{ACTIVITY, RECORD};
use crate::model::Case;
use crate::random::Random;
use crate::read::is_arc;
use crate::sweep::{around, random_draft};

/// Damages `count` random files of at most 7 activities in every way below.
pub fn damaged_plans(bench: &mut Bench, count: usize) {
    for _ in 0..count {
        let file = some_file(&mut bench.random);
        every_byte(bench, &file);
        several_bytes(bench, &file);
        no_duration(bench, &file);
        moved_records(bench, &file);
        repeated_arcs(bench, &file);
    }
    let file = some_file(&mut bench.random);
    for length in 0..file.len() {
        bench.all(&Case::new(file[..length].to_vec()));
    }
}

fn some_file(random: &mut Random) -> Vec<u8> {
    let size = random.between(2, 7) as usize;
    let mut draft = random_draft(random, size, 9);
    draft.job.truncate(4);
    draft.extra.truncate(4);
    // The availabilities need no exact relation to the needs here, only some of both verdicts.
    let guess: Vec<u32> = (0..draft.kinds).map(|_| random.below(20) as u32).collect();
    draft.available = around(random, &guess);
    draft.bytes()
}

fn every_byte(bench: &mut Bench, file: &[u8]) {
    for place in 0..file.len() {
        let old = file[place];
        let random = bench.random.next() as u8;
        let mut values = vec![0, 1, 255, old.wrapping_add(1), old.wrapping_sub(1), old ^ 128, random];
        values.sort();
        values.dedup();
        for value in values.into_iter().filter(|&value| value != old) {
            let mut damaged = file.to_vec();
            damaged[place] = value;
            bench.all(&Case::new(damaged));
        }
    }
}

/// Two or three faults at once: the earlier record wins, and within it 2, 3, 12, 4, 13.
fn several_bytes(bench: &mut Bench, file: &[u8]) {
    for _ in 0..300 {
        let mut damaged = file.to_vec();
        let within = bench.random.index(file.len() / RECORD);
        for _ in 0..bench.random.between(2, 3) {
            // Half of them in one record, at its type, its fields, the wait of an arc among them, or its spare bytes.
            let byte = bench.random.pick(&[0, 1, 2, 3, 4, 5, 6, 19, 20, 23]);
            let anywhere = bench.random.index(file.len());
            let place = if bench.random.percent(50) { within * RECORD + byte } else { anywhere };
            let any = bench.random.next() as u8;
            damaged[place] = bench.random.pick(&[0, 1, 2, 3, 4, 5, 8, 9, 255, any]);
        }
        bench.all(&Case::new(damaged));
    }
}

/// Each activity with duration 0, which is a milestone or refused as 12, alone and with one more byte damaged.
fn no_duration(bench: &mut Bench, file: &[u8]) {
    for (place, _) in file.chunks(RECORD).enumerate().filter(|(_, record)| record[0] == ACTIVITY) {
        let mut damaged = file.to_vec();
        damaged[RECORD * place + 2..][..2].fill(0);
        bench.all(&Case::new(damaged.clone()));
        for _ in 0..12 {
            let byte = bench.random.pick(&[0, 1, 4, 18, 19, 20, 23]);
            let anywhere = bench.random.index(file.len());
            let mut twice = damaged.clone();
            twice[if bench.random.percent(70) { RECORD * place + byte } else { anywhere }] = bench.random.next() as u8;
            bench.all(&Case::new(twice));
        }
    }
}

/// Records swapped, doubled and left out: types and numbers out of order, no crew, two crews, an arc twice.
fn moved_records(bench: &mut Bench, file: &[u8]) {
    for _ in 0..60 {
        let mut records: Vec<&[u8]> = file.chunks(RECORD).collect();
        let (one, two) = (bench.random.index(records.len()), bench.random.index(records.len()));
        match bench.random.below(3) {
            0 => records.swap(one, two),
            1 => records.insert(one, records[two]),
            _ => drop(records.remove(one)),
        }
        bench.all(&Case::new(records.concat()));
    }
}

/// Each arc record copied over each other one and put before it, alone and with one more byte damaged. Where both are of
/// the same type that is 13 at the later of the two, be it with another wait.
fn repeated_arcs(bench: &mut Bench, file: &[u8]) {
    let records: Vec<&[u8]> = file.chunks(RECORD).collect();
    let arcs: Vec<usize> = (0..records.len()).filter(|&place| is_arc(records[place])).collect();
    for (one, two) in arcs.iter().flat_map(|&one| arcs.iter().map(move |&two| (one, two))) {
        let (mut over, mut more) = (records.clone(), records.clone());
        over[two] = records[one];
        more.insert(two, records[one]);
        for mut damaged in [over.concat(), more.concat()] {
            bench.all(&Case::new(damaged.clone()));
            let byte = bench.random.pick(&[0, 1, 2, 3, 4, 5, 6, 23]);
            let within = bench.random.pick(&[one, two]);
            damaged[RECORD * within + byte] = bench.random.pick(&[0, 1, 2, 3, 4, 5]);
            bench.all(&Case::new(damaged));
        }
    }
}
