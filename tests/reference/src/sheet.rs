//! The independent crew sheet: the pages of one kind, from the records of its flow and the earliest starts.

use crate::bytes::RECORD;

/// 60 lines of 40 characters and a newline.
pub const PAGE: usize = 2_460;
/// The first line of a page has no record.
pub const RECORDS: usize = 59;

/// Compared as the lines ascend: by the receiver's start, then from, then to.
#[derive(PartialEq, Eq, PartialOrd, Ord)]
struct Handover {
    start: u32,
    from: u8,
    to: u8,
    units: u32,
}

/// The records are those of a flow, and node i's start is entry i - 1: the activities, then the end.
pub fn pages(kind: u64, flow: &[u8], starts: &[u32]) -> Vec<Vec<u8>> {
    let mut handovers: Vec<Handover> = flow.chunks(RECORD).map(|record| handover(record, starts)).collect();
    handovers.sort();
    let mut filled: Vec<&[Handover]> = handovers.chunks(RECORDS).collect();
    if filled.is_empty() {
        filled.push(&[]);
    }
    filled.iter().zip(1..).map(|(handovers, number)| page(kind, number, handovers)).collect()
}

fn handover(record: &[u8], starts: &[u32]) -> Handover {
    let to = record[3];
    let units = record[4..8].try_into().map(u32::from_le_bytes).expect("four bytes");
    Handover { start: starts[to as usize - 1], from: record[2], to, units }
}

fn page(kind: u64, number: u64, handovers: &[Handover]) -> Vec<u8> {
    let mut text = line(&format!("KIND {kind:>1} {number:>3}"));
    for Handover { start, from, to, units } in handovers {
        text += &line(&format!("{from:>3} {to:>3} {units:>8} {start:>10}"));
    }
    while text.len() < PAGE {
        text += &line("");
    }
    text.into_bytes()
}

fn line(words: &str) -> String {
    format!("{words:<40}\n")
}
