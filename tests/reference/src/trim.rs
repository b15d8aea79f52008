//! The independent trim: extra arcs of wait 0 are taken out one by one, each where what is left is still accepted. It works on
//! the file's records and reads what is left anew each time.

use crate::bytes::{EXTRA, RECORD, WAIT};
use crate::model::ordered;
use crate::read::{read, Plan};
use std::collections::BTreeSet;

/// Whether a record is an extra arc that may go. One with a wait never does.
pub fn may_go(record: &[u8]) -> bool {
    record[0] == EXTRA && record[WAIT] == [0, 0]
}

/// The places of the records that may go, by from, then to, wherever they stand in the file.
pub fn considered(file: &[u8]) -> Vec<usize> {
    let ends = |place: usize| file[RECORD * place + 1..][..2].to_vec();
    let mut places: Vec<usize> = (0..file.len() / RECORD).filter(|&place| may_go(&file[RECORD * place..])).collect();
    places.sort_by_key(|&place| ends(place));
    places
}

/// The file without the records at these places. The others stay in their order.
pub fn without(file: &[u8], gone: &BTreeSet<usize>) -> Vec<u8> {
    let records = file.chunks(RECORD).enumerate().filter(|(place, _)| !gone.contains(place));
    records.flat_map(|(_, record)| record).copied().collect()
}

/// The file after the records at these places, in this order, were each taken out if what was then left is accepted.
pub fn taken_out(file: &[u8], places: &[usize], mut accepts: impl FnMut(&[u8]) -> bool) -> Vec<u8> {
    let mut gone = BTreeSet::new();
    for &place in places {
        gone.insert(place);
        if !accepts(&without(file, &gone)) {
            gone.remove(&place);
        }
    }
    without(file, &gone)
}

/// The trimmed plan, by trying all subsets of its activities.
pub fn trimmed(file: &[u8]) -> Vec<u8> {
    taken_out(file, &considered(file), |left| accepted(left, 8))
}

/// Whether a file is accepted as far as the first so many kinds go.
pub fn accepted(file: &[u8], kinds: usize) -> bool {
    let Ok(plan) = read(file) else { return false };
    let Ok((_, order)) = ordered(&plan) else { return false };
    let left = std::array::from_fn(|kind| if kind < kinds { plan.available[kind] } else { u32::MAX });
    all_fit(&plan, &order.related_sets(), 0, 0, left)
}

/// Whether every set of these members and of others from this place on, no two of them ordered, finds what it demands in what
/// its members have left.
fn all_fit(plan: &Plan, related: &[u64], set: u64, place: usize, mut left: [u32; 8]) -> bool {
    if place == plan.size() {
        return true;
    }
    if !all_fit(plan, related, set, place + 1, left) {
        return false;
    }
    if related[place] & set != 0 {
        return true;
    }
    for (left, &demand) in left.iter_mut().zip(&plan.demands[place]) {
        match left.checked_sub(demand) {
            Some(rest) => *left = rest,
            None => return false,
        }
    }
    all_fit(plan, related, set | 1 << place, place + 1, left)
}
