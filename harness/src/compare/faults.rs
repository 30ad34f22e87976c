//! Faults put into settings and lists that had none.

use crate::model::rules::{BYTES, ELEMENTS, MOST};
use crate::{ffi::Settings, list::List, rng::Rng};

/// A number over the limit: the next one, one of the highest, or any.
fn over(rng: &mut Rng, limit: u64) -> u64 {
    match rng.below(4) {
        0 => limit + 1,
        1 => u64::MAX - rng.below(2),
        // The limit would be kept to if only the low bits were looked at.
        2 => {
            let lowest = u64::from(u64::BITS - limit.leading_zeros());
            limit | 1 << (lowest + rng.below(u64::from(u64::BITS) - lowest))
        }
        _ => limit + 1 + rng.below(u64::MAX - limit),
    }
}

/// A whole number out of range; X has no fault.
pub fn in_settings(rng: &mut Rng, s: &mut Settings) {
    match rng.below(5) {
        0 => s.set_size = if rng.below(3) == 0 { 0 } else { over(rng, MOST.set_size) },
        1 => s.proof_size = over(rng, MOST.proof_size),
        2 => s.max_retries = over(rng, MOST.max_retries),
        3 => s.search_width = over(rng, MOST.search_width),
        _ => s.dfs_bound = over(rng, MOST.dfs_bound),
    }
}

/// A fault of any kind at any place.
pub fn in_list(rng: &mut Rng, list: &mut List) {
    let (fault, place) = (rng.below(IN_LISTS), rng.below(list.len().max(1) as u64) as usize);
    at_place(rng, list, fault, place);
}

/// A fault of any kind but the one that makes a list very long, at any place.
pub fn in_short_list(rng: &mut Rng, list: &mut List) {
    let (fault, place) = (rng.below(IN_LISTS - 1), rng.below(list.len().max(1) as u64) as usize);
    let fault = if fault == TOO_MANY { IN_LISTS - 1 } else { fault };
    at_place(rng, list, fault, place);
}

/// How many kinds of faults a list can have here.
pub const IN_LISTS: u64 = 9;
/// The one that makes a list very long.
const TOO_MANY: u64 = 7;

/// A fault of this kind, where it has a place at this one.
pub fn at_place(rng: &mut Rng, list: &mut List, fault: u64, place: usize) {
    match fault {
        0 => one_off(rng, &mut list.ends, 0),
        1 => one_off(rng, &mut list.marks, 0),
        2 => one_off(rng, &mut list.indexes, 0),
        3 => set(&mut list.marks, place, 2 + rng.below(254) as u8),
        4 if place > 0 && list.ends.get(place - 1).is_some_and(|end| *end > 0) => {
            let before = u64::from(list.ends[place - 1]);
            set(&mut list.ends, place, rng.below(before) as u32);
        }
        5 => {
            let past = list.data.len() as u64 + 1;
            let end = past + if rng.below(2) == 0 { 0 } else { rng.below((1 << 32) - past) };
            set(&mut list.ends, place, end as u32);
        }
        6 => list.push(&[0x11; BYTES + 1], None, 0),
        TOO_MANY => {
            let over = ELEMENTS + 1 + rng.below(9) as usize;
            (list.len()..over).for_each(|_| list.push(&[], None, 0));
        }
        // The data's own end comes too early.
        _ => {
            list.data.pop();
        }
    }
}

fn set<T>(numbers: &mut [T], place: usize, number: T) {
    if let Some(there) = numbers.get_mut(place) {
        *there = number;
    }
}

/// One number more or less.
fn one_off<T>(rng: &mut Rng, numbers: &mut Vec<T>, more: T) {
    if rng.below(2) == 0 {
        numbers.push(more);
    } else {
        numbers.pop();
    }
}

/// So many elements of one byte, or of none.
pub fn long_list(len: usize, bytes: usize) -> List {
    let mut list = List::default();
    for place in 0..len {
        list.push(&vec![place as u8; bytes], (place % 2 == 0).then_some(place as u64), 7);
    }
    list
}

/// Lists with their number: those at the limits, those one over, and those with another fault at their very end.
pub fn large_lists() -> Vec<List> {
    let mut lists = vec![
        long_list(ELEMENTS, 1),
        long_list(ELEMENTS + 1, 1),
        long_list(ELEMENTS + 1, 0),
        long_list(70_000, 1),
        long_list(3, BYTES),
        long_list(3, BYTES + 1),
    ];
    for len in [70_000, ELEMENTS, ELEMENTS + 1] {
        let whole = long_list(len, 1);
        let last = len - 1;
        let mut bad = [whole.clone(), whole.clone(), whole.clone(), whole.clone(), whole];
        bad[0].marks[last] = 2;
        bad[1].ends[last] += 1;
        bad[2].ends[last] -= 2;
        bad[3].marks.pop();
        bad[4].indexes.push(0);
        lists.extend(bad);
    }
    // Too long an element first, then a mark over 1, and the other way about.
    let mut long_first = long_list(3, BYTES + 1);
    long_first.marks[2] = 2;
    let mut mark_first = long_list(3, BYTES + 1);
    mark_first.marks[0] = 255;
    lists.extend([long_first, mark_first]);
    lists
}
