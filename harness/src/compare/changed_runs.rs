//! Changes of a run between prepare and commit: of what the digest covers, each by itself, and of what nobody reads.

use crate::model::threshold::Threshold::Alone;
use crate::{ffi::Settings, list::List, rng::Rng};

/// A change, and whether the run has what it changes.
type Change = fn(&mut Rng, &mut Settings, &mut List) -> bool;

/// One change of what the digest covers.
pub const COVERED: [(&str, Change); 16] = [
    ("changed: set_size", |rng, s, _| other(rng, &mut s.set_size)),
    ("changed: proof_size", |rng, s, _| other(rng, &mut s.proof_size)),
    ("changed: max_retries", |rng, s, _| other(rng, &mut s.max_retries)),
    ("changed: search_width", |rng, s, _| other(rng, &mut s.search_width)),
    ("changed: dfs_bound", |rng, s, _| other(rng, &mut s.dfs_bound)),
    ("changed: the high word of X", |rng, s, _| with_bit(rng, s, 64)),
    ("changed: the low word of X", |rng, s, _| with_bit(rng, s, 0)),
    ("changed: an element more", |_, _, list| one_more(list)),
    ("changed: the last element is gone", |_, _, list| kept_but(list, list.len().wrapping_sub(1))),
    ("changed: another element is gone", |rng, _, list| kept_but(list, rng.below(list.len().max(1) as u64) as usize)),
    ("changed: a byte of data", a_byte),
    ("changed: the data of one element a byte longer", |rng, _, list| with_len(rng, list, 1)),
    ("changed: the data of one element a byte shorter", |rng, _, list| with_len(rng, list, -1)),
    ("changed: a mark", |rng, _, list| any_place(rng, list).map(|place| list.marks[place] ^= 1).is_some()),
    ("changed: an index", an_index),
    ("changed: the order of two elements", exchanged),
];

/// One change of what nobody reads.
pub const UNREAD: [(&str, Change); 2] =
    [("the same: data behind the last element", behind), ("the same: a number beside the mark 0", beside)];

/// Mostly the next number or the one before.
fn other(rng: &mut Rng, number: &mut u64) -> bool {
    let was = *number;
    *number = match rng.below(4) {
        0 => was ^ 1 << rng.below(17),
        1 => was.wrapping_sub(1),
        _ => was + 1,
    };
    true
}

/// X with one of 64 bits another.
fn with_bit(rng: &mut Rng, s: &mut Settings, from: u64) -> bool {
    s.x = Alone(s.x.x() ^ 1 << (from + rng.below(64)));
    true
}

/// An element without data and index behind the last.
fn one_more(list: &mut List) -> bool {
    list.push(&[], None, 0);
    true
}

fn kept_but(list: &mut List, gone: usize) -> bool {
    let is_there = gone < list.len();
    if is_there {
        *list = list.at(&(0..list.len() as u32).filter(|place| *place as usize != gone).collect::<Vec<u32>>());
    }
    is_there
}

/// A bit of the data of some element.
fn a_byte(rng: &mut Rng, _: &mut Settings, list: &mut List) -> bool {
    let len = list.ends.last().map_or(0, |end| u64::from(*end));
    if len > 0 {
        list.data[rng.below(len) as usize] ^= 1 << rng.below(8);
    }
    len > 0
}

/// The end of one element moved by a byte, so that the next one, or what is behind the last, begins elsewhere in the same data.
fn with_len(rng: &mut Rng, list: &mut List, by: i64) -> bool {
    let Some(place) = any_place(rng, list) else {
        return false;
    };
    let start = if place == 0 { 0 } else { i64::from(list.ends[place - 1]) };
    let end = i64::from(list.ends[place]) + by;
    let next = list.ends.get(place + 1).map_or(list.data.len() as i64, |next| i64::from(*next));
    let has_room = (start..=next).contains(&end);
    if has_room {
        list.ends[place] = end as u32;
    }
    has_room
}

fn an_index(rng: &mut Rng, _: &mut Settings, list: &mut List) -> bool {
    let place = any_place(rng, list).filter(|place| list.marks[*place] == 1);
    place.map(|place| list.indexes[place] ^= 1 << rng.below(64)).is_some()
}

/// Two elements that aren't the same, each in the other's place.
fn exchanged(rng: &mut Rng, _: &mut Settings, list: &mut List) -> bool {
    let (Some(one), Some(other)) = (any_place(rng, list), any_place(rng, list)) else {
        return false;
    };
    let mut places: Vec<u32> = (0..list.len() as u32).collect();
    places.swap(one, other);
    let is_other = (list.data_of(one), list.index_of(one)) != (list.data_of(other), list.index_of(other));
    if is_other {
        *list = list.at(&places);
    }
    is_other
}

fn behind(rng: &mut Rng, _: &mut Settings, list: &mut List) -> bool {
    let end = list.ends.last().map_or(0, |end| *end as usize);
    list.data.truncate(end);
    let more = rng.below(80) as usize;
    list.data.resize(end + more, rng.word() as u8);
    true
}

fn beside(rng: &mut Rng, _: &mut Settings, list: &mut List) -> bool {
    let place = any_place(rng, list).filter(|place| list.marks[*place] == 0);
    place.map(|place| list.indexes[place] = rng.word()).is_some()
}

fn any_place(rng: &mut Rng, list: &List) -> Option<usize> {
    (list.len() > 0).then(|| rng.below(list.len() as u64) as usize)
}

#[cfg(test)]
mod tests {
    use super::*;
    use crate::compare::searches;
    use crate::model::prepare;

    /// Each change of the one kind alters the bytes that are hashed, and none of the other does.
    #[test]
    fn what_is_covered() {
        let mut rng = Rng::new(1, 0);
        for _ in 0..300 {
            let s = searches::any_settings(&mut rng);
            let list = searches::any_list(&mut rng, s.set_size as usize);
            for (is_covered, (name, change)) in COVERED.map(|c| (true, c)).into_iter().chain(UNREAD.map(|c| (false, c))) {
                let (mut s2, mut list2) = (s, list.clone());
                if change(&mut rng, &mut s2, &mut list2) {
                    assert_eq!(prepare::bytes(&s, &list) != prepare::bytes(&s2, &list2), is_covered, "{name}");
                }
            }
        }
    }
}
