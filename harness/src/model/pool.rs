//! Two lists pooled, by the request's words: the first list, then each element of the second that equals none of the first. An element is
//! its data with an index or none, so that two are equal when data and mark agree and, where the mark is 1, the index.

use super::rules::{self, ELEMENTS};
use crate::{ffi, ffi::Settings, list::List};
use std::collections::HashSet;

/// The places of the second list whose elements are added to the first. Both lists are lawful.
pub fn added(first: &List, second: &List) -> Vec<u32> {
    let in_first: HashSet<(&[u8], Option<u64>)> = (0..first.len()).map(|place| (first.data_of(place), first.index_of(place))).collect();
    let is_added = |place: &usize| !in_first.contains(&(second.data_of(*place), second.index_of(*place)));
    (0..second.len()).filter(is_added).map(|place| place as u32).collect()
}

/// The pool of two lawful lists, written out as one list.
pub fn written_out(first: &List, second: &List) -> List {
    let mut pool = first.clone();
    for place in added(first, second).into_iter().map(|place| place as usize) {
        pool.push(second.data_of(place), second.index_of(place), second.indexes[place]);
    }
    pool
}

/// The pool, or the number of the first refusal: the first list's, then the second's, then that of too large a pool.
pub fn pool(first: &List, second: &List) -> Result<List, u32> {
    rules::list(first)?;
    rules::list(second)?;
    let pool = written_out(first, second);
    if pool.len() > ELEMENTS {
        return Err(ffi::POOL_TOO_LARGE);
    }
    Ok(pool)
}

/// The data of the pool's element at a place; none past the pool and where there is no pool.
pub fn data_at(pool: &Result<List, u32>, place: u64) -> &[u8] {
    match pool {
        Ok(pool) if place < pool.len() as u64 => pool.data_of(place as usize),
        _ => &[],
    }
}

/// What the prover over the pool meets before it searches: the lines of settings, those above, workspace and too few elements.
pub fn prover(s: &Settings, pool: &Result<List, u32>, places: usize, table: usize) -> Result<(), u32> {
    rules::settings(s)?;
    let pool = pool.as_ref().map_err(|number| *number)?;
    rules::workspace(s, pool.len(), places, table)
}

/// The numbers are those of the specification's table and of the request, written out.
#[cfg(test)]
mod tests {
    use super::*;
    use crate::compare::faults;
    use crate::model::threshold::Threshold::Alone;

    /// Elements by their data, mark and number, the index where the mark is 1.
    fn of(elements: &[(&[u8], u8, u64)]) -> List {
        let mut list = List::default();
        elements.iter().for_each(|(data, mark, number)| list.push(data, (*mark == 1).then_some(*number), *number));
        list
    }

    #[test]
    fn which_elements_are_added() {
        let first = of(&[(b"a", 1, 7), (b"b", 0, 7), (b"", 1, 0)]);
        let is_added = |element| added(&first, &of(&[element])) == [0];
        // Equal to one of the first; a number beside the mark 0 isn't looked at.
        assert!(!is_added((b"a", 1, 7)) && !is_added((b"b", 0, 7)) && !is_added((b"b", 0, 8)) && !is_added((b"", 1, 0)));
        // Another index, mark or data.
        assert!(
            is_added((b"a", 1, 8)) && is_added((b"a", 0, 7)) && is_added((b"b", 1, 7)) && is_added((b"", 0, 0)) && is_added((b"c", 1, 7))
        );
        // One's data and index as the other's data.
        assert!(is_added((b"a\0\0\0\0\0\0\0\x07", 0, 7)));
    }

    #[test]
    fn the_first_comes_first_and_repeats_within_a_list_stay() {
        let first = of(&[(b"a", 0, 1), (b"a", 0, 2), (b"b", 0, 3)]);
        let second = of(&[(b"c", 0, 4), (b"a", 0, 5), (b"c", 0, 6), (b"b", 1, 3)]);
        assert_eq!(written_out(&first, &second), of(&[(b"a", 0, 1), (b"a", 0, 2), (b"b", 0, 3), (b"c", 0, 4), (b"c", 0, 6), (b"b", 1, 3)]));
        assert_eq!(written_out(&second, &first), of(&[(b"c", 0, 4), (b"a", 0, 5), (b"c", 0, 6), (b"b", 1, 3), (b"b", 0, 3)]));
        // Data behind the last end isn't an element's.
        let mut stray = first.clone();
        stray.data.extend(b"stray");
        assert_eq!(written_out(&stray, &second), written_out(&first, &second));
        assert_eq!((written_out(&first, &first), written_out(&first, &List::default())), (first.clone(), first.clone()));
        assert_eq!(written_out(&List::default(), &first), first);
    }

    #[test]
    fn the_data_at_a_place() {
        let pool = pool(&of(&[(b"a", 0, 1)]), &of(&[(b"a", 0, 2), (b"bc", 0, 3)]));
        let at = |place| data_at(&pool, place);
        assert_eq!([at(0), at(1), at(2), at(u64::MAX)], [&b"a"[..], b"bc", b"", b""]);
        assert_eq!(data_at(&Err(45), 0), b"");
    }

    /// A call with every fault meets the first line; with that one mended, the next; and so on.
    #[test]
    fn the_order_of_the_lines() {
        let (full, other) = (faults::long_list(65_536, 0), of(&[(b"a", 0, 0)]));
        let (mut first, mut second) = (faults::long_list(2, 4097), faults::long_list(2, 4097));
        (first.marks[1], second.marks[1]) = (2, 2);
        let number = |first: &List, second: &List| pool(first, second).map(|pool| pool.len());
        assert_eq!(number(&first, &second), Err(4));
        first.marks[1] = 0;
        assert_eq!(number(&first, &second), Err(5));
        assert_eq!(number(&full, &second), Err(4));
        second.marks[1] = 0;
        assert_eq!(number(&full, &second), Err(5));
        assert_eq!((number(&full, &other), number(&other, &full)), (Err(45), Err(45)));
        assert_eq!((number(&full, &full), number(&full, &List::default())), (Ok(65_536), Ok(65_536)));

        let mut s = Settings { set_size: 0, proof_size: 1025, ..rules::MOST };
        s.x = Alone(0);
        let refused = |s: &Settings, pool: &Result<List, u32>, places, table| prover(s, pool, places, table).expect_err("a refusal");
        assert_eq!(refused(&s, &Err(4), 0, 0), 1);
        s.set_size = 3;
        assert_eq!(refused(&s, &Err(4), 0, 0), 2);
        s.proof_size = 4;
        assert_eq!((refused(&s, &Err(4), 0, 0), refused(&s, &Err(45), 0, 0)), (4, 45));
        let pool = pool(&other, &other);
        assert_eq!((refused(&s, &pool, 3, 10), refused(&s, &pool, 4, 9), refused(&s, &pool, 4, 10)), (6, 6, 10));
        s.set_size = 1;
        assert_eq!(prover(&s, &pool, 4, 4), Ok(()));
    }
}
