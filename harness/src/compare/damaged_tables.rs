//! Bin tables that aren't the one of the list, the set size and the retry counter: with one number another, and whole ones that are made
//! otherwise.

use crate::model::products::Common;
use crate::model::rules;
use crate::rng::Rng;

/// What a number is in a table of so many bins. The last are behind it, and nobody's.
pub const PARTS: [&str; 6] = [
    "table, another number: the first start",
    "table, another number: a start between",
    "table, another number: the last start",
    "table, another number: a stored place",
    "table, another number: a zero behind the places",
    "table, another number: behind the table",
];
/// The one that no answer depends on.
pub const BEHIND: &str = PARTS[5];

/// Which of these a number of the right table is.
pub fn part_of(right: &[u32], set_size: u64, at: usize) -> &'static str {
    let n = set_size as usize;
    let stored = right[n] as usize;
    PARTS[match at {
        0 => 0,
        _ if at < n => 1,
        _ if at == n => 2,
        _ if at <= n + stored => 3,
        _ if at <= 3 * n => 4,
        _ => 5,
    }]
}

/// The next number, the one before, one that differs in its highest bit alone, and any other.
pub fn others(rng: &mut Rng, number: u32) -> [u32; 4] {
    let any = number ^ (1 << rng.below(32)) ^ (rng.word() as u32 & 0xff00);
    [number.wrapping_add(1), number.wrapping_sub(1), number ^ 1 << 31, if any == number { !number } else { any }]
}

/// A table in place of the right one.
type Made = fn(&mut Rng, &Common, u64) -> Vec<u32>;

pub const WHOLE: [(&str, Made); 9] = [
    ("table: of the next retry counter", |_, common, n| rules::bin_table(&common.list, n, common.retry_counter.wrapping_add(1))),
    ("table: of the retry counter before", |_, common, n| rules::bin_table(&common.list, n, common.retry_counter.wrapping_sub(1))),
    ("table: of a bin more", |_, common, n| rules::bin_table(&common.list, n + 1, common.retry_counter)),
    ("table: of a bin less", |_, common, n| rules::bin_table(&common.list, (n - 1).max(1), common.retry_counter)),
    ("table: of the list with two elements exchanged", exchanged),
    ("table: zeros alone", |_, _, n| vec![0; 3 * n as usize + 1]),
    ("table: places descending in each bin", |_, common, n| stored(common, n, |bin| bin.reverse(), 0)),
    ("table: places counted from 1", |_, common, n| stored(common, n, |bin| bin.iter_mut().for_each(|place| *place += 1), 0)),
    ("table: starts counted from the first number", |_, common, n| stored(common, n, |_| (), n as u32 + 1)),
];

fn exchanged(rng: &mut Rng, common: &Common, set_size: u64) -> Vec<u32> {
    let mut places: Vec<u32> = (0..common.list.len() as u32).collect();
    let [one, other] = [(); 2].map(|_| rng.below(common.list.len() as u64) as usize);
    places.swap(one, other);
    rules::bin_table(&common.list.at(&places), set_size, common.retry_counter)
}

/// The table with the places of each bin made otherwise, and so much more in each start.
fn stored(common: &Common, set_size: u64, otherwise: fn(&mut [u32]), more: u32) -> Vec<u32> {
    let (n, mut table) = (set_size as usize, rules::bin_table(&common.list, set_size, common.retry_counter));
    for bin in 0..n {
        let [start, end] = [table[bin], table[bin + 1]].map(|start| n + 1 + start as usize);
        otherwise(&mut table[start..end]);
    }
    table[..=n].iter_mut().for_each(|start| *start += more);
    table
}

#[cfg(test)]
mod tests {
    use super::*;
    use crate::compare::faults;

    #[test]
    fn what_a_number_of_the_table_is() {
        // Of three bins and four elements, one bin empty: four starts, four places, two zeros.
        let right = [0, 1, 1, 4, 2, 0, 1, 3, 0, 0];
        let parts: Vec<&str> = (0..12).map(|at| part_of(&right, 3, at)).collect();
        let due = [0, 1, 1, 2, 3, 3, 3, 3, 4, 4, 5, 5].map(|part| PARTS[part]);
        assert_eq!(parts, due);
        // One bin has no start between.
        assert_eq!([0, 1, 2, 3, 4].map(|at| part_of(&[0, 1, 0, 0], 1, at)), [0, 2, 3, 4, 5].map(|part| PARTS[part]));
    }

    #[test]
    fn another_number_is_another() {
        let mut rng = Rng::new(1, 0);
        for number in (0..1000).chain([u32::MAX]) {
            assert!(others(&mut rng, number).iter().all(|other| *other != number));
        }
    }

    /// With one bin the right table is [0, 2, 0, 1], whatever the hash.
    #[test]
    fn tables_made_otherwise() {
        let (mut rng, common) = (Rng::new(1, 0), Common::of(faults::long_list(3, 1), 1, 0));
        assert_eq!(common.table, [0, 2, 0, 1]);
        let of = |name: &str, rng: &mut Rng| WHOLE.iter().find(|(own, _)| *own == name).expect("a table").1(rng, &common, 1);
        assert_eq!(of("table: zeros alone", &mut rng), [0, 0, 0, 0]);
        assert_eq!(of("table: places descending in each bin", &mut rng), [0, 2, 1, 0]);
        assert_eq!(of("table: places counted from 1", &mut rng), [0, 2, 1, 2]);
        assert_eq!(of("table: starts counted from the first number", &mut rng), [2, 4, 0, 1]);
    }
}
