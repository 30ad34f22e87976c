//! The chains of one retry counter and one search counter by their length, by the words of the specification and of the request: what
//! exists of one length is worked out from what exists of the length before, so no order of the search is gone by.

use super::chains::{id_of, next_hash, number_of, start_hash, Hash};
use super::rules;
use crate::{ffi, ffi::Settings, list::List};
use sha2::{Digest, Sha256};

/// What is asked: of which settings, list and counters, and the lengths of the bin table and of the counts that are lent.
#[derive(Clone, Debug)]
pub struct Asked {
    pub settings: Settings,
    pub list: List,
    pub retry_counter: u64,
    pub search_counter: u64,
    pub table: usize,
    pub counts: usize,
}

/// What is due: the number, how many pass, and what the first counts and the first numbers of the bin table are afterwards.
#[derive(Clone, Debug, Default, PartialEq)]
pub struct Counted {
    pub number: u32,
    pub passing: u64,
    pub counts: Vec<u64>,
    pub table: Vec<u32>,
}

/// Of the lengths of settings that need not be lawful.
pub fn lengths(s: &Settings) -> u128 {
    u128::from(s.proof_size) + 1
}

/// The refusals before the bin table is filled. Few elements are none.
pub fn refusal(asked: &Asked) -> Result<(), u32> {
    let s = &asked.settings;
    rules::settings(s)?;
    rules::list(&asked.list)?;
    if (asked.table as u64) < 3 * s.set_size + 1 {
        return Err(ffi::TOO_SHORT);
    }
    if (asked.counts as u128) < lengths(s) {
        return Err(ffi::COUNTS_SHORT);
    }
    Ok(())
}

pub fn answer(asked: &Asked) -> Counted {
    if let Err(number) = refusal(asked) {
        return Counted { number, ..Counted::default() };
    }
    let Asked { settings, list, retry_counter, search_counter, .. } = asked;
    let table = rules::bin_table(list, settings.set_size, *retry_counter);
    match tree(settings, list, *retry_counter, *search_counter) {
        Some(tree) => Counted { number: 0, passing: tree.passing(settings.x.x()), counts: tree.counts, table },
        None => Counted { number: ffi::TREE_TOO_LARGE, table, ..Counted::default() },
    }
}

/// The chains of one retry counter and one search counter: how many there are of each length, and the numbers of those of full length,
/// of which those below X pass.
#[derive(Debug, PartialEq)]
pub struct Tree {
    pub counts: Vec<u64>,
    pub numbers: Vec<u128>,
}

impl Tree {
    pub fn all(&self) -> u64 {
        self.counts.iter().sum()
    }

    pub fn passing(&self, x: u128) -> u64 {
        self.numbers.iter().filter(|number| **number < x).count() as u64
    }
}

/// None where there are more than dfs_bound together.
pub fn tree(s: &Settings, list: &List, retry_counter: u64, search_counter: u64) -> Option<Tree> {
    let bins = rules::bins(list, s.set_size, retry_counter);
    let round = |hash: Hash| id_of(&hash, s.set_size).map(|id| (hash, id));
    let mut chains: Vec<(Hash, u64)> = round(start_hash(&Sha256::new(), retry_counter, search_counter)).into_iter().collect();
    let (mut counts, mut left) = (vec![chains.len() as u64], s.dfs_bound.checked_sub(chains.len() as u64)?);
    for _ in 0..s.proof_size {
        let longer = chains.iter().flat_map(|(hash, id)| {
            let elements = bins[*id as usize].iter();
            elements.filter_map(|place| round(next_hash(&Sha256::new(), hash, list, *place as usize)))
        });
        // No more are made than tell that the bound is passed.
        chains = longer.take(left as usize + 1).collect();
        left = left.checked_sub(chains.len() as u64)?;
        counts.push(chains.len() as u64);
    }
    Some(Tree { counts, numbers: chains.iter().map(|(hash, _)| number_of(&Sha256::new(), hash)).collect() })
}

/// The numbers are those of the specification's table and of the request, written out; of one bin the chains are known.
#[cfg(test)]
mod tests {
    use super::*;
    use crate::compare::faults;
    use crate::compare::verdicts::Claim;
    use crate::model::chains;
    use crate::model::threshold::Threshold::Alone;

    const ONE: Settings = Settings { set_size: 1, proof_size: 2, max_retries: 0, search_width: 0, dfs_bound: 100, x: Alone(0) };

    fn asked(settings: Settings, list: List) -> Asked {
        Asked { settings, list, retry_counter: 0, search_counter: u64::MAX, table: 4, counts: 3 }
    }

    /// A call with every fault meets the first line; with that one mended, the next; and so on.
    #[test]
    fn the_order_of_the_lines() {
        let mut all = asked(Settings { set_size: 0, proof_size: 1025, dfs_bound: 6, ..ONE }, faults::long_list(2, 4097));
        (all.table, all.counts, all.list.marks[1]) = (6, 2, 2);
        let number = |asked: &Asked| answer(asked).number;
        assert_eq!(number(&all), 1);
        all.settings.set_size = 2;
        assert_eq!(number(&all), 2);
        all.settings.proof_size = 2;
        assert_eq!(number(&all), 4);
        all.list.marks[1] = 0;
        assert_eq!(number(&all), 5);
        all.list = faults::long_list(2, 1);
        assert_eq!(number(&all), 6);
        all.settings.set_size = 1;
        assert_eq!(number(&all), 49);
        all.counts = 3;
        let refused = answer(&all);
        assert_eq!((refused.number, refused.counts.len(), refused.table), (50, 0, vec![0, 2, 0, 1]));
        all.settings.dfs_bound = 7;
        assert_eq!(answer(&all), Counted { number: 0, passing: 0, counts: vec![1, 2, 4], table: vec![0, 2, 0, 1] });
    }

    /// With one bin a chain goes on by each element; without elements there is the start alone; of three elements two are kept.
    #[test]
    fn trees_of_one_bin() {
        let of = |elements, proof_size, dfs_bound| {
            let s = Settings { proof_size, dfs_bound, x: Alone(u128::MAX), ..ONE };
            tree(&s, &faults::long_list(elements, 1), 1, 0).map(|tree| (tree.passing(u128::MAX), tree.counts))
        };
        assert_eq!((of(0, 3, 1), of(0, 3, 0), of(0, 0, 1)), (Some((0, vec![1, 0, 0, 0])), None, Some((1, vec![1]))));
        assert_eq!((of(1, 3, 4), of(1, 3, 3)), (Some((1, vec![1; 4])), None));
        assert_eq!((of(3, 3, 15), of(3, 3, 14), of(3, 3, 6)), (Some((8, vec![1, 2, 4, 8])), None, None));
        assert_eq!((of(2, 1024, 1 << 10), of(1, 1024, 1025)), (None, Some((1, vec![1; 1025]))));
    }

    /// Of two chains of full length the one with the lesser number passes below an X between them.
    #[test]
    fn those_that_pass() {
        let list = faults::long_list(2, 1);
        let s = Settings { proof_size: 1, ..ONE };
        let number = |place| {
            let claim = Claim { settings: s, retry_counter: 1, search_counter: 0, list: list.at(&[place]) };
            chains::last_number(&claim).expect("one bin")
        };
        let tree = tree(&s, &list, 1, 0).expect("three chains");
        assert_eq!((&tree.numbers, tree.all()), (&vec![number(0), number(1)], 3));
        let (less, more) = (number(0).min(number(1)), number(0).max(number(1)));
        assert_eq!([less, less + 1, more, more + 1].map(|x| tree.passing(x)), [0, 1, 1, 2]);
    }
}
