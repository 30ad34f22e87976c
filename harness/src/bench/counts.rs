//! The chains of one search counter counted, against a search of that one S in which nothing passes: both walk the same chains. Of a tree
//! with far more chains than the bound both stop at it.

use super::distinctness::FEW;
use super::measure::{in_rounds, Work};
use super::row;
use crate::ffi::{self, Settings};
use crate::{compare::faults::long_list, model::threshold::Threshold::OfQ};
use std::hint::black_box;

pub fn run() -> Result<(), String> {
    let (whole, deepest) = ((1 << 17) - 1, 1024);
    counted("a tree of 131,071 chains counted", 16, whole, 0)?;
    counted("the same under a bound of one less", 16, whole - 1, ffi::TREE_TOO_LARGE)?;
    counted("a tree of 2^1,025 − 1 chains under a bound of 10,000", deepest, 10_000, ffi::TREE_TOO_LARGE)?;
    counted("the same under a bound of 1,000,000", deepest, 1_000_000, ffi::TREE_TOO_LARGE)
}

/// A row for the tree of two elements in one bin, in which each chain but the longest has two next ones.
fn counted(work: &str, proof_size: u64, dfs_bound: u64, due: u32) -> Result<(), String> {
    let settings = Settings { set_size: 1, proof_size, max_retries: 1, search_width: 1, dfs_bound, x: OfQ(0.0) };
    let list = long_list(2, 48);
    let (mut table, mut counts) = ([0; 4], vec![0; proof_size as usize + 1]);
    let mut ours = || {
        let mut out = [7];
        (ffi::count_chains(black_box(&settings), [1, 0], list.lent(), &mut table[..], &mut counts[..], &mut out[..]), out)
    };
    let (mut own, mut places) = ([0; 4], vec![0; proof_size as usize]);
    let mut searched = || {
        let mut out = [7; 3];
        (ffi::prove(black_box(&settings), list.lent(), &mut places[..], &mut own[..], &mut out[..]), out)
    };
    // The search counts as many chains as the bound, or all of a tree that has no more.
    if ours() != (due, [0]) || searched() != (ffi::NOT_FOUND_IN_BOUNDS, [0, 0, dfs_bound]) {
        return Err(format!("harness: {work}: {:?} and {:?}", ours(), searched()));
    }
    let [ours, theirs] = in_rounds(FEW, [over(ours), over(searched)]);
    row(work, "ours, a search of that S", ours, theirs, None);
    Ok(())
}

fn over<'a, T>(mut call: impl FnMut() -> T + 'a) -> Work<'a> {
    Box::new(move |calls| {
        (0..calls).for_each(|_| {
            black_box(call());
        })
    })
}
