//! Two products on one bin table. Both tries end at once, without a start, so what is measured is the check of the table: it is made anew
//! once for both, and compared. Against it stands `prove`, whose one try then does nothing but fill the table.

use super::distinctness::FEW;
use super::measure::{in_rounds, Work};
use super::row;
use crate::compare::searches::list_of_48;
use crate::ffi::{self, Party, Settings};
use crate::{model::rules, model::threshold::Threshold::OfQ, rng::Rng};
use std::hint::black_box;

pub fn run() -> Result<(), String> {
    products(65_536, 32_768)?;
    products(1000, 500)
}

/// A row for so many elements of 48 bytes. The table filled and the one handed over must be the same.
fn products(count: u64, set_size: u64) -> Result<(), String> {
    let settings = Settings { set_size, proof_size: 0, max_retries: 1, search_width: 0, dfs_bound: 1, x: OfQ(0.0) };
    let list = list_of_48(&mut Rng::new(8, count), count);
    let table = rules::bin_table(&list, set_size, 1);
    let party = Party { settings, retry_counter: 1 };
    let (mut none, mut none2) = ([0; 0], [0; 0]);
    let mut served = || {
        let mut out = [7; 6];
        let rooms = [&mut none[..], &mut none2[..]];
        let number = ffi::two_products(Some(black_box(&table)), 1, list.lent(), [&party, &party], rooms, &mut out[..]);
        (number, out)
    };
    let (mut own, mut places) = (vec![0; table.len()], [0; 0]);
    let mut filled = || {
        let mut out = [7; 3];
        (ffi::prove(black_box(&settings), list.lent(), &mut places[..], &mut own[..], &mut out[..]), out)
    };
    let work = format!("two products on one bin table, {count} elements, set_size {set_size}: the check of the table");
    let not_found = u64::from(ffi::NOT_FOUND);
    if served() != (0, [not_found, 0, 0, not_found, 0, 0]) || filled() != (ffi::NOT_FOUND, [0; 3]) {
        return Err(format!("harness: {work}: {:?} and {:?}", served(), filled()));
    }
    let [ours, theirs] = in_rounds(FEW, [over(served), over(filled)]);
    row(&work, "ours, the table filled once", ours, theirs, None);
    if own != table {
        return Err(format!("harness: {work}: the table that was filled is another"));
    }
    Ok(())
}

fn over<'a, T>(mut call: impl FnMut() -> T + 'a) -> Work<'a> {
    Box::new(move |calls| {
        (0..calls).for_each(|_| {
            black_box(call());
        })
    })
}
