//! The export for the chains of each length, with arguments whose answer is known, as in export_calls.rs.

use super::export_calls::{list_of, settings, Export, SEED};
use super::parameters::Args;
use super::searches;
use crate::ffi::{self, Listed, Settings};
use crate::list::List;
use crate::model::counts::{self, Asked};
use crate::model::threshold::{halves, Threshold::Alone};
use crate::rng::Rng;

/// Over every limit of the settings, and different.
const RETRY: u64 = 0x0123_4567_89ab_cdef;
const SEARCH: u64 = 0xfedc_ba98_7654_3210;

/// Parameters: set_size, proof_size, max_retries, search_width, dfs_bound, x_high, x_low, retry, search, data, ends, marks, indexes, bins,
/// counts, out. X and the counters are over every limit, dfs_bound over all but its own, and so on down: what is left is told by the tree.
pub fn all() -> Result<Export, String> {
    let of = |x| Settings { set_size: 5, proof_size: 3, max_retries: 60_000, search_width: 1 << 31, dfs_bound: 1 << 40, x: Alone(x) };
    let mut rng = Rng::new(SEED, 12);
    let (list, x) =
        (0..10_000).find_map(|_| some_pass(of(0), searches::list_of(&mut rng, 11, 1, 9))).ok_or("  no list has such a tree\n")?;
    let (s, [x_high, x_low]) = (of(x), halves(x));
    let counts = vec![7; list.len()];
    let args = Args {
        numbers: vec![s.set_size, s.proof_size, s.max_retries, s.search_width, s.dfs_bound, x_high, x_low, RETRY, SEARCH],
        bytes: vec![list.data, list.marks],
        words: vec![list.ends, vec![0xa5a5; 20]],
        longs: vec![list.indexes, counts, vec![6]],
        ..Args::default()
    };
    Ok(Export { name: "alba_count_chains", args, answer: 0, ours, due })
}

/// The list with an X under which several of the longest chains pass, though not all, and under which fewer do with its words in each
/// other's place.
fn some_pass(s: Settings, list: List) -> Option<(List, u128)> {
    let mut numbers = counts::tree(&s, &list, RETRY, SEARCH)?.numbers;
    numbers.sort();
    let x = numbers.get(3)?.checked_add(1)?;
    let [high, low] = halves(x);
    let fewer = |x: u128| numbers.iter().filter(|number| **number < x).count() < 4;
    let is_over = |word: u64| word > s.dfs_bound << 9;
    (numbers.len() > 4 && fewer(x.rotate_left(64)) && is_over(high) && is_over(low)).then_some((list, x))
}

fn ours(args: &mut Args) -> u32 {
    let s = settings(args);
    let ([ends, bins], [indexes, counts, out]) = (&mut args.words[..], &mut args.longs[..]) else { unreachable!("two and three") };
    let list = Listed { data: Some(&args.bytes[0]), ends: Some(ends), marks: Some(&args.bytes[1]), indexes: Some(indexes) };
    let counters = [args.numbers[7], args.numbers[8]];
    ffi::count_chains(&s, counters, list, &mut bins[..], &mut counts[..], &mut out[..])
}

fn due(args: &mut Args) -> Result<u32, String> {
    if args.longs[2].len() != 1 {
        return Ok(ffi::BAD_LENGTH);
    }
    let (table, counts) = (args.words[1].len(), args.longs[1].len());
    let [retry_counter, search_counter] = [args.numbers[7], args.numbers[8]];
    let due = counts::answer(&Asked { settings: settings(args), list: list_of(args), retry_counter, search_counter, table, counts });
    args.words[1][..due.table.len()].copy_from_slice(&due.table);
    args.longs[1][..due.counts.len()].copy_from_slice(&due.counts);
    args.longs[2][0] = due.passing;
    Ok(due.number)
}
