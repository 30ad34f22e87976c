//! How many chains there are of each length: which calls are made. How one is held to what is due stands in chain_checks.rs.

use super::blocks::{self, Block};
use super::chain_checks::{check, check_by_verifier, check_length, check_sums, just_enough, FIRST_PASSING, NO_SUM, SHOWN_WHOLE, SUMS};
use super::fence::Fenced;
use super::{bernoulli, faults, searches, Checked, Run};
use crate::ffi::{self, Settings};
use crate::list::List;
use crate::model::counts::{self, Asked, Counted, Tree};
use crate::model::rules::{BYTES, ELEMENTS, MOST};
use crate::model::threshold::Threshold::{Alone, OfQ};
use crate::rng::Rng;

/// Random lists in a block, and about how many calls there are of one.
const BLOCK: u64 = 25;
const FAMILY: u64 = 20;
/// So many blocks at least, in which every kind comes.
const LEAST: u64 = 8;
/// Up to so many bins each number of elements comes.
const BINS: u64 = 5;
/// A random tree may have so many chains.
const CHAINS: u64 = 1000;

/// The answers that must have come.
const ANSWERS: [u32; 9] = [0, 1, 2, 4, 5, 6, 8, 49, 50];

/// Trees by what is asked, with the answer.
const FEW: &str = "fewer elements than set_size";
const NONE: &str = "no element";
const NO_RETRY: &str = "R = 0";
const LAST_RETRY: &str = "R = 2^64 − 1";
const IN_WIDTH: &str = "S below search_width";
const AT_WIDTH: &str = "S from search_width on";
const LAST_SEARCH: &str = "S = 2^64 − 1";
const ASKED: [&str; 7] = [FEW, NONE, NO_RETRY, LAST_RETRY, IN_WIDTH, AT_WIDTH, LAST_SEARCH];
/// Trees that are served, by what comes out.
const START_ALONE: &str = "the start alone exists";
const ENDS_EARLY: &str = "no chain of full length";
const NONE_PASSES: &str = "chains of full length, none passes";
const SOME_PASS: &str = "chains of full length, some pass";
const ALL_PASS: &str = "chains of full length, all pass";
const MORE_COUNTS: &str = "more counts lent than there are lengths";
const MORE_TABLE: &str = "more numbers lent than the bin table has";
const SERVED: [&str; 7] = [START_ALONE, ENDS_EARLY, NONE_PASSES, SOME_PASS, ALL_PASS, MORE_COUNTS, MORE_TABLE];
/// The bound beside the number of chains.
const JUST_ENOUGH: &str = "as many chains as dfs_bound";
const ONE_LESS: &str = "one chain more than dfs_bound";

/// Every kind of tree, with its answer.
pub fn kinds() -> impl Iterator<Item = (&'static str, Option<u32>)> {
    let asked = ASKED.into_iter().flat_map(|kind| [0, ffi::TREE_TOO_LARGE].map(|answer| (kind, Some(answer))));
    let served = SERVED.into_iter().chain(SUMS).chain([JUST_ENOUGH]).map(|kind| (kind, Some(0)));
    let refused = [ONE_LESS, NO_SUM].map(|kind| (kind, Some(ffi::TREE_TOO_LARGE)));
    let by_rust = [SHOWN_WHOLE, FIRST_PASSING].into_iter().flat_map(|kind| [0, 1].map(|answer| (kind, Some(answer))));
    asked.chain(served).chain(refused).chain(by_rust)
}

pub fn run(run: &mut Run, cases: u64) -> Checked {
    blocks::run(run, BINS, |bins, block| every_length_of_list(block, 1 + bins))?;
    blocks::run(run, LINES.len() as u64, |line, block| every_order(block, LINES[line as usize]))?;
    blocks::run(run, 1, |_, block| {
        every_limit(block)?;
        every_room(block)?;
        nulls(block)
    })?;
    let large = large();
    blocks::run(run, large.len() as u64, |number, block| check_tree(block, &large[number as usize]).map(|_| ()))?;
    let long = faults::large_lists();
    blocks::run(run, long.len() as u64, |number, block| {
        check(block, &just_enough(short(), long[number as usize].clone(), [1, 0])).map(|_| ())
    })?;
    blocks::run(run, cases.div_ceil(BLOCK * FAMILY).max(LEAST), |_, block| (0..BLOCK).try_for_each(|_| any(block)))?;
    run.tally.none_missing(ANSWERS.into_iter().map(|answer| ("count chains", Some(answer))))?;
    run.seen.none_missing(kinds())
}

/// Settings of a tree that is soon counted.
fn short() -> Settings {
    Settings { set_size: 3, proof_size: 2, max_retries: 0, search_width: 3, dfs_bound: 100, x: OfQ(0.5) }
}

/// The retry counters at both ends, and those with which the Rust begins; the search counters of a width, and at their end.
const RETRIES: [u64; 4] = [0, 1, 2, u64::MAX];
const SEARCHES: [u64; 5] = [0, 2, 3, 1 << 32, u64::MAX];

/// Lists of each length, from no element to more than are kept, with short proofs.
fn every_length_of_list(block: &mut Block, set_size: u64) -> Checked {
    for len in 0..=2 * set_size as usize + 2 {
        let list = searches::list_of(&mut block.rng, len, 0, 9);
        for proof_size in 0..=3 {
            for counters in RETRIES.iter().flat_map(|retry| SEARCHES.map(|search| [*retry, search])) {
                let settings = Settings { set_size, proof_size, dfs_bound: CHAINS, ..short() };
                check_tree(block, &just_enough(settings, list.clone(), counters))?;
            }
            check_tries(block, &Settings { set_size, proof_size, ..short() }, &list)?;
        }
    }
    Ok(())
}

/// All trees of some tries, under a bound that suffices and under one that few trees keep to.
fn check_tries(block: &mut Block, settings: &Settings, list: &List) -> Checked {
    [CHAINS, 2].into_iter().try_for_each(|dfs_bound| check_sums(block, &Settings { dfs_bound, ..*settings }, list))
}

/// Short lists of three bins with their trees and tries.
pub fn some_tries(block: &mut Block) -> Checked {
    for (len, proof_size) in (0..6).flat_map(|len| [0, 1, 3].map(|proof_size| (len, proof_size))) {
        let list = searches::list_of(&mut block.rng, len, 0, 9);
        let settings = Settings { proof_size, ..short() };
        check_tries(block, &settings, &list)?;
        let asked = any_tree(&mut block.rng, Settings { dfs_bound: CHAINS, ..settings }, list);
        check_tree(block, &asked)?;
    }
    Ok(())
}

/// The settings as they should be, with the set size out of range, with another number over its limit, and with both.
const LINES: [fn(&mut Settings); 4] =
    [|_| (), |s| s.set_size = 0, |s| s.proof_size = 1025, |s| (s.set_size, s.search_width) = (32_769, 1 << 32)];

/// With these settings every other refusal, alone and with each of the others: of the list, of the bin table, of the counts, and of the
/// bound. Two elements are fewer than set_size, and no refusal.
fn every_order(block: &mut Block, line: fn(&mut Settings)) -> Checked {
    for (fault, len) in (0..4).flat_map(|fault| [2, 4].map(|len| (fault, len))) {
        let mut list = faults::long_list(len, 2);
        if fault % 2 == 1 {
            list.push(&[7; BYTES + 1], None, 0);
        }
        if fault / 2 == 1 {
            list.marks[1] = 2;
        }
        for (table, counts, dfs_bound) in (0..8).map(|n| (n & 1, n >> 1 & 1, [100, 0][n >> 2])) {
            let mut asked = just_enough(Settings { dfs_bound, ..short() }, list.clone(), [1, 0]);
            (asked.table, asked.counts) = (asked.table - table, asked.counts - counts);
            line(&mut asked.settings);
            check(block, &asked)?;
        }
    }
    Ok(())
}

/// Each number of the settings at its limit and past it.
fn every_limit(block: &mut Block) -> Checked {
    let changes: [fn(&mut Settings); 12] = [
        |s| s.set_size = 32_768,
        |s| s.set_size = 32_769,
        |s| s.set_size = u64::MAX,
        |s| s.proof_size = 1024,
        |s| s.proof_size = 1025,
        |s| s.proof_size = u64::MAX,
        |s| s.max_retries = 65_535,
        |s| s.max_retries = 65_536,
        |s| s.search_width = (1 << 32) - 1,
        |s| s.search_width = 1 << 32,
        |s| s.dfs_bound = 1 << 48,
        |s| s.dfs_bound = (1 << 48) + 1,
    ];
    for change in changes {
        let mut asked = just_enough(Settings { set_size: 1, ..short() }, faults::long_list(1, 3), [1, 0]);
        change(&mut asked.settings);
        (asked.table, asked.counts) = (3 * 32_768 + 1, 1025);
        check(block, &asked)?;
    }
    Ok(())
}

/// Room for the number that pass, for the counts and for the bin table of every length around the one wanted, with each other fault and
/// without one: 8 comes first.
fn every_room(block: &mut Block) -> Checked {
    let whole = just_enough(short(), faults::long_list(4, 2), [1, 0]);
    let mut all = vec![whole.clone(); 7];
    all[1].settings.set_size = 0;
    all[2].settings.dfs_bound = u64::MAX;
    all[3].list.marks[1] = 2;
    all[4].table = 0;
    all[5].counts = 0;
    all[6].settings.dfs_bound = 0;
    for asked in &all {
        (0..=4).map(Some).chain([None]).try_for_each(|out_len| check_length(block, asked, out_len))?;
    }
    for (table, counts) in (0..=14).flat_map(|table| (0..=6).map(move |counts| (table, counts))) {
        let asked = Asked { table, counts, ..whole.clone() };
        let due = check(block, &asked)?;
        note(block, &asked, &due);
    }
    Ok(())
}

/// Null pointers with length 0 are an empty list, no bin table, no counts and no room for the number that pass.
fn nulls(block: &mut Block) -> Checked {
    let nothing = ffi::Listed { data: None, ends: None, marks: None, indexes: None };
    let settings = Settings { set_size: 1, proof_size: 0, ..short() };
    let rng = &mut block.rng;
    let mut none = (Fenced::null(rng, |word| word as u32), Fenced::null(rng, |word| word), Fenced::null(rng, |word| word));
    let mut some = (Fenced::new(rng, 5, |word| word as u32), Fenced::new(rng, 2, |word| word), Fenced::new(rng, 1, |word| word));
    let ours = [
        ffi::count_chains(&settings, [1, 0], nothing, &mut some.0, &mut some.1, &mut none.2),
        ffi::count_chains(&settings, [1, 0], nothing, &mut none.0, &mut some.1, &mut some.2),
        ffi::count_chains(&settings, [1, 0], nothing, &mut some.0, &mut none.1, &mut some.2),
    ];
    let is_kept = some.0.holds(&[]) && some.1.holds(&[]) && some.2.holds(&[0]);
    let served = ffi::count_chains(&Settings { x: Alone(0), ..settings }, [1, 0], nothing, &mut some.0, &mut some.1, &mut some.2);
    // The start exists, and there is nothing in the one bin.
    let is_served = served == 0 && some.0.holds(&[0; 4]) && some.1.holds(&[1]) && some.2.holds(&[0]);
    if (ours, is_kept, is_served) != ([ffi::BAD_LENGTH, ffi::TOO_SHORT, ffi::COUNTS_SHORT], true, true) {
        return Err(format!("  null pointers: {ours:?}, {is_kept}; an empty list: {served}, {is_served}\n"));
    }
    block.tally.count("count chains", served);
    Ok(())
}

/// Deep trees, of one element and of two; trees of more chains than the random ones may have; every setting and the list at its limit.
fn large() -> Vec<Asked> {
    let mut large = Vec::new();
    let one = Settings { set_size: 1, max_retries: 0, search_width: 1, dfs_bound: 2000, ..short() };
    for proof_size in [0, 1, 2, 100, 1023, 1024] {
        for (x, counters) in [(0, [0, 0]), (u128::MAX, [1, u64::MAX]), (u128::MAX, [u64::MAX, 5])] {
            large.push(just_enough(Settings { proof_size, x: Alone(x), ..one }, faults::long_list(1, 48), counters));
        }
    }
    let of_two = |proof_size, dfs_bound| just_enough(Settings { proof_size, dfs_bound, ..one }, faults::long_list(2, 8), [1, 0]);
    large.extend([of_two(9, 5000), of_two(14, 1 << 48), of_two(1024, 5000), of_two(1024, 1024), of_two(1024, 1025)]);
    let broad = Settings { set_size: 7, proof_size: 12, dfs_bound: 100_000, ..one };
    large.extend((0..9).map(|search| just_enough(broad, faults::long_list(15, 8), [1, search])));
    let wide = Settings { set_size: MOST.set_size, proof_size: 3, ..MOST };
    for (set_size, len) in [(MOST.set_size, ELEMENTS), (MOST.set_size - 1, ELEMENTS), (MOST.set_size, 9), (MOST.set_size - 1, 0)] {
        large.push(just_enough(Settings { set_size, ..wide }, faults::long_list(len, 2), [1, 3]));
    }
    large.push(just_enough(MOST, faults::long_list(3, BYTES), [u64::MAX; 2]));
    large.push(just_enough(Settings { set_size: 2, dfs_bound: 3000, ..MOST }, faults::long_list(3, BYTES), [7; 2]));
    large
}

/// A random list, with fewer elements than set_size too, and calls for some of its trees: each with bounds around the number of its chains,
/// at X's around the numbers of the longest, in more room, and with faults; now and then all trees of a try.
pub fn any(block: &mut Block) -> Checked {
    let rng = &mut block.rng;
    let mut settings = searches::any_settings(rng);
    settings.dfs_bound = CHAINS;
    let list = any_list(rng, settings.set_size as usize);
    for _ in 0..2 {
        let asked = any_tree(&mut block.rng, settings, list.clone());
        check_tree(block, &asked)?;
        check_with_faults(block, asked)?;
    }
    if block.rng.below(16) == 0 {
        let few = Settings { search_width: block.rng.below(1 + settings.search_width.min(12)), ..settings };
        check_tries(block, &few, &list)?;
    }
    Ok(())
}

/// From no element to more than are kept.
fn any_list(rng: &mut Rng, set_size: usize) -> List {
    let len = if rng.below(3) == 0 { rng.below(set_size as u64) as usize } else { searches::any_len(rng, set_size) };
    let longest = [0, 8, 48, 99][rng.below(4) as usize];
    searches::list_of(rng, len, 0, longest)
}

/// A call for some tree, with just enough lent.
pub fn any_tree(rng: &mut Rng, settings: Settings, list: List) -> Asked {
    let retry_counter = match rng.below(8) {
        0..=1 => RETRIES[rng.below(4) as usize],
        2 => rng.word() >> rng.below(64),
        _ => 1 + rng.below(4),
    };
    let search_counter = match rng.below(8) {
        0 => settings.search_width,
        1 => settings.search_width + rng.below(9),
        2 => [u64::MAX, rng.word() >> rng.below(64)][rng.below(2) as usize],
        _ => rng.below(settings.search_width.max(1)),
    };
    just_enough(settings, list, [retry_counter, search_counter])
}

/// One tree; and where it is served, with bounds around the number of its chains, with X's around the numbers of the longest, and in more
/// room than it takes; and by the Rust's verifier.
pub fn check_tree(block: &mut Block, asked: &Asked) -> Result<Counted, String> {
    let due = check(block, asked)?;
    note(block, asked, &due);
    if due.number != 0 {
        return Ok(due);
    }
    check_by_verifier(block, asked, &due)?;
    let Asked { settings: s, list, retry_counter, search_counter, .. } = asked;
    let tree = counts::tree(s, list, *retry_counter, *search_counter).expect("a tree that is served");
    let all = tree.all();
    let mut bounds = vec![all, all.saturating_sub(1)];
    bounds.extend([0, block.rng.below(all + 1), all / 2][..block.rng.below(4) as usize].iter());
    for dfs_bound in bounds {
        check_other(block, &Asked { settings: Settings { dfs_bound, ..*s }, ..asked.clone() })?;
    }
    for x in some_x(&mut block.rng, &tree) {
        check_other(block, &Asked { settings: Settings { x: Alone(x), ..*s }, ..asked.clone() })?;
    }
    let (more, most) = (block.rng.below(3) as usize, 1 + block.rng.below(9) as usize);
    let roomy = Asked { table: asked.table + [0, most, most][more], counts: asked.counts + [most, 0, most][more], ..asked.clone() };
    check_other(block, &roomy)?;
    Ok(due)
}

fn check_other(block: &mut Block, asked: &Asked) -> Checked {
    let due = check(block, asked)?;
    note(block, asked, &due);
    let all: u64 = due.counts.iter().sum();
    if due.number == 0 && all == asked.settings.dfs_bound {
        block.seen.count(JUST_ENOUGH, 0);
    }
    if due.number == ffi::TREE_TOO_LARGE {
        let more = Asked { settings: Settings { dfs_bound: asked.settings.dfs_bound + 1, ..asked.settings }, ..asked.clone() };
        if counts::answer(&more).number == 0 {
            block.seen.count(ONE_LESS, ffi::TREE_TOO_LARGE);
        }
    }
    Ok(())
}

/// At the number of one of the longest chains, and beside it; of a tree without any, one.
fn some_x(rng: &mut Rng, tree: &Tree) -> Vec<u128> {
    match tree.numbers.len() as u64 {
        0 => vec![bernoulli::any_x(rng)],
        len => {
            let number = tree.numbers[rng.below(len) as usize];
            vec![number, number.saturating_add(1), [0, u128::MAX, bernoulli::any_x(rng)][rng.below(3) as usize]]
        }
    }
}

/// Up to three faults in settings, list, bin table, counts and bound; now and then without room for the number that pass.
pub fn check_with_faults(block: &mut Block, mut asked: Asked) -> Checked {
    for _ in 0..1 + block.rng.below(3) {
        let rng = &mut block.rng;
        match rng.below(10) {
            0..=1 => faults::in_settings(rng, &mut asked.settings),
            2..=3 => faults::in_short_list(rng, &mut asked.list),
            4 => asked.table = asked.table.saturating_sub(1),
            5 => asked.table = rng.below(asked.table as u64 + 1) as usize,
            6 => asked.counts = asked.counts.saturating_sub(1),
            7 => asked.counts = rng.below(asked.counts as u64 + 1) as usize,
            8 => asked.settings.dfs_bound = 0,
            _ => asked.settings.dfs_bound = asked.settings.dfs_bound.min(rng.below(9)),
        }
    }
    let out_len = if block.rng.below(16) == 0 { block.rng.below(4) as usize } else { 1 };
    check_length(block, &asked, Some(out_len))
}

/// Counts the kinds that a tree is of.
fn note(block: &mut Block, asked: &Asked, due: &Counted) {
    let (Asked { settings: s, list, retry_counter, search_counter, .. }, seen) = (asked, &mut block.seen);
    if due.number != 0 && due.number != ffi::TREE_TOO_LARGE {
        return;
    }
    let is_in_width = *search_counter < s.search_width;
    let asked_so = [
        (FEW, (list.len() as u64) < s.set_size),
        (NONE, list.len() == 0),
        (NO_RETRY, *retry_counter == 0),
        (LAST_RETRY, *retry_counter == u64::MAX),
        (IN_WIDTH, is_in_width),
        (AT_WIDTH, !is_in_width),
        (LAST_SEARCH, *search_counter == u64::MAX),
    ];
    let (full, all) = (due.counts.last().copied().unwrap_or(0), due.counts.iter().sum::<u64>());
    let comes_out = [
        (START_ALONE, s.proof_size > 0 && all == 1),
        (ENDS_EARLY, full == 0 && all > 1),
        (NONE_PASSES, full > 0 && due.passing == 0),
        (SOME_PASS, due.passing > 0 && due.passing < full),
        (ALL_PASS, full > 0 && due.passing == full),
        (MORE_COUNTS, asked.counts > due.counts.len()),
        (MORE_TABLE, asked.table > due.table.len()),
    ];
    let comes_out = comes_out.into_iter().filter(|_| due.number == 0);
    for (kind, is_so) in asked_so.into_iter().chain(comes_out) {
        if is_so {
            seen.count(kind, due.number);
        }
    }
}
