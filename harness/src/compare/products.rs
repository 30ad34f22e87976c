//! Two products on one bin table: which calls are made. How one is held to what is due stands in product_checks.rs, the refusals in
//! product_refusals.rs, and which tables are put in place of the right one in damaged_tables.rs.

use super::blocks::{self, Block};
use super::damaged_tables::{self, BEHIND, PARTS, WHOLE};
use super::product_checks::{check, is_served, pairs, tries, Call};
use super::product_refusals::{self, check_with_faults, quick, STATES};
use super::searches::{self, Outcome};
use super::verdicts::Claim;
use super::{bernoulli, faults, Checked, Run};
use crate::ffi::{self, Party, Settings};
use crate::list::List;
use crate::model::products::Common;
use crate::model::rules::{self, BYTES, ELEMENTS, MOST};
use crate::model::threshold::Threshold::{Alone, OfQ};
use crate::model::{chains, threshold};
use crate::rng::Rng;

/// Random lists in a block, and calls of two parties with each of them.
const BLOCK: u64 = 25;
const FAMILY: u64 = 3;
/// So many blocks at least, in which every kind comes.
const LEAST: u64 = 8;
/// Up to so many bins each number of the table is changed.
const BINS: u64 = 5;

/// The answers that must have come to each party.
const ANSWERS: [u32; 12] = [0, 1, 2, 4, 5, 6, 8, 10, 11, 12, 47, 48];

/// Two parties whose settings are the same or differ in one number, by whether their answers are the same (0) or not (1).
const SAME: &str = "two parties: the same settings";
const OTHER_RETRIES: &str = "two parties: other max_retries alone";
const OTHER_SIZE: &str = "two parties: other proof_size alone";
const OTHER_WIDTH: &str = "two parties: other search_width alone";
const OTHER_BOUND: &str = "two parties: other dfs_bound alone";
const OTHER_HIGH: &str = "two parties: other high word of X alone";
const OTHER_LOW: &str = "two parties: other low word of X alone";
/// Two parties of which one is served and the other has another table than its own.
const OTHER_BINS: &str = "two parties: other set_size alone";

/// Every kind of table and of two parties, with its answer.
pub fn kinds() -> impl Iterator<Item = (&'static str, Option<u32>)> {
    let damaged = PARTS.into_iter().filter(|part| *part != BEHIND).chain(WHOLE.iter().map(|(name, _)| *name));
    let alike = [SAME, OTHER_RETRIES, BEHIND].map(|name| (name, Some(0)));
    let apart = [OTHER_SIZE, OTHER_WIDTH, OTHER_BOUND, OTHER_HIGH, OTHER_LOW, OTHER_BINS].map(|name| (name, Some(1)));
    damaged.map(|name| (name, Some(ffi::OTHER_TABLE))).chain(alike).chain(apart).chain(tries())
}

pub fn run(run: &mut Run, cases: u64) -> Checked {
    blocks::run(run, BINS, |bins, block| every_number(block, 1 + bins))?;
    blocks::run(run, STATES, |state, block| product_refusals::every_order(block, state))?;
    blocks::run(run, 1, |_, block| {
        product_refusals::every_length(block)?;
        product_refusals::nulls(block)
    })?;
    let large = large();
    blocks::run(run, large.len() as u64, |number, block| check_large(block, &large[number as usize]))?;
    let long = faults::large_lists();
    blocks::run(run, long.len() as u64, |number, block| check_long(block, long[number as usize].clone()))?;
    blocks::run(run, cases.div_ceil(BLOCK).max(LEAST), |_, block| (0..BLOCK).try_for_each(|_| any(block)))?;
    let answers = ["first party", "second party"].into_iter().flat_map(|party| ANSWERS.map(|answer| (party, Some(answer))));
    run.tally.none_missing(answers)?;
    run.seen.none_missing(kinds().chain(pairs()))
}

/// Lists of each length, from too few elements to more than are kept: the right table, each number of it changed, and some behind it; the
/// other party's set size is the same and another in turn.
fn every_number(block: &mut Block, set_size: u64) -> Checked {
    for len in 0..=2 * set_size as usize + 2 {
        let rng = &mut block.rng;
        let retry_counter = any_retry(rng);
        let mut common = Common::of(searches::list_of(rng, len, 0, 9), set_size, retry_counter);
        let right = common.table.clone();
        common.table.extend((0..4).map(|_| rng.word() as u32));
        for at in 0..common.table.len() {
            let other_size = [set_size, set_size + 1, set_size.max(2) - 1][at % 3];
            let [one, other] = [set_size, other_size].map(|size| quick(size, retry_counter, block.rng.below(3)));
            let call = Call::of(common.clone(), [one, other]);
            check(block, &call)?;
            for number in damaged_tables::others(&mut block.rng, common.table[at]) {
                let mut damaged = call.clone();
                damaged.common.table[at] = number;
                let outcomes = check(block, &damaged)?;
                note_table(block, damaged_tables::part_of(&right, set_size, at), &outcomes[0]);
                check(block, &damaged.exchanged())?;
            }
        }
    }
    Ok(())
}

/// A party that is served counts as 0.
fn note_table(block: &mut Block, kind: &'static str, outcome: &Outcome) {
    block.seen.count(kind, if is_served(outcome) { 0 } else { outcome.number });
}

/// The least and the greatest, those with which the Rust begins, and any.
pub fn any_retry(rng: &mut Rng) -> u64 {
    match rng.below(10) {
        0 => 0,
        1 => u64::MAX,
        2 => rng.word(),
        3 => rng.word() >> rng.below(64),
        4..=5 => 2 + rng.below(2),
        _ => 1,
    }
}

/// Every setting and the list at its limit, each party at the one or the other.
fn large() -> Vec<Call> {
    let wide = Settings { set_size: MOST.set_size, proof_size: 3, max_retries: 1, search_width: 40, dfs_bound: 1000, x: OfQ(0.01) };
    let deep = Settings { set_size: 1, proof_size: 1024, max_retries: 0, search_width: 1, dfs_bound: 1025, x: OfQ(1.0) };
    let every = Settings { set_size: 1, proof_size: 0, ..MOST };
    let mut calls = Vec::new();
    for (list, one, other, retry_counter) in [
        (faults::long_list(ELEMENTS, 1), wide, Settings { x: OfQ(0.0), dfs_bound: 1 << 48, ..wide }, 1),
        (faults::long_list(ELEMENTS, 0), wide, Settings { set_size: MOST.set_size - 1, ..wide }, u64::MAX),
        (faults::long_list(ELEMENTS / 2, 1), Settings { search_width: 0, ..wide }, wide, 0),
        (faults::long_list(1, 1), deep, every, 1),
        (faults::long_list(1, 1), Settings { dfs_bound: 1024, ..deep }, deep, 2),
        (faults::long_list(3, BYTES), every, Settings { max_retries: 0, search_width: 0, ..every }, u64::MAX),
    ] {
        let common = Common::of(list, one.set_size, retry_counter);
        calls.push(Call::of(common, [one, other].map(|settings| Party { settings, retry_counter })));
    }
    calls
}

/// The call, with the parties in each other's place, and with the last number of the table another.
fn check_large(block: &mut Block, call: &Call) -> Checked {
    check(block, call)?;
    let mut other = call.exchanged();
    check(block, &other)?;
    let last = 3 * call.parties[0].settings.set_size as usize;
    other.common.table[last] ^= 1 << block.rng.below(32);
    check(block, &other).map(|_| ())
}

/// Lists at their limits and past them, of which both parties are told alike.
fn check_long(block: &mut Block, list: List) -> Checked {
    let common = Common { list, table: vec![0; 10], retry_counter: 1 };
    check(block, &Call::of(common, [quick(3, 1, 0), quick(2, 1, 1)])).map(|_| ())
}

/// A random list with its table and two parties of its set size, with bounds around those where the answers turn; then parties that differ
/// in one number, other tables, and faults.
pub fn any(block: &mut Block) -> Checked {
    let settings = any_settings(&mut block.rng);
    let list = searches::any_list(&mut block.rng, settings.set_size as usize);
    let second = Settings { set_size: settings.set_size, ..any_settings(&mut block.rng) };
    let mut call = call(list, [settings, second], any_retry(&mut block.rng));
    for _ in 0..FAMILY {
        let outcomes = check_call(block, &call)?;
        for (party, outcome) in call.parties.iter_mut().zip(&outcomes) {
            let s = &mut party.settings;
            s.dfs_bound = searches::next_bound(&mut block.rng, s, outcome).min(1000);
        }
    }
    check_all(block, &call)?;
    check_with_faults(block, call)
}

fn any_settings(rng: &mut Rng) -> Settings {
    let mut settings = searches::any_settings(rng);
    if rng.below(8) == 0 {
        settings.x = Alone(bernoulli::any_x(rng));
    }
    settings
}

/// A list with its table, and two parties of one set size with that table's retry counter.
pub fn call(list: List, parties: [Settings; 2], retry_counter: u64) -> Call {
    let common = Common::of(list, parties[0].set_size, retry_counter);
    Call::of(common, parties.map(|settings| Party { settings, retry_counter }))
}

/// The call in workspace that is enough or more, each party beside one that differs from it in one number, and other tables.
pub fn check_all(block: &mut Block, call: &Call) -> Checked {
    let [first, second] = check_call(block, call)?;
    let exchanged = call.exchanged();
    for (call, outcome) in [(call, &first), (&exchanged, &second)] {
        let apart = apart(&mut block.rng, call, outcome);
        apart.into_iter().try_for_each(|(name, two)| check_apart(block, call, name, two))?;
    }
    let tables = tables(&mut block.rng, call);
    tables.into_iter().try_for_each(|(name, table)| check_table(block, call, name, table))
}

/// The same with one party beside one other and with one other table: of long lists each takes its time.
pub fn check_some(block: &mut Block, call: &Call) -> Checked {
    let outcomes = check_call(block, call)?;
    let mut apart = apart(&mut block.rng, call, &outcomes[0]);
    let (name, two) = apart.swap_remove(block.rng.below(apart.len() as u64) as usize);
    check_apart(block, call, name, two)?;
    let mut tables = tables(&mut block.rng, call);
    let (name, table) = tables.swap_remove(block.rng.below(tables.len() as u64) as usize);
    check_table(block, call, name, table)
}

/// The call in workspace that is enough or more, with anything behind the table.
pub fn check_call(block: &mut Block, call: &Call) -> Result<[Outcome; 2], String> {
    let (rng, mut roomy) = (&mut block.rng, call.clone());
    for places in &mut roomy.places {
        *places += [0, rng.below(9) as usize][rng.below(2) as usize];
    }
    let more = [0, rng.below(9)][rng.below(2) as usize];
    roomy.common.table.extend((0..more).map(|_| rng.word() as u32));
    check(block, &roomy)
}

/// Settings like the first party's and others that differ from them in one number, or in none: mostly so that the answer is another.
fn apart(rng: &mut Rng, call: &Call, outcome: &Outcome) -> Vec<(&'static str, [Settings; 2])> {
    let s = call.parties[0].settings;
    let mut apart = vec![
        (SAME, [s, s]),
        (OTHER_RETRIES, [s, Settings { max_retries: rng.below(MOST.max_retries + 1), ..s }]),
        (OTHER_SIZE, [s, Settings { proof_size: if s.proof_size == 0 { 1 } else { s.proof_size - 1 }, ..s }]),
        (OTHER_WIDTH, [s, Settings { search_width: outcome.search_counter, ..s }]),
        (OTHER_BOUND, [s, Settings { dfs_bound: outcome.count.saturating_sub(1), ..s }]),
        (OTHER_BINS, [s, Settings { set_size: s.set_size % MOST.set_size + 1, ..s }]),
    ];
    if outcome.number != 0 {
        return apart;
    }
    if let Some(number) = chains::last_number(&Claim::of(&s, &call.common.list, outcome)) {
        let [high, low] = threshold::halves(number);
        let with = |high, low| Settings { x: Alone(threshold::whole(high, low)), ..s };
        // The chain's number is below the one X and not below the other.
        apart.push((OTHER_HIGH, [with(high.saturating_add(1), low), with(high, low)]));
        apart.push((OTHER_LOW, [with(high, low.saturating_add(1)), with(high, low)]));
    }
    apart
}

/// Two such parties, either of them first.
fn check_apart(block: &mut Block, call: &Call, name: &'static str, two: [Settings; 2]) -> Checked {
    let mut apart = Call::of(call.common.clone(), two.map(|settings| Party { settings, ..call.parties[0] }));
    // Room for the table of a bin more too.
    apart.common.table.resize(call.common.table.len() + 3, 0);
    let [first, second] = check(block, &apart)?;
    block.seen.count(name, u32::from(first != second));
    check(block, &apart.exchanged()).map(|_| ())
}

/// Tables in place of the right one: those made otherwise that aren't the same, and the right one with a number of each part another.
fn tables(rng: &mut Rng, call: &Call) -> Vec<(&'static str, Vec<u32>)> {
    let (common, set_size) = (&call.common, call.parties[0].settings.set_size);
    let right = rules::bin_table(&common.list, set_size, common.retry_counter);
    let with_room = |mut table: Vec<u32>| {
        table.resize(right.len() + 3, 0);
        table
    };
    let mut tables: Vec<(&str, Vec<u32>)> = WHOLE.iter().map(|(name, made)| (*name, with_room(made(rng, common, set_size)))).collect();
    tables.retain(|(_, table)| !table.starts_with(&right));
    for part in PARTS {
        let (mut table, is_part) = (with_room(right.clone()), |at: &usize| damaged_tables::part_of(&right, set_size, *at) == part);
        let places: Vec<usize> = (0..table.len()).filter(is_part).collect();
        if !places.is_empty() {
            table[places[rng.below(places.len() as u64) as usize]] ^= 1 << rng.below(32);
            tables.push((part, table));
        }
    }
    tables
}

fn check_table(block: &mut Block, call: &Call, name: &'static str, table: Vec<u32>) -> Checked {
    let mut other = call.clone();
    other.common.table = table;
    let outcomes = check(block, &other)?;
    note_table(block, name, &outcomes[0]);
    Ok(())
}
