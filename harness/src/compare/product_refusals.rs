//! What `alba_two_products` refuses, and to whom: each refusal alone and with each of the others, of one party or of both, with the other
//! party served wherever nothing of its own is at fault.

use super::blocks::Block;
use super::fence::Fenced;
use super::product_checks::{check, check_length, Call, FIGURES};
use super::{faults, Checked};
use crate::ffi::{self, Party, Settings};
use crate::list::List;
use crate::model::products::Common;
use crate::model::rules::{self, BYTES, MOST};
use crate::model::threshold::Threshold::Alone;
use crate::rng::Rng;

/// A party whose try ends at once, in one of three ways: it finds, it comes to its bound, or neither. With another party's width, which may
/// be a very great one, it would end soon too.
pub fn quick(set_size: u64, retry_counter: u64, how: u64) -> Party {
    let (dfs_bound, x) = [(40, Alone(u128::MAX)), (1, Alone(0)), (1000, Alone(0))][how as usize % 3];
    Party { settings: Settings { set_size, proof_size: 1, max_retries: 0, search_width: 8, dfs_bound, x }, retry_counter }
}

/// How many states there are here of what both parties are served from.
pub const STATES: u64 = 18;

/// One state of the list, of the table's length and of its numbers, with each two of the parties.
pub fn every_order(block: &mut Block, state: u64) -> Checked {
    let mut common = Common::of(faults::long_list(4, 2), 3, 5);
    match state % 3 {
        0 => (),
        1 => common.list.marks[3] = 2,
        _ => common.list.push(&[7; BYTES + 1], None, 0),
    }
    // Enough for six bins, for three, and for two.
    common.table.resize([19, 10, 9][state as usize / 3 % 3], 1);
    if state / 9 == 1 {
        common.table[8] += 1;
    }
    let parties = parties();
    for ((first, places), (second, places2)) in parties.iter().flat_map(|one| parties.iter().map(move |other| (one, other))) {
        check(block, &Call { common: common.clone(), parties: [*first, *second], places: [*places, *places2] })?;
    }
    Ok(())
}

/// The settings as they should be, with the set size out of range, with another number over its limit, and with both.
const LINES: [fn(&mut Settings); 4] =
    [|_| (), |s| s.set_size = 0, |s| s.search_width = 1 << 32, |s| (s.set_size, s.max_retries) = (32_769, 65_536)];

/// Parties with their places: of the table's set size, of a lesser one, and of more than there are elements; with the table's retry counter
/// and the next one; with each of these settings; with no place, which is too few, and with one. Where the settings are as they should be,
/// with each end of the try.
fn parties() -> Vec<(Party, usize)> {
    let mut parties = Vec::new();
    for (set_size, retry_counter) in [3, 2, 6].into_iter().flat_map(|set_size| [(set_size, 5), (set_size, 6)]) {
        for line in LINES {
            let mut party = quick(set_size, retry_counter, 0);
            line(&mut party.settings);
            parties.extend([(party, 0), (party, 1)]);
        }
        parties.extend([1, 2].map(|how| (quick(set_size, retry_counter, how), 1)));
    }
    parties
}

/// Room for the answers of every other length, with each other fault and without one: 8 comes first, and to both.
pub fn every_length(block: &mut Block) -> Checked {
    let whole = Call::of(Common::of(faults::long_list(4, 2), 3, 5), [quick(3, 5, 0), quick(3, 5, 0)]);
    let mut calls = vec![whole; 6];
    calls[1].parties[0].settings.set_size = 0;
    calls[2].parties[1].settings.proof_size = 1025;
    calls[3].common.list.marks[1] = 2;
    calls[4].places = [0, 0];
    calls[5].common.table[1] += 1;
    for call in &calls {
        (0..=2 * FIGURES).map(Some).chain([None]).try_for_each(|out_len| check_length(block, call, out_len))?;
    }
    Ok(())
}

/// Null pointers with length 0 are an empty list, no table and no places.
pub fn nulls(block: &mut Block) -> Checked {
    let nothing = ffi::Listed { data: None, ends: None, marks: None, indexes: None };
    let list = faults::long_list(1, 1);
    let (no_places, first, second) = (Settings { proof_size: 0, ..quick(1, 0, 0).settings }, quick(1, 0, 0), quick(1, 7, 0));
    let first_of_none = Party { settings: no_places, ..first };
    // One bin and one element: its table is known, and a start passes.
    let table = [0, 1, 0, 0];
    let served = [0, 0, 1];
    for (list, table, parties, due) in [
        (nothing, None, [&first_of_none, &first], [6, 6].map(|number| [number, 0, 0])),
        (nothing, Some(&table[..]), [&first, &first_of_none], [[6, 0, 0], [10, 0, 0]]),
        (list.lent(), None, [&first_of_none, &second], [6, 6].map(|number| [number, 0, 0])),
        (list.lent(), Some(&table[..]), [&first_of_none, &first], [served, [6, 0, 0]]),
        (list.lent(), Some(&table[..]), [&second, &first_of_none], [[6, 0, 0], served]),
    ] {
        let [mut places, mut places2] = [(); 2].map(|_| Fenced::null(&mut block.rng, |word| word as u32));
        let mut out = Fenced::new(&mut block.rng, FIGURES, |word| word);
        let ours = ffi::two_products(table, 0, list, parties, [&mut places, &mut places2], &mut out);
        if ours != 0 || !out.holds(due.as_flattened()) {
            return Err(format!("  null pointers, {parties:?}: {ours}\n{}", out.story("number, S and count of each", due.as_flattened())));
        }
        block.tally.count("first party", due[0][0] as u32);
        block.tally.count("second party", due[1][0] as u32);
    }
    Ok(())
}

/// Up to four faults in what both have and in what each has, or another party's.
pub fn check_with_faults(block: &mut Block, mut call: Call) -> Checked {
    for _ in 0..1 + block.rng.below(4) {
        fault(&mut block.rng, &mut call);
    }
    check(block, &call).map(|_| ())
}

fn fault(rng: &mut Rng, call: &mut Call) {
    let (which, len) = (rng.below(2) as usize, call.common.list.len() as u64);
    let (Common { list, table, retry_counter }, party) = (&mut call.common, &mut call.parties[which]);
    match rng.below(16) {
        0..=1 => faults::in_settings(rng, &mut party.settings),
        2 => faults::in_short_list(rng, list),
        3 => *list = shortened(rng, list, party.settings.set_size),
        4..=5 => call.places[which] = call.places[which].saturating_sub(1),
        6 => drop(table.pop()),
        7 => table.truncate(rng.below(table.len() as u64 + 1) as usize),
        // As many numbers as a larger set wants.
        8..=9 => table.resize(table.len() + 3, 0),
        10 => party.settings.set_size = (len + 1).min(MOST.set_size),
        11 => party.settings.set_size = party.settings.set_size.saturating_add(1),
        12 => party.settings.set_size = (party.settings.set_size.max(2) - 1).min(len.max(1)),
        13 => party.retry_counter ^= 1 << rng.below(64),
        14 => *retry_counter ^= 1 << rng.below(64),
        _ if table.is_empty() => (),
        _ => {
            let at = rng.below(table.len() as u64) as usize;
            table[at] ^= 1 << rng.below(32);
        }
    }
}

/// With fewer elements than the set size, where the list is lawful.
fn shortened(rng: &mut Rng, list: &List, set_size: u64) -> List {
    match rules::list(list) {
        Ok(()) => list.at(&(0..rng.below(set_size.clamp(1, list.len().max(1) as u64)) as u32).collect::<Vec<u32>>()),
        Err(_) => list.clone(),
    }
}
