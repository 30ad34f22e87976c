//! Runs with just what was planned: `alba_prove` in workspace of the planned amounts and of one number less, and each proof's ticket in a
//! buffer of the planned blocks. What is due is as for other searches and tickets.

use super::blocks::{self, Block};
use super::searches::{self, Outcome};
use super::verdicts::Claim;
use super::{faults, plan, prover_refusals, shown_list, tickets, Checked, Run};
use crate::model::rules::{self, Amounts, BYTES, MOST};
use crate::{
    ffi,
    ffi::Settings,
    list::List,
    model::threshold::Threshold::{Alone, OfQ},
    model::ticket,
    model::ticket::{Proof, BLOCK},
    original,
    rng::Rng,
};

/// Searches in a block, and the small case's in one.
const SEARCHES: u64 = 50;
const SMALL_CASES: u64 = 8;
/// So many blocks at least, in which every kind comes.
const LEAST: u64 = 20;

/// A list by the workspace that it is searched in: the planned one, a place less, and a number of the bin table less.
type InWorkspace = [&'static str; 3];
const ENOUGH: InWorkspace = ["just the planned workspace", "a place less", "a number of the bin table less"];
const TOO_FEW: InWorkspace =
    ["too few elements, the planned workspace", "too few elements, a place less", "too few elements, a number of the bin table less"];
const BAD: InWorkspace = ["a bad list, the planned workspace", "a bad list, a place less", "a bad list, a number of the bin table less"];
const MORE: &str = "more than the planned workspace";
const ALL_STEPS: &str = "as many steps as planned";
const FEWER_STEPS: &str = "fewer steps than planned";
/// The ticket of a proof in the planned blocks.
const WHOLE: &str = "a ticket of the longest data, all with an index";
const WHOLE_SHORT: &str = "such a ticket, a byte less lent";
const EMPTY: &str = "a ticket without elements";
const AS_MANY: &str = "another ticket, of as many blocks as planned";
const FEWER: &str = "another ticket, of fewer blocks than planned";
const NO_INDEX: &str = "a ticket without an index";
/// What only `compare` runs.
const OF_SMALL_CASE: &str = "settings of the small case";
const LONGEST: &str = "a ticket of 1,024 elements of 4,096 bytes";

pub fn run(run: &mut Run, cases: u64) -> Checked {
    blocks::run(run, cases.div_ceil(SEARCHES).max(LEAST), |_, block| (0..SEARCHES).try_for_each(|_| any(block)))?;
    blocks::run(run, SMALL_CASES, |_, block| (0..SMALL_CASES).try_for_each(|_| of_small_case(block)))?;
    let listed = at_limits();
    blocks::run(run, listed.len() as u64, |number, block| check(block, &listed[number as usize]).map(|_| ()))?;
    run.seen.none_missing(kinds().chain([(OF_SMALL_CASE, Some(0)), (LONGEST, Some(0))]))
}

/// Every kind that must have come, with its answer.
pub fn kinds() -> impl Iterator<Item = (&'static str, Option<u32>)> {
    let ended = [0, ffi::NOT_FOUND_IN_BOUNDS, ffi::NOT_FOUND];
    let searched = [ENOUGH[0], MORE, FEWER_STEPS].into_iter().flat_map(move |kind| ended.map(|answer| (kind, answer)));
    let short = [ENOUGH[1], ENOUGH[2], TOO_FEW[1], TOO_FEW[2]].map(|kind| (kind, ffi::TOO_SHORT));
    let bad = BAD.into_iter().flat_map(|kind| [ffi::BAD_LIST, ffi::TOO_LARGE].map(|answer| (kind, answer)));
    let tickets = [WHOLE, EMPTY, AS_MANY, FEWER, NO_INDEX].map(|kind| (kind, 0));
    let others = [(TOO_FEW[0], ffi::NOT_ENOUGH), (ALL_STEPS, ffi::NOT_FOUND_IN_BOUNDS), (WHOLE_SHORT, ffi::BUFFER_SHORT)];
    searched.chain(short).chain(bad).chain(tickets).chain(others).map(|(kind, answer)| (kind, Some(answer)))
}

/// A search, and the length that is planned for: no element's data are longer.
pub struct Planned {
    pub settings: Settings,
    pub list: List,
    pub longest: usize,
}

/// The search with what was planned for it and with less, too short a list and a bad one, and the ticket of the proof.
pub fn check(block: &mut Block, planned: &Planned) -> Result<Outcome, String> {
    let Planned { settings, list, longest } = planned;
    let amounts = plan::amounts(block, settings, *longest as u64)?;
    let outcome = search(block, settings, list, &amounts)?;
    one_less(block, settings, list, &amounts, (ENOUGH, ffi::TOO_SHORT))?;
    too_few(block, settings, list, &amounts)?;
    bad_list(block, settings, list, &amounts)?;
    if outcome.number == 0 {
        ticket_of(block, planned, &outcome, &amounts)?;
    }
    Ok(outcome)
}

fn workspace(amounts: &Amounts) -> (usize, usize) {
    (amounts.places as usize, amounts.bin_table as usize)
}

/// The same number, places and bin table in the planned workspace and in more, and no more steps than planned.
fn search(block: &mut Block, s: &Settings, list: &List, amounts: &Amounts) -> Result<Outcome, String> {
    let due = searches::due(s, list)?;
    let (places, table) = workspace(amounts);
    searches::check_in(block, s, list, &due, (places, table))?;
    block.seen.count(ENOUGH[0], due.number);
    let (more_places, more_table) = (1 + block.rng.below(9) as usize, 1 + block.rng.below(9) as usize);
    searches::check_in(block, s, list, &due, (places + more_places, table + more_table))?;
    block.seen.count(MORE, due.number);
    if due.count > amounts.most_steps {
        return Err(format!("  {s:?}\n{}  {} steps, and {} were planned\n", shown_list(list), due.count, amounts.most_steps));
    }
    block.seen.count(if due.count == amounts.most_steps { ALL_STEPS } else { FEWER_STEPS }, due.number);
    Ok(due)
}

/// A place less, if there is one, then a number of the bin table less: refused with this number, and nothing altered.
fn one_less(block: &mut Block, s: &Settings, list: &List, amounts: &Amounts, (kinds, due): (InWorkspace, u32)) -> Checked {
    let (places, table) = workspace(amounts);
    if let Some(one_less) = places.checked_sub(1) {
        prover_refusals::refuse_in(block, s, list, due, (one_less, table))?;
        block.seen.count(kinds[1], due);
    }
    prover_refusals::refuse_in(block, s, list, due, (places, table - 1))?;
    block.seen.count(kinds[2], due);
    Ok(())
}

/// Fewer elements than set_size: 6 comes before 10.
fn too_few(block: &mut Block, s: &Settings, list: &List, amounts: &Amounts) -> Checked {
    let count = block.rng.below(s.set_size) as u32;
    let few = list.at(&(0..count).collect::<Vec<_>>());
    prover_refusals::refuse_in(block, s, &few, ffi::NOT_ENOUGH, workspace(amounts))?;
    block.seen.count(TOO_FEW[0], ffi::NOT_ENOUGH);
    one_less(block, s, &few, amounts, (TOO_FEW, ffi::TOO_SHORT))
}

/// The list with a fault, if it takes one: 4 and 5 come before 6.
fn bad_list(block: &mut Block, s: &Settings, list: &List, amounts: &Amounts) -> Checked {
    let mut bad = list.clone();
    faults::in_short_list(&mut block.rng, &mut bad);
    let Err(due) = rules::list(&bad) else {
        return Ok(());
    };
    prover_refusals::refuse_in(block, s, &bad, due, workspace(amounts))?;
    block.seen.count(BAD[0], due);
    one_less(block, s, &bad, amounts, (BAD, due))
}

/// The proof written out as a list, and that as a ticket into just the planned blocks: it takes no more. Where every element has an index
/// and the longest data it takes them all, so that a byte less is too short.
fn ticket_of(block: &mut Block, planned: &Planned, found: &Outcome, amounts: &Amounts) -> Checked {
    let Claim { retry_counter: retry, search_counter: search, list, .. } = Claim::of(&planned.settings, &planned.list, found);
    let (kind, is_whole) = kind_of(&list, planned.longest, amounts);
    let (proof, room) = (Proof { retry, search, list }, amounts.ticket_blocks as usize * BLOCK);
    let blocks = ticket::count_blocks(&proof.list) as u64;
    let written = tickets::write(block, &proof, room, tickets::BLOCKS)?;
    if written != 0 || blocks > amounts.ticket_blocks || is_whole && blocks < amounts.ticket_blocks {
        let (settings, list) = (planned.settings, shown_list(&proof.list));
        return Err(format!("  {settings:?}\n{list}  answer {written}, {blocks} blocks, {} planned\n", amounts.ticket_blocks));
    }
    block.seen.count(kind, written);
    if is_whole {
        let short = tickets::write(block, &proof, room - 1, tickets::BLOCKS)?;
        block.seen.count(WHOLE_SHORT, short);
    }
    if proof.list.len() > 0 && proof.list.marks.iter().all(|mark| *mark == 0) {
        block.seen.count(NO_INDEX, written);
    }
    if is_whole && proof.list.len() as u64 == MOST.proof_size && planned.longest == BYTES {
        block.seen.count(LONGEST, written);
    }
    Ok(())
}

/// What kind of a ticket a proof's elements make, and whether they are as many and as long as was planned for.
fn kind_of(list: &List, longest: usize, amounts: &Amounts) -> (&'static str, bool) {
    let is_longest = |place| list.index_of(place).is_some() && list.data_of(place).len() == longest;
    let is_whole = (0..list.len()).all(is_longest);
    match ticket::count_blocks(list) as u64 == amounts.ticket_blocks {
        _ if list.len() == 0 => (EMPTY, is_whole),
        _ if is_whole => (WHOLE, is_whole),
        true => (AS_MANY, is_whole),
        false => (FEWER, is_whole),
    }
}

/// A small search in which mostly every chain of full length passes.
pub fn any(block: &mut Block) -> Checked {
    let planned = any_planned(&mut block.rng);
    check(block, &planned).map(|_| ())
}

fn any_planned(rng: &mut Rng) -> Planned {
    let mut settings = searches::any_settings(rng);
    match rng.below(8) {
        0 => (),
        1 => settings.x = Alone(u128::MAX),
        _ => settings.x = OfQ(1.0),
    }
    // Half of the bounds are such that a chain of full length is mostly come to.
    settings.dfs_bound += [0, 500][rng.below(2) as usize];
    let longest = any_longest(rng, &settings);
    // Long data are hashed few times.
    settings.set_size = settings.set_size.min(1 + 20_000 / (64 + longest as u64));
    settings.dfs_bound = settings.dfs_bound.min(200_000 / (64 + longest as u64));
    let len = searches::any_len(rng, settings.set_size as usize);
    Planned { settings, list: list_for(rng, len, longest), longest }
}

/// So many elements with data up to a length, or all of that length and with an index.
fn list_for(rng: &mut Rng, len: usize, longest: usize) -> List {
    let is_whole = rng.below(2) == 0;
    let mut list = searches::list_of(rng, len, if is_whole { longest } else { 0 }, longest);
    if is_whole {
        list.marks.fill(1);
    }
    list
}

/// Short ones mostly, and where the number of blocks grows or is about to; now and then the longest.
fn any_longest(rng: &mut Rng, s: &Settings) -> usize {
    match rng.below(32) {
        0 => BYTES,
        1..=15 => {
            let from = rng.below(600) as usize;
            next_growth(s, from).saturating_sub(rng.below(2) as usize)
        }
        _ => [0, 1, 8, 48, 99][rng.below(5) as usize],
    }
}

/// The next length for which more blocks are planned than for a byte less; this one where there is none, as without elements.
fn next_growth(s: &Settings, from: usize) -> usize {
    let blocks = |longest: usize| rules::plan(s, longest as u64).map_or(0, |amounts| amounts.ticket_blocks);
    (from + 1..=BYTES).find(|longest| blocks(*longest) > blocks(longest - 1)).unwrap_or(from)
}

/// The settings of the small case, with a list as they are meant for.
fn of_small_case(block: &mut Block) -> Checked {
    let rng = &mut block.rng;
    let (set_size, proof_size, completeness) = (8 + rng.below(40), 1 + rng.below(6), [1.0, 3.0, 20.0][rng.below(3) as usize]);
    let settings = original::small_case(set_size, proof_size, completeness);
    let len = searches::any_len(rng, set_size as usize) as u64;
    let planned = Planned { settings, list: searches::list_of_48(rng, len), longest: [48, 64][rng.below(2) as usize] };
    let outcome = check(block, &planned)?;
    block.seen.count(OF_SMALL_CASE, outcome.number);
    Ok(())
}

/// Each amount at its most and at its least.
fn at_limits() -> Vec<Planned> {
    let one = Settings { set_size: 1, proof_size: MOST.proof_size, max_retries: 2, search_width: 1, dfs_bound: 2000, x: OfQ(1.0) };
    let of = |settings, elements: usize, longest: usize| {
        let mut list = faults::long_list(elements, longest);
        list.marks.fill(1);
        Planned { settings, list, longest }
    };
    let large = Settings { set_size: MOST.set_size, proof_size: 3, search_width: 40, x: OfQ(0.01), ..one };
    let idle = Settings { proof_size: 0, max_retries: MOST.max_retries, dfs_bound: 1, x: OfQ(0.0), ..one };
    let mut without_index = of(one, 1, BYTES);
    without_index.list.marks.fill(0);
    vec![
        of(one, 1, BYTES),
        of(one, 2, 0),
        without_index,
        of(large, MOST.set_size as usize, 2),
        of(Settings { dfs_bound: MOST.dfs_bound, ..large }, 2 * MOST.set_size as usize, 2),
        // As many steps as planned: one in each try, and none at all.
        of(idle, 1, 0),
        of(Settings { dfs_bound: 0, ..idle }, 1, 0),
        of(Settings { max_retries: 0, ..idle }, 1, 0),
        // Found at the first step of the most that are planned.
        of(Settings { dfs_bound: MOST.dfs_bound, x: OfQ(1.0), ..idle }, 1, BYTES),
    ]
}

#[cfg(test)]
mod tests {
    use super::*;

    /// Worked out by hand: 37 bytes beside the data of a proof of one element, 50 beside those of one of two.
    #[test]
    fn where_the_blocks_grow() {
        let of = |proof_size, from| next_growth(&Settings { proof_size, ..MOST }, from);
        assert_eq!((of(1, 0), of(1, 467), of(1, 468)), (468, 468, 972));
        // Two elements of 227 bytes just fill a block.
        assert_eq!((of(2, 0), of(2, 228)), (228, 480));
        assert_eq!((of(0, 0), of(0, 600), of(1, 4096)), (0, 600, 4096));
        // From 504 elements on a byte more is a block more at least.
        assert_eq!((of(504, 7), of(1024, 0)), (8, 1));
    }

    /// Lists keep to the length, and many come to it with each of their elements.
    #[test]
    fn what_is_planned_for_is_kept_to() {
        let (mut rng, mut whole, mut found) = (Rng::new(1, 0), 0, 0);
        for _ in 0..400 {
            let Planned { settings, list, longest } = any_planned(&mut rng);
            assert_eq!((rules::settings(&settings), rules::list(&list)), (Ok(()), Ok(())));
            assert!(list.len() as u64 >= settings.set_size && (0..list.len()).all(|place| list.data_of(place).len() <= longest));
            let is_longest = |place| list.data_of(place).len() == longest && list.index_of(place).is_some();
            whole += u32::from((0..list.len()).all(is_longest));
            found += u32::from(searches::due(&settings, &list).is_ok_and(|due| due.number == 0));
        }
        assert!(whole > 100 && found > 100, "{whole}, {found}");
    }

    /// Elements of so many bytes, by what is planned for as many of the longest.
    #[test]
    fn kinds_of_tickets() {
        let of = |elements: &[(usize, Option<u64>)], longest: usize| {
            let mut list = List::default();
            elements.iter().for_each(|(len, index)| list.push(&vec![7; *len], *index, 0));
            let settings = Settings { proof_size: elements.len() as u64, ..MOST };
            kind_of(&list, longest, &rules::plan(&settings, longest as u64).expect("lawful"))
        };
        assert_eq!(of(&[], 9), (EMPTY, true));
        assert_eq!(of(&[(2, Some(1)), (2, Some(1))], 2), (WHOLE, true));
        assert_eq!(of(&[(2, Some(1)), (2, None)], 2), (AS_MANY, false));
        assert_eq!(of(&[(2, Some(1)), (1, Some(1))], 2), (AS_MANY, false));
        // 504 bytes are planned for with 467, and a byte more makes a block more.
        assert_eq!((of(&[(467, Some(1))], 467), of(&[(468, Some(1))], 468)), ((WHOLE, true), (WHOLE, true)));
        assert_eq!((of(&[(467, Some(1))], 468), of(&[(468, None)], 468)), ((FEWER, false), (FEWER, false)));
    }
}
