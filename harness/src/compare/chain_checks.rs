//! One call of `alba_count_chains` against what is due by the words of the specification and the request (model/counts.rs), and what is due
//! against the Rust. That counts no chains by their length; but its verifier says of each list of places whether that chain exists and
//! passes, and its prover's routine how many chains there are of all search counters together.

use super::blocks::Block;
use super::fence::Fenced;
use super::verdicts::{self, Claim};
use super::{shown_list, Checked};
use crate::ffi::{self, Settings};
use crate::list::List;
use crate::model::chains;
use crate::model::counts::{self, Asked, Counted};
use crate::model::rules::MOST;
use crate::model::threshold::Threshold::OfQ;
use crate::original;

/// So many lists of places at most are shown to the Rust's verifier.
const SHOWN: u64 = 300;
/// The Rust's runs start with the first try, so it is asked about the first few alone.
const BY_RUST: u64 = 3;

/// Trees held to the Rust's verifier, by whether a chain passes (0) or none (1).
pub const SHOWN_WHOLE: &str = "a tree held to the Rust's verifier";
/// Tries held to the Rust's step count, with enough elements and with fewer; and those of which an S is refused.
pub const SUMS: [&str; 2] = ["a sum held to the Rust's step count", "a sum held to the Rust's step count, fewer elements than set_size"];
pub const NO_SUM: &str = "a sum in which an S is refused";
/// A try with a q, by whether a chain passes (0) or none (1).
pub const FIRST_PASSING: &str = "the first S with a chain that passes held to the Rust";

/// One call: the number, the counts, how many pass, the bin table, and that nothing else has changed.
pub fn check(block: &mut Block, asked: &Asked) -> Result<Counted, String> {
    let due = counts::answer(asked);
    check_in(block, asked, &due, Some(1))?;
    Ok(due)
}

/// The call with room for so many numbers that pass, or a null pointer: 8 where it isn't one, before all else.
pub fn check_length(block: &mut Block, asked: &Asked, out_len: Option<usize>) -> Checked {
    match out_len {
        Some(1) => check(block, asked).map(|_| ()),
        _ => check_in(block, asked, &Counted { number: ffi::BAD_LENGTH, ..Counted::default() }, out_len),
    }
}

fn check_in(block: &mut Block, asked: &Asked, due: &Counted, out_len: Option<usize>) -> Checked {
    let (rng, Asked { settings, list, retry_counter, search_counter, .. }) = (&mut block.rng, asked);
    let mut table = Fenced::new(rng, asked.table, |word| word as u32);
    let mut counts = Fenced::new(rng, asked.counts, |word| word);
    let mut out = match out_len {
        Some(len) => Fenced::new(rng, len, |word| word),
        None => Fenced::null(rng, |word| word),
    };
    let lent = list.clone();
    let ours = ffi::count_chains(settings, [*retry_counter, *search_counter], lent.lent(), &mut table, &mut counts, &mut out);

    let passing = [due.passing];
    // Of a length that isn't the one wanted nothing is said but the number.
    let passing = if due.number == ffi::BAD_LENGTH { &[][..] } else { &passing };
    let is_written = table.holds(&due.table) && counts.holds(&due.counts) && out.holds(passing);
    if ours != due.number || !is_written || lent != *list {
        return Err(format!(
            "{}  ours: {ours}\n  due: {}\n{}{}{}  the list is {}\n",
            shown(asked),
            due.number,
            out.story("how many pass", passing),
            counts.story("counts", &due.counts),
            table.story("bin table", &due.table),
            verdicts::as_it_was(lent == *list)
        ));
    }
    block.tally.count("count chains", ours);
    Ok(())
}

fn shown(asked: &Asked) -> String {
    let Asked { settings, list, retry_counter, search_counter, table, counts } = asked;
    format!(
        "  {settings:?}, R = {retry_counter}, S = {search_counter}, {table} numbers for the bin table, {counts} counts\n{}",
        shown_list(list)
    )
}

/// What is due of a served tree against the Rust's verifier, where its lists of places are few: with q = 1 it takes each chain that exists,
/// of whatever length is asked, and with a q those that pass.
pub fn check_by_verifier(block: &mut Block, asked: &Asked, due: &Counted) -> Checked {
    let Some((counts, passing)) = by_verifier(asked) else {
        return Ok(());
    };
    if (&counts, passing) != (&due.counts, due.passing) {
        return Err(format!("{}  by the Rust's verifier: {counts:?}, {passing} pass\n  due: {due:?}\n", shown(asked)));
    }
    block.seen.count(SHOWN_WHOLE, u32::from(passing == 0));
    Ok(())
}

/// None where the lists of places are too many, or the limits that the verifier holds R and S to can't be above them.
fn by_verifier(asked: &Asked) -> Option<(Vec<u64>, u64)> {
    let Asked { settings, list, retry_counter, search_counter, .. } = asked;
    let (max_retries, search_width) = (retry_counter.checked_add(1)?, search_counter.checked_add(1)?);
    let s = Settings { max_retries, search_width, ..*settings };
    let kept = list.len().min(2 * s.set_size as usize) as u32;
    if lists_of(kept, s.proof_size) > SHOWN {
        return None;
    }
    let claim = |settings: Settings, places: &[u32]| {
        let list = list.at(places);
        Claim { settings, retry_counter: *retry_counter, search_counter: *search_counter, list }
    };
    let exists = |places: &Vec<u32>| {
        let settings = Settings { proof_size: places.len() as u64, x: OfQ(1.0), ..s };
        verdicts::by_rust(&claim(settings, places)) == 0
    };
    let passes = |places: &&Vec<u32>| {
        let claim = claim(s, places);
        match s.x {
            OfQ(_) => verdicts::by_rust(&claim) == 0,
            _ => chains::verify(&claim) == 0,
        }
    };
    let (mut lists, mut counts, mut passing) = (vec![Vec::new()], Vec::new(), 0);
    for length in 0..=s.proof_size {
        counts.push(lists.iter().filter(|places| exists(places)).count() as u64);
        if length == s.proof_size {
            passing = lists.iter().filter(passes).count() as u64;
        }
        lists = lists.iter().flat_map(|places| (0..kept).map(|place| [&places[..], &[place]].concat())).collect();
    }
    Some((counts, passing))
}

/// How many lists of places there are of all lengths, or a number above those that are shown.
fn lists_of(kept: u32, proof_size: u64) -> u64 {
    let (mut all, mut longest) = (1, 1);
    for _ in 0..proof_size.min(SHOWN) {
        longest = (longest * u64::from(kept)).min(SHOWN);
        all += longest;
    }
    all
}

/// The trees of every S of a try, for the first retry counters until an S is refused: their sum is the try's step count in the Rust where
/// nothing passes and the bound isn't reached; and with a q the first S of which a chain passes is that of the Rust's proof.
pub fn check_sums(block: &mut Block, settings: &Settings, list: &List) -> Checked {
    let elements = list.elements();
    // Its routine doesn't look whether there are enough elements.
    let by_rust = |s: Settings| original::prove_routine(&s, &elements);
    let kind = SUMS[usize::from((list.len() as u64) < settings.set_size)];
    let (mut whole, mut found) = (0, None);
    for retry_counter in 1..=BY_RUST {
        for search_counter in 0..settings.search_width {
            let asked = just_enough(*settings, list.clone(), [retry_counter, search_counter]);
            let counted = check(block, &asked)?;
            if counted.number != 0 {
                block.seen.count(NO_SUM, counted.number);
                return Ok(());
            }
            whole += counted.counts.iter().sum::<u64>();
            if counted.passing > 0 {
                found = found.or(Some((retry_counter, search_counter)));
            }
        }
        let tries = Settings { max_retries: retry_counter, dfs_bound: MOST.dfs_bound, ..*settings };
        let idle = Settings { x: OfQ(0.0), ..tries };
        let mut bounds = vec![MOST.dfs_bound, whole + 1];
        // The bound is each try's alone: of one try it may be just the sum.
        bounds.extend((retry_counter == 1).then_some(whole));
        for dfs_bound in bounds {
            let count = by_rust(Settings { dfs_bound, ..idle }).0;
            if count != whole {
                let (list, by_ours) = (shown_list(list), format!("R up to {retry_counter}, all S together: {whole} chains"));
                return Err(format!("  {settings:?}\n{list}  {by_ours}\n  the Rust's step count, the bound {dfs_bound}: {count}\n"));
            }
        }
        block.seen.count(kind, 0);
        if let OfQ(_) = settings.x {
            let proof = by_rust(tries).1.ok().map(|proof| (proof.retry_counter, proof.search_counter));
            if proof != found {
                let (list, by_ours) = (shown_list(list), format!("the first R and S with a chain that passes: {found:?}"));
                return Err(format!("  {settings:?}\n{list}  {by_ours}\n  of the Rust's proof: {proof:?}\n"));
            }
            block.seen.count(FIRST_PASSING, u32::from(proof.is_none()));
        }
    }
    Ok(())
}

/// The call with just enough lent.
pub fn just_enough(settings: Settings, list: List, [retry_counter, search_counter]: [u64; 2]) -> Asked {
    let (table, counts) = (3 * settings.set_size as usize + 1, settings.proof_size as usize + 1);
    Asked { settings, list, retry_counter, search_counter, table, counts }
}

#[cfg(test)]
mod tests {
    use super::*;
    use crate::compare::faults;

    /// With one bin every list of kept places is a chain, and with q = 1 each passes; of three elements two are kept.
    #[test]
    fn what_the_verifier_says_of_one_bin() {
        let of = |elements, proof_size, counters| {
            let s = Settings { set_size: 1, proof_size, max_retries: 0, search_width: 0, dfs_bound: 0, x: OfQ(1.0) };
            by_verifier(&just_enough(s, faults::long_list(elements, 1), counters))
        };
        assert_eq!((of(0, 2, [1, 1]), of(1, 2, [0, 7])), (Some((vec![1, 0, 0], 0)), Some((vec![1; 3], 1))));
        assert_eq!((of(3, 3, [5, 0]), of(2, 0, [1, u64::MAX - 1])), (Some((vec![1, 2, 4, 8], 8)), Some((vec![1], 1))));
        // A counter with no limit above it, and more lists of places than are shown.
        assert_eq!((of(1, 0, [u64::MAX, 1]), of(1, 0, [1, u64::MAX]), of(2, 9, [1, 1])), (None, None, None));
    }
}
