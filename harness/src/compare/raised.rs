//! The bound raised, the other settings and the elements being the same. Each search is held to the Rust by itself; here the answer under the
//! lower bound and the one under the higher are held to what the request says of them, and to what else can come.

use super::blocks::{self, Block};
use super::searches::{self, Outcome};
use super::{shown_list, Checked, Run};
use crate::ffi::{self, Settings};
use crate::model::threshold::Threshold::OfQ;
use crate::{list::List, rng::Rng};

/// Bounds of one list, each two of which make a pair, and lists of a block.
const BOUNDS: usize = 4;
const PAIRS: u64 = 6;
const BLOCK: u64 = 64;

/// What came under the lower bound: a proof, with the request's premise or without it, or none.
const ALL_BELOW: &str = "pairs after a proof, each earlier try below the lower bound, the same answer";
const SAME_TRY: &str = "pairs after a proof, an earlier try at the lower bound, the same try's proof";
const EARLIER_TRY: &str = "pairs after a proof, an earlier try at the lower bound, an earlier try's proof";
const IN_BOUNDS: &str = "pairs after 11";
const NOT_FOUND: &str = "pairs after 12, the same answer";

pub fn run(run: &mut Run, cases: u64) -> Checked {
    blocks::run(run, cases.div_ceil(PAIRS * BLOCK), |_, block| (0..BLOCK).try_for_each(|_| of_list(block)))?;
    let proofs = [ALL_BELOW, SAME_TRY, EARLIER_TRY].map(|kind| (kind, Some(0)));
    let others = [(IN_BOUNDS, 0), (IN_BOUNDS, ffi::NOT_FOUND_IN_BOUNDS), (IN_BOUNDS, ffi::NOT_FOUND), (NOT_FOUND, ffi::NOT_FOUND)];
    run.seen.none_missing(proofs.into_iter().chain(others.map(|(kind, number)| (kind, Some(number)))))
}

fn of_list(block: &mut Block) -> Checked {
    let settings = any_settings(&mut block.rng);
    let list = searches::any_list(&mut block.rng, settings.set_size as usize);
    let mut bounds: [u64; BOUNDS] = std::array::from_fn(|_| any_bound(&mut block.rng));
    bounds.sort_unstable();
    let mut under = Vec::new();
    for bound in bounds {
        let higher = search(block, &settings, &list, bound)?;
        for lower in &under {
            let kind = held(lower, &higher).map_err(|why| {
                let list = shown_list(&list);
                format!("  {settings:?}\n{list}  under the lower bound: {lower:?}\n  under the higher: {higher:?}\n  {why}\n")
            })?;
            block.seen.count(kind, higher.outcome.number);
        }
        under.push(higher);
    }
    Ok(())
}

/// A search under one bound: what it came to, and the counts of the tries made, from R = 1 on.
#[derive(Debug)]
struct Search {
    bound: u64,
    outcome: Outcome,
    counts: Vec<u64>,
}

/// The Rust's and ours, which must be the same. A try's count is by how much the step count grows when the retry limit admits that try.
fn search(block: &mut Block, s: &Settings, list: &List, bound: u64) -> Result<Search, String> {
    let settings = Settings { dfs_bound: bound, ..*s };
    let outcome = searches::check(block, &settings, list)?;
    let made = if outcome.number == 0 { outcome.retry_counter } else { s.max_retries };
    let (mut counts, mut before) = (Vec::new(), 0);
    for max_retries in 1..=made {
        let sum = match max_retries == made {
            true => outcome.count,
            false => searches::check(block, &Settings { max_retries, ..settings }, list)?.count,
        };
        counts.push(sum - before);
        before = sum;
    }
    Ok(Search { bound, outcome, counts })
}

impl Search {
    /// Whether the bound may have cut this try short.
    fn at_bound(&self, retry_counter: u64) -> bool {
        self.counts[retry_counter as usize - 1] == self.bound
    }

    /// The request's premise: each try before the one that found counted less than the bound.
    fn earlier_below(&self) -> bool {
        self.counts.iter().rev().skip(1).all(|count| *count < self.bound)
    }
}

/// Which kind of pair it is, or what contradicts the request or what else is known.
fn held(lower: &Search, higher: &Search) -> Result<&'static str, &'static str> {
    let (a, b) = (&lower.outcome, &higher.outcome);
    let (kind, holds, why) = match (a.number, b.number) {
        (0, _) if lower.earlier_below() => (ALL_BELOW, a == b, "each earlier try was below the lower bound, and the answer is another"),
        (0, 0) if b.retry_counter < a.retry_counter => {
            (EARLIER_TRY, lower.at_bound(b.retry_counter), "an earlier try's proof, and that try was below the lower bound")
        }
        (0, 0) => {
            let same = (a.retry_counter, a.search_counter, &a.places) == (b.retry_counter, b.search_counter, &b.places);
            (SAME_TRY, same && a.count <= b.count, "a later try, another chain of the same one, or a smaller count")
        }
        (ffi::NOT_FOUND_IN_BOUNDS, 0) => {
            (IN_BOUNDS, lower.at_bound(b.retry_counter), "a proof after 11, of a try that was below the lower bound")
        }
        (ffi::NOT_FOUND_IN_BOUNDS, ffi::NOT_FOUND_IN_BOUNDS | ffi::NOT_FOUND) => (IN_BOUNDS, true, ""),
        (ffi::NOT_FOUND, _) => (NOT_FOUND, a == b, "another answer after 12"),
        _ => ("", false, "no proof any more, or a refusal"),
    };
    holds.then_some(kind).ok_or(why)
}

/// Settings of searches of a few chains, with tries enough that one comes before another.
fn any_settings(rng: &mut Rng) -> Settings {
    let search_width = 1 + rng.below(4);
    Settings {
        set_size: 1 + rng.below(3),
        proof_size: rng.below(3),
        max_retries: rng.below(5),
        search_width,
        dfs_bound: 0,
        x: OfQ(searches::any_q(rng, search_width)),
    }
}

/// At which some tries end and others are cut short.
fn any_bound(rng: &mut Rng) -> u64 {
    match rng.below(4) {
        0 => rng.below(4),
        1 => rng.below(40),
        _ => rng.below(12),
    }
}

#[cfg(test)]
mod tests {
    use super::*;

    /// A proof of the last try.
    fn found(bound: u64, search_counter: u64, counts: &[u64]) -> Search {
        let (retry_counter, count): (u64, u64) = (counts.len() as u64, counts.iter().sum());
        let outcome = Outcome { number: 0, retry_counter, search_counter, count, places: vec![7] };
        Search { bound, outcome, counts: counts.to_vec() }
    }

    /// No proof: 11 or 12 by the sum.
    fn none(bound: u64, counts: &[u64]) -> Search {
        let count: u64 = counts.iter().sum();
        let number = if count >= bound { ffi::NOT_FOUND_IN_BOUNDS } else { ffi::NOT_FOUND };
        let outcome = Outcome::without_proof(number, count);
        Search { bound, outcome, counts: counts.to_vec() }
    }

    #[test]
    fn with_the_premise_nothing_changes() {
        assert_eq!(held(&found(5, 1, &[4, 5]), &found(9, 1, &[4, 5])), Ok(ALL_BELOW));
        assert_eq!(held(&found(5, 1, &[5]), &found(9, 1, &[5])), Ok(ALL_BELOW));
        assert!(held(&found(5, 1, &[4, 5]), &found(9, 1, &[4, 6])).is_err());
        assert!(held(&found(5, 1, &[4, 5]), &found(9, 2, &[4, 5])).is_err());
        assert!(held(&found(5, 1, &[4, 5]), &found(9, 1, &[9])).is_err());
        assert!(held(&found(5, 1, &[4, 5]), &none(9, &[4, 5])).is_err());
    }

    #[test]
    fn without_it_an_earlier_proof_or_a_larger_count_may_come() {
        assert_eq!(held(&found(5, 1, &[5, 2]), &found(9, 0, &[6])), Ok(EARLIER_TRY));
        assert_eq!(held(&found(5, 1, &[5, 2]), &found(9, 1, &[9, 2])), Ok(SAME_TRY));
        assert!(held(&found(5, 1, &[5, 3, 2]), &found(9, 0, &[5, 3])).is_err(), "its try was below the bound");
        assert!(held(&found(5, 1, &[5, 2]), &found(9, 1, &[9, 2, 1])).is_err(), "a later try");
        assert!(held(&found(5, 1, &[5, 2]), &found(9, 2, &[9, 2])).is_err(), "another chain");
        assert!(held(&found(5, 1, &[5, 2]), &found(9, 1, &[4, 2])).is_err(), "a smaller count");
        assert!(held(&found(5, 1, &[5, 2]), &none(9, &[9, 2])).is_err(), "no proof");
    }

    #[test]
    fn without_a_proof() {
        assert_eq!(held(&none(9, &[4, 4]), &none(10, &[4, 4])), Ok(NOT_FOUND));
        assert!(held(&none(9, &[4, 4]), &none(10, &[4, 5])).is_err(), "another count after 12");
        assert!(held(&none(9, &[4, 4]), &found(10, 0, &[4, 4])).is_err(), "a proof after 12");
        assert_eq!(held(&none(4, &[4, 3]), &found(10, 0, &[6])), Ok(IN_BOUNDS));
        assert_eq!(held(&none(4, &[4, 3]), &none(10, &[6, 3])), Ok(IN_BOUNDS));
        assert_eq!(held(&none(4, &[4, 3]), &none(8, &[6, 3])), Ok(IN_BOUNDS));
        assert!(held(&none(4, &[4, 3]), &found(10, 0, &[6, 3])).is_err(), "a proof of a try that was below the bound");
    }
}
