//! A search and a verdict by the specification's words alone, with `sha2` and the Rust's uniform sampler: what is due for an X that no q
//! gives, of which the Rust can't be asked. The hashes that they rest on take the function: here it is SHA-256, in `model` another.

use super::rules;
use crate::compare::{searches::Outcome, verdicts::Claim};
use crate::{ffi, ffi::Settings, list::List};
use sha2::{Digest, Sha256};
use std::ops::ControlFlow::{self, Break, Continue};

/// A round's hash.
pub type Hash = [u8; 32];

/// `function` is SHA-256, or SHA-256 with what is already hashed in it before each message. So it is for the hashes below.
pub fn start_hash(function: &Sha256, retry_counter: u64, search_counter: u64) -> Hash {
    let hasher = function.clone().chain_update(b"Telescope-round_hash");
    hasher.chain_update(retry_counter.to_be_bytes()).chain_update(search_counter.to_be_bytes()).finalize().into()
}

pub fn next_hash(function: &Sha256, hash: &Hash, list: &List, place: usize) -> Hash {
    rules::with_tail(function.clone().chain_update(b"Telescope-round_hash").chain_update(hash), list, place).finalize().into()
}

/// A round's id; without one the round doesn't exist.
pub fn id_of(hash: &Hash, set_size: u64) -> Option<u64> {
    oracle::sample_uniform(hash.first_chunk().expect("16 bytes"), set_size)
}

/// The number of a chain's last hash, which passes where it is below X.
pub fn number_of(function: &Sha256, last: &Hash) -> u128 {
    let digest: Hash = function.clone().chain_update(b"Telescope-proof_hash").chain_update(last).finalize().into();
    u128::from_be_bytes(*digest.first_chunk().expect("16 bytes"))
}

/// What a search of a lawful list comes to, 10 for too few elements too.
pub fn search(s: &Settings, list: &List) -> Outcome {
    if (list.len() as u64) < s.set_size {
        return Outcome::without_proof(ffi::NOT_ENOUGH, 0);
    }
    let mut count = 0;
    for retry_counter in 1..=s.max_retries {
        let one = try_alone(s, list, retry_counter);
        count += one.count;
        if one.number == 0 {
            return Outcome { count, ..one };
        }
    }
    Outcome::without_proof(not_found(s, count), count)
}

/// What the try of one retry counter comes to by itself, on a lawful list with elements enough. The retry limit isn't looked at.
pub fn try_alone(s: &Settings, list: &List, retry_counter: u64) -> Outcome {
    let bins = rules::bins(list, s.set_size, retry_counter);
    let mut one = Try { s, x: s.x.x(), list, bins, retry_counter, places: Vec::new(), count: 0 };
    match one.search() {
        Some(search_counter) => Outcome { number: 0, retry_counter, search_counter, count: one.count, places: one.places },
        None => Outcome::without_proof(not_found(s, one.count), one.count),
    }
}

/// The number where nothing was found.
fn not_found(s: &Settings, count: u64) -> u32 {
    if count >= s.dfs_bound {
        ffi::NOT_FOUND_IN_BOUNDS
    } else {
        ffi::NOT_FOUND
    }
}

/// One try under way.
struct Try<'a> {
    s: &'a Settings,
    x: u128,
    list: &'a List,
    bins: Vec<Vec<u32>>,
    retry_counter: u64,
    /// The chain under way.
    places: Vec<u32>,
    /// How many existing chains there were so far, dfs_bound at most.
    count: u64,
}

impl Try<'_> {
    /// The search counter of the first chain that passes, if that is one of the first dfs_bound.
    fn search(&mut self) -> Option<u64> {
        let mut counters = 0..self.s.search_width;
        counters.find_map(|search_counter| match self.visit(start_hash(&Sha256::new(), self.retry_counter, search_counter)) {
            Continue(()) => None,
            Break(is_found) => Some(is_found.then_some(search_counter)),
        })?
    }

    /// The chain under way, whose last hash this is, then all that grow from it. It breaks off with yes at a chain that passes, with no at
    /// one that is past the bound.
    fn visit(&mut self, hash: Hash) -> ControlFlow<bool> {
        let Some(id) = id_of(&hash, self.s.set_size) else {
            return Continue(());
        };
        if self.count == self.s.dfs_bound {
            return Break(false);
        }
        self.count += 1;
        if self.places.len() as u64 == self.s.proof_size {
            return if number_of(&Sha256::new(), &hash) < self.x { Break(true) } else { Continue(()) };
        }
        for at in 0..self.bins[id as usize].len() {
            let place = self.bins[id as usize][at];
            self.places.push(place);
            self.visit(next_hash(&Sha256::new(), &hash, self.list, place as usize))?;
            self.places.pop();
        }
        Continue(())
    }
}

/// The verdict on a claim with lawful settings and list.
pub fn verify(claim: &Claim) -> u32 {
    let s = &claim.settings;
    if claim.list.len() as u64 != s.proof_size {
        return ffi::WRONG_NUMBER;
    }
    if claim.search_counter >= s.search_width || claim.retry_counter >= s.max_retries {
        return ffi::INVALID_PARAMETERS;
    }
    match last_number(claim) {
        Some(number) if number < s.x.x() => 0,
        _ => ffi::INVALID_PROOF,
    }
}

/// The number of the last hash of the chain that the claim's own elements make, none where that doesn't exist.
pub fn last_number(claim: &Claim) -> Option<u128> {
    let Claim { settings, retry_counter, search_counter, list } = claim;
    let mut hash = start_hash(&Sha256::new(), *retry_counter, *search_counter);
    for place in 0..list.len() {
        let id = id_of(&hash, settings.set_size)?;
        if rules::bin_of(list, place, settings.set_size, *retry_counter) != Some(id) {
            return None;
        }
        hash = next_hash(&Sha256::new(), &hash, list, place);
    }
    id_of(&hash, settings.set_size).map(|_| number_of(&Sha256::new(), &hash))
}

#[cfg(test)]
mod tests {
    use super::*;
    use crate::compare::{blocks, limits, searches, verdicts};
    use crate::model::threshold::Threshold::Alone;
    use crate::rng::Rng;

    /// The specification's cases i to l.
    #[test]
    fn cases_i_to_l() {
        for ((settings, list), said) in limits::i_to_l().iter().zip(limits::SAID) {
            let outcome = search(settings, list);
            assert_eq!((outcome.number, outcome.count), said, "{settings:?}");
        }
    }

    /// With one bin and proofs of one element the chains are known: for each S the start, then each place. All ones let through every
    /// number but all ones itself, so the first chain of full length passes.
    #[test]
    fn the_order_of_chains() {
        let s = Settings { set_size: 1, proof_size: 1, max_retries: 2, search_width: 9, dfs_bound: 100, x: Alone(u128::MAX) };
        let mut list = List::default();
        list.push(b"a", None, 0);
        list.push(b"b", Some(7), 0);
        let outcome = search(&s, &list);
        assert_eq!((outcome.number, outcome.retry_counter, outcome.search_counter, outcome.count), (0, 1, 0, 2));
        assert_eq!(outcome.places, [0]);
        // Below the second chain's number and above the first's only the second passes, or the first found is another.
        let number = |place| last_number(&Claim { settings: s, retry_counter: 1, search_counter: 0, list: list.at(&[place]) });
        let (first, second) = (number(0).expect("one bin"), number(1).expect("one bin"));
        let least = search(&Settings { x: Alone(first.min(second) + 1), ..s }, &list);
        assert_eq!(least.places, [u32::from(second < first)]);
        assert_eq!((least.search_counter, least.count), (0, if second < first { 3 } else { 2 }));
    }

    /// On settings with a q it is the Rust's outcome and the Rust's verdict.
    #[test]
    fn it_is_the_rust_where_there_is_a_q() {
        let mut rng = Rng::new(1, 0);
        let mut block = blocks::Block::new(2, 0);
        let mut found = 0;
        for _ in 0..200 {
            let settings = searches::any_settings(&mut rng);
            let list = searches::any_list(&mut rng, settings.set_size as usize);
            let theirs = searches::due(&settings, &list).expect("the Rust's two calls agree");
            assert_eq!(search(&settings, &list), theirs, "{settings:?}");
            if theirs.number == 0 {
                found += 1;
                for claim in verdicts::claims(&mut block.rng, &settings, &list, &theirs) {
                    assert_eq!(verify(&claim), verdicts::by_rust(&claim));
                }
            }
        }
        assert!(found > 20);
    }
}
