//! Settings and lists from the whole of the specification's domain, and how long a search of them may take.

use crate::compare::verdicts::Claim;
use crate::compare::{bernoulli, searches};
use crate::model::rules::{BYTES, ELEMENTS, MOST};
use crate::model::threshold::Threshold::{self, Alone, OfQ};
use crate::{ffi::Settings, list::List, rng::Rng};

/// The most data bytes of a list, all elements together. Full lists are run by themselves.
const DATA: usize = 1 << 22;

/// A number up to `most`: at either end, anywhere between, or of any size, each count of binary digits as likely as another.
pub fn up_to(rng: &mut Rng, most: u64) -> u64 {
    let digits = rng.below(u64::from(u64::BITS - most.leading_zeros()) + 1) as u32;
    match rng.below(10) {
        0 => most,
        1 => most.saturating_sub(1),
        2 => rng.below(3).min(most),
        3 => rng.below(most + 1),
        _ => (rng.word() & u64::MAX.checked_shr(u64::BITS - digits).unwrap_or(0)).min(most),
    }
}

/// Lawful settings, each of them drawn by itself.
pub fn any_settings(rng: &mut Rng) -> Settings {
    // Mostly such that some of the steps that are made come to a chain that passes.
    let one_in = up_to(rng, 1 << 12);
    Settings {
        set_size: 1 + up_to(rng, MOST.set_size - 1),
        proof_size: up_to(rng, MOST.proof_size),
        max_retries: up_to(rng, MOST.max_retries),
        search_width: up_to(rng, MOST.search_width),
        dfs_bound: up_to(rng, MOST.dfs_bound),
        x: any_x(rng, one_in),
    }
}

/// Mostly that of a q, with which the Rust is run; else an X by itself: about as great as one of a q, or of any size.
fn any_x(rng: &mut Rng, one_in: u64) -> Threshold {
    let q = searches::any_q(rng, one_in);
    match rng.below(8) {
        0 => Alone(bernoulli::any_x(rng)),
        1 => Alone(OfQ(q).x() ^ u128::from(rng.word())),
        _ => OfQ(q),
    }
}

/// A list with enough elements for a set of this size: just as many, as many as are kept, or more; 65,536 at most.
pub fn enough_elements(rng: &mut Rng, set_size: u64) -> List {
    let most = ELEMENTS as u64;
    let len = match rng.below(8) {
        0 => set_size,
        1 => 2 * set_size,
        2 => 2 * set_size + up_to(rng, most - 2 * set_size),
        3 => most,
        _ => set_size + up_to(rng, set_size),
    };
    any_list(rng, len as usize)
}

/// So many elements: empty ones, short and long ones, of equal or any length.
pub fn any_list(rng: &mut Rng, len: usize) -> List {
    let longest = match rng.below(6) {
        0 => 0,
        1 => BYTES,
        2..=3 => 48,
        _ => up_to(rng, BYTES as u64) as usize,
    };
    let longest = longest.min(DATA / len.max(1));
    let shortest = [0, longest][rng.below(2) as usize];
    searches::list_of(rng, len, shortest, longest)
}

/// Random elements as a proof of the length asked or another, with counters mostly within their limits. With few bins its chain
/// exists for a while, with one to its end.
pub fn any_claim(rng: &mut Rng) -> Claim {
    let mut settings = any_settings(rng);
    if rng.below(2) == 0 {
        settings.set_size = 1 + rng.below(2);
    }
    let len = match rng.below(8) {
        0 => up_to(rng, ELEMENTS as u64),
        1 => settings.proof_size + 1,
        2 => settings.proof_size.saturating_sub(1),
        _ => settings.proof_size,
    };
    let (retry_counter, search_counter) = (any_counter(rng, settings.max_retries), any_counter(rng, settings.search_width));
    Claim { settings, retry_counter, search_counter, list: any_list(rng, len as usize) }
}

fn any_counter(rng: &mut Rng, limit: u64) -> u64 {
    match rng.below(12) {
        0 => limit,
        1 => rng.word(),
        _ => up_to(rng, limit.saturating_sub(1)),
    }
}

/// Brings a search of a list to about so many blocks of hashing at most, and gives the greatest bound that keeps to it. The library makes
/// the search once and the Rust twice.
///
/// A try hashes the kept elements for its bins, and one element or counter for each step, of which the bound admits so many; the Rust
/// copies a chain at each step as well. Tries times that is the work, so these never come together: very many tries with a large set or
/// with very many steps, and very many steps with long elements. How much of it is left to the steps of a try, and so whether the tries
/// or the bound give way, is drawn.
pub fn keep_within(rng: &mut Rng, s: &mut Settings, list: &List, work: u64) -> u64 {
    let long = (list.data.len() / list.len().max(1)) as u64 / 64;
    let kept = (list.len() as u64).min(2 * s.set_size);
    let (bins, step) = (1 + kept * (1 + long) + s.set_size / 4, 2 + long + s.proof_size / 64);
    let steps = s.dfs_bound.min((work / step) >> rng.below(20));
    s.max_retries = s.max_retries.min((work / (bins + steps * step)).max(1));
    let most = work / step / s.max_retries.max(1);
    s.dfs_bound = s.dfs_bound.min(most);
    most
}
