//! `alba_verify` against the Rust's verifier and the specification's words (model/chains.rs), with an X by itself against these alone: on
//! each proof found, and on many damaged copies of it.

use super::blocks::Block;
use super::searches::Outcome;
use super::{bernoulli, shown_list, Answered, Checked};
use crate::model::threshold::Threshold::{Alone, OfQ};
use crate::model::{chains, rules};
use crate::{ffi, ffi::Settings, list::List, original, original::ProofOf, rng::Rng};

/// A proof and the settings that it is held to.
#[derive(Clone)]
pub struct Claim {
    pub settings: Settings,
    pub retry_counter: u64,
    pub search_counter: u64,
    pub list: List,
}

impl Claim {
    /// The proof that a search of a list found.
    pub fn of(settings: &Settings, list: &List, found: &Outcome) -> Claim {
        let (retry_counter, search_counter) = (found.retry_counter, found.search_counter);
        Claim { settings: *settings, retry_counter, search_counter, list: list.at(&found.places) }
    }
}

/// The proof as it is, its damaged copies, and the proof under other X's: both verdicts on each.
pub fn of_proof(block: &mut Block, settings: &Settings, list: &List, found: &Outcome) -> Checked {
    let claims = claims(&mut block.rng, settings, list, found);
    let under_other_x = claims.last().map_or(Vec::new(), under_other_x);
    claims.iter().chain(&under_other_x).try_for_each(|claim| check(block, claim))
}

/// A proof under X's at and around the number of its last hash, where the verdict turns.
fn under_other_x(proof: &Claim) -> Vec<Claim> {
    let of = |x| Claim { settings: Settings { x: Alone(x), ..proof.settings }, ..proof.clone() };
    chains::last_number(proof).map_or(Vec::new(), |number| bernoulli::near(number).map(of).to_vec())
}

/// The proof's damaged copies, and at the end the proof as it is, twice: its R may be the limit, which then is raised. What a damaged
/// copy is worth is the Rust's to say: some are proofs all the same.
pub fn claims(rng: &mut Rng, settings: &Settings, list: &List, found: &Outcome) -> Vec<Claim> {
    let proof = Claim::of(settings, list, found);
    // What is done to the list is done under settings that the proof's own R keeps to, so that its chain is looked at.
    let mut kept_to = proof.clone();
    kept_to.settings.max_retries = kept_to.settings.max_retries.max(kept_to.retry_counter + 1);
    let mut claims = other_counters(rng, &proof);
    claims.extend(other_settings(rng, &proof));
    for damage in [element, byte, index, mark, unread, order, border, one_more, one_less] {
        let mut claim = kept_to.clone();
        damage(rng, &mut claim.list, list);
        claims.push(claim);
    }
    claims.extend([proof, kept_to]);
    // The Rust has no limits, so at a limit a damaged copy may be one that only it serves.
    claims.retain(|claim| rules::settings(&claim.settings).is_ok() && rules::list(&claim.list).is_ok());
    claims
}

/// One claim with a lawful list: both verdicts, and that the list lent is as it was.
pub fn check(block: &mut Block, claim: &Claim) -> Checked {
    let verdict = verdict(claim)?;
    block.tally.count("verify", verdict);
    Ok(())
}

/// The verdict of both.
pub fn verdict(claim: &Claim) -> Answered {
    let Claim { settings, retry_counter, search_counter, list } = claim;
    let written = list.written();
    let lent = written.clone();
    let ours = ffi::verify(settings, *retry_counter, *search_counter, lent.lent());
    let due = due(claim)?;
    if ours != due || lent != written {
        return Err(format!("{}  ours: {ours}\n  due: {due}\n  the list is {}\n", shown(claim), as_it_was(lent == written)));
    }
    Ok(ours)
}

/// What the specification's words say, which with a q is what the Rust says.
fn due(claim: &Claim) -> Answered {
    let by_words = chains::verify(claim);
    match claim.settings.x {
        OfQ(_) if by_rust(claim) != by_words => {
            Err(format!("{}  the Rust: {}\n  by the specification's words: {by_words}\n", shown(claim), by_rust(claim)))
        }
        _ => Ok(by_words),
    }
}

/// The Rust's verdict on a claim with a q.
pub fn by_rust(claim: &Claim) -> u32 {
    original::verify(&claim.settings, &ProofOf::from(claim.retry_counter, claim.search_counter, claim.list.elements()))
}

pub fn as_it_was(is_so: bool) -> &'static str {
    if is_so {
        "as it was"
    } else {
        "ALTERED"
    }
}

pub fn shown(claim: &Claim) -> String {
    let s = &claim.settings;
    format!("  {s:?}\n  R {}, S {}\n{}", claim.retry_counter, claim.search_counter, shown_list(&claim.list))
}

/// R and S beside their own, at the limits and beyond, and each in the place of the other.
fn other_counters(rng: &mut Rng, proof: &Claim) -> Vec<Claim> {
    let (s, r, c) = (&proof.settings, proof.retry_counter, proof.search_counter);
    let counters = [
        (0, c),
        (r - 1, c),
        (r + 1, c),
        (s.max_retries, c),
        (s.max_retries.saturating_sub(1), c),
        (rng.below(s.max_retries + 1), c),
        (rng.word(), c),
        (r, s.search_width),
        (r, s.search_width - 1),
        (r, c + 1),
        (r, rng.below(s.search_width)),
        (r, rng.word()),
        (c, r),
    ];
    counters.map(|(retry_counter, search_counter)| Claim { retry_counter, search_counter, ..proof.clone() }).to_vec()
}

fn other_settings(rng: &mut Rng, proof: &Claim) -> Vec<Claim> {
    let s = proof.settings;
    let settings = [
        Settings { x: OfQ(0.0), max_retries: s.max_retries + 1, ..s },
        Settings { x: s.x.halved(), max_retries: s.max_retries + 1, ..s },
        Settings { set_size: s.set_size + 1, max_retries: s.max_retries + 1, ..s },
        Settings { proof_size: s.proof_size + 1, ..s },
        Settings { max_retries: proof.retry_counter, ..s },
        // The bound is the prover's alone.
        Settings { dfs_bound: rng.below(2), max_retries: s.max_retries + 1, ..s },
    ];
    settings.map(|settings| Claim { settings, ..proof.clone() }).to_vec()
}

/// Replaces an element of the proof; `None` takes it out.
fn replace(proof: &mut List, place: usize, other: Option<(&[u8], Option<u64>)>) {
    let mut list = List::default();
    for at in 0..proof.len() {
        let own = Some((proof.data_of(at), proof.index_of(at)));
        if let Some((data, index)) = if at == place { other } else { own } {
            list.push(data, index, proof.indexes[at]);
        }
    }
    *proof = list;
}

fn any_place(rng: &mut Rng, list: &List) -> Option<usize> {
    (list.len() > 0).then(|| rng.below(list.len() as u64) as usize)
}

/// Another element of the prover's list in the place of one.
fn element(rng: &mut Rng, proof: &mut List, from: &List) {
    if let (Some(place), Some(other)) = (any_place(rng, proof), any_place(rng, from)) {
        replace(proof, place, Some((from.data_of(other), from.index_of(other))));
    }
}

/// A bit of the data.
fn byte(rng: &mut Rng, proof: &mut List, _: &List) {
    if !proof.data.is_empty() {
        let at = rng.below(proof.data.len() as u64) as usize;
        proof.data[at] ^= 1 << rng.below(8);
    }
}

/// An index, by its lowest or by any bit.
fn index(rng: &mut Rng, proof: &mut List, _: &List) {
    if let Some(place) = any_place(rng, proof).filter(|place| proof.marks[*place] == 1) {
        proof.indexes[place] ^= if rng.below(2) == 0 { 1 } else { 1 << rng.below(64) };
    }
}

/// A mark: the index then counts where it didn't, or the other way about.
fn mark(rng: &mut Rng, proof: &mut List, _: &List) {
    if let Some(place) = any_place(rng, proof) {
        proof.marks[place] ^= 1;
    }
}

/// What isn't read: indexes where the mark is 0, and data behind the last end.
fn unread(rng: &mut Rng, proof: &mut List, _: &List) {
    for place in 0..proof.len() {
        if proof.marks[place] == 0 {
            proof.indexes[place] = rng.word();
        }
    }
    proof.data.push(rng.word() as u8);
}

/// Two elements in each other's place.
fn order(rng: &mut Rng, proof: &mut List, _: &List) {
    if let (Some(a), Some(b)) = (any_place(rng, proof), any_place(rng, proof)) {
        let mut places: Vec<u32> = (0..proof.len() as u32).collect();
        places.swap(a, b);
        *proof = proof.at(&places);
    }
}

/// The border between two elements, by a byte.
fn border(rng: &mut Rng, proof: &mut List, _: &List) {
    if let Some(place) = any_place(rng, proof) {
        let end = proof.ends[place];
        let next = proof.ends.get(place + 1).map_or(proof.data.len(), |end| *end as usize);
        if (end as usize) < next {
            proof.ends[place] += 1;
        } else if !proof.data_of(place).is_empty() {
            proof.ends[place] -= 1;
        }
    }
}

/// An element more, at the end: one of the prover's list.
fn one_more(rng: &mut Rng, proof: &mut List, from: &List) {
    if let Some(other) = any_place(rng, from) {
        proof.push(from.data_of(other), from.index_of(other), 0);
    }
}

/// An element less, at any place.
fn one_less(rng: &mut Rng, proof: &mut List, _: &List) {
    if let Some(place) = any_place(rng, proof) {
        replace(proof, place, None);
    }
}
