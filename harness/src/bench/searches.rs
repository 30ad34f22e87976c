//! Prover and verifier against the Rust's: the same elements and settings, and the same proof with the same step count, or the run fails.
//!
//! The Rust makes its bins anew in each try; ours are lent, and the time to clear them is counted as ours.

use super::measure::{in_turns, median, timed, Measured, Work};
use super::{row, SHA2};
use crate::{
    compare::searches::list_of_48,
    ffi,
    ffi::Settings,
    list::{List, Written},
    original,
    original::ProofOf,
    rng::Rng,
};
use oracle::utils::types::Element;
use std::hint::black_box;

pub const SET_SIZE: u64 = 1000;
const COMPLETENESS: f64 = 128.0;
/// Proof sizes, and how many lists are searched with each: a search has about 16 u² steps.
const PROOF_SIZES: [(u64, u64); 4] = [(50, 15), (100, 9), (200, 7), (400, 3)];
/// The proof size at which the verifier is measured.
const VERIFIED: u64 = 200;

/// A proof in both forms.
struct Proven<E> {
    ours: Written,
    theirs: ProofOf<E>,
}

pub fn run() -> Result<(), String> {
    for (proof_size, lists) in PROOF_SIZES {
        let settings = original::small_case(SET_SIZE, proof_size, COMPLETENESS);
        let proofs = searches(&settings, lists, "[u8; 48]", |data| *data)?;
        if proof_size == VERIFIED {
            verdicts(&settings, &proofs, "[u8; 48]")?;
            let proofs = searches(&settings, lists, "Vec<u8>", |data| data.to_vec())?;
            verdicts(&settings, &proofs, "Vec<u8>")?;
        }
    }
    Ok(())
}

/// The Rust copies the elements of its proof at each step, so its speed depends on their type.
pub fn against(kind: &str) -> String {
    format!("the Rust over `{kind}`, {SHA2}")
}

/// Searches of so many lists: a row, and the proofs.
fn searches<E: AsRef<[u8]> + Clone>(
    settings: &Settings,
    lists: u64,
    kind: &str,
    element: fn(&[u8; 48]) -> E,
) -> Result<Vec<Proven<E>>, String> {
    let (mut times, mut proofs) = (Vec::new(), Vec::new());
    for seed in 0..lists {
        let (ours, theirs, proven) = search(settings, seed, element)?;
        times.push([ours, theirs]);
        proofs.push(proven);
    }
    let of = |i: usize| Measured {
        ns: median(times.iter().map(|pair| pair[i]).collect()),
        longer: median(times.iter().map(|pair| pair[i] / pair[0]).collect()),
    };
    let work = format!("prove, set_size {SET_SIZE}, u = {}: a step ({lists} lists)", settings.proof_size);
    row(&work, &against(kind), of(0), of(1), None);
    Ok(proofs)
}

/// One list: nanoseconds a step of ours and of theirs, and the proof.
fn search<E: AsRef<[u8]> + Clone>(settings: &Settings, seed: u64, element: fn(&[u8; 48]) -> E) -> Result<(f64, f64, Proven<E>), String> {
    let (list, elements) = any_elements(&mut Rng::new(seed, settings.proof_size), SET_SIZE, element);
    let mut places = vec![u32::MAX; settings.proof_size as usize];
    let mut table = vec![u32::MAX; 3 * SET_SIZE as usize + 1];
    let mut out = [0; 3];
    let (ours, number) = timed(|| {
        table.fill(0);
        places.fill(0);
        ffi::prove(black_box(settings), list.lent(), &mut places[..], &mut table[..], &mut out[..])
    });
    let (theirs, (steps, answer)) = timed(|| original::prove_routine(black_box(settings), &elements));
    let failed = |what: &str| format!("harness: prove, u = {}, list {seed}: {what}", settings.proof_size);
    let proof = answer.map_err(|theirs| failed(&format!("ours {number}, the Rust {theirs}")))?;
    let is_same = places.iter().zip(&proof.element_sequence).all(|(place, element)| element.index == Some(u64::from(*place)));
    if number != 0 || out != [proof.retry_counter, proof.search_counter, steps] || !is_same {
        return Err(failed("the proofs differ"));
    }
    let a_step = |seconds: f64| seconds / steps as f64 * 1e9;
    Ok((a_step(ours), a_step(theirs), Proven { ours: list.at(&places).written(), theirs: proof }))
}

/// So many elements of 48 random bytes, with their place as index.
pub fn any_elements<E: AsRef<[u8]> + Clone>(rng: &mut Rng, count: u64, element: fn(&[u8; 48]) -> E) -> (List, Vec<Element<E>>) {
    let list = list_of_48(rng, count);
    let data = |place: u64| list.data_of(place as usize).try_into().expect("48 bytes");
    let elements = (0..count).map(|place| Element::new(element(data(place)), Some(place))).collect();
    (list, elements)
}

fn verdicts<E: AsRef<[u8]> + Clone>(settings: &Settings, proofs: &[Proven<E>], kind: &str) -> Result<(), String> {
    let ours = |p: &Proven<E>| ffi::verify(settings, p.theirs.retry_counter, p.theirs.search_counter, black_box(&p.ours).lent());
    let theirs = |p: &Proven<E>| original::verify(settings, black_box(&p.theirs));
    if proofs.iter().any(|proof| (ours(proof), theirs(proof)) != (0, 0)) {
        return Err("harness: a proof is not accepted by both".to_string());
    }
    let our_work: Work = Box::new(|calls| over(proofs, calls, ours));
    let their_work: Work = Box::new(|calls| over(proofs, calls, theirs));
    let [our_time, their_time] = in_turns([our_work, their_work]);
    row(&format!("verify, set_size {SET_SIZE}, u = {}", settings.proof_size), &against(kind), our_time, their_time, None);
    Ok(())
}

/// The proofs in turn, so many calls in all.
fn over<P>(proofs: &[P], calls: u64, verdict: impl Fn(&P) -> u32) {
    for proof in proofs.iter().cycle().take(calls as usize) {
        black_box(verdict(proof));
    }
}
