//! What `alba_verify` refuses before it looks at the proof, by the order of the specification's table; the rest goes to the Rust.

use super::blocks::{self, Block};
use super::searches::Outcome;
use super::verdicts::{self, Claim};
use super::{faults, searches, Checked, Run};
use crate::model::rules;
use crate::{
    ffi,
    ffi::Settings,
    list::{List, Written},
    model::threshold::Threshold::OfQ,
    rng::Rng,
};

const BLOCK: u64 = 100;

pub fn run(run: &mut Run, cases: u64) -> Checked {
    blocks::run(run, cases.div_ceil(BLOCK), |_, block| {
        let proof = any_proof(&mut block.rng)?;
        (0..BLOCK).try_for_each(|_| check_with_faults(block, &proof))
    })?;
    let listed = listed();
    blocks::run(run, listed.len() as u64, |number, block| {
        let claim = &listed[number as usize];
        check(block, claim, &claim.list.written())
    })?;
    blocks::run(run, 1, |_, block| {
        every_cut(block)?;
        nulls(block)
    })
}

/// Up to three faults, and now and then a length of bytes that is no whole count of numbers.
pub fn check_with_faults(block: &mut Block, proof: &Claim) -> Checked {
    let mut claim = proof.clone();
    for _ in 0..block.rng.below(4) {
        fault(&mut block.rng, &mut claim);
    }
    let mut written = claim.list.written();
    for _ in 0..block.rng.below(8).saturating_sub(5) {
        cut(&mut block.rng, &mut written);
    }
    check(block, &claim, &written)
}

/// A proof that the Rust found, so that a refusal comes from the fault alone.
pub fn any_proof(rng: &mut Rng) -> Result<Claim, String> {
    let (settings, list, found) = any_search(rng)?;
    Ok(Claim::of(&settings, &list, &found))
}

/// A search in which the Rust finds a proof before the last try.
pub fn any_search(rng: &mut Rng) -> Result<(Settings, List, Outcome), String> {
    loop {
        let settings = Settings {
            set_size: 1 + rng.below(9),
            proof_size: 1 + rng.below(4),
            max_retries: 8,
            search_width: 50,
            dfs_bound: 1000,
            x: OfQ(0.3),
        };
        let list = searches::any_list(rng, settings.set_size as usize);
        let found = searches::due(&settings, &list)?;
        if found.number == 0 && found.retry_counter < settings.max_retries {
            return Ok((settings, list, found));
        }
    }
}

fn fault(rng: &mut Rng, claim: &mut Claim) {
    match rng.below(8) {
        0..=1 => faults::in_settings(rng, &mut claim.settings),
        2..=4 => faults::in_list(rng, &mut claim.list),
        5 => claim.retry_counter = claim.settings.max_retries.saturating_add(rng.below(2)),
        6 => claim.search_counter = claim.settings.search_width.saturating_add(rng.below(2)),
        _ => claim.settings.proof_size = rng.below(8),
    }
}

/// Bytes more or less, by which the length is mostly no whole count of numbers.
fn cut(rng: &mut Rng, written: &mut Written) {
    let bytes = if rng.below(2) == 0 { &mut written.ends } else { &mut written.indexes };
    let by = 1 + rng.below(8) as usize;
    let len = if rng.below(2) == 0 { bytes.len() + by } else { bytes.len().saturating_sub(by) };
    bytes.resize(len, 0);
}

/// Lists at and over their limits: a list that is lawful has another length than the proof's.
fn listed() -> Vec<Claim> {
    let settings = Settings { set_size: 3, proof_size: 3, max_retries: 2, search_width: 2, dfs_bound: 10, x: OfQ(0.5) };
    faults::large_lists().into_iter().map(|list| Claim { settings, retry_counter: 1, search_counter: 1, list }).collect()
}

/// Every length of ends and of indexes up to two numbers more than there are.
fn every_cut(block: &mut Block) -> Checked {
    let claim = any_proof(&mut block.rng)?;
    let whole = claim.list.written();
    for len in 0..=whole.ends.len() + 8 {
        let mut written = whole.clone();
        written.ends.resize(len, 0);
        check(block, &claim, &written)?;
    }
    for len in 0..=whole.indexes.len() + 16 {
        let mut written = whole.clone();
        written.indexes.resize(len, 0);
        check(block, &claim, &written)?;
    }
    Ok(())
}

/// The number due before the proof is looked at, or the list that the bytes write.
pub fn due(settings: &Settings, written: &Written) -> Result<List, u32> {
    rules::settings(settings)?;
    let list = written.read().ok_or(ffi::BAD_LIST)?;
    rules::list(&list)?;
    Ok(list)
}

fn check(block: &mut Block, claim: &Claim, written: &Written) -> Checked {
    let due = match due(&claim.settings, written) {
        Ok(list) => return verdicts::check(block, &Claim { list, ..claim.clone() }),
        Err(due) => due,
    };
    let lent = written.clone();
    let ours = ffi::verify(&claim.settings, claim.retry_counter, claim.search_counter, lent.lent());
    if ours == due && lent == *written {
        block.tally.count("verify", ours);
        return Ok(());
    }
    Err(format!(
        "{}  with {} bytes of ends and {} of indexes lent\n  ours: {ours}\n  due: {due}\n  the list is {}\n",
        verdicts::shown(claim),
        written.ends.len(),
        written.indexes.len(),
        verdicts::as_it_was(lent == *written)
    ))
}

/// Null pointers with length 0 are an empty list, which is a proof of length 0.
fn nulls(block: &mut Block) -> Checked {
    let nothing = ffi::Listed { data: None, ends: None, marks: None, indexes: None };
    for (proof_size, q) in [(0, 1.0), (0, 0.0), (1, 1.0)] {
        let settings = Settings { set_size: 3, proof_size, max_retries: 2, search_width: 2, dfs_bound: 10, x: OfQ(q) };
        let claim = Claim { settings, retry_counter: 1, search_counter: 1, list: List::default() };
        verdicts::check(block, &claim)?;
        let (null, empty) = (ffi::verify(&settings, 1, 1, nothing), ffi::verify(&settings, 1, 1, claim.list.written().lent()));
        if null != empty {
            return Err(format!("{}  ours with null pointers: {null}\n  ours with empty slices: {empty}\n", verdicts::shown(&claim)));
        }
        block.tally.count("verify", null);
    }
    Ok(())
}
