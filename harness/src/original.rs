//! The Rust's prover and verifier, their answers by the specification's numbers.

use crate::ffi::{self, Settings};
use crate::model::proof_size::Figures;
use crate::model::threshold::Threshold::OfQ;
use oracle::centralized_telescope::{params::Params, proof::Proof, telescope::Telescope};
use oracle::utils::errors::{ProofGenerationError, VerificationError};
use oracle::utils::types::Element;
use sha2::Sha256;

pub type ProofOf<E> = Proof<E, Sha256>;

/// The settings with the q that their X is of.
pub fn params(s: &Settings) -> Params {
    Params {
        proof_size: s.proof_size,
        max_retries: s.max_retries,
        search_width: s.search_width,
        valid_proof_probability: s.x.q(),
        dfs_bound: s.dfs_bound,
    }
}

/// The settings of the Rust's small case.
pub fn small_case(set_size: u64, proof_size: u64, completeness: f64) -> Settings {
    let p = oracle::param_small_case(completeness, proof_size);
    Settings {
        set_size,
        proof_size: p.proof_size,
        max_retries: p.max_retries,
        search_width: p.search_width,
        dfs_bound: p.dfs_bound,
        x: OfQ(p.valid_proof_probability),
    }
}

/// The proof size that `Params::new` makes of the figures, in doubles.
pub fn proof_size(figures: &Figures) -> u64 {
    Params::new(figures.s as f64, figures.c as f64, figures.n, figures.f).proof_size
}

/// `Telescope::prove` over `setup_unsafe`, the prover as the Rust's users call it: the proof or the number.
pub fn prove<E: AsRef<[u8]> + Clone>(s: &Settings, elements: &[Element<E>]) -> Result<ProofOf<E>, u32> {
    Telescope::setup_unsafe(s.set_size, &params(s)).prove(elements).map_err(number_of)
}

/// `prove_routine`, through `bench`: the step count, which the users' call doesn't tell, and the proof or the number. It doesn't look
/// whether there are enough elements.
pub fn prove_routine<E: AsRef<[u8]> + Clone>(s: &Settings, elements: &[Element<E>]) -> (u64, Result<ProofOf<E>, u32>) {
    let (steps, answer) = ProofOf::bench(s.set_size, &params(s), elements);
    (steps, answer.map_err(number_of))
}

pub fn verify<E: AsRef<[u8]> + Clone>(s: &Settings, proof: &ProofOf<E>) -> u32 {
    match Telescope::setup_unsafe(s.set_size, &params(s)).verify(proof) {
        Ok(()) => 0,
        Err(VerificationError::IncorrectNumberElements) => ffi::WRONG_NUMBER,
        Err(VerificationError::InvalidParameters) => ffi::INVALID_PARAMETERS,
        Err(VerificationError::InvalidProof) => ffi::INVALID_PROOF,
        Err(other) => panic!("the Rust's verifier says {other:?}, which only its lottery can"),
    }
}

fn number_of(error: ProofGenerationError) -> u32 {
    match error {
        ProofGenerationError::NotEnoughElements => ffi::NOT_ENOUGH,
        ProofGenerationError::NotFoundInBounds => ffi::NOT_FOUND_IN_BOUNDS,
        ProofGenerationError::NotFound => ffi::NOT_FOUND,
        other => panic!("the Rust's prover says {other:?}, which only its lottery can"),
    }
}
