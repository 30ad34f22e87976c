//! The original Rust, unchanged, and the few functions of it that are not public, made callable.
//!
//! The source is cardano-scaling/alba (Apache-2.0), commit 43c389a516. It is read where it lies and is no part of this repository.
//! It names its modules from the top of its crate, which is why it has a crate of its own here.

include!(concat!(env!("OUT_DIR"), "/alba/modules.rs"));

/// `utils::sample::sample_uniform`. The Rust stops on n = 0, so n must be above it.
pub fn sample_uniform(hash: &[u8; 16], n: u64) -> Option<u64> {
    utils::sample::sample_uniform(hash, n)
}

/// `utils::sample::sample_bernoulli`, for q from 0 to 1.
pub fn sample_bernoulli(hash: &[u8; 16], q: f64) -> bool {
    utils::sample::sample_bernoulli(hash, q)
}

/// `utils::misc::check_distinct`.
pub fn check_distinct<E: AsRef<[u8]> + Clone>(elements: &[E]) -> bool {
    utils::misc::check_distinct(elements)
}

/// `Params::param_small_case`, for a proof size of 1 or more and a completeness from 0 on.
pub fn param_small_case(completeness: f64, proof_size: u64) -> centralized_telescope::params::Params {
    centralized_telescope::params::Params::small_case(completeness, proof_size as f64)
}

#[cfg(test)]
mod tests {
    use super::*;

    /// Case h of the specification.
    #[test]
    fn small_case() {
        let of = |u| param_small_case(128.0, u);
        assert_eq!((of(1).max_retries, of(1).search_width, of(1).dfs_bound), (128, 80, 515));
        assert_eq!((of(200).max_retries, of(200).search_width, of(200).dfs_bound), (128, 15_904, 10_291_586));
    }

    /// The prover and the verifier of the original run, and agree.
    #[test]
    fn proves_and_verifies() {
        use centralized_telescope::{proof::Proof, telescope::Telescope};
        use utils::types::Element;
        let elements: Vec<_> = (0..40u64).map(|i| Element::new(i.to_be_bytes(), Some(i))).collect();
        let params = param_small_case(16.0, 4);
        let telescope = Telescope::setup_unsafe(20, &params);
        let proof: Proof<_, sha2::Sha256> = telescope.prove(&elements).expect("a proof");
        assert!(telescope.verify(&proof).is_ok());
        assert!(check_distinct(&elements) && !check_distinct(&[elements[0].clone(), elements[0].clone()]));
    }
}
