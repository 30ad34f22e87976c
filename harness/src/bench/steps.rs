//! How long a step of a search takes, against proof_size. Nothing passes in these searches, and a bound ends them, so that at every
//! proof_size they have as many steps; in the small case's own at u = 1 the bins would be most of the time.

use super::measure::{timed, Measured};
use super::row;
use super::searches::{against, any_elements, SET_SIZE};
use crate::{ffi, ffi::Settings, model::threshold::Threshold::OfQ, original, rng::Rng};
use std::hint::black_box;

/// How long the chains get. With as many elements as bins each has one extension on the average: few come to their full length, and one
/// step is mostly near the one before. Of one element every chain comes to its full length, so that each step is a level deeper, and
/// the stack of all levels is gone over again and again.
const SHAPES: [(u64, &str); 2] = [(SET_SIZE, "chains as they come"), (1, "every chain of full length")];
const PROOF_SIZES: [u64; 5] = [1, 50, 200, 400, 1024];
const STEPS: u64 = 2_000_000;

pub fn run() -> Result<(), String> {
    // The C library's allocator gives memory back to the system again and again until a large block was freed once, and the Rust's
    // copies would pay for it, though not where other work came before them.
    drop(black_box(vec![1u8; 16 << 20]));
    SHAPES.into_iter().try_for_each(|shape| PROOF_SIZES.into_iter().try_for_each(|proof_size| of(shape, proof_size)))
}

fn of((set_size, shape): (u64, &str), proof_size: u64) -> Result<(), String> {
    let settings = Settings { set_size, proof_size, max_retries: 1, search_width: (1 << 32) - 1, dfs_bound: STEPS, x: OfQ(0.0) };
    let (list, elements) = any_elements(&mut Rng::new(0, proof_size), set_size, |data| *data);
    let (mut places, mut table, mut out) = (vec![0; proof_size as usize], vec![0; 3 * set_size as usize + 1], [0; 3]);
    let (ours, number) = timed(|| ffi::prove(black_box(&settings), list.lent(), &mut places[..], &mut table[..], &mut out[..]));
    let (theirs, (steps, answer)) = timed(|| original::prove_routine(black_box(&settings), &elements));
    if (number, out) != (ffi::NOT_FOUND_IN_BOUNDS, [0, 0, STEPS]) || (answer.err(), steps) != (Some(number), STEPS) {
        return Err(format!("harness: {STEPS} steps, u = {proof_size}: ours {number} with {out:?}, the Rust's {steps} steps"));
    }
    let a_step = |seconds: f64| Measured { ns: seconds / STEPS as f64 * 1e9, longer: seconds / ours };
    let work = format!("prove, set_size {set_size}, u = {proof_size}: a step, {shape}");
    row(&work, &against("[u8; 48]"), a_step(ours), a_step(theirs), None);
    Ok(())
}
