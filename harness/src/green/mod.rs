//! What green means, if SHA-256 is as a function drawn at random: how many of all functions have a proof that the verifier accepts, counted
//! and measured, against the bound of the theorems `green_share` and `seldom_green`.

mod as_verified;
mod fraction;
mod game;
mod games;
mod keyed;
mod security;
mod share;
mod tables;
mod telescope;

use crate::{args::Model, compare::Checked, rng::Rng};
use std::time::Instant;

/// Streams of random numbers: the small games', that of the verifier's game with SHA-256, and the security figures' from here on.
const OF_GAMES: u64 = 0;
const OF_VERIFIED: u64 = 1000;
const OF_SECURITY: u64 = 2000;

pub fn run(options: &Model) -> Checked {
    let Model { functions, seed } = *options;
    println!("seed 0x{seed:016x}, {functions} functions\n");
    let started = Instant::now();
    let failed = |part: &'static str| move |why: String| format!("{part}: FAILED (seed 0x{seed:016x})\n{why}");
    games::run(seed, OF_GAMES, functions).map_err(failed("small games"))?;
    let verified = as_verified::run(&mut Rng::new(seed, OF_VERIFIED)).map_err(failed("with SHA-256"))?;
    println!("\n{verified}\n");
    security::run(seed, OF_SECURITY, functions).map_err(failed("security figures"))?;
    println!("\nall within their bounds, in {:.0} seconds", started.elapsed().as_secs_f64());
    Ok(())
}
