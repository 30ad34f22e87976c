//! `alba_small_case` against the Rust's `param_small_case`: every figure, X bit for bit as that of the Rust's q.

use super::{fence::Fenced, Answered, Checked, Run};
use crate::model::threshold::{self, halves};
use crate::{ffi, rng::Rng};

/// How many numbers are lent for the answer.
pub const FIGURES: usize = 6;

pub fn run(run: &mut Run, cases: u64) -> Checked {
    let listed = listed();
    for u in 0..=1025 {
        for &c in &listed {
            check(&mut run.rng, u, c, FIGURES)?;
            run.count();
        }
        for _ in 0..cases / 1026 {
            let c = any_c(&mut run.rng);
            check(&mut run.rng, u, c, FIGURES)?;
            run.count();
        }
    }
    for u in [1026, 65_536, 1 << 32, u64::MAX] {
        for c in [1.0, f64::NAN] {
            check(&mut run.rng, u, c, FIGURES)?;
            run.count();
        }
    }
    for length in [0, 1, 4, 5, 7, 9] {
        check(&mut run.rng, 1, 1.0, length)?;
        run.count();
    }
    Ok(())
}

/// Zeros, subnormals, whole numbers, the limit, each with its neighbours; and what is refused.
pub fn listed() -> Vec<f64> {
    let mut lawful = vec![0.0, f64::from_bits(1), f64::MIN_POSITIVE, 1e-300, 0.5];
    lawful.extend([1.0, 2.0, 3.0, 7.0, 128.0, 1000.0, 4096.0, 32_767.0, 65_534.0, 65_535.0]);
    let mut all = vec![-0.0, f64::NAN, -f64::NAN, f64::INFINITY, f64::NEG_INFINITY, -1.0, -f64::from_bits(1), 65_536.0, 1e300, f64::MAX];
    for c in lawful {
        let bits = c.to_bits();
        all.extend([f64::from_bits(bits.wrapping_sub(1)), c, f64::from_bits(bits + 1)]);
    }
    all
}

/// Lawful or not, of several kinds.
pub fn any_c(rng: &mut Rng) -> f64 {
    match rng.below(4) {
        0 => f64::from_bits(rng.word()),
        1 => rng.below(65_537) as f64,
        2 => rng.below(1 << 20) as f64 / 1024.0,
        _ => (rng.word() >> 11) as f64 / (1u64 << 53) as f64 * 65_540.0,
    }
}

/// One case, with a place of so many numbers lent for the answer.
pub fn check(rng: &mut Rng, u: u64, c: f64, length: usize) -> Answered {
    let mut out = Fenced::new(rng, length, |word| word);
    let ours = ffi::small_case(u, c, &mut out);
    let (number, written) = due(u, c, length);
    if ours == number && out.holds(&written) {
        return Ok(ours);
    }
    Err(format!("  u {u}, c {c:?} (bits 0x{:016x})\n  ours: {ours}\n  due: {number}\n{}", c.to_bits(), out.story("the settings", &written)))
}

/// The number, and what is then written.
pub fn due(u: u64, c: f64, length: usize) -> (u32, Vec<u64>) {
    if length != FIGURES {
        return (ffi::BAD_LENGTH, Vec::new());
    }
    if !(1..=1024).contains(&u) {
        return (ffi::BAD_U, Vec::new());
    }
    if !(0.0..=65_535.0).contains(&c) {
        return (ffi::BAD_C, Vec::new());
    }
    let p = oracle::param_small_case(c, u);
    let [x_high, x_low] = halves(threshold::of(p.valid_proof_probability).expect("the small case's q is from 0 to 1"));
    (0, vec![p.proof_size, p.max_retries, p.search_width, p.dfs_bound, x_high, x_low])
}
