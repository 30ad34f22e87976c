//! `alba_sample_uniform` against the Rust's `sample_uniform`.

use super::{fence::Fenced, hex, Answered, Checked, Run, Shifted};
use crate::{ffi, rng::Rng};

pub fn run(run: &mut Run, cases: u64) -> Checked {
    let ns = edges();
    let hashes = around(&ns);
    for &n in &ns {
        for &i in &hashes {
            check(&mut run.rng, i, n)?;
            run.count();
        }
    }
    for _ in 0..cases {
        let n = any_n(&mut run.rng);
        let i = any_hash(&mut run.rng, n);
        check(&mut run.rng, i, n)?;
        run.count();
    }
    Ok(())
}

/// One case with a lawful n; `i` is the hash as a big-endian number.
pub fn check(rng: &mut Rng, i: u128, n: u64) -> Answered {
    let bytes = i.to_be_bytes();
    let (h, mut out) = (Shifted::new(rng, &bytes), Fenced::new(rng, 8, |word| word as u8));
    let ours = ffi::sample_uniform(Some(h.bytes()), n, &mut out);
    let theirs = oracle::sample_uniform(&bytes, n);
    let (number, written) = match theirs {
        Some(value) => (0, value.to_be_bytes().to_vec()),
        None => (ffi::NO_DRAW, Vec::new()),
    };
    if ours == number && out.holds(&written) && h.bytes() == bytes {
        return Ok(ours);
    }
    Err(format!(
        "  h = {}\n  n = {n} = 0x{n:x}\n  ours: {ours}\n  the Rust: {theirs:?}, so {number}\n{}  h after: {}",
        hex(&bytes),
        out.story("out", &written),
        hex(h.bytes())
    ))
}

/// 1, 2, 3, 10, every power of two and its neighbours, and the largest n.
pub fn edges() -> Vec<u64> {
    let mut ns = vec![3, 10, 1000, u64::MAX];
    for power in (0..64).map(|bit| 1u64 << bit) {
        ns.extend([power - 1, power, power + 1]);
    }
    ns.sort_unstable();
    ns.dedup();
    ns.retain(|&n| n > 0);
    ns
}

/// The least number from which there is no draw, D × n, for n that is no power of two.
pub fn bound(n: u64) -> u128 {
    u128::MAX / u128::from(n) * u128::from(n)
}

/// 0, all FF, and the numbers around every D × n and every n.
fn around(ns: &[u64]) -> Vec<u128> {
    let mut hashes = vec![0, u128::MAX];
    for &n in ns {
        for middle in [bound(n), u128::from(n), u128::from(n) << 64] {
            hashes.extend([middle - 1, middle, middle.saturating_add(1)]);
        }
    }
    hashes.sort_unstable();
    hashes.dedup();
    hashes
}

pub fn any_n(rng: &mut Rng) -> u64 {
    let n = match rng.below(6) {
        0 => rng.word(),
        1 => rng.word() >> rng.below(64),
        2 => 1 + rng.below(1000),
        3 => (1u64 << rng.below(64)).wrapping_add(rng.below(5)).wrapping_sub(2),
        4 => (1u64 << 32).wrapping_add(rng.below(1 << 20)).wrapping_sub(1 << 19),
        _ => u64::MAX - rng.below(1 << 20),
    };
    n.max(1)
}

pub fn any_hash(rng: &mut Rng, n: u64) -> u128 {
    let nearby = u128::from(rng.below(9));
    let wide = u128::from(n);
    match rng.below(8) {
        0..=3 => rng.wide(),
        4 => (bound(n) - 4).saturating_add(nearby),
        5 => u128::MAX << 64 | u128::from(rng.word()),
        6 => (rng.wide() % (u128::MAX / wide) * wide).saturating_add(nearby).saturating_sub(4),
        _ => u128::from(rng.word()) << (8 * rng.below(9)),
    }
}
