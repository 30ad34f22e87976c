//! `alba_sample_bernoulli` against the Rust's `sample_bernoulli`, with the X that `alba_threshold` makes of the Rust's q; and by X alone,
//! against i < X.

use super::{hex, threshold, Answered, Checked, Run, Shifted};
use crate::model::threshold::{halves, whole};
use crate::{ffi, rng::Rng};

pub fn run(run: &mut Run, cases: u64) -> Checked {
    for q in edges() {
        for i in around(&mut run.rng, q) {
            check(&mut run.rng, i, q)?;
            run.count();
        }
    }
    for _ in 0..cases {
        let q = any_q(&mut run.rng);
        let i = any_hash(&mut run.rng, q);
        check(&mut run.rng, i, q)?;
        run.count();
    }
    Ok(())
}

/// Every X that is 0, 1, 2^64 − 1, 2^64, all ones, a power of two or a neighbour of one, each with every such number as the hash; then
/// random ones.
pub fn by_x(run: &mut Run, cases: u64) -> Checked {
    let listed = listed();
    for &x in &listed {
        for i in listed.iter().copied().chain(near(x)) {
            check_x(&mut run.rng, i, x)?;
            run.count();
        }
    }
    for _ in 0..cases {
        let x = any_x(&mut run.rng);
        let i = any_near(&mut run.rng, x);
        check_x(&mut run.rng, i, x)?;
        run.count();
    }
    Ok(())
}

/// One case with a lawful q; `i` is the hash as a big-endian number.
pub fn check(rng: &mut Rng, i: u128, q: f64) -> Answered {
    let x = threshold::by_library(q)?;
    let theirs = oracle::sample_bernoulli(&i.to_be_bytes(), q);
    sample(rng, i, x, theirs).map_err(|case| format!("  q = {q:e}, bits 0x{:016x}\n{case}  due is what the Rust says\n", q.to_bits()))
}

/// One case with an X by itself.
pub fn check_x(rng: &mut Rng, i: u128, x: u128) -> Answered {
    sample(rng, i, x, i < x)
}

fn sample(rng: &mut Rng, i: u128, x: u128, due: bool) -> Answered {
    let bytes = i.to_be_bytes();
    let h = Shifted::new(rng, &bytes);
    let ours = ffi::sample_bernoulli(Some(h.bytes()), x);
    if ours == u32::from(due) && h.bytes() == bytes {
        return Ok(ours);
    }
    Err(format!("  h = {}\n  X = 0x{x:032x}\n  ours: {ours}\n  due: {}\n  h after: {}\n", hex(&bytes), u32::from(due), hex(h.bytes())))
}

/// X at the ends of its words. No number is below the first and hardly one below the others but the last two, below which nearly all are.
pub const ENDS: [u128; 7] = [0, 1, (1 << 64) - 1, 1 << 64, (1 << 64) + 1, u128::MAX - 1, u128::MAX];

/// Every power of two below 2^128 and its neighbours, 0 and all ones.
fn listed() -> Vec<u128> {
    let mut listed = vec![0, u128::MAX - 1, u128::MAX];
    for power in (0..u128::BITS).map(|bit| 1u128 << bit) {
        listed.extend([power - 1, power, power + 1]);
    }
    listed.sort_unstable();
    listed.dedup();
    listed
}

/// Numbers from which X is told apart in one of its words: beside it, with its words in each other's place, and with one of them another.
pub fn near(x: u128) -> [u128; 9] {
    let [high, low] = halves(x);
    let (less, more) = (whole(high.saturating_sub(1), low), whole(high.saturating_add(1), low));
    let (least, most) = (whole(high, 0), whole(high, u64::MAX));
    [x, x.saturating_sub(1), x.saturating_add(1), whole(low, high), less, more, least, most, whole(0, low)]
}

/// Anywhere, or near X.
pub fn any_near(rng: &mut Rng, x: u128) -> u128 {
    let near = near(x);
    match rng.below(3) {
        0 => rng.wide(),
        _ => near[rng.below(near.len() as u64) as usize],
    }
}

/// Anywhere, of any size, at an end of its words, or with a high word of any size and any low one.
pub fn any_x(rng: &mut Rng) -> u128 {
    match rng.below(4) {
        0 => rng.wide(),
        1 => rng.wide() >> rng.below(128),
        2 => ENDS[rng.below(ENDS.len() as u64) as usize],
        _ => whole(rng.word() >> rng.below(64), rng.word()),
    }
}

/// Both zeros, every power of two from the smallest subnormal to 1, and the neighbours of each within 0 to 1.
pub fn edges() -> Vec<f64> {
    let mut qs = vec![-0.0, 0.3, 0.999];
    for power in (0..=1074).map(power_of_half) {
        qs.extend([power.to_bits() - 1, power.to_bits(), power.to_bits() + 1].map(f64::from_bits));
    }
    qs.retain(|&q| q <= 1.0);
    qs
}

/// 2^−k, for k from 0 to 1074, by its bits: the exponent's where the double is normal, a single digit's where it isn't.
pub fn power_of_half(k: u64) -> f64 {
    f64::from_bits(if k <= 1022 { (1023 - k) << 52 } else { 1 << (1074 - k) })
}

/// Hashes at and around the threshold of q (which is used for this choice only), at both ends, and on each side.
pub fn around(rng: &mut Rng, q: f64) -> [u128; 9] {
    let x = (q * 2f64.powi(128)) as u128;
    let below = rng.wide() % x.max(1);
    let above = x.saturating_add(rng.wide() % (u128::MAX - x).max(1));
    [0, 1, x.saturating_sub(1), x, x.saturating_add(1), u128::MAX - 1, u128::MAX, below, above]
}

/// Anywhere, or near a place where the answer may turn.
pub fn any_hash(rng: &mut Rng, q: f64) -> u128 {
    let near = around(rng, q);
    match rng.below(2) {
        0 => rng.wide(),
        _ => near[rng.below(near.len() as u64) as usize],
    }
}

pub fn any_q(rng: &mut Rng) -> f64 {
    let one = 1f64.to_bits();
    match rng.below(4) {
        // Any lawful double, each as likely as another: mostly tiny ones.
        0 => f64::from_bits(rng.below(one + 1)),
        // Evenly within 0 to 1.
        1 => (rng.word() >> 11) as f64 / (1u64 << 53) as f64,
        // Of any size that the threshold can see, and somewhat below.
        2 => f64::from_bits(one - rng.below(140 << 52)),
        // Few digits after the first, around a power of two.
        _ => {
            let bits = power_of_half(rng.below(1075)).to_bits();
            f64::from_bits(bits.saturating_add(rng.below(9)).saturating_sub(4).min(one))
        }
    }
}
