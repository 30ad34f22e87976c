//! `alba_threshold`, which makes X from q, against X worked out from the specification's words (src/model/threshold.rs).

use super::{bernoulli, fence::Fenced, refusals, Answered, Checked, Run};
use crate::{ffi, model::threshold, rng::Rng};

/// How many numbers are lent for the answer.
pub const WORDS: usize = 2;
/// Random doubles with each exponent and sign, beside the listed ones.
const OF_EACH: u64 = 8;

pub fn run(run: &mut Run, cases: u64) -> Checked {
    for q in bernoulli::edges().into_iter().chain(refusals::unlawful()) {
        check(&mut run.rng, q, Some(WORDS))?;
        run.count();
    }
    for top in 0..1 << 12 {
        let random = (0..OF_EACH).map(|_| run.rng.word()).collect::<Vec<_>>();
        for below in [0, 1, 1 << 51, u64::MAX].into_iter().chain(random) {
            check(&mut run.rng, f64::from_bits(top << 52 | below >> 12), Some(WORDS))?;
            run.count();
        }
    }
    for _ in 0..cases {
        let q = any(&mut run.rng);
        check(&mut run.rng, q, Some(WORDS))?;
        run.count();
    }
    Ok(())
}

/// Mostly a q from 0 to 1.
pub fn any(rng: &mut Rng) -> f64 {
    if rng.below(8) == 0 {
        f64::from_bits(rng.word())
    } else {
        bernoulli::any_q(rng)
    }
}

/// One double, lawful or not, with a place of so many numbers lent for the answer; `None` is a null pointer.
pub fn check(rng: &mut Rng, q: f64, length: Option<usize>) -> Answered {
    let mut out = match length {
        Some(length) => Fenced::new(rng, length, |word| word),
        None => Fenced::null(rng, |word| word),
    };
    let ours = ffi::threshold(q, &mut out);
    let (number, written) = due(q, length.unwrap_or(0));
    if ours == number && out.holds(&written) {
        return Ok(ours);
    }
    Err(format!("  q = {q:e}, bits 0x{:016x}\n  ours: {ours}\n  due: {number}\n{}", q.to_bits(), out.story("X", &written)))
}

/// The number, and what is then written.
pub fn due(q: f64, length: usize) -> (u32, Vec<u64>) {
    if length != WORDS {
        return (ffi::BAD_LENGTH, Vec::new());
    }
    threshold::of(q).map_or((ffi::BAD_Q, Vec::new()), |x| (0, threshold::halves(x).to_vec()))
}

/// X of a lawful q as the library makes it, which is the one that is due.
pub fn by_library(q: f64) -> Result<u128, String> {
    let mut out = [0; WORDS];
    let ours = ffi::threshold(q, &mut out[..]);
    let (number, written) = due(q, WORDS);
    if (ours, &out[..]) != (number, &written) {
        return Err(format!("  q = {q:e}, bits 0x{:016x}\n  ours: {ours}, X {out:x?}\n  due: {number}, X {written:x?}\n", q.to_bits()));
    }
    Ok(threshold::whole(out[0], out[1]))
}
