//! Bad input through the exports: each is answered by its number, in the order of the specification's table, and writes nothing.

use super::{bernoulli, fence::Fenced, hash, hex, threshold, uniform, verdicts, Answered, Checked, Run, Shifted};
use crate::{ffi, rng::Rng};

/// Lengths of what is lent.
pub const LENGTHS: std::ops::RangeInclusive<usize> = 0..=40;
/// Doubles made at random, most of them unlawful, beside the listed ones.
const RANDOM: u64 = 100_000;

pub fn run(run: &mut Run, _: u64) -> Checked {
    of_uniform(run)?;
    of_threshold(run)?;
    of_bernoulli(run)?;
    of_hash(run)
}

fn of_uniform(run: &mut Run) -> Checked {
    for n in [0, 1, 3, 10, 1 << 32, (1 << 32) + 1, u64::MAX] {
        for h_len in LENGTHS {
            for out_len in LENGTHS {
                uniform_of(&mut run.rng, Some(h_len), n, Some(out_len))?;
                run.count();
            }
        }
        for (h_len, out_len) in [(None, Some(8)), (Some(16), None), (None, None), (None, Some(0)), (Some(0), None)] {
            uniform_of(&mut run.rng, h_len, n, out_len)?;
            run.count();
        }
    }
    Ok(())
}

/// 7 for n = 0 comes before 8 for a length; everything lawful goes to the comparison with the Rust. A length of `None` is a null
/// pointer with length 0.
pub fn uniform_of(rng: &mut Rng, h_len: Option<usize>, n: u64, out_len: Option<usize>) -> Answered {
    if let (Some(16), 1.., Some(8)) = (h_len, n, out_len) {
        let i = uniform::any_hash(rng, n);
        return uniform::check(rng, i, n);
    }
    let (h, was) = any_bytes(rng, h_len);
    let mut out = match out_len {
        Some(len) => Fenced::new(rng, len, |word| word as u8),
        None => Fenced::null(rng, |word| word as u8),
    };
    let ours = ffi::sample_uniform(h.as_ref().map(Shifted::bytes), n, &mut out);
    let due = if n == 0 { ffi::BAD_N } else { ffi::BAD_LENGTH };
    let kept = is_kept(&h, &was);
    if ours == due && out.holds(&[]) && kept {
        return Ok(ours);
    }
    Err(format!(
        "  h = {}, {}\n  n = {n} = 0x{n:x}\n  ours: {ours}\n  due: {due}\n{}",
        shown(&h),
        verdicts::as_it_was(kept),
        out.story("out", &[])
    ))
}

/// 8 for the length comes before 3 for q.
fn of_threshold(run: &mut Run) -> Checked {
    for q in unlawful().into_iter().chain([0.0, -0.0, 0.5, 1.0]) {
        for length in LENGTHS.map(Some).chain([None]) {
            threshold::check(&mut run.rng, q, length)?;
            run.count();
        }
    }
    for _ in 0..RANDOM {
        let q = f64::from_bits(run.rng.word());
        let length = if run.rng.below(4) == 0 { 1 + run.rng.below(3) as usize } else { threshold::WORDS };
        threshold::check(&mut run.rng, q, Some(length))?;
        run.count();
    }
    Ok(())
}

fn of_bernoulli(run: &mut Run) -> Checked {
    for x in [0, 1, u128::from(u64::MAX), 1 << 64, u128::MAX] {
        for h_len in LENGTHS.map(Some).chain([None]) {
            bernoulli_of(&mut run.rng, h_len, x)?;
            run.count();
        }
    }
    Ok(())
}

/// 8 for the length; everything lawful goes to the comparison with i < X.
pub fn bernoulli_of(rng: &mut Rng, h_len: Option<usize>, x: u128) -> Answered {
    if h_len == Some(16) {
        let i = bernoulli::any_near(rng, x);
        return bernoulli::check_x(rng, i, x);
    }
    let (h, was) = any_bytes(rng, h_len);
    let ours = ffi::sample_bernoulli(h.as_ref().map(Shifted::bytes), x);
    let kept = is_kept(&h, &was);
    if ours == ffi::BAD_LENGTH && kept {
        return Ok(ours);
    }
    let (shown, due) = (shown(&h), ffi::BAD_LENGTH);
    Err(format!("  h = {shown}, {}\n  X = 0x{x:032x}\n  ours: {ours}\n  due: {due}\n", verdicts::as_it_was(kept)))
}

/// Not numbers of several kinds, infinities, numbers below 0 and above 1, the nearest ones first.
pub fn unlawful() -> Vec<f64> {
    let mut bits = vec![
        1f64.to_bits() + 1,
        1f64.to_bits() + 2,
        2f64.to_bits(),
        f64::MAX.to_bits(),
        f64::INFINITY.to_bits(),
        1,
        f64::MIN_POSITIVE.to_bits(),
        0.5f64.to_bits(),
        1f64.to_bits() - 1,
        1f64.to_bits(),
    ];
    let quiet = 1 << 51;
    let infinity = f64::INFINITY.to_bits();
    bits.extend([1, 2, quiet - 1, quiet, quiet + 1, quiet | 0xdead, (1 << 52) - 1].map(|payload| infinity | payload));
    let negative = bits.iter().map(|b| b | 1 << 63).collect::<Vec<_>>();
    bits.extend(negative);
    let mut qs = bits.into_iter().map(f64::from_bits).collect::<Vec<_>>();
    qs.retain(|q| !(0.0..=1.0).contains(q));
    qs
}

/// A wrong length of out, whatever the strings; null strings are empty ones.
fn of_hash(run: &mut Run) -> Checked {
    let bytes = [0x5a; 100];
    let some = Some(&bytes[..]);
    for strings in [[None; 4], [some, None, None, None], [None, some, some, None], [some; 4]] {
        for out_len in LENGTHS {
            match out_len {
                32 => hash::check(&mut run.rng, strings)?,
                _ => hash::expect(&mut run.rng, strings, out_len, ffi::BAD_LENGTH, &[])?,
            };
            run.count();
        }
        let mut out = Fenced::null(&mut run.rng, |word| word as u8);
        let ours = ffi::sha256(strings, &mut out);
        hash::verdict(strings, &out, ours, ffi::BAD_LENGTH, &[])?;
        run.count();
    }
    Ok(())
}

/// Random bytes, so many of them lent.
fn any_bytes(rng: &mut Rng, len: Option<usize>) -> (Option<Shifted>, [u8; 40]) {
    let mut bytes = [0; 40];
    rng.fill(&mut bytes);
    (len.map(|len| Shifted::new(rng, &bytes[..len])), bytes)
}

/// Whether what was lent of the bytes still is as they are.
fn is_kept(lent: &Option<Shifted>, bytes: &[u8; 40]) -> bool {
    lent.as_ref().is_none_or(|lent| *lent.bytes() == bytes[..lent.len])
}

fn shown(bytes: &Option<Shifted>) -> String {
    bytes.as_ref().map_or("a null pointer, 0 bytes".to_string(), |b| format!("{} bytes: {}", b.len, hex(b.bytes())))
}
