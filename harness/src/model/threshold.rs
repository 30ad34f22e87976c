//! The threshold X of 128 bits, under which a chain of full length passes: how it follows from a q, and how a case has it.

use std::fmt;

/// The bits of 1 as a double. Doubles from 0 on are in the order of their bits.
const ONE: u64 = 0x3ff0_0000_0000_0000;
/// The bits of negative zero, which is 0.
const NEGATIVE_ZERO: u64 = 1 << 63;
/// How many of a double's bits are digits behind the first.
const DIGITS: u32 = 52;
/// With exponent bits e a normal double is its whole digits × 2^(e − 1075), so × 2^128 they are shifted by e − 947.
const UNSHIFTED: u64 = 1075 - 128;

/// X of q by the specification's words: the whole part of q × 2^128, exact from the double's bits, and at most 2^128 − 1. None where q is
/// refused: a NaN, below 0 or above 1.
pub fn of(q: f64) -> Option<u128> {
    match q.to_bits() {
        NEGATIVE_ZERO => Some(0),
        ONE => Some(u128::MAX),
        // The doubles above 1, the infinities, the NaNs and all whose sign is negative.
        bits if bits > ONE => None,
        bits => {
            let (exponent, digits) = (bits >> DIGITS, u128::from(bits & ((1 << DIGITS) - 1)));
            // A subnormal double has no first digit of 1, and the exponent of the least normal one.
            let (exponent, digits) = if exponent == 0 { (1, digits) } else { (exponent, 1 << DIGITS | digits) };
            Some(match exponent.checked_sub(UNSHIFTED) {
                Some(up) => digits << up,
                None => digits.checked_shr((UNSHIFTED - exponent) as u32).unwrap_or(0),
            })
        }
    }
}

/// The two words of X, the high one first.
pub fn halves(x: u128) -> [u64; 2] {
    [(x >> 64) as u64, x as u64]
}

/// X of its two words.
pub fn whole(high: u64, low: u64) -> u128 {
    u128::from(high) << 64 | u128::from(low)
}

/// X as a case has it.
#[derive(Clone, Copy, PartialEq)]
pub enum Threshold {
    /// That of a q from 0 to 1, with which the Rust is run.
    OfQ(f64),
    /// By itself. Most are X of no q, so that the Rust can't be run, and what is due is worked out by src/model/chains.rs.
    Alone(u128),
}

impl Threshold {
    pub fn x(self) -> u128 {
        match self {
            Threshold::OfQ(q) => of(q).expect("a q from 0 to 1"),
            Threshold::Alone(x) => x,
        }
    }

    /// The q that X is of.
    pub fn q(self) -> f64 {
        match self {
            Threshold::OfQ(q) => q,
            Threshold::Alone(_) => panic!("an X by itself has no q, so the Rust can't be asked"),
        }
    }

    /// Half as much.
    pub fn halved(self) -> Threshold {
        match self {
            Threshold::OfQ(q) => Threshold::OfQ(q / 2.0),
            Threshold::Alone(x) => Threshold::Alone(x / 2),
        }
    }
}

impl fmt::Debug for Threshold {
    fn fmt(&self, f: &mut fmt::Formatter) -> fmt::Result {
        match self {
            Threshold::OfQ(q) => write!(f, "0x{:032x}, of q = {q:e}, bits 0x{:016x}", self.x(), q.to_bits()),
            Threshold::Alone(x) => write!(f, "0x{x:032x}"),
        }
    }
}

#[cfg(test)]
mod tests {
    use super::*;
    use crate::rng::Rng;

    fn power(k: i32) -> f64 {
        2f64.powi(k)
    }

    /// The figures are worked out by hand from the specification's words.
    #[test]
    fn x_of_some_q() {
        assert_eq!((of(0.0), of(-0.0), of(1.0), of(0.5)), (Some(0), Some(0), Some(u128::MAX), Some(1 << 127)));
        assert_eq!((of(0.75), of(power(-64)), of(power(-127)), of(power(-128))), (Some(3 << 126), Some(1 << 64), Some(2), Some(1)));
        // The whole part, not the nearest number: of half, and of nearly one.
        assert_eq!((of(power(-129)), of(f64::from_bits(power(-128).to_bits() - 1))), (Some(0), Some(0)));
        assert_eq!(of(f64::from_bits(power(-127).to_bits() - 1)), Some(1));
        // 53 ones, and 1 with a last digit, at the places where that just counts and just doesn't.
        assert_eq!(of(f64::from_bits(ONE - 1)), Some(((1 << 53) - 1) << 75));
        let with_last = |k| f64::from_bits(power(k).to_bits() + 1);
        assert_eq!((of(with_last(-76)), of(with_last(-77))), (Some((1 << 52) + 1), Some(1 << 51)));
        // The least double, the greatest subnormal and the least normal one.
        assert_eq!([1, (1 << 52) - 1, 1 << 52].map(|bits| of(f64::from_bits(bits))), [Some(0); 3]);
    }

    #[test]
    fn what_is_refused() {
        let above = f64::from_bits(ONE + 1);
        for q in [above, 2.0, f64::MAX, f64::INFINITY, f64::NAN, -f64::NAN, f64::from_bits((0x7ff << 52) + 1)] {
            assert_eq!((of(q), of(-q)), (None, None), "{q:?}");
        }
        assert_eq!([-f64::from_bits(1), -0.5, -1.0].map(of), [None; 3]);
    }

    /// X is the least number to which the Rust says no.
    #[test]
    fn x_is_where_the_rust_turns() {
        let mut rng = Rng::new(1, 0);
        for _ in 0..10_000 {
            let q = f64::from_bits(ONE - rng.below(140 << 52));
            let x = of(q).expect("a q from 0 to 1");
            let is_yes = |i: u128| oracle::sample_bernoulli(&i.to_be_bytes(), q);
            assert!(!is_yes(x) && (x == 0 || is_yes(x - 1)), "{q:e}");
        }
    }

    #[test]
    fn the_words_of_x() {
        assert_eq!(halves(0x0123_4567_89ab_cdef_0246_8ace_1357_9bdf), [0x0123_4567_89ab_cdef, 0x0246_8ace_1357_9bdf]);
        for x in [0, 1, u128::from(u64::MAX), 1 << 64, u128::MAX] {
            let [high, low] = halves(x);
            assert_eq!(whole(high, low), x);
        }
    }
}
