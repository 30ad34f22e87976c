//! Fractions of whole numbers, as far as an exact share and its bound need them.

use std::{cmp::Ordering, fmt};

/// In lowest terms, so that equal ones have the same two numbers.
#[derive(Clone, Copy, Debug, PartialEq, Eq)]
pub struct Fraction {
    over: u128,
    under: u128,
}

/// A product, which must have 128 bits at most: a release build would go on with another number.
fn times(a: u128, b: u128) -> u128 {
    a.checked_mul(b).expect("the games are small enough for numbers of 128 bits")
}

/// The greatest number that divides both, the second of which isn't 0.
fn common(a: u128, b: u128) -> u128 {
    let (mut greater, mut less) = (b, a % b);
    while less != 0 {
        (greater, less) = (less, greater % less);
    }
    greater
}

impl Fraction {
    /// `under` isn't 0.
    pub fn new(over: u128, under: u128) -> Self {
        let common = common(over, under);
        Fraction { over: over / common, under: under / common }
    }

    /// What both are brought to before they are added or compared: the two upper numbers and the lower one, as small as it can be.
    fn alike(self, other: Self) -> (u128, u128, u128) {
        let common = common(self.under, other.under);
        let (own, others) = (self.under / common, other.under / common);
        (times(self.over, others), times(other.over, own), times(own, other.under))
    }

    pub fn plus(self, other: Self) -> Self {
        let (a, b, under) = self.alike(other);
        Fraction::new(a.checked_add(b).expect("as for products"), under)
    }

    /// One of so many equal parts.
    pub fn part(self, parts: u64) -> Self {
        Fraction::new(self.over, times(self.under, u128::from(parts)))
    }

    pub fn value(self) -> f64 {
        self.over as f64 / self.under as f64
    }
}

impl Ord for Fraction {
    fn cmp(&self, other: &Self) -> Ordering {
        let (a, b, _) = self.alike(*other);
        a.cmp(&b)
    }
}

impl PartialOrd for Fraction {
    fn partial_cmp(&self, other: &Self) -> Option<Ordering> {
        Some(self.cmp(other))
    }
}

impl fmt::Display for Fraction {
    fn fmt(&self, f: &mut fmt::Formatter) -> fmt::Result {
        match self.under {
            1 => write!(f, "{}", self.over),
            under => write!(f, "{}/{under}", self.over),
        }
    }
}

#[cfg(test)]
mod tests {
    use super::*;

    #[test]
    fn by_hand() {
        let of = Fraction::new;
        assert_eq!((of(8, 64), of(0, 5), of(6, 4)), (of(1, 8), of(0, 1), of(3, 2)));
        assert_eq!((of(1, 16).plus(of(9, 2)), of(1, 6).plus(of(1, 3))), (of(73, 16), of(1, 2)));
        assert_eq!((of(1, 6).part(2), of(4, 3).part(2), of(0, 1).part(9)), (of(1, 12), of(2, 3), of(0, 1)));
        assert!(of(1, 8) > of(1, 16) && of(2, 3) < of(3, 4) && of(1, 8) <= of(8, 64));
        // Their product would have over 128 bits, what they are brought to hasn't.
        assert_eq!(of(1, 1 << 100).plus(of(3, 1 << 101)), of(5, 1 << 101));
        // The greatest that numbers of 128 bits hold.
        assert!(of(u128::MAX - 1, u128::MAX) < of(1, 1));
        assert_eq!((of(8, 64).to_string(), of(10, 2).to_string(), of(3, 8).value()), ("1/8".to_string(), "5".to_string(), 0.375));
    }

    #[test]
    #[should_panic(expected = "small enough")]
    fn what_is_too_great_is_not_compared() {
        let _ = Fraction::new(1, u128::MAX) < Fraction::new(1, u128::MAX - 1);
    }
}
