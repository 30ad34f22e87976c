//! Whole numbers without limit, as far as the inequality for the proof size needs them: products, and which of two is the greater.

use std::cmp::Ordering;

/// Digits of 64 bits, the lowest first. The highest isn't 0, and 0 has none.
#[derive(Clone, Debug, PartialEq, Eq)]
pub struct Big(Vec<u64>);

impl From<u64> for Big {
    fn from(word: u64) -> Self {
        Big::trimmed(vec![word])
    }
}

impl Big {
    fn trimmed(mut digits: Vec<u64>) -> Self {
        while digits.last() == Some(&0) {
            digits.pop();
        }
        Big(digits)
    }

    /// 2^`exponent`.
    pub fn two_to(exponent: u64) -> Self {
        let mut digits = vec![0; (exponent / 64) as usize];
        digits.push(1 << (exponent % 64));
        Big(digits)
    }

    /// The number that decimal digits say.
    pub fn of_decimal(text: &str) -> Self {
        text.bytes().fold(Big::from(0), |number, digit| number.times_word(10, u64::from(digit - b'0')))
    }

    /// Times a word, and a word more.
    pub fn times_word(&self, by: u64, more: u64) -> Self {
        let mut digits = Vec::with_capacity(self.0.len() + 1);
        let mut carry = more;
        for digit in &self.0 {
            let sum = u128::from(*digit) * u128::from(by) + u128::from(carry);
            digits.push(sum as u64);
            carry = (sum >> 64) as u64;
        }
        digits.push(carry);
        Big::trimmed(digits)
    }

    pub fn times(&self, other: &Big) -> Self {
        let mut digits = vec![0; self.0.len() + other.0.len()];
        for (place, by) in self.0.iter().enumerate() {
            add_times(&mut digits[place..], &other.0, *by);
        }
        Big::trimmed(digits)
    }

    /// `base`^`exponent`, by squares.
    pub fn power(base: u64, exponent: u64) -> Self {
        if exponent == 0 {
            return Big::from(1);
        }
        let half = Big::power(base, exponent / 2);
        let square = half.times(&half);
        if exponent % 2 == 1 {
            square.times_word(base, 0)
        } else {
            square
        }
    }
}

/// Adds `digits` × `by` to a number whose digits behind these are 0 as yet.
fn add_times(to: &mut [u64], digits: &[u64], by: u64) {
    let mut carry = 0;
    for (sum, digit) in to.iter_mut().zip(digits) {
        // At most (2^64 − 1)^2 + 2 × (2^64 − 1), which is 2^128 − 1.
        let wide = u128::from(*digit) * u128::from(by) + u128::from(*sum) + u128::from(carry);
        *sum = wide as u64;
        carry = (wide >> 64) as u64;
    }
    to[digits.len()] = carry;
}

impl Ord for Big {
    fn cmp(&self, other: &Self) -> Ordering {
        let by_length = self.0.len().cmp(&other.0.len());
        by_length.then_with(|| self.0.iter().rev().cmp(other.0.iter().rev()))
    }
}

impl PartialOrd for Big {
    fn partial_cmp(&self, other: &Self) -> Option<Ordering> {
        Some(self.cmp(other))
    }
}

#[cfg(test)]
mod tests {
    use super::*;
    use crate::rng::Rng;

    fn wide(number: u128) -> Big {
        Big::trimmed(vec![number as u64, (number >> 64) as u64])
    }

    /// Products and order against numbers of 128 bits.
    #[test]
    fn as_numbers_of_128_bits() {
        let mut rng = Rng::new(1, 0);
        for _ in 0..10_000 {
            let (a, b) = (rng.word() >> rng.below(64), rng.word() >> rng.below(64));
            let product = wide(u128::from(a) * u128::from(b));
            assert_eq!(Big::from(a).times(&Big::from(b)), product);
            assert_eq!(Big::from(a).times_word(b, 0), product);
            let (c, d) = (rng.wide() >> rng.below(128), rng.wide() >> rng.below(128));
            assert_eq!(wide(c).cmp(&wide(d)), c.cmp(&d));
            assert_eq!(wide(c).cmp(&wide(c)), Ordering::Equal);
        }
        assert_eq!(Big::from(0).times(&wide(u128::MAX)), Big::from(0));
        assert_eq!(Big::from(u64::MAX).times_word(u64::MAX, u64::MAX), wide((1 << 64) * u128::from(u64::MAX)));
    }

    /// 2^256 − 1 squared is 2^512 − 2^257 + 1: every carry is at its greatest.
    #[test]
    fn carries() {
        let all_ones = Big(vec![u64::MAX; 4]);
        assert_eq!(all_ones.times(&all_ones), Big(vec![1, 0, 0, 0, u64::MAX - 1, u64::MAX, u64::MAX, u64::MAX]));
    }

    #[test]
    fn decimals_and_powers() {
        assert_eq!(Big::of_decimal("18446744073709551616"), Big(vec![0, 1]));
        // By `bc`: 7^100 and 10^60.
        let sevens = "3234476509624757991344647769100216810857203198904625400933895331391691459636928060001";
        assert_eq!(Big::power(7, 100), Big::of_decimal(sevens));
        assert_eq!(Big::power(10, 60), Big::of_decimal(&format!("1{}", "0".repeat(60))));
        assert_eq!(Big::power(2, 1000), Big::two_to(1000));
        assert_eq!(Big::power(12_345, 0), Big::from(1));
        assert!(Big::two_to(640) > Big::power(3, 403) && Big::two_to(640) < Big::power(3, 404));
    }

    /// Whatever the order of three factors, and digit by digit as whole.
    #[test]
    fn products_of_many_digits() {
        let mut rng = Rng::new(2, 0);
        for _ in 0..1000 {
            let mut any = || Big::trimmed((0..rng.below(20)).map(|_| rng.word()).collect());
            let (a, b, c) = (any(), any(), any());
            assert_eq!(a.times(&b).times(&c), a.times(&c.times(&b)));
            assert_eq!(a.times(&b), b.times(&a));
        }
        assert_eq!(Big::power(32_767, 1024), (0..1024).fold(Big::from(1), |power, _| power.times_word(32_767, 0)));
    }
}
