//! Where the size turns: with t(u) = (n / f)^u × log2 e / 32 the inequality for the size u is c × 2^s ≤ t(u). Here t(u) is kept to fifty
//! binary digits, so that most figures need no greater numbers, and those just beside it can be looked for.

use crate::model::proof_size::{MOST, MOST_C, MOST_S};
use std::cmp::Ordering;

/// A number above 0, rounded down a little: `digits`, the highest of its 64 bits set, times 2^`exponent`.
#[derive(Clone, Copy, Debug)]
pub struct Rounded {
    digits: u64,
    exponent: i64,
}

/// Digits that differ by no more leave open which number is the greater. A t(u) takes up to 1,024 products, each of which rounds twice by
/// less than a 2^63rd, and its start another two, or four: all together less than a 2^51st, so less than 2^14 of the 2^65 that are
/// compared.
const CLOSE: u128 = 1 << 15;
/// The bits of the digits below the ten that a c may have.
const BELOW_C: u32 = 54;

impl Rounded {
    /// `over` / `under`, both above 0.
    fn of(over: u64, under: u64) -> Self {
        let zeros = over.leading_zeros();
        // From 2^127 on, so that the quotient is from 2^63 on.
        let quotient = (u128::from(over) << (zeros + 64)) / u128::from(under);
        let shift = 64 - quotient.leading_zeros();
        Rounded { digits: (quotient >> shift) as u64, exponent: i64::from(shift) - i64::from(zeros) - 64 }
    }

    fn times(self, other: Self) -> Self {
        let product = u128::from(self.digits) * u128::from(other.digits);
        let zeros = product.leading_zeros();
        Rounded { digits: (product << zeros >> 64) as u64, exponent: self.exponent + other.exponent + 64 - i64::from(zeros) }
    }

    /// How c × 2^s stands to it; none where they are too close to tell.
    pub fn against(self, s: u64, c: u64) -> Option<Ordering> {
        let zeros = c.leading_zeros();
        let (digits, apart) = (u128::from(c << zeros), s as i64 - i64::from(zeros) - self.exponent);
        let (theirs, ours) = match apart {
            -1 => (digits, 2 * u128::from(self.digits)),
            0 => (digits, u128::from(self.digits)),
            1 => (2 * digits, u128::from(self.digits)),
            _ => return Some(apart.cmp(&0)),
        };
        (theirs.abs_diff(ours) > CLOSE).then(|| theirs.cmp(&ours))
    }
}

/// log2 e / 32, with the eighteen decimals that fit, and with six.
pub fn whole_start() -> Rounded {
    start(1_442_695_040_888_963_407, 1_000_000_000_000_000_000)
}

pub fn cut_start() -> Rounded {
    start(1_442_695, 1_000_000)
}

/// t(u) with the six, made of that with more.
pub fn cut(t: Rounded) -> Rounded {
    t.times(Rounded::of(1_442_695_000_000_000_000, 1_442_695_040_888_963_407))
}

fn start(over: u64, under: u64) -> Rounded {
    let log2_e = Rounded::of(over, under);
    Rounded { exponent: log2_e.exponent - 5, ..log2_e }
}

/// t(1) to t(1,024).
pub fn all(n: u64, f: u64, start: Rounded) -> Vec<Rounded> {
    let (mut t, ratio) = (start, Rounded::of(n, f));
    let next = |_| {
        t = t.times(ratio);
        t
    };
    (1..=MOST).map(next).collect()
}

/// Lawful s and c with c × 2^s within a 2^`within`th of t(u), or a little more.
pub struct Beside {
    pub u: u64,
    pub t: Rounded,
    pub s: u64,
    pub c: u64,
}

/// Visits all of them for this n and f. `within` is from 11 to 48.
pub fn beside(n: u64, f: u64, start: Rounded, within: u32, mut visit: impl FnMut(Beside)) {
    let (mut t, ratio) = (start, Rounded::of(n, f));
    let near = 1u64 << (64 - within);
    for u in 1..=MOST {
        t = t.times(ratio);
        // The ten bits of a c, as great as they can be, and 2^exponent; the digits behind them are nearly none or nearly one more.
        let exponent = t.exponent + i64::from(BELOW_C);
        if exponent > MOST_S as i64 + 1 {
            return;
        }
        if t.digits.wrapping_add(near) % (1 << BELOW_C) < 2 * near {
            let c = (u128::from(t.digits) + u128::from(near)) >> BELOW_C;
            each_lawful(c as u64, exponent, |s, c| visit(Beside { u, t, s, c }));
        }
    }
}

/// Each c of the range with the s that makes c × 2^s the same.
fn each_lawful(c: u64, exponent: i64, mut visit: impl FnMut(u64, u64)) {
    let (mut c, mut s) = (2 * c, exponent - 1);
    loop {
        if c <= MOST_C && (0..=MOST_S as i64).contains(&s) {
            visit(s as u64, c);
        }
        if c % 2 == 1 {
            return;
        }
        (c, s) = (c / 2, s + 1);
    }
}

#[cfg(test)]
mod tests {
    use super::*;
    use crate::model::proof_size::{meets, Figures, Log2E};
    use crate::rng::Rng;

    /// What is told is what whole numbers say.
    #[test]
    fn as_whole_numbers() {
        let mut rng = Rng::new(5, 0);
        let mut told = [0; 3];
        for _ in 0..200 {
            let n = 2 + rng.below(32_767);
            let f = 1 + rng.below(n - 1);
            let t = all(n, f, cut_start());
            for _ in 0..20 {
                let (u, s, c) = (1 + rng.below(MOST), rng.below(257), 1 + rng.below(1024));
                let by_whole = meets(&Figures { s, c, n, f }, u, &Log2E::cut());
                match t[u as usize - 1].against(s, c) {
                    Some(order) => {
                        assert_eq!(order != Ordering::Greater, by_whole, "{u} {s} {c} {n} {f}");
                        told[usize::from(by_whole)] += 1;
                    }
                    None => told[2] += 1,
                }
            }
        }
        assert!(told[0] > 500 && told[1] > 500 && told[2] == 0, "{told:?}");
    }

    /// 2^5 over 2^5, in each place of the exponents.
    #[test]
    fn too_close_to_tell() {
        let one = Rounded::of(1, 1);
        assert_eq!((one.against(0, 1), one.against(1, 1), one.against(0, 3)), (None, Some(Ordering::Greater), Some(Ordering::Greater)));
        let three = Rounded::of(6, 2);
        assert_eq!((three.against(0, 3), three.against(1, 1), three.against(0, 2)), (None, Some(Ordering::Less), Some(Ordering::Less)));
        let below_four = Rounded { digits: u64::MAX, exponent: -62 };
        assert_eq!((below_four.against(2, 1), below_four.against(0, 4), below_four.against(0, 3)), (None, None, Some(Ordering::Less)));
        let two_fifty_six = Rounded::of(1 << 40, 1 << 32);
        assert_eq!((two_fifty_six.against(8, 1), two_fifty_six.against(0, 255)), (None, Some(Ordering::Less)));
    }

    /// All that a look at each s and c finds, and no other that is far off.
    #[test]
    fn all_that_are_beside() {
        // t(u) / 2^s; too small or too great a double where no c is near.
        let over = |t: Rounded, s: u64| t.digits as f64 * (t.exponent as f64 - s as f64).exp2();
        for (n, f) in [(23, 1), (1000, 750), (32_768, 31_000), (7, 3)] {
            let t = all(n, f, whole_start());
            let off = |u: u64, s: u64, c: u64| (c as f64 / over(t[u as usize - 1], s) - 1.0).abs();
            let mut found = Vec::new();
            beside(n, f, whole_start(), 12, |beside| found.push((beside.u, beside.s, beside.c)));
            assert!(!found.is_empty() && found.iter().all(|(u, s, c)| off(*u, *s, *c) < 1.0 / 1024.0), "{n} {f}");
            for (u, s) in (1..=MOST).flat_map(|u| (0..=MOST_S).map(move |s| (u, s))) {
                let below = over(t[u as usize - 1], s) as u64;
                for c in [below, below.saturating_add(1)] {
                    let is_near = (1..=MOST_C).contains(&c) && off(u, s, c) < 1.0 / 4096.0;
                    assert!(!is_near || found.contains(&(u, s, c)), "{n} {f} {u} {s} {c}");
                }
            }
        }
    }
}
