//! The proof size of security figures by the change request's words, in whole numbers without limit.

use crate::{big::Big, ffi};
use std::ops::RangeInclusive;

/// Soundness s, completeness c, the set's size n, and the lower bound f that is to be shown.
#[derive(Clone, Copy, Debug, PartialEq)]
pub struct Figures {
    pub s: u64,
    pub c: u64,
    pub n: u64,
    pub f: u64,
}

/// The greatest size.
pub const MOST: u64 = 1024;
/// The greatest s, c and n. The least are 0, 1 and 2; f is from 1 to n − 1.
pub const MOST_S: u64 = 256;
pub const MOST_C: u64 = 1024;
pub const MOST_N: u64 = 32_768;

/// log2 e as a fraction.
pub struct Log2E {
    over: Big,
    under: Big,
}

impl Log2E {
    /// Cut to six decimals, as the request has it.
    pub fn cut() -> Self {
        Log2E { over: Big::from(1_442_695), under: Big::from(1_000_000) }
    }

    /// Cut to sixty decimals, and one more in the last of them: log2 e lies between the two.
    pub fn of_sixty() -> [Self; 2] {
        ["1442695040888963407359924681001892137426645954152985934135449", "1442695040888963407359924681001892137426645954152985934135450"]
            .map(|digits| Log2E { over: Big::of_decimal(digits), under: Big::power(10, 60) })
    }
}

/// Which of the figures are out of their ranges: s, c, n, f.
pub fn out_of_range(figures: &Figures) -> [bool; 4] {
    let Figures { s, c, n, f } = *figures;
    [s > MOST_S, !(1..=MOST_C).contains(&c), !(2..=MOST_N).contains(&n), f < 1 || f >= n]
}

/// The size, or the number of the refusal.
pub fn due(figures: &Figures) -> Result<u64, u32> {
    if out_of_range(figures).contains(&true) {
        return Err(ffi::BAD_FIGURES);
    }
    smallest(figures).ok_or(ffi::NO_SIZE)
}

/// 2^(s + 5) × c × log2 e's denominator, the right side without f^u.
fn right_side(figures: &Figures, log2_e: &Log2E) -> Big {
    Big::two_to(figures.s + 5).times_word(figures.c, 0).times(&log2_e.under)
}

/// Whether the inequality holds for the size u: n^u × log2 e ≥ f^u × 2^(s + 5) × c, both sides times the denominator of log2 e.
pub fn meets(figures: &Figures, u: u64, log2_e: &Log2E) -> bool {
    Big::power(figures.n, u).times(&log2_e.over) >= Big::power(figures.f, u).times(&right_side(figures, log2_e))
}

/// The smallest size from 1 to 1,024 that meets the inequality.
///
/// f is below n, so a size that meets it is followed by such alone: the left side is n times as great at the next one, the right side f
/// times. Size 0 never does, since 2^5 × 1 is above log2 e. So the greatest size that doesn't is put together from powers of two, the
/// greatest first, and the smallest that does is the next.
fn smallest(figures: &Figures) -> Option<u64> {
    let log2_e = Log2E::cut();
    let (mut left, mut right) = (log2_e.over.clone(), right_side(figures, &log2_e));
    let mut squares = vec![(1, Big::from(figures.n), Big::from(figures.f))];
    // The squares up to the first that meets it by itself: no sum with that one is wanted.
    while let Some((size, n, f)) = squares.last().filter(|(_, n, f)| left.times(n) < right.times(f)) {
        if *size == MOST {
            return None;
        }
        squares.push((2 * size, n.times(n), f.times(f)));
    }
    let mut fails = 0;
    for (size, n, f) in squares.iter().rev().skip(1) {
        let (next_left, next_right) = (left.times(n), right.times(f));
        if next_left < next_right {
            (fails, left, right) = (fails + size, next_left, next_right);
        }
    }
    Some(fails + 1)
}

/// The last number of the range for which it holds, if it holds up to some number and no further.
pub fn last(range: RangeInclusive<u64>, holds: impl Fn(u64) -> bool) -> Option<u64> {
    let (mut holds_before, mut end) = (*range.start(), *range.end() + 1);
    while holds_before < end {
        let middle = holds_before + (end - holds_before) / 2;
        if holds(middle) {
            holds_before = middle + 1;
        } else {
            end = middle;
        }
    }
    (holds_before > *range.start()).then(|| holds_before - 1)
}

/// The size by trying one after the other, which the other way is held to, and measured against.
#[cfg(any(test, feature = "bench"))]
pub fn walk(figures: &Figures) -> Option<u64> {
    let log2_e = Log2E::cut();
    let (mut left, mut right) = (log2_e.over.clone(), right_side(figures, &log2_e));
    (1..=MOST).find(|_| {
        left = left.times_word(figures.n, 0);
        right = right.times_word(figures.f, 0);
        left >= right
    })
}

#[cfg(test)]
mod tests {
    use super::*;
    use crate::rng::Rng;

    const fn of(s: u64, c: u64, n: u64, f: u64) -> Figures {
        Figures { s, c, n, f }
    }

    /// By hand: with n = 2 and f = 1 it is 2^u × 1.442695 ≥ 2^(s + 5) × c. So u is s + 5 with c = 1, and one more than for the last c from
    /// 1.442695 × 2^k on.
    #[test]
    fn by_hand() {
        let size = |s, c| due(&of(s, c, 2, 1));
        assert_eq!([1, 2, 3, 4, 5, 6].map(|c| size(0, c)), [5, 6, 7, 7, 7, 8].map(Ok));
        assert_eq!((size(256, 1), size(256, 1024)), (Ok(261), Ok(271)));
        // 23 × 1.442695 is 33.18, and 22 × 1.442695 is 31.74.
        assert_eq!((due(&of(0, 1, 23, 1)), due(&of(0, 1, 22, 1))), (Ok(1), Ok(2)));
        // 32,768 × 1.442695 is 47,274.2, which is 32 × 1,477.3.
        assert_eq!((due(&of(0, 1024, 32_768, 1)), due(&of(1, 738, 32_768, 1)), due(&of(1, 739, 32_768, 1))), (Ok(1), Ok(1), Ok(2)));
        assert_eq!(due(&of(0, 1, 32_768, 32_767)), Err(44));
    }

    /// The figures of the Rust's own example: 128 + 7 + 5 − 0.5288 over log2 (4 / 3), which is 0.41504, is 336.04.
    #[test]
    fn of_the_example() {
        assert_eq!(due(&of(128, 128, 1000, 750)), Ok(337));
    }

    #[test]
    fn each_range() {
        let good = of(256, 1024, 32_768, 16_000);
        assert!(due(&good).is_ok());
        for bad in [
            Figures { s: 257, ..good },
            Figures { c: 0, ..good },
            Figures { c: 1025, ..good },
            Figures { n: 32_769, ..good },
            Figures { f: 0, ..good },
            Figures { f: 32_768, ..good },
            of(0, 1, 1, 0),
            of(0, 1, 1, 1),
            of(0, 1, 0, 0),
        ] {
            assert_eq!(due(&bad), Err(43), "{bad:?}");
        }
        // 43 before 44, on figures that no size would serve either.
        assert_eq!(due(&of(257, 1, 32_768, 32_767)), Err(43));
    }

    /// The size put together from powers of two is the one that a walk comes to, and the inequality turns there.
    #[test]
    fn as_by_trying_one_after_the_other() {
        let mut rng = Rng::new(3, 0);
        let mut figures = vec![of(256, 1024, 32_768, 32_767), of(0, 1, 2, 1), of(0, 1, 32_768, 1)];
        for _ in 0..400 {
            let n = 3 + rng.below(MOST_N - 2);
            let near = rng.below(n - 2) >> rng.below(12);
            figures.push(of(rng.below(257), 1 + rng.below(1024), n, if rng.below(2) == 0 { n - 1 - near } else { 1 + near }));
        }
        let (mut sizes, mut none) = (0, 0);
        for figures in figures {
            let size = walk(&figures);
            assert_eq!(smallest(&figures), size, "{figures:?}");
            match size {
                Some(u) => {
                    assert!(meets(&figures, u, &Log2E::cut()) && !meets(&figures, u - 1, &Log2E::cut()));
                    sizes += 1;
                }
                None => none += 1,
            }
        }
        assert!(sizes > 50 && none > 50, "{sizes} {none}");
    }

    /// A size that meets the inequality is followed by such alone.
    #[test]
    fn it_turns_once() {
        for figures in [of(3, 7, 100, 90), of(0, 1, 50, 49), of(200, 1000, 32_768, 3)] {
            let met: Vec<bool> = (0..=MOST).map(|u| meets(&figures, u, &Log2E::cut())).collect();
            assert!(met.windows(2).all(|two| two[0] <= two[1]) && !met[0], "{figures:?}");
        }
    }

    /// The greatest size, and the first figures without one: c has the last word.
    #[test]
    fn the_greatest_size() {
        let of_f = |f| of(256, 1024, 32_768, f);
        let f = last(1..=32_767, |f| meets(&of_f(f), MOST, &Log2E::cut())).expect("f = 1 is served");
        assert_eq!((due(&of_f(f)), due(&of_f(f + 1))), (Ok(1024), Err(44)));
    }

    #[test]
    fn the_last_of_a_range() {
        for turn in 0..=9 {
            assert_eq!(last(1..=8, |x| x < turn), (turn > 1).then(|| turn.min(9) - 1));
        }
    }

    /// The doubles' log2 e, and the cut one below it.
    #[test]
    fn digits_of_log2_e() {
        let [low, high] = Log2E::of_sixty();
        // The double is a whole number over 2^52.
        let double = (std::f64::consts::LOG2_E * (1u64 << 52) as f64) as u64;
        let at_least = |log: &Log2E, over: u64| log.over.times(&Big::two_to(52)) >= log.under.times_word(over, 0);
        assert!(at_least(&low, double - 1) && at_least(&high, double - 1) && !at_least(&low, double + 1) && !at_least(&high, double + 1));
        let cut = Log2E::cut();
        assert!(low.over.times(&cut.under) > cut.over.times(&low.under) && low.over < high.over);
    }
}
