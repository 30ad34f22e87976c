//! The pairs of n and f that every s and c is tried with.

use crate::model::proof_size::MOST_N;
use crate::rng::Rng;

type Pair = fn(&mut Rng) -> (u64, u64);

pub const PAIRS: [(&str, Pair); 4] =
    [("n and f near each other", near), ("n and f far apart", far), ("around powers", around_powers), ("any n and f", any)];
/// What is tried beside these.
pub const BESIDE: &str = "c × 2^s beside a turn of the size";

fn any(rng: &mut Rng) -> (u64, u64) {
    let n = 2 + rng.below(MOST_N - 1);
    (n, 1 + rng.below(n - 1))
}

/// f is below n by a quarter of it at most, and by so much that some s and c have a size: by a 332nd.
fn near(rng: &mut Rng) -> (u64, u64) {
    let n = 8 + rng.below(MOST_N - 7);
    let less = 1 + n / 332 + (rng.below(n / 4) >> rng.below(3));
    (n, n - less.min(n - 1))
}

/// f is up to a sixteenth of n.
fn far(rng: &mut Rng) -> (u64, u64) {
    let n = 16 + rng.below(MOST_N - 15);
    (n, 1 + (rng.below(n / 16) >> rng.below(12)))
}

/// Both powers of two or up to two beside, n a power of two times f or one beside, or n a power of f or one beside.
fn around_powers(rng: &mut Rng) -> (u64, u64) {
    let (n, f) = match rng.below(3) {
        0 => {
            let (n, f) = (1 << (1 + rng.below(15)), 1 << rng.below(15));
            (n + rng.below(5), f + rng.below(5))
        }
        1 => {
            let digits = rng.below(15);
            let f = 1 + rng.below(1 << digits);
            ((f << (1 + rng.below(4))) + 1 + rng.below(3), f + 2)
        }
        _ => {
            let f = 2 + rng.below(180);
            (f.pow(2 + rng.below(3) as u32) + 1 + rng.below(3), f + 2)
        }
    };
    // Each was drawn two too great.
    let (n, f) = (n.saturating_sub(2), f.saturating_sub(2));
    if (2..=MOST_N).contains(&n) && (1..n).contains(&f) {
        (n, f)
    } else {
        around_powers(rng)
    }
}

#[cfg(test)]
mod tests {
    use super::*;
    use crate::model::proof_size::{out_of_range, Figures};

    #[test]
    fn pairs_are_lawful() {
        let mut rng = Rng::new(1, 0);
        for (name, pair) in PAIRS {
            for _ in 0..10_000 {
                let (n, f) = pair(&mut rng);
                assert_eq!(out_of_range(&Figures { s: 0, c: 1, n, f }), [false; 4], "{name}: {n} {f}");
            }
        }
    }
}
