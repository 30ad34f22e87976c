//! Settings made from security figures, as those who use the library make them: the share of keyed functions under which f elements have a
//! proof that is accepted, and what it must lie between.

use super::share::{Share, MOST_OFF};
use super::{keyed, telescope};
use crate::model::proof_size::{self, Figures};
use crate::{compare::Checked, ffi::Settings, list::List, original, rng::Rng};

const fn figures([s, c, n, f]: [u64; 4]) -> Figures {
    Figures { s, c, n, f }
}

/// Of most of them the size is just enough, so that the bound is near its limit. Set sizes that are powers of two and others, one element
/// and more, one try and more, proofs of 1 to 6 elements.
const FIGURES: [Figures; 11] = [
    figures([0, 1, 23, 1]),
    figures([0, 1, 2, 1]),
    figures([0, 1, 12, 7]),
    figures([0, 2, 14, 2]),
    figures([1, 1, 64, 1]),
    figures([1, 3, 21, 4]),
    figures([2, 1, 9, 2]),
    figures([3, 1, 27, 2]),
    figures([4, 1, 355, 1]),
    figures([5, 2, 2840, 2]),
    figures([6, 1, 38, 1]),
];

/// What the share must lie between, and the limit that the figures set.
struct Bounds {
    least: f64,
    most: f64,
    limit: f64,
}

/// A row of the table for each. It ends with the first that isn't as it should be.
pub fn run(seed: u64, first_stream: u64, functions: u64) -> Checked {
    println!("| s c n f | u r d | green | share | least | bound | 2^-(s+2) | share / bound |\n|---|---|---|---|---|---|---|---|");
    for (stream, figures) in (first_stream..).zip(&FIGURES) {
        let settings = settings(figures)?;
        let mut rng = Rng::new(seed, stream);
        let list = elements(&mut rng, figures.f);
        let share = keyed::count(rng, functions, |key| telescope::proof(&keyed::function(key), &settings, &list).is_some());
        let bounds = bounds(figures, &settings);
        println!("{}", row(figures, &settings, share, &bounds));
        check(share, &bounds).map_err(|why| format!("  {figures:?}, {settings:?}: {why}\n"))?;
    }
    Ok(())
}

/// The size by the request's words, and the small case of the size and of c.
fn settings(figures: &Figures) -> Result<Settings, String> {
    let size = proof_size::due(figures).map_err(|number| format!("  {figures:?} are refused with {number}\n"))?;
    Ok(original::small_case(figures.n, size, figures.c as f64))
}

/// So many elements, each of its own, with and without an index.
fn elements(rng: &mut Rng, count: u64) -> List {
    let mut list = List::default();
    for place in 0..count {
        let mut data = [0; 8];
        rng.fill(&mut data);
        list.push(&data, (place % 2 == 1).then_some(place), place);
    }
    list
}

/// The most is the theorem's: the sum over all proofs of their chances, and r·d·u² / 2^256 for digests that come again within a chain.
///
/// The least is that sum less the sum over all pairs of proofs (Bonferroni's inequality). A function with k proofs counts k times in the
/// one and k × (k − 1) / 2 times in the other, so at most once. Two proofs of different counters are independent. Two of the same counters
/// agree in k elements and differ in the next: k + 1 ids are asked of both at once, the next elements' bins must be the same, and u − k − 1
/// ids are asked of each. Digests that come again and hashes without a draw are passed over here: their chances are too small for any run
/// to show.
fn bounds(figures: &Figures, s: &Settings) -> Bounds {
    let (counters, u) = ((s.max_retries * s.search_width) as f64, s.proof_size as i32);
    let (yes, met) = (s.x.x() as f64 / 2f64.powi(128), figures.f as f64 / figures.n as f64);
    let sum = counters * met.powi(u) * yes;
    let apart = sum * sum * (1.0 - 1.0 / counters) / 2.0;
    let differing = (figures.f - 1) as f64 / figures.f as f64;
    let beside: f64 = (0..u).map(|k| counters * met.powi(2 * u - k) * differing * yes * yes / 2.0).sum();
    let again = counters * f64::from(u * u) / 2f64.powi(256);
    Bounds { least: sum - apart - beside, most: sum + again, limit: 2f64.powi(-(figures.s as i32) - 2) }
}

fn row(figures: &Figures, s: &Settings, share: Share, bounds: &Bounds) -> String {
    let (Figures { s: soundness, c, n, f }, measured) = (figures, share.measured());
    let Settings { proof_size, max_retries, search_width, .. } = s;
    let Bounds { least, most, limit } = bounds;
    let numbers = format!("{} | {measured:.5} | {least:.5} | {most:.5} | {limit:.5} | {:.2}", share.green, measured / most);
    format!("| {soundness} {c} {n} {f} | {proof_size} {max_retries} {search_width} | {numbers} |")
}

fn check(share: Share, bounds: &Bounds) -> Checked {
    let Bounds { least, most, limit } = *bounds;
    let Share { green, functions } = share;
    if share.off(limit) > MOST_OFF {
        return Err(format!("{green} of {functions} functions are green, more than 2^-(s+2), {limit}, lets be"));
    }
    if share.off(most) > MOST_OFF {
        return Err(format!("{green} of {functions} functions are green, more than the bound {most} lets be"));
    }
    if most > limit {
        return Err(format!("the bound {most} is above 2^-(s+2), {limit}"));
    }
    if share.off(least) < -MOST_OFF {
        return Err(format!("{green} of {functions} functions are green, fewer than {least} lets be: proofs are missed"));
    }
    Ok(())
}

#[cfg(test)]
mod tests {
    use super::*;
    use crate::model::threshold::Threshold::{Alone, OfQ};
    use std::collections::HashSet;

    fn of(numbers: [u64; 4], proof_size: u64, max_retries: u64, search_width: u64, q: f64) -> Bounds {
        let figures = figures(numbers);
        bounds(&figures, &Settings { set_size: figures.n, proof_size, max_retries, search_width, dfs_bound: 0, x: OfQ(q) })
    }

    fn is_near(a: f64, b: f64) -> bool {
        (a - b).abs() < 1e-12
    }

    /// One element: of a start's functions a sixteenth have it in the start's bin, of which a quarter are told yes. Of two tries with three
    /// starts that is 6/64, and the 15 pairs are 15/4096.
    #[test]
    fn of_one_element() {
        let Bounds { least, most, limit } = of([3, 2, 16, 1], 1, 2, 3, 0.25);
        assert!(is_near(most, 6.0 / 64.0) && is_near(least, 6.0 / 64.0 - 15.0 / 4096.0) && limit == 1.0 / 32.0);
        // The share itself, which with one element is known: each start by itself.
        let share = |q: f64, n: f64, u, counters| 1.0 - (1.0 - q / n.powi(u)).powi(counters);
        for (n, u, r, d, q) in [(16, 1, 2, 3, 0.25), (5, 2, 1, 9, 0.7), (2, 5, 3, 40, 0.01)] {
            let (share, Bounds { least, most, .. }) = (share(q, n as f64, u, (r * d) as i32), of([0, r, n, 1], u as u64, r, d, q));
            assert!(least <= share && share <= most && least > 0.5 * most, "{least} {share} {most}");
        }
    }

    /// Two elements, one start. Of proofs of one element, a share of 1 - (1 - q/n)^2. Of two, by the bins: with both in one bin (1 in n)
    /// the start's, and a round after it, has two elements or none; in two bins there are two starts and two rounds that have one.
    #[test]
    fn of_two_elements() {
        let (q, n) = (0.5, 10.0);
        let Bounds { least, most, .. } = of([0, 1, 10, 2], 1, 1, 1, q);
        assert!(is_near(most, 2.0 * q / n) && is_near(least, 1.0 - (1.0 - q / n).powi(2)));
        let of_round = |passes: f64| (1.0 - (1.0 - passes).powi(2)) / n;
        let share = of_round(of_round(q)) / n + (1.0 - 1.0 / n) * 4.0 * q / (n * n);
        let Bounds { least, most, .. } = of([0, 1, 10, 2], 2, 1, 1, q);
        assert!(is_near(most, 4.0 * q / (n * n)) && is_near(least, most - 2.0 * q * q / n.powi(3) - 4.0 * q * q / n.powi(4)));
        assert!(least <= share && share - least < 1e-4 && share < most, "{least} {share} {most}");
    }

    /// The second term: the greatest settings, and no yes.
    #[test]
    fn digests_that_come_again() {
        let s = Settings { x: Alone(0), ..crate::model::rules::MOST };
        let Bounds { most, .. } = bounds(&figures([0, 1, 32_768, 1]), &s);
        let due = 65_535.0 * 4_294_967_295.0 * 1_048_576.0 / 2f64.powi(256);
        assert!((most / due - 1.0).abs() < 1e-12 && most > 0.0);
    }

    /// Of 10,000 functions with a share of 0.1 the deviation is 30, with 0.2 it is 40.
    #[test]
    fn each_failure() {
        let of = |green, least, most, limit| check(Share { green, functions: 10_000 }, &Bounds { least, most, limit });
        assert_eq!((of(1000, 0.1, 0.1, 0.1), of(1179, 0.1, 0.1, 0.2), of(821, 0.1, 0.1, 0.2)), (Ok(()), Ok(()), Ok(())));
        let why = |green, least, most, limit| of(green, least, most, limit).expect_err("a failure");
        assert!(why(1181, 0.1, 0.1, 0.1).contains("more than 2^-(s+2)") && why(1181, 0.1, 0.2, 0.1).contains("more than 2^-(s+2)"));
        assert!(why(1181, 0.1, 0.1, 0.2).contains("more than the bound"));
        assert!(why(1000, 0.1, 0.1, 0.09).contains("the bound 0.1 is above 2^-(s+2)"));
        assert!(why(819, 0.1, 0.2, 0.2).contains("fewer than 0.1"));
        assert!(why(0, 0.1, 0.2, 0.25).contains("proofs are missed"));
    }

    /// By hand: (14 / 2)^2 is 49, which times 1.442695 is above 2^5 × 2, and 7 isn't. Of u = 2 the width is 2 × 32 × ln 12 rounded up.
    #[test]
    fn settings_of_figures() {
        let s = settings(&figures([0, 2, 14, 2])).expect("lawful figures");
        assert_eq!((s.set_size, s.proof_size, s.max_retries, s.search_width), (14, 2, 2, 160));
        assert!(settings(&figures([0, 1, 1, 1])).is_err());
        // Each is lawful, its least is above half its bound, and its bound is below 2^-(s+2).
        for figures in &FIGURES {
            let Bounds { least, most, limit } = bounds(figures, &settings(figures).expect("lawful figures"));
            assert!(least > most / 2.0 && most < limit, "{figures:?}: {least} {most} {limit}");
        }
    }

    #[test]
    fn elements_differ() {
        let list = elements(&mut Rng::new(1, 0), 100);
        let data: HashSet<_> = (0..100).map(|place| list.data_of(place)).collect();
        assert!(data.len() == 100 && list.marks.iter().filter(|mark| **mark == 1).count() == 50);
    }
}
