//! Small games, of which every function is counted: the share that is green exactly, as measured with keyed functions, and its bound.

use super::fraction::Fraction;
use super::game::Game;
use super::keyed;
use super::share::{Share, MOST_OFF};
use crate::{compare::Checked, rng::Rng};
use std::convert::Infallible;

/// A game, and whether the bound's first term alone is below its share.
struct Listed {
    game: Game,
    is_above_first: bool,
}

const fn listed([r, d, f, u, n, m, x]: [u64; 7], is_above_first: bool) -> Listed {
    Listed { game: Game { r, d, f, u, n, m, x }, is_above_first }
}

/// By r, d, f, u, n, m and x. In the last ones the first term alone is no bound. With one element and n = m every digest before an element
/// must be that element's bin. So from the second element on the digests come again and the next hash has no new answer: a third element
/// costs nothing.
const GAMES: [Listed; 14] = [
    listed([1, 1, 1, 1, 2, 4, 1], false),
    listed([1, 1, 2, 1, 2, 2, 1], false),
    listed([1, 1, 2, 1, 4, 8, 5], false),
    listed([1, 2, 1, 1, 2, 8, 3], false),
    listed([2, 1, 1, 1, 4, 8, 5], false),
    listed([1, 1, 1, 2, 2, 16, 9], false),
    listed([1, 1, 2, 2, 4, 8, 3], false),
    listed([1, 2, 2, 2, 2, 2, 1], false),
    listed([2, 2, 2, 1, 3, 3, 1], false),
    listed([1, 1, 1, 3, 2, 2, 1], true),
    listed([1, 2, 1, 3, 2, 2, 1], true),
    listed([2, 1, 1, 3, 2, 2, 1], true),
    listed([1, 1, 1, 4, 3, 3, 1], true),
    listed([1, 1, 1, 3, 10, 10, 10], true),
];

/// A row of the table for each. It ends with the first that isn't as it should be.
pub fn run(seed: u64, first_stream: u64, functions: u64) -> Checked {
    println!("| r d f u n m x | exact share | first term | bound | measured | standard deviations off |\n|---|---|---|---|---|---|");
    if !GAMES.iter().any(|listed| listed.is_above_first) {
        return Err("  no game is listed in which the first term alone is no bound\n".to_string());
    }
    for (stream, listed) in (first_stream..).zip(&GAMES) {
        let (game, exact) = (&listed.game, listed.game.exact().map_err(|why| format!("  {:?}: {why}\n", listed.game))?);
        let share = measured(game, Rng::new(seed, stream), functions);
        println!("{}", row(game, exact, share));
        check(listed, exact, share).map_err(|why| format!("  {game:?}: {why}\n"))?;
    }
    Ok(())
}

/// The share of keyed functions.
fn measured(game: &Game, rng: Rng, functions: u64) -> Share {
    keyed::count(rng, functions, |key| {
        let Ok(is_green) = game.is_green(&mut |question| Ok::<u64, Infallible>(question.keyed(key, game.m)));
        is_green
    })
}

fn row(game: &Game, exact: Fraction, share: Share) -> String {
    let Game { r, d, f, u, n, m, x } = game;
    let (measured, off) = (share.measured(), share.off(exact.value()));
    format!("| {r} {d} {f} {u} {n} {m} {x} | {exact} | {} | {} | {measured:.5} | {off:+.1} |", game.first_term(), game.bound())
}

fn check(listed: &Listed, exact: Fraction, share: Share) -> Checked {
    let (first, bound) = (listed.game.first_term(), listed.game.bound());
    if exact > bound {
        return Err(format!("the exact share {exact} is above the bound {bound}"));
    }
    if (exact > first) != listed.is_above_first {
        let said = if listed.is_above_first { "above" } else { "at most" };
        return Err(format!("the exact share {exact} is listed as {said} the first term alone, {first}"));
    }
    if share.off(exact.value()).abs() > MOST_OFF {
        return Err(format!("{} of {} functions are green, which isn't the exact share {exact}", share.green, share.functions));
    }
    Ok(())
}

#[cfg(test)]
mod tests {
    use super::*;

    fn checked(numbers: [u64; 7], is_above_first: bool, exact: (u128, u128), green: u64) -> Checked {
        check(&listed(numbers, is_above_first), Fraction::new(exact.0, exact.1), Share { green, functions: 6400 })
    }

    /// The first term is 1/16 and the second 9/64, so the bound is 13/64. Of 6,400 functions with a share of 1/8 it is 800, and the
    /// standard deviation 26.5.
    #[test]
    fn each_failure() {
        let numbers = [1, 1, 1, 3, 2, 64, 32];
        assert_eq!(
            (listed(numbers, true).game.first_term(), listed(numbers, true).game.bound()),
            (Fraction::new(1, 16), Fraction::new(13, 64))
        );
        assert_eq!((checked(numbers, true, (1, 8), 800), checked(numbers, false, (1, 16), 400)), (Ok(()), Ok(())));
        assert_eq!((checked(numbers, true, (1, 8), 958), checked(numbers, true, (1, 8), 642)), (Ok(()), Ok(())));
        let why = |exact, is_above_first, green| checked(numbers, is_above_first, exact, green).expect_err("a failure");
        assert!(why((14, 64), true, 1400).contains("above the bound 13/64"));
        assert!(why((1, 8), false, 800).contains("listed as at most the first term alone, 1/16"));
        assert!(why((1, 16), true, 400).contains("listed as above the first term alone, 1/16"));
        assert!(why((1, 8), true, 960).contains("960 of 6400 functions"));
        assert!(why((1, 8), true, 640).contains("640 of 6400 functions"));
    }

    /// The bound speaks of no more elements than the set's size, and n must divide m. Some bounds are below 1, so that they say something.
    #[test]
    fn games_are_what_the_bound_speaks_of() {
        for Listed { game, .. } in &GAMES {
            assert!(game.f <= game.n && game.m % game.n == 0 && game.x <= game.m && game.m <= 256, "{game:?}");
        }
        assert_eq!(GAMES.iter().filter(|listed| listed.game.bound() < Fraction::new(1, 1)).count(), 7);
    }

    /// A game in which all functions are green, one in which none is, and by hand one in which one in 8 is.
    #[test]
    fn as_measured() {
        let of = |numbers| measured(&listed(numbers, false).game, Rng::new(1, 0), 10_000);
        assert_eq!((of([1, 1, 1, 2, 1, 2, 2]).green, of([1, 1, 1, 2, 1, 2, 0]).green), (10_000, 0));
        let share = of([1, 1, 1, 3, 2, 2, 1]);
        assert!(share.off(0.125).abs() < 5.0 && share.off(0.0625) > MOST_OFF, "{share:?}");
    }
}
