//! Where the Rust's proof size, which it works out in doubles, is another than the request's, and which of the two is right by log2 e with
//! sixty decimals.

mod found;
mod pairs;

use crate::model::proof_size::{meets, Figures, Log2E, MOST};
use crate::turning::{self, Beside, Rounded};
use crate::{args::Sizes, compare::Checked, original, rng::Rng};
use found::{Found, Three, NONE};
use pairs::PAIRS;
use std::cmp::Ordering;
use std::time::Instant;

/// Turns of pairs, each with every s and c, and after them three times as many of an n with every f.
const IN_A_ROUND: u64 = 4 * PAIRS.len() as u64;
/// How near to a turn of the size the Rust is asked in the second kind: a 2^24th, twice as far as six decimals of log2 e are from it.
const WITHIN: u32 = 24;
/// Set sizes n, which are gone over in an order that the seed gives, none twice.
const SET_SIZES: u64 = 32_767;
/// The order's step: primes, none of which divides `SET_SIZES`.
const STEPS: [u64; 4] = [10_007, 12_289, 20_011, 30_011];

pub fn run(options: &Sizes) -> Checked {
    let Sizes { time, turns, seed } = *options;
    println!("seed 0x{seed:016x}");
    let (started, mut search) = (Instant::now(), Search::new(seed));
    let mut number = 0;
    while number < turns && started.elapsed() < time {
        search.turn(number).map_err(|case| format!("{case}  turn {number} of seed 0x{seed:016x}"))?;
        number += 1;
    }
    println!("{number} turns in {:.0} seconds\n\n{}", started.elapsed().as_secs_f64(), search.found.text());
    Ok(())
}

/// log2 e with all decimals that are had, and with six.
#[derive(Clone, Copy, PartialEq)]
enum By {
    Sixty,
    Six,
}

struct Search {
    seed: u64,
    sixty: [Log2E; 2],
    six: Log2E,
    found: Found,
}

impl Search {
    fn new(seed: u64) -> Self {
        Search { seed, sixty: Log2E::of_sixty(), six: Log2E::cut(), found: Found::default() }
    }

    /// What a turn asks is fixed by the seed and its number.
    fn turn(&mut self, number: u64) -> Checked {
        let (round, place) = (number / IN_A_ROUND, (number % IN_A_ROUND) as usize);
        match PAIRS.get(place) {
            Some(&(name, pair)) => {
                let (n, f) = pair(&mut Rng::new(self.seed, number));
                self.every_s_and_c(name, n, f)
            }
            None => {
                let in_order = (IN_A_ROUND - PAIRS.len() as u64) * round + (place - PAIRS.len()) as u64;
                let (step, from) = (STEPS[(self.seed % 4) as usize], self.seed / 4 % SET_SIZES);
                self.beside_turns(2 + (from + in_order % SET_SIZES * step) % SET_SIZES)
            }
        }
    }

    fn every_s_and_c(&mut self, name: &'static str, n: u64, f: u64) -> Checked {
        let (sixty, six) = (turning::all(n, f, turning::whole_start()), turning::all(n, f, turning::cut_start()));
        for c in 1..=1024 {
            for s in 0..=256 {
                let figures = Figures { s, c, n, f };
                let rust = original::proof_size(&figures).min(NONE);
                let here = self.size(&figures, By::Six, &six, rust)?;
                let right = self.size(&figures, By::Sixty, &sixty, rust)?;
                self.found.note(name, figures, Three { rust, here, right })?;
            }
        }
        Ok(())
    }

    /// The size, looked for from the Rust's on, which it mostly is: it serves and the one before it doesn't. 1,025 stands for none.
    fn size(&self, figures: &Figures, by: By, t: &[Rounded], rust: u64) -> Result<u64, String> {
        let mut size = rust;
        while size > 1 && self.serves(figures, size - 1, by, t[size as usize - 2])? {
            size -= 1;
        }
        while size <= MOST && !self.serves(figures, size, by, t[size as usize - 1])? {
            size += 1;
        }
        Ok(size)
    }

    /// By t, which is t(size), or in whole numbers where that doesn't tell.
    fn serves(&self, figures: &Figures, size: u64, by: By, t: Rounded) -> Result<bool, String> {
        if let Some(order) = t.against(figures.s, figures.c) {
            return Ok(order != Ordering::Greater);
        }
        if by == By::Six {
            return Ok(meets(figures, size, &self.six));
        }
        match self.sixty.each_ref().map(|log2_e| meets(figures, size, log2_e)) {
            [below, above] if below == above => Ok(below),
            _ => Err(format!("  {figures:?}, size {size}: sixty decimals of log2 e don't tell\n")),
        }
    }

    /// One n with every f, and with each the s and c for which c × 2^s is beside a t(u), so that the size is u or the next. The next
    /// t(u) is farther off, by a 2^15th at least.
    fn beside_turns(&mut self, n: u64) -> Checked {
        let mut beside = Vec::new();
        for f in 1..n {
            turning::beside(n, f, turning::whole_start(), WITHIN, |it| beside.push((f, it)));
        }
        for (f, Beside { u, t, s, c }) in beside {
            let figures = Figures { s, c, n, f };
            let rust = original::proof_size(&figures).min(NONE);
            let size = |serves: bool| if serves { u } else { u + 1 };
            let here = size(self.serves(&figures, u, By::Six, turning::cut(t))?);
            let right = size(self.serves(&figures, u, By::Sixty, t)?);
            self.found.note(pairs::BESIDE, figures, Three { rust, here, right })?;
        }
        Ok(())
    }
}
