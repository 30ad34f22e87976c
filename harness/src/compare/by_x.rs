//! Searches and verdicts with an X by itself, which mostly no q gives, against the specification's words (chains.rs). Those words are
//! first seen to come to what the Rust comes to, with a q.

use super::bernoulli::ENDS;
use super::blocks::{self, Block};
use super::searches::{self, Outcome};
use super::verdicts::Claim;
use super::{bernoulli, limits, shown_list, Checked, Run};
use crate::model::chains;
use crate::model::threshold::Threshold::Alone;
use crate::{ffi::Settings, list::List, rng::Rng};

/// Lists of a block, and about how many searches there are of one.
const BLOCK: u64 = 16;
const FAMILY: u64 = 16;

pub fn run(run: &mut Run, cases: u64) -> Checked {
    blocks::run(run, cases.div_ceil(FAMILY * BLOCK), |_, block| (0..BLOCK).try_for_each(|_| of_list(block)))?;
    let cases = limits::i_to_l();
    blocks::run(run, cases.len() as u64, |number, block| {
        let (settings, list) = &cases[number as usize];
        ENDS.into_iter().try_for_each(|x| check(block, settings, list, x))
    })
}

/// A list searched with a q, by the Rust and by the specification's words; then with the X's at the ends of its words, with some of any
/// size, and with those around the number of the proof that was found, where the outcome turns.
fn of_list(block: &mut Block) -> Checked {
    let settings = searches::any_settings(&mut block.rng);
    let list = searches::any_list(&mut block.rng, settings.set_size as usize);
    let outcome = searches::check_and_verify(block, &settings, &list)?;
    let by_words = chains::search(&settings, &list);
    if by_words != outcome {
        let list = shown_list(&list);
        return Err(format!("  {settings:?}\n{list}  the Rust: {outcome:?}\n  by the specification's words: {by_words:?}\n"));
    }
    let mut xs = ENDS.to_vec();
    xs.extend(some(&mut block.rng, &settings));
    xs.extend(around(&settings, &list, &outcome));
    xs.into_iter().try_for_each(|x| check(block, &settings, &list, x))
}

/// Of any size; and the q's own, with other digits where a double has none, alone and with its words in each other's place.
fn some(rng: &mut Rng, s: &Settings) -> [u128; 3] {
    let x = s.x.x() ^ u128::from(rng.word());
    [bernoulli::any_x(rng), x, x.rotate_left(64)]
}

/// At the number of the last hash of the proof that was found, and beside it.
fn around(s: &Settings, list: &List, found: &Outcome) -> Vec<u128> {
    if found.number != 0 {
        return Vec::new();
    }
    chains::last_number(&Claim::of(s, list, found)).map_or(Vec::new(), |number| bernoulli::near(number).to_vec())
}

fn check(block: &mut Block, s: &Settings, list: &List, x: u128) -> Checked {
    searches::check_and_verify(block, &Settings { x: Alone(x), ..*s }, list).map(|_| ())
}
