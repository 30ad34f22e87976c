//! `alba_plan` against arithmetic by the request's words (`plan` of rules.rs): the amounts, the order of the refusals, and what stands in
//! `out`.

use super::blocks::{self, Block};
use super::fence::Fenced;
use super::{bernoulli, faults, Answered, Checked, Run};
use crate::load::draws;
use crate::model::rules::{self, Amounts, BYTES, MOST};
use crate::model::threshold::Threshold::Alone;
use crate::{ffi, ffi::Settings, rng::Rng};

/// Numbers of `out` that are written.
pub const FIGURES: usize = 4;
/// Random cases, and cases at the borders, in a block.
const BLOCK: u64 = 10_000;
const BORDER_BLOCK: u64 = 1 << 12;
/// Borders of a number, and how many cases these make of the five settings and the length.
const BORDERS: usize = 8;
const AT_BORDERS: u64 = (BORDERS as u64).pow(6);

/// What `out` is lent as, by its length, and at the end a null pointer.
const OUTS: [&str; 10] = [
    "out of 0 numbers",
    "out of 1 number",
    "out of 2 numbers",
    "out of 3 numbers",
    "out of 4 numbers",
    "out of 5 numbers",
    "out of 6 numbers",
    "out of 7 numbers",
    "out of 8 numbers",
    "out as a null pointer",
];
const NULL: usize = OUTS.len() - 1;

/// Which of the lines 1, 2 and 5 a call breaks, a bit each, and the first of them.
const BROKEN: [(&str, u32); 8] = [
    ("no fault", 0),
    ("the fault of 1", 1),
    ("the fault of 2", 2),
    ("the faults of 1 and 2", 1),
    ("the fault of 5", 5),
    ("the faults of 1 and 5", 1),
    ("the faults of 2 and 5", 2),
    ("the faults of 1, 2 and 5", 1),
];

/// How the content of a ticket ends and the number of blocks grows with the length.
const FULL: &str = "the last block full";
const ONE_BYTE: &str = "a byte in the last block";
const GROWS: &str = "more blocks than for a byte less";
const STAYS: &str = "as many blocks as for a byte less";

pub fn run(run: &mut Run, cases: u64) -> Checked {
    blocks::run(run, AT_BORDERS / BORDER_BLOCK, |number, block| {
        (number * BORDER_BLOCK..(number + 1) * BORDER_BLOCK).try_for_each(|number| at_borders(block, number))
    })?;
    blocks::run(run, MOST.proof_size + 1, every_length)?;
    blocks::run(run, cases.div_ceil(BLOCK), |_, block| (0..BLOCK).try_for_each(|_| any(block)))?;
    run.seen.none_missing(kinds())
}

/// Every kind that must have come: `out` of each length with each answer, each of the lines 1, 2 and 5 with the others, and each end of a
/// ticket.
fn kinds() -> impl Iterator<Item = (&'static str, Option<u32>)> {
    let outs = OUTS.iter().flat_map(|out| [0, 1, 2, 5].map(|answer| (*out, Some(answer))));
    let broken = BROKEN.iter().map(|(faults, first)| (*faults, Some(*first)));
    outs.chain(broken).chain([FULL, ONE_BYTE, GROWS, STAYS].map(|end| (end, Some(0))))
}

/// One call, with a place of so many numbers lent for the answer, and what kind it is of.
fn check(block: &mut Block, s: &Settings, longest: u64, out: usize) -> Answered {
    let answer = answer_to(&mut block.rng, s, longest, (out != NULL).then_some(out))?;
    block.tally.count("plan", answer);
    block.seen.count(OUTS[out], answer);
    block.seen.count(BROKEN[broken(s, longest)].0, answer);
    Ok(answer)
}

/// The answer, which is the one that is due, and that nothing but it is written; `None` is a null pointer.
fn answer_to(rng: &mut Rng, s: &Settings, longest: u64, length: Option<usize>) -> Answered {
    let mut out = match length {
        Some(length) => Fenced::new(rng, length, |word| word),
        None => Fenced::null(rng, |word| word),
    };
    let ours = ffi::plan(s, longest, &mut out);
    let (number, written) = due(s, longest);
    let written = if out.len() < FIGURES { &[][..] } else { &written };
    if ours == number && out.holds(written) {
        return Ok(ours);
    }
    let amounts = out.story("places, bin table, steps and blocks", written);
    Err(format!("  {s:?}\n  the longest data: {longest}\n  ours: {ours}\n  due: {number}\n{amounts}"))
}

/// The number, and what is then written where `out` has as many numbers: the amounts, or zeros.
pub fn due(s: &Settings, longest: u64) -> (u32, [u64; FIGURES]) {
    rules::plan(s, longest).map_or_else(|number| (number, [0; FIGURES]), |amounts| (0, amounts.figures()))
}

/// The amounts for lawful settings and a lawful length, as the library gives them.
pub fn amounts(block: &mut Block, s: &Settings, longest: u64) -> Result<Amounts, String> {
    let answer = answer_to(&mut block.rng, s, longest, Some(FIGURES))?;
    block.tally.count("plan", answer);
    rules::plan(s, longest).map_err(|number| format!("  {s:?}\n  the longest data: {longest}\n  these are refused with {number}\n"))
}

/// The lines that a call breaks, as in `BROKEN`.
fn broken(s: &Settings, longest: u64) -> usize {
    let set_size = rules::settings(&Settings { set_size: s.set_size, ..MOST }).is_err();
    let others = rules::settings(&Settings { set_size: MOST.set_size, ..*s }).is_err();
    [set_size, others, longest > BYTES as u64].iter().rev().fold(0, |bits, is_broken| 2 * bits + usize::from(*is_broken))
}

/// Numbers at both ends of what a limit admits, and over it.
fn borders(limit: u64) -> [u64; BORDERS] {
    [0, 1, limit - 1, limit, limit + 1, 1 << 32, 1 << 63, u64::MAX]
}

/// Each border of each setting with each of the others and of the length: the case's number tells which.
fn at_borders(block: &mut Block, number: u64) -> Checked {
    let mut rest = number as usize;
    let mut next = |limit| {
        let border = borders(limit)[rest % BORDERS];
        rest /= BORDERS;
        border
    };
    let s = Settings {
        set_size: next(MOST.set_size),
        proof_size: next(MOST.proof_size),
        max_retries: next(MOST.max_retries),
        search_width: next(MOST.search_width),
        dfs_bound: next(MOST.dfs_bound),
        x: Alone(bernoulli::any_x(&mut block.rng)),
    };
    let (longest, out) = (next(BYTES as u64), block.rng.below(OUTS.len() as u64) as usize);
    check(block, &s, longest, out).map(|_| ())
}

/// A proof size with every length that is admitted, and the first that isn't.
fn every_length(proof_size: u64, block: &mut Block) -> Checked {
    let s = Settings { proof_size, ..draws::any_settings(&mut block.rng) };
    let mut before = amounts(block, &s, 0)?.ticket_blocks;
    for longest in 1..=BYTES as u64 {
        let Amounts { ticket_blocks, .. } = amounts(block, &s, longest)?;
        block.seen.count(if ticket_blocks > before { GROWS } else { STAYS }, 0);
        before = ticket_blocks;
        match rules::ticket_content(proof_size.into(), longest.into()) % 504 {
            0 => block.seen.count(FULL, 0),
            1 => block.seen.count(ONE_BYTE, 0),
            _ => (),
        }
    }
    check(block, &s, BYTES as u64 + 1, FIGURES).map(|_| ())
}

/// Settings from the whole domain with a length of any size, mostly lawful, and now and then with faults.
pub fn any(block: &mut Block) -> Checked {
    let rng = &mut block.rng;
    let mut s = if rng.below(4) == 0 { evenly(rng) } else { draws::any_settings(rng) };
    let longest = match rng.below(8) {
        0 => draws::up_to(rng, u64::MAX - 1),
        1..=3 => rng.below(BYTES as u64 + 1),
        _ => draws::up_to(rng, BYTES as u64),
    };
    for _ in 0..rng.below(8).saturating_sub(5) {
        faults::in_settings(rng, &mut s);
    }
    let out = if rng.below(2) == 0 { FIGURES } else { rng.below(OUTS.len() as u64) as usize };
    check(block, &s, longest, out).map(|_| ())
}

/// Lawful settings, each number as likely as another.
fn evenly(rng: &mut Rng) -> Settings {
    Settings {
        set_size: 1 + rng.below(MOST.set_size),
        proof_size: rng.below(MOST.proof_size + 1),
        max_retries: rng.below(MOST.max_retries + 1),
        search_width: rng.below(MOST.search_width + 1),
        dfs_bound: rng.below(MOST.dfs_bound + 1),
        x: Alone(rng.wide()),
    }
}

#[cfg(test)]
mod tests {
    use super::*;

    /// Each set of broken lines has the first as its number, by the names as by the rules.
    #[test]
    fn what_is_broken() {
        for (bits, (name, first)) in BROKEN.iter().enumerate() {
            let is = |bit: usize| bits & bit != 0;
            let (set_size, dfs_bound) = (if is(1) { 0 } else { 1 }, if is(2) { MOST.dfs_bound + 1 } else { 0 });
            let (s, longest) = (Settings { set_size, dfs_bound, ..MOST }, if is(4) { 4097 } else { 4096 });
            assert_eq!((broken(&s, longest), due(&s, longest).0), (bits, *first), "{name}");
        }
    }

    #[test]
    fn a_refusal_has_zeros() {
        let one = Settings { set_size: 1, proof_size: 1, max_retries: 2, search_width: 3, dfs_bound: 4, x: Alone(5) };
        assert_eq!(due(&one, 0), (0, [1, 4, 8, 1]));
        assert_eq!(due(&one, 4097), (5, [0; 4]));
    }

    /// All of them, and each but once.
    #[test]
    fn the_cases_at_the_borders() {
        assert_eq!((AT_BORDERS, AT_BORDERS % BORDER_BLOCK), (262_144, 0));
        assert_eq!(borders(4096), [0, 1, 4095, 4096, 4097, 4_294_967_296, 9_223_372_036_854_775_808, 18_446_744_073_709_551_615]);
    }
}
