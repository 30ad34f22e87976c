//! `alba_proof_size` against whole numbers without limit (src/model/proof_size.rs): the size, the two refusals and their order, and what
//! stands in `out`.
//!
//! Both sides of the inequality are never equal: 1,442,695 is 5 × 288,539, a prime above every f and c, so that it divides the left side
//! alone. So ≥ and > give the same sizes, and no figures tell them apart.

use super::blocks::{self, Block};
use super::fence::Fenced;
use super::{Answered, Checked, Run};
use crate::load::draws::up_to;
use crate::model::proof_size::{self, last, meets, out_of_range, Figures, Log2E, MOST, MOST_C, MOST_N, MOST_S};
use crate::{ffi, rng::Rng, turning};

/// Random figures, and walks to where the size turns, in a block.
const BLOCK: u64 = 1000;
const WALKS: u64 = 50;
/// So many blocks of walks and of pairs of n and f with all that is beside a turn.
const WALK_BLOCKS: u64 = 40;
const BESIDE_BLOCKS: u64 = 40;
/// How near such figures are: a 2^20th, about a millionth.
const WITHIN: u32 = 20;

/// What `out` is lent as, by its length, and at the end a null pointer.
const OUTS: [&str; 6] =
    ["out of 0 numbers", "out of 1 number", "out of 2 numbers", "out of 3 numbers", "out of 4 numbers", "out as a null pointer"];
const NULL: usize = OUTS.len() - 1;

/// Which figures are out of range, a bit each: s, c, n, f.
const BROKEN: [&str; 16] = [
    "no fault",
    "s at fault",
    "c at fault",
    "s and c at fault",
    "n at fault",
    "s and n at fault",
    "c and n at fault",
    "s, c and n at fault",
    "f at fault",
    "s and f at fault",
    "c and f at fault",
    "s, c and f at fault",
    "n and f at fault",
    "s, n and f at fault",
    "c, n and f at fault",
    "all four at fault",
];
/// On which side.
const SIDES: [&str; 7] = ["s over 256", "c 0", "c over 1,024", "n below 2", "n over 32,768", "f 0", "f not below n"];

const ONE: &str = "size 1";
const BETWEEN: &str = "size 2 to 1,023";
const GREATEST: &str = "size 1,024";
/// The step by which the size turns: the figures before it have it, those after it a greater one or none.
const TURNS: [&str; 4] = ["s one more", "c one more", "n one less", "f one more"];
/// c × 2^s just at or below what a size serves, and just above.
const SERVED: &str = "within a millionth, served";
const NOT_SERVED: &str = "within a millionth, not served";

pub fn run(run: &mut Run, cases: u64) -> Checked {
    blocks::run(run, ENDS.0 as u64, at_ends)?;
    blocks::run(run, WALK_BLOCKS, |_, block| (0..WALKS).try_for_each(|_| at_turns(block)))?;
    blocks::run(run, BESIDE_BLOCKS, |_, block| beside_turns(block))?;
    blocks::run(run, cases.div_ceil(BLOCK), |_, block| (0..BLOCK).try_for_each(|_| any(block)))?;
    run.seen.none_missing(kinds())
}

/// Every kind that must have come: `out` of each length with each answer, the figures at fault alone and together and on each side, the
/// sizes, and each way in which they turn.
fn kinds() -> impl Iterator<Item = (&'static str, Option<u32>)> {
    let outs = OUTS.iter().flat_map(|out| [0, ffi::BAD_FIGURES, ffi::NO_SIZE].map(|answer| (*out, answer)));
    let faults = BROKEN[1..].iter().chain(&SIDES).map(|fault| (*fault, ffi::BAD_FIGURES));
    let turns = TURNS.iter().flat_map(|turn| [0, ffi::NO_SIZE].map(|answer| (*turn, answer)));
    let sizes = [(ONE, 0), (BETWEEN, 0), (GREATEST, 0), (BROKEN[0], ffi::NO_SIZE), (SERVED, 0), (NOT_SERVED, 0)];
    outs.chain(faults).chain(turns).chain(sizes).map(|(kind, answer)| (kind, Some(answer)))
}

/// One call, with a place of so many numbers lent for the answer, and what kind it is of. Gives the size or the refusal.
fn check(block: &mut Block, figures: &Figures, out: usize) -> Result<Result<u64, u32>, String> {
    let due = proof_size::due(figures);
    let answer = answer_to(&mut block.rng, figures, due, (out != NULL).then_some(out))?;
    block.tally.count("proof size", answer);
    block.seen.count(OUTS[out], answer);
    note_kinds(block, figures, due);
    Ok(due)
}

/// The answer, which is the one that is due, and that nothing but it is written; `None` is a null pointer.
fn answer_to(rng: &mut Rng, figures: &Figures, due: Result<u64, u32>, length: Option<usize>) -> Answered {
    let mut out = match length {
        Some(length) => Fenced::new(rng, length, |word| word),
        None => Fenced::null(rng, |word| word),
    };
    let ours = ffi::proof_size(figures, &mut out);
    let size = [due.unwrap_or(0)];
    let (number, written) = (due.err().unwrap_or(0), if out.len() == 0 { &[][..] } else { &size });
    if ours == number && out.holds(written) {
        return Ok(ours);
    }
    Err(format!("  {figures:?}\n  ours: {ours}\n  due: {number}\n{}", out.story("the size", written)))
}

fn note_kinds(block: &mut Block, figures: &Figures, due: Result<u64, u32>) {
    let number = due.err().unwrap_or(0);
    let bits = out_of_range(figures).iter().rev().fold(0, |bits, is_out| 2 * bits + usize::from(*is_out));
    block.seen.count(BROKEN[bits], number);
    sides(figures).for_each(|side| block.seen.count(side, number));
    match due {
        Ok(1) => block.seen.count(ONE, 0),
        Ok(MOST) => block.seen.count(GREATEST, 0),
        Ok(_) => block.seen.count(BETWEEN, 0),
        Err(_) => (),
    }
}

fn sides(figures: &Figures) -> impl Iterator<Item = &'static str> {
    let Figures { s, c, n, f } = *figures;
    let are = [s > MOST_S, c == 0, c > MOST_C, n < 2, n > MOST_N, f == 0, f >= n];
    SIDES.into_iter().zip(are).filter_map(|(side, is)| is.then_some(side))
}

/// The ends of each range, their neighbours, and great numbers; those of f are at n's.
const FAR: [u64; 3] = [1 << 32, 1 << 63, u64::MAX];
const S_ENDS: [u64; 5] = [0, 1, MOST_S - 1, MOST_S, MOST_S + 1];
const C_ENDS: [u64; 6] = [0, 1, 2, MOST_C - 1, MOST_C, MOST_C + 1];
const N_ENDS: [u64; 7] = [0, 1, 2, 3, MOST_N - 1, MOST_N, MOST_N + 1];
/// How many pairs of s and c, and of n and f.
const ENDS: (usize, usize) = ((S_ENDS.len() + FAR.len()) * (C_ENDS.len() + FAR.len()), (N_ENDS.len() + FAR.len()) * (7 + FAR.len()));

fn f_ends(n: u64) -> [u64; 7] {
    [0, 1, 2, n.wrapping_sub(2), n.wrapping_sub(1), n, n.wrapping_add(1)]
}

/// A pair of s and c, which the number tells, with every pair of n and f and every `out`.
fn at_ends(number: u64, block: &mut Block) -> Checked {
    let (c_ends, n_ends) = ([&C_ENDS[..], &FAR].concat(), [&N_ENDS[..], &FAR].concat());
    let s = [&S_ENDS[..], &FAR].concat()[number as usize / c_ends.len()];
    let c = c_ends[number as usize % c_ends.len()];
    for n in n_ends {
        for f in [&f_ends(n)[..], &FAR].concat() {
            (0..OUTS.len()).try_for_each(|out| check(block, &Figures { s, c, n, f }, out).map(|_| ()))?;
        }
    }
    Ok(())
}

/// The last f that a size serves, with other figures drawn, and from there the last s and c and the least n that it serves; and for each
/// the next.
fn at_turns(block: &mut Block) -> Checked {
    let rng = &mut block.rng;
    let size = match rng.below(4) {
        0 => MOST,
        1 => 1 + rng.below(3),
        _ => 1 + up_to(rng, MOST - 1),
    };
    let (log2_e, drawn) = (Log2E::cut(), lawful(rng));
    let serves = |figures: Figures| meets(&figures, size, &log2_e);
    let Some(f) = last(1..=drawn.n - 1, |f| serves(Figures { f, ..drawn })) else {
        return Ok(());
    };
    let at = Figures { f, ..drawn };
    let served = "the size serves the figures that it was found for";
    let s = last(at.s..=MOST_S, |s| serves(Figures { s, ..at })).expect(served);
    let c = last(at.c..=MOST_C, |c| serves(Figures { c, ..at })).expect(served);
    // The less n is, the less is served: counted from the drawn one down.
    let n = at.n - last(0..=at.n - f - 1, |less| serves(Figures { n: at.n - less, ..at })).expect(served);
    let lasts = [Figures { s, ..at }, Figures { c, ..at }, Figures { n, ..at }, at];
    let nexts = [Figures { s: s + 1, ..at }, Figures { c: c + 1, ..at }, Figures { n: n - 1, ..at }, Figures { f: f + 1, ..at }];
    (0..TURNS.len()).try_for_each(|turn| check_turn(block, turn, size, lasts[turn], nexts[turn]))
}

/// Figures that a size serves, and the next, which it doesn't or which are out of range.
fn check_turn(block: &mut Block, turn: usize, size: u64, served: Figures, next: Figures) -> Checked {
    let (before, after) = (check(block, &served, 1)?, check(block, &next, 1)?);
    if before == Ok(size) && (after == Err(ffi::NO_SIZE) || after.is_ok_and(|after| after > size)) {
        block.seen.count(TURNS[turn], after.err().unwrap_or(0));
    }
    Ok(())
}

/// Some n and f, with every s and c for which the sides of the inequality differ by about a millionth of them at most, for some size.
fn beside_turns(block: &mut Block) -> Checked {
    let mut found = Vec::new();
    while found.len() < 64 {
        let Figures { n, f, .. } = lawful(&mut block.rng);
        turning::beside(n, f, turning::cut_start(), WITHIN, |beside| found.push((beside.u, Figures { s: beside.s, c: beside.c, n, f })));
    }
    for (size, figures) in found {
        let due = check(block, &figures, 1)?;
        block.seen.count(if due == Ok(size) { SERVED } else { NOT_SERVED }, due.err().unwrap_or(0));
    }
    Ok(())
}

/// Figures from the whole of the ranges, now and then with faults, and any `out`.
pub fn any(block: &mut Block) -> Checked {
    let rng = &mut block.rng;
    let mut figures = lawful(rng);
    for _ in 0..rng.below(8).saturating_sub(5) {
        put_fault(rng, &mut figures);
    }
    let out = if rng.below(2) == 0 { 1 } else { rng.below(OUTS.len() as u64) as usize };
    check(block, &figures, out).map(|_| ())
}

/// Each evenly or of any size, f also near n and far below it.
fn lawful(rng: &mut Rng) -> Figures {
    let mut from =
        |least: u64, most: u64| if rng.below(2) == 0 { least + rng.below(most - least + 1) } else { least + up_to(rng, most - least) };
    let (s, c, n) = (from(0, MOST_S), from(1, MOST_C), from(2, MOST_N));
    let f = match rng.below(8) {
        0 => n - 1 - up_to(rng, n - 2),
        1 => n - 1 - rng.below(n.div_ceil(4)).min(n - 2),
        2..=3 => 1 + up_to(rng, n - 2),
        _ => 1 + rng.below(n - 1),
    };
    Figures { s, c, n, f }
}

fn put_fault(rng: &mut Rng, figures: &mut Figures) {
    let beyond = |rng: &mut Rng, most: u64| most + 1 + up_to(rng, u64::MAX - most - 1);
    match rng.below(7) {
        0 => figures.s = beyond(rng, MOST_S),
        1 => figures.c = 0,
        2 => figures.c = beyond(rng, MOST_C),
        3 => figures.n = rng.below(2),
        4 => figures.n = beyond(rng, MOST_N),
        5 => figures.f = 0,
        _ => figures.f = beyond(rng, figures.n.saturating_sub(1).min(u64::MAX - 1)),
    }
}

#[cfg(test)]
mod tests {
    use super::*;

    /// Lawful figures are, and a fault makes them refused.
    #[test]
    fn lawful_and_not() {
        let mut rng = Rng::new(7, 0);
        for _ in 0..10_000 {
            let mut figures = lawful(&mut rng);
            assert_eq!(out_of_range(&figures), [false; 4], "{figures:?}");
            for _ in 0..3 {
                put_fault(&mut rng, &mut figures);
                assert!(out_of_range(&figures).contains(&true) && sides(&figures).count() > 0, "{figures:?}");
            }
        }
    }

    #[test]
    fn the_sides() {
        let of = |s, c, n, f| sides(&Figures { s, c, n, f }).collect::<Vec<_>>();
        assert!(of(256, 1024, 32_768, 32_767).is_empty() && of(0, 1, 2, 1).is_empty());
        assert_eq!(of(257, 0, 1, 0), [SIDES[0], SIDES[1], SIDES[3], SIDES[5]]);
        assert_eq!(of(0, 1025, 32_769, 32_769), [SIDES[2], SIDES[4], SIDES[6]]);
    }

    /// The prime that keeps the two sides apart.
    #[test]
    fn never_equal() {
        assert_eq!(5 * 288_539, 1_442_695);
        assert!((2..538).all(|divisor| 288_539 % divisor != 0) && 538 * 538 > 288_539);
    }

    #[test]
    fn how_many_at_the_ends() {
        assert_eq!((ENDS.0, ENDS.1), (72, 100));
    }
}
