//! `alba_check_distinct` against the request's words (`distinctness` of model/rules.rs). The Rust's `check_distinct` goes by data alone, so
//! it isn't asked.

use super::blocks::{self, Block};
use super::planted::{self, Made, Planting, NUMBERS, PLANTS, SHAPES};
use super::{faults, shown_list, verdicts, Answered, Checked, Run};
use crate::model::rules::{self, BYTES, ELEMENTS};
use crate::{ffi, list::List};

/// Up to this length each pair is planted in each shape.
const EVERY: u64 = 130;
/// Random lists in a block.
const LISTS: u64 = 500;
/// One list in so many has up to `LONG` elements, the others up to `SHORT`.
const LONG_EACH: u64 = 256;
const LONG: u64 = 5000;
const SHORT: u64 = 60;

pub fn run(run: &mut Run, cases: u64) -> Checked {
    blocks::run(run, EVERY + 1, |count, block| (0..SHAPES.len()).try_for_each(|shape| every_pair(block, shape, count as usize)))?;
    blocks::run(run, cases.div_ceil(LISTS), |_, block| (0..LISTS).try_for_each(|_| any(block)))?;
    blocks::run(run, SHAPES.len() as u64, |shape, block| {
        let mut long = (0..PLANTS.len()).flat_map(|plant| [LONG as usize, ELEMENTS].map(|count| (plant, count)));
        long.try_for_each(|(plant, count)| check_pair(block, shape as usize, plant, count).map(|_| ()))
    })?;
    blocks::run(run, 1, |_, block| {
        full(block)?;
        refusals(block)
    })?;
    // Every kind of list, each pair with the answer that is its own.
    run.seen.none_missing(planted::kinds())
}

/// The elements of a shape as they are, and with each pair.
pub fn every_pair(block: &mut Block, shape: usize, count: usize) -> Checked {
    let elements = planted::elements(&mut block.rng, shape, count);
    check(block, &planted::as_is(&elements, shape))?;
    Planting::every().try_for_each(|planting| {
        let made = planted::with_pair(&mut block.rng, &elements, shape, planting);
        check(block, &made)
    })
}

fn any(block: &mut Block) -> Checked {
    let rng = &mut block.rng;
    let most = if rng.below(LONG_EACH) == 0 { LONG } else { SHORT };
    let (shape, plant, count) = (rng.below(SHAPES.len() as u64), rng.below(PLANTS.len() as u64), rng.below(most));
    check_pair(block, shape as usize, plant as usize, count as usize).map(|_| ())
}

/// A list of a shape with a pair somewhere.
pub fn check_pair(block: &mut Block, shape: usize, plant: usize, count: usize) -> Result<List, String> {
    let elements = planted::elements(&mut block.rng, shape, count);
    let planting = Planting::any(&mut block.rng, plant);
    let made = planted::with_pair(&mut block.rng, &elements, shape, planting);
    check(block, &made)?;
    Ok(made.list)
}

/// The most elements with the most data bytes, all the same bytes: different by their indexes, and with one repeated.
fn full(block: &mut Block) -> Checked {
    let mut data = [0; BYTES];
    block.rng.fill(&mut data);
    let mut list = List::default();
    (0..ELEMENTS as u64).for_each(|place| list.push(&data, (place > 0).then_some(place), 1));
    check_list(block, &list)?;
    // The number beside the mark 0 is the index of the second; marked, it makes the first the same element.
    list.marks[0] = 1;
    check_list(block, &list)?;
    list.indexes.swap(1, ELEMENTS - 1);
    check_list(block, &list)
}

/// Lists with one fault or two, at every place of a short list, and at and past the limits.
fn refusals(block: &mut Block) -> Checked {
    for count in 1..=12 {
        let list = planted::list_of(&planted::elements(&mut block.rng, NUMBERS, count));
        for (place, fault) in (0..count).flat_map(|place| (0..faults::IN_LISTS).map(move |fault| (place, fault))) {
            let mut faulty = list.clone();
            faults::at_place(&mut block.rng, &mut faulty, fault, place);
            check_list(block, &faulty)?;
            faults::in_list(&mut block.rng, &mut faulty);
            check_list(block, &faulty)?;
        }
    }
    for count in [ELEMENTS - 1, ELEMENTS, ELEMENTS + 1] {
        let mut list = planted::list_of(&planted::elements(&mut block.rng, NUMBERS, count));
        check_list(block, &list)?;
        list.marks[count - 1] = 2;
        check_list(block, &list)?;
    }
    for (len, place) in [BYTES - 1, BYTES, BYTES + 1, 1 << 20].into_iter().flat_map(|len| [0, 1, 2].map(|place| (len, place))) {
        let mut elements = [vec![1], vec![2], vec![3]];
        elements[place] = vec![9; len];
        let mut list = List::default();
        elements.iter().for_each(|data| list.push(data, None, 7));
        check_list(block, &list)?;
        list.indexes.pop();
        check_list(block, &list)?;
    }
    Ok(())
}

/// One list that was made here: the answer, and what kinds it is of.
fn check(block: &mut Block, made: &Made) -> Checked {
    let answer = answer_to(&made.list)?;
    block.tally.count("distinctness", answer);
    made.kinds.iter().for_each(|kind| block.seen.count(kind, answer));
    Ok(())
}

/// One list, lawful or not.
pub fn check_list(block: &mut Block, list: &List) -> Checked {
    block.tally.count("distinctness", answer_to(list)?);
    Ok(())
}

/// The answer to a list, and that it is as it was.
fn answer_to(list: &List) -> Answered {
    let lent = list.clone();
    let ours = ffi::check_distinct(lent.lent());
    let due = rules::distinctness(list);
    if ours != due || lent != *list {
        return Err(format!("{}  ours: {ours}\n  due: {due}\n  the list is {}\n", shown_list(list), verdicts::as_it_was(lent == *list)));
    }
    Ok(ours)
}
