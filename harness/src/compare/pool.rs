//! Two lists pooled: the pool's size, the data at a place, and the prover over the pool. The harness writes the pool out as one list by the
//! request's words (model/pool.rs); what the prover comes to is what the Rust's comes to on that list.

use super::blocks::{self, Block};
use super::fence::Fenced;
use super::planted::{self, Lent, Planting, NUMBERS, PLANTS, SHAPES};
use super::searches::{self, Outcome};
use super::verdicts::{self, Claim};
use super::{bernoulli, faults, shown_list, Checked, Run};
use crate::model::rules::{self, ELEMENTS, MOST};
use crate::model::threshold::Threshold::{Alone, OfQ};
use crate::{ffi, ffi::Settings, list::List, model::pool, rng::Rng};
use std::ops::Range;

/// Up to so many elements in each list every length comes, in each shape, with data asked at each place.
const SHORT: usize = 4;
/// Random pairs of lists in a block, and searches of each pair.
const BLOCK: u64 = 50;
const FAMILY: u64 = 3;
/// Of 16 elements of a second list, how many stand in the first: none, some, most, all.
const COMMON: [u64; 5] = [0, 2, 8, 14, 16];

/// Two lists, and their pool by the request's words: written out, or the number of its refusal.
pub struct Two {
    pub first: List,
    pub second: List,
    pool: Result<List, u32>,
}

impl Two {
    pub fn of(first: List, second: List) -> Two {
        let pool = pool::pool(&first, &second);
        Two { first, second, pool }
    }

    fn shown(&self) -> String {
        format!("  the first list:\n{}  the second list:\n{}", shown_list(&self.first), shown_list(&self.second))
    }

    /// Whether the lists that were lent are still these.
    fn are_kept(&self, lent: &(List, List)) -> bool {
        self.first == lent.0 && self.second == lent.1
    }

    fn lent(&self) -> (List, List) {
        (self.first.clone(), self.second.clone())
    }

    /// The number of elements of the pool, 0 where there is none.
    pub fn size(&self) -> u64 {
        self.pool.as_ref().map_or(0, |pool| pool.len() as u64)
    }

    /// The refusal's number, or 0.
    pub fn number(&self) -> u32 {
        self.pool.as_ref().err().copied().unwrap_or(0)
    }

    pub fn data_at(&self, place: u64) -> &[u8] {
        pool::data_at(&self.pool, place)
    }
}

/// What two lawful lists are to each other.
struct Facts {
    first: usize,
    second: usize,
    /// How many of the second are added, and whether elements come twice: in the first, among those added, among those left out.
    added: usize,
    first_repeats: bool,
    added_repeat: bool,
    left_out_repeat: bool,
}

impl Facts {
    fn of(two: &Two) -> Facts {
        let added = pool::added(&two.first, &two.second);
        let left_out: Vec<u32> = (0..two.second.len() as u32).filter(|place| added.binary_search(place).is_err()).collect();
        let repeats = |list: &List| rules::distinctness(list) == ffi::REPEATED;
        Facts {
            first: two.first.len(),
            second: two.second.len(),
            added: added.len(),
            first_repeats: repeats(&two.first),
            added_repeat: repeats(&two.second.at(&added)),
            left_out_repeat: repeats(&two.second.at(&left_out)),
        }
    }

    fn common(&self) -> usize {
        self.second - self.added
    }
}

type Kind = fn(&Facts) -> bool;

/// Kinds of two lists that must come, with the answer to the call for the size.
const KINDS: [(&str, u32, Kind); 13] = [
    ("two lists: no elements", 0, |f| f.first + f.second == 0),
    ("two lists: elements in the first alone", 0, |f| f.first > 0 && f.second == 0),
    ("two lists: elements in the second alone", 0, |f| f.first == 0 && f.second > 0),
    ("two lists: none common", 0, |f| f.first > 0 && f.second > 0 && f.common() == 0),
    ("two lists: a few common", 0, |f| f.common() > 0 && 2 * f.common() <= f.second),
    ("two lists: most common", 0, |f| 2 * f.common() > f.second && f.added > 0),
    ("two lists: the second inside the first", 0, |f| f.second > 0 && f.added == 0),
    ("two lists: repeats in the first", 0, |f| f.first_repeats),
    ("two lists: repeats among those added", 0, |f| f.added_repeat),
    ("two lists: repeats among those left out", 0, |f| f.left_out_repeat),
    ("two lists: 65,536 elements each, and as many in the pool", 0, |f| f.first == ELEMENTS && f.second == ELEMENTS && f.added == 0),
    ("two lists: 65,536 elements in the pool", 0, |f| f.added > 0 && f.first + f.added == ELEMENTS),
    ("two lists: 65,537 elements in the pool", ffi::POOL_TOO_LARGE, |f| f.first + f.added == ELEMENTS + 1),
];

/// The pairs of planted.rs with one element in each list, 1 standing for one that is left out of the pool.
const ACROSS: [&str; PLANTS.len()] = [
    "across two lists: same data, both marked, same index",
    "across two lists: same data, both marked, other index",
    "across two lists: same data, both unmarked, same number unread",
    "across two lists: same data, both unmarked, other number unread",
    "across two lists: same data, one marked, same number unread",
    "across two lists: same data, one marked, other number unread",
    "across two lists: other data, both marked, same index",
    "across two lists: other data, both unmarked, same number unread",
    "across two lists: data and index of one as the data of the other",
];

/// The answers that must have come to each call.
const ANSWERS: [(&str, &[u32]); 3] =
    [("pool size", &[0, 4, 5, 45]), ("pool data", &[0, 42]), ("prove pool", &[0, 1, 2, 4, 5, 6, 10, 11, 12, 45])];

/// Every kind of two lists, with its answer.
pub fn kinds() -> impl Iterator<Item = (&'static str, Option<u32>)> {
    let across = ACROSS.iter().zip(PLANTS).map(|(name, (_, due, _))| (*name, Some(due)));
    KINDS.iter().map(|(name, answer, _)| (*name, Some(*answer))).chain(across)
}

pub fn run(run: &mut Run, cases: u64) -> Checked {
    blocks::run(run, SHAPES.len() as u64, |shape, block| every_length(block, shape as usize))?;
    blocks::run(run, 1, |_, block| {
        faults_at_each_place(block)?;
        nulls(block)
    })?;
    blocks::run(run, LINES.len() as u64, |line, block| every_order(block, LINES[line as usize]))?;
    blocks::run(run, SHAPES.len() as u64, |shape, block| at_the_limit(block, shape as usize))?;
    blocks::run(run, cases.div_ceil(BLOCK), |_, block| (0..BLOCK).try_for_each(|_| any(block)))?;
    let answers = ANSWERS.iter().flat_map(|(call, answers)| answers.iter().map(|answer| (*call, Some(*answer))));
    run.tally.none_missing(answers)?;
    run.seen.none_missing(kinds())
}

/// Lists of each length from 0 on, with none to all of the second's elements from the first: the size, the data at each place, past the
/// pool and at the last number, and a search. Then each pair of elements, one in each list.
pub fn every_length(block: &mut Block, shape: usize) -> Checked {
    for (first, second) in (0..=SHORT).flat_map(|first| (0..=SHORT).map(move |second| (first, second))) {
        for common in COMMON {
            let (first, second) = of_shape(&mut block.rng, shape, (first, second), common);
            check_whole(block, &Two::of(planted::list_of(&first), planted::list_of(&second)))?;
        }
    }
    Planting::every().try_for_each(|planting| {
        let counts = (1 + block.rng.below(9) as usize, 1 + block.rng.below(9) as usize);
        check_across(block, shape, counts, planting)
    })
}

/// Two lists of a shape and of so many elements, of which a pair is one in each.
fn check_across(block: &mut Block, shape: usize, counts: (usize, usize), planting: Planting) -> Checked {
    let (mut first, mut second) = of_shape(&mut block.rng, shape, counts, 0);
    let place = planted::across(&mut block.rng, &mut first, &mut second, planting);
    let two = Two::of(planted::list_of(&first), planted::list_of(&second));
    let is_left_out = !pool::added(&two.first, &two.second).contains(&(place as u32));
    // In other shapes another element of the first is often the same.
    if shape == NUMBERS {
        block.seen.count(ACROSS[planting.plant], u32::from(is_left_out));
    }
    check_whole(block, &two)
}

/// Elements of a shape for two lists, of 16 of the second's so many out of the first, in any order; now and then one comes twice.
fn of_shape(rng: &mut Rng, shape: usize, (first, second): (usize, usize), common: u64) -> (Vec<Lent>, Vec<Lent>) {
    let mut first_ones = planted::elements(rng, shape, first + second);
    let mut second_ones = first_ones.split_off(first);
    for own in &mut second_ones {
        if first > 0 && rng.below(16) < common {
            *own = first_ones[rng.below(first as u64) as usize].again(rng);
        }
    }
    for list in [&mut first_ones, &mut second_ones] {
        if list.len() > 1 && rng.below(2) == 0 {
            let [from, to] = [(); 2].map(|_| rng.below(list.len() as u64) as usize);
            list[to] = list[from].again(rng);
        }
    }
    (first_ones, second_ones)
}

/// All that is asked of two short lists.
fn check_whole(block: &mut Block, two: &Two) -> Checked {
    check_size(block, two)?;
    let size = two.size();
    (0..=size + 1).chain([u64::from(u32::MAX), 1 << 32, u64::MAX]).try_for_each(|place| check_data(block, two, place))?;
    let set_size = [size, size.div_ceil(2), size + 1, 1][block.rng.below(4) as usize].max(1);
    let settings = Settings { set_size, proof_size: 2, max_retries: 2, search_width: 3, dfs_bound: 40, x: OfQ(0.2) };
    check_search(block, two, &settings).map(|_| ())
}

/// As many elements as there may be in each list and in the pool, and one more in the pool.
fn at_the_limit(block: &mut Block, shape: usize) -> Checked {
    let elements = planted::elements(&mut block.rng, shape, ELEMENTS + 1);
    let (all, last, half) = (0..ELEMENTS, ELEMENTS..ELEMENTS + 1, ELEMENTS / 2);
    // Which of the elements each list has; of a shape in which some are equal the pool is smaller.
    let mut lists = vec![(all.clone(), all.clone()), (all.clone(), 1..ELEMENTS + 1)];
    if shape == NUMBERS {
        lists.extend([(all.clone(), last.clone()), (last, all.clone()), (all.clone(), 0..0), (0..0, all)]);
        lists.extend([(0..half, half..ELEMENTS), (0..half, half..ELEMENTS + 1), (0..ELEMENTS - 1, 1..ELEMENTS), (0..1, 1..ELEMENTS + 1)]);
    }
    lists.into_iter().try_for_each(|(first, second)| {
        let two = two_among(&mut block.rng, &elements, first, second);
        check_large(block, &two)
    })
}

/// The sizes alone: of two full lists, of a pool just full, and of one with an element more.
pub fn sizes_at_the_limit(block: &mut Block) -> Checked {
    let elements = planted::elements(&mut block.rng, NUMBERS, ELEMENTS + 1);
    let at = block.rng.below(ELEMENTS as u64) as usize;
    [(0..ELEMENTS, 0..ELEMENTS), (0..at, at..ELEMENTS), (0..at, at + 1..ELEMENTS + 1), (0..at + 1, at + 1..ELEMENTS + 1)]
        .into_iter()
        .try_for_each(|(first, second)| {
            let two = two_among(&mut block.rng, &elements, first, second);
            check_size(block, &two)
        })
}

/// These of the elements as two lists.
fn two_among(rng: &mut Rng, elements: &[Lent], first: Range<usize>, second: Range<usize>) -> Two {
    let second: Vec<Lent> = elements[second].iter().map(|element| element.again(rng)).collect();
    Two::of(planted::list_of(&elements[first]), planted::list_of(&second))
}

/// The size, the data at the places that matter, and two searches.
pub fn check_large(block: &mut Block, two: &Two) -> Checked {
    check_size(block, two)?;
    let (first, size) = (two.first.len() as u64, two.size());
    let places = [first.saturating_sub(1), first, size.saturating_sub(1), size, block.rng.below(size + 1)];
    places.into_iter().try_for_each(|place| check_data_in(block, two, place, two.data_at(place).len()))?;
    [MOST.set_size, 1 + block.rng.below(3)].into_iter().try_for_each(|set_size| {
        let settings = Settings { set_size, proof_size: 3, max_retries: 1, search_width: 40, dfs_bound: 1000, x: OfQ(0.01) };
        check_search(block, two, &settings).map(|_| ())
    })
}

/// Each fault at each place of short lists, in the one and in the other.
fn faults_at_each_place(block: &mut Block) -> Checked {
    for count in 1..=SHORT {
        let (first, second) = of_shape(&mut block.rng, NUMBERS, (count, SHORT + 1 - count), 4);
        let whole = [planted::list_of(&first), planted::list_of(&second)];
        for (list, fault) in (0..2).flat_map(|list| (0..faults::IN_LISTS).map(move |fault| (list, fault))) {
            for place in 0..whole[list].len() {
                let mut lists = whole.clone();
                faults::at_place(&mut block.rng, &mut lists[list], fault, place);
                let [first, second] = lists;
                check_refused(block, &Two::of(first, second))?;
            }
        }
    }
    Ok(())
}

/// Lists of which one may be refused: the size, the data at some places, and a search.
fn check_refused(block: &mut Block, two: &Two) -> Checked {
    check_size(block, two)?;
    [0, 1, u64::MAX].into_iter().try_for_each(|place| check_data(block, two, place))?;
    let settings = Settings { set_size: 1, proof_size: 1, max_retries: 1, search_width: 2, dfs_bound: 10, x: OfQ(0.5) };
    check_search(block, two, &settings).map(|_| ())
}

/// The settings as they should be, with the set size out of range, and with another number over its limit.
const LINES: [fn(&mut Settings); 4] =
    [|_| (), |s| s.set_size = 0, |s| s.proof_size = 1025, |s| (s.set_size, s.proof_size) = (32_769, 1025)];

/// With these settings every other refusal, alone and with each of the others: of the first list, of the second, of the pool, of each
/// workspace, and of too few elements.
fn every_order(block: &mut Block, line: fn(&mut Settings)) -> Checked {
    let lawful = Settings { set_size: 3, proof_size: 2, max_retries: 1, search_width: 2, dfs_bound: 10, x: OfQ(0.5) };
    for (first, second, is_large) in (0..18).map(|n| (n % 3, n / 3 % 3, n / 9 == 1)) {
        let len = if is_large { ELEMENTS } else { 2 };
        let [mut first_list, mut second_list] = [faults::long_list(len, 1), faults::long_list(3, 2)];
        spoil(&mut first_list, first);
        spoil(&mut second_list, second);
        let two = Two::of(first_list, second_list);
        check_size(block, &two)?;
        check_data(block, &two, 0)?;
        for (set_size, places, table) in [(3, 0, 0), (3, 1, 0), (3, 0, 1), (6, 0, 0), (6, 1, 0), (6, 0, 1)] {
            let mut settings = Settings { set_size, ..lawful };
            line(&mut settings);
            let workspace = (2 - places, 3 * set_size as usize + 1 - table);
            check_prove(block, &two, &settings, workspace)?;
        }
    }
    Ok(())
}

/// 1 makes a list malformed, 2 too large. Both stand at its end.
fn spoil(list: &mut List, how: u64) {
    match how {
        0 => (),
        1 => *list.marks.last_mut().expect("an element") = 2,
        _ => list.push(&[7; rules::BYTES + 1], None, 0),
    }
}

/// Null pointers with length 0 are empty lists, and no workspace; and one list may be lent as both.
fn nulls(block: &mut Block) -> Checked {
    let nothing = ffi::Listed { data: None, ends: None, marks: None, indexes: None };
    let list = faults::long_list(4, 2);
    let settings = Settings { set_size: 1, proof_size: 0, max_retries: 1, search_width: 1, dfs_bound: 9, x: OfQ(1.0) };
    for (first, second, size) in
        [(nothing, nothing, 0), (nothing, list.lent(), 4), (list.lent(), nothing, 4), (list.lent(), list.lent(), 4)]
    {
        let (mut part, mut out) = (Fenced::null(&mut block.rng, |word| word as u8), Fenced::null(&mut block.rng, |word| word));
        let unseen = [ffi::pool_size(first, second, &mut out), ffi::pool_data(first, second, 0, &mut part, &mut out)];
        let mut out = Fenced::new(&mut block.rng, 1, |word| word);
        let seen = ffi::pool_size(first, second, &mut out);
        let mut places = Fenced::null(&mut block.rng, |word| word as u32);
        let mut table = Fenced::null(&mut block.rng, |word| word as u32);
        let (mut none, mut four) = (Fenced::null(&mut block.rng, |word| word), [0; 4]);
        let refused = ffi::prove_pool(&settings, first, second, &mut places, &mut table, &mut none);
        let searched = ffi::prove_pool(&settings, first, second, &mut places, &mut four[..], &mut none);
        let ours = ([unseen[0], unseen[1], seen, refused, searched], out.holds(&[size]));
        let (short, found) = if size == 0 { (0, ffi::NOT_ENOUGH) } else { (ffi::BUFFER_SHORT, 0) };
        if ours != ([0, short, 0, ffi::TOO_SHORT, found], true) {
            return Err(format!("  null pointers, a pool of {size}: {ours:?}\n"));
        }
        block.tally.count("pool size", 0);
    }
    Ok(())
}

/// Two random lists with searches around the bound where the outcome turns, and with faults.
pub fn any(block: &mut Block) -> Checked {
    let mut settings = searches::any_settings(&mut block.rng);
    if block.rng.below(8) == 0 {
        settings.x = Alone(bernoulli::any_x(&mut block.rng));
    }
    let two = any_two(&mut block.rng, settings.set_size as usize);
    check_size(block, &two)?;
    for place in [two.first.len() as u64, two.size(), block.rng.below(two.size() + 1), block.rng.word()] {
        check_data(block, &two, place)?;
    }
    for _ in 0..FAMILY {
        let outcome = check_search(block, &two, &settings)?;
        settings.dfs_bound = searches::next_bound(&mut block.rng, &settings, &outcome).min(1000);
    }
    check_with_faults(block, &two, settings)
}

/// A list cut in two, with some of the first's elements in the second again; or lists of a shape, with a pair across them.
fn any_two(rng: &mut Rng, set_size: usize) -> Two {
    if rng.below(2) == 0 {
        let list = searches::any_list(rng, set_size);
        return cut(rng, &list);
    }
    let (shape, planting) = (rng.below(SHAPES.len() as u64) as usize, rng.below(PLANTS.len() as u64) as usize);
    let counts = (1 + rng.below(2 * set_size as u64) as usize, 1 + rng.below(2 * set_size as u64) as usize);
    let common = COMMON[rng.below(COMMON.len() as u64) as usize];
    let (mut first, mut second) = of_shape(rng, shape, counts, common);
    let planting = Planting::any(rng, planting);
    planted::across(rng, &mut first, &mut second, planting);
    Two::of(planted::list_of(&first), planted::list_of(&second))
}

/// A list in two, often at either end, and among the second's elements some of the first's again, with other numbers where none is read.
pub fn cut(rng: &mut Rng, list: &List) -> Two {
    let len = list.len() as u64;
    let at = [0, len, rng.below(len + 1), rng.below(len + 1)][rng.below(4) as usize] as u32;
    let (first, mut second) = (list.at(&(0..at).collect::<Vec<u32>>()), List::default());
    let common = COMMON[rng.below(4) as usize];
    for place in (at..len as u32).chain([u32::MAX; 4]) {
        while at > 0 && second.len() < ELEMENTS - 4 && rng.below(16) < common {
            let again = rng.below(u64::from(at)) as usize;
            second.push(first.data_of(again), first.index_of(again), rng.word());
        }
        if u64::from(place) < len && second.len() < ELEMENTS {
            second.push(list.data_of(place as usize), list.index_of(place as usize), rng.word());
        }
    }
    Two::of(first, second)
}

/// Up to three faults in settings, lists and workspace.
pub fn check_with_faults(block: &mut Block, two: &Two, mut settings: Settings) -> Checked {
    let (mut places, mut table) = enough(&settings);
    let (mut first, mut second) = two.lent();
    for _ in 0..1 + block.rng.below(3) {
        let rng = &mut block.rng;
        match rng.below(8) {
            0 => faults::in_settings(rng, &mut settings),
            1..=2 => faults::in_short_list(rng, &mut first),
            3..=4 => faults::in_short_list(rng, &mut second),
            5 => places = places.saturating_sub(1),
            6 => table = table.saturating_sub(1),
            _ => settings.set_size = (two.size() + 1).min(MOST.set_size),
        }
    }
    let faulty = Two::of(first, second);
    check_size(block, &faulty)?;
    check_prove(block, &faulty, &settings, (places, table)).map(|_| ())
}

/// The least workspace.
fn enough(s: &Settings) -> (usize, usize) {
    (s.proof_size as usize, 3 * s.set_size as usize + 1)
}

/// The size or the refusal's number, and what kinds of lists these are.
pub fn check_size(block: &mut Block, two: &Two) -> Checked {
    let out_len = [0, 1, 1, 1, 2][block.rng.below(5) as usize];
    let mut out = Fenced::new(&mut block.rng, out_len, |word| word);
    let lent = two.lent();
    let ours = ffi::pool_size(lent.0.lent(), lent.1.lent(), &mut out);
    let (due, size) = (two.number(), [two.size()]);
    let size = &size[..out_len.min(1)];
    if ours != due || !out.holds(size) || !two.are_kept(&lent) {
        let kept = verdicts::as_it_was(two.are_kept(&lent));
        return Err(format!(
            "{}  the size, ours: {ours}\n  due: {due}\n{}  what was lent is {kept}\n",
            two.shown(),
            out.story("size", size)
        ));
    }
    block.tally.count("pool size", ours);
    if ours == 0 || ours == ffi::POOL_TOO_LARGE {
        let facts = Facts::of(two);
        KINDS.iter().filter(|(_, _, is_it)| is_it(&facts)).for_each(|(name, _, _)| block.seen.count(name, ours));
    }
    Ok(())
}

/// The data at a place, into a buffer of just that length, of more, and of a byte less.
pub fn check_data(block: &mut Block, two: &Two, place: u64) -> Checked {
    let len = two.data_at(place).len();
    let more = 1 + block.rng.below(20) as usize;
    [len, len + more].into_iter().chain(len.checked_sub(1)).try_for_each(|part_len| check_data_in(block, two, place, part_len))
}

fn check_data_in(block: &mut Block, two: &Two, place: u64, part_len: usize) -> Checked {
    let own = two.data_at(place);
    let out_len = [0, 1, 1, 1, 2][block.rng.below(5) as usize];
    let mut out = Fenced::new(&mut block.rng, out_len, |word| word);
    let mut part = Fenced::new(&mut block.rng, part_len, |word| word as u8);
    let lent = two.lent();
    let ours = ffi::pool_data(lent.0.lent(), lent.1.lent(), place, &mut part, &mut out);
    let (due, own, len) = if part_len < own.len() { (ffi::BUFFER_SHORT, &[][..], vec![]) } else { (0, own, vec![own.len() as u64]) };
    let len = &len[..len.len().min(out_len)];
    if ours != due || !part.holds(own) || !out.holds(len) || !two.are_kept(&lent) {
        let (kept, told) = (verdicts::as_it_was(two.are_kept(&lent)), part.story("data", own) + &out.story("length", len));
        return Err(format!("{}  the data at {place}, ours: {ours}\n  due: {due}\n{told}  what was lent is {kept}\n", two.shown()));
    }
    block.tally.count("pool data", ours);
    Ok(())
}

/// A search in workspace that is enough or more, and the verdict on a proof that it finds.
pub fn check_search(block: &mut Block, two: &Two, s: &Settings) -> Result<Outcome, String> {
    let (places, table) = enough(s);
    let more = [0, 0, block.rng.below(9), block.rng.below(9)].map(|more| more as usize);
    let (one, other) = (block.rng.below(4) as usize, block.rng.below(4) as usize);
    let outcome = check_prove(block, two, s, (places + more[one], table + more[other]))?;
    if let (0, Ok(pool)) = (outcome.number, &two.pool) {
        verdicts::check(block, &Claim::of(s, pool, &outcome))?;
    }
    Ok(outcome)
}

/// A search or its refusal in workspace of so many places and numbers of the bin table: number, counters, count and places, the bin table,
/// and that nothing else has changed.
fn check_prove(block: &mut Block, two: &Two, s: &Settings, (places_len, table_len): (usize, usize)) -> Result<Outcome, String> {
    let (due, due_table) = due(two, s, (places_len, table_len))?;
    let rng = &mut block.rng;
    let out_len = [0, 2, 3, 3, 3, 3, 5][rng.below(7) as usize];
    let mut places = Fenced::new(rng, places_len, |word| word as u32);
    let mut table = Fenced::new(rng, table_len, |word| word as u32);
    let mut out = Fenced::new(rng, out_len, |word| word);
    let lent = two.lent();
    let ours = ffi::prove_pool(s, lent.0.lent(), lent.1.lent(), &mut places, &mut table, &mut out);

    let result = [due.retry_counter, due.search_counter, due.count];
    let result = if out_len < 3 { &[][..] } else { &result };
    let is_written = places.holds(&due.places) && table.holds(&due_table) && out.holds(result);
    if ours != due.number || !is_written || !two.are_kept(&lent) {
        return Err(format!(
            "  {s:?}\n{}  over the pool, ours: {ours}\n  due: {}\n{}{}{}  what was lent is {}\n",
            two.shown(),
            due.number,
            out.story("R, S and count", result),
            places.story("places", &due.places),
            table.story("bin table", &due_table),
            verdicts::as_it_was(two.are_kept(&lent))
        ));
    }
    block.tally.count("prove pool", ours);
    Ok(due)
}

/// What is due, with the bin table: a refusal by the order of the lines, or what the search comes to on the pool written out. The search
/// too says when there are too few elements.
pub fn due(two: &Two, s: &Settings, (places, table): (usize, usize)) -> Result<(Outcome, Vec<u32>), String> {
    let number = pool::prover(s, &two.pool, places, table).err().unwrap_or(0);
    match &two.pool {
        Ok(pool) if number == 0 || number == ffi::NOT_ENOUGH => {
            let outcome = searches::due(s, pool)?;
            if (outcome.number == ffi::NOT_ENOUGH) != (number == ffi::NOT_ENOUGH) {
                return Err(format!("  {s:?}\n{}  due: {number}\n  the search: {outcome:?}\n", two.shown()));
            }
            let table = if number == 0 { searches::table_after(s, pool, &outcome) } else { Vec::new() };
            Ok((outcome, table))
        }
        _ => Ok((Outcome::without_proof(number, 0), Vec::new())),
    }
}
