//! Lists for distinctness: elements of a shape, and a pair planted among them of which it is known whether the two are the same.

use crate::model::rules::{BYTES, ELEMENTS};
use crate::{list::List, rng::Rng};

/// An element as it is lent. The number is its index where it is marked, and else stands in the index's place unread.
#[derive(Clone)]
pub struct Lent {
    data: Vec<u8>,
    is_marked: bool,
    number: u64,
}

impl Lent {
    fn marked(&self, number: u64) -> Lent {
        Lent { is_marked: true, number, ..self.clone() }
    }

    fn unmarked(&self, number: u64) -> Lent {
        Lent { is_marked: false, number, ..self.clone() }
    }

    fn with_data(&self, data: Vec<u8>) -> Lent {
        Lent { data, ..self.clone() }
    }

    /// The same element; beside the mark 0 stands another number.
    pub fn again(&self, rng: &mut Rng) -> Lent {
        let number = if self.is_marked { self.number } else { other_number(rng, self.number) };
        Lent { number, ..self.clone() }
    }
}

pub fn list_of(elements: &[Lent]) -> List {
    let mut list = List::default();
    for Lent { data, is_marked, number } in elements {
        list.push(data, is_marked.then_some(*number), *number);
    }
    list
}

/// The elements of a shape at places 0 to `count` - 1, before they are shuffled.
type Shape = fn(&mut Rng, count: usize) -> Vec<Lent>;
/// Two elements made of one.
type Pair = fn(&mut Rng, Lent) -> [Lent; 2];
/// Whether a list has so many elements.
type Length = fn(usize) -> bool;

pub const SHAPES: [(&str, Shape); 10] = [
    ("numbers in 32 bytes", numbers),
    ("prefixes of a string", prefixes),
    ("zeros of every length", zeros),
    ("one byte apart", one_byte_off),
    ("few letters", few_letters),
    ("random bytes", random),
    ("the first 6 bytes equal", |rng, count| alike(rng, count, 6)),
    ("the first 8 bytes equal", |rng, count| alike(rng, count, 8)),
    ("all without data, each its own index", |rng, count| each_its_index(rng, count, &[])),
    ("all with one data, each its own index", one_data),
];
/// The shape of which all elements are different, and remain so beside any pair.
pub const NUMBERS: usize = 0;

/// What is planted, and the answer that is then due to a list that repeats nothing else. The answer is the request's: two elements are the
/// same when both data and mark agree, and, where the mark is 1, the index.
pub const PLANTS: [(&str, u32, Pair); 9] = [
    ("same data, both marked, same index", 1, |_, e| [e.marked(e.number), e.marked(e.number)]),
    ("same data, both marked, other index", 0, |rng, e| [e.marked(e.number), e.marked(other_number(rng, e.number))]),
    ("same data, both unmarked, same number unread", 1, |_, e| [e.unmarked(e.number), e.unmarked(e.number)]),
    ("same data, both unmarked, other number unread", 1, |rng, e| [e.unmarked(e.number), e.unmarked(other_number(rng, e.number))]),
    ("same data, one marked, same number unread", 0, |_, e| [e.marked(e.number), e.unmarked(e.number)]),
    ("same data, one marked, other number unread", 0, |rng, e| [e.marked(e.number), e.unmarked(other_number(rng, e.number))]),
    ("other data, both marked, same index", 0, |rng, e| [e.marked(e.number), e.marked(e.number).with_data(other_data(rng, &e.data))]),
    ("other data, both unmarked, same number unread", 0, |rng, e| {
        [e.unmarked(e.number), e.unmarked(e.number).with_data(other_data(rng, &e.data))]
    }),
    ("data and index of one as the data of the other", 0, |_, e| {
        let data = &e.data[..e.data.len().min(BYTES - 8)];
        let joined = [data, &e.number.to_be_bytes()].concat();
        [e.marked(e.number).with_data(data.to_vec()), e.unmarked(e.number).with_data(joined)]
    }),
];

const NEXT: &str = "next to each other";
const APART: &str = "far apart";
const EMPTY: &str = "a pair without data";
const LONG: &str = "a pair with over 4,000 data bytes";
/// Lengths of lists that must come.
const LENGTHS: [(&str, Length); 5] = [
    ("no elements", |count| count == 0),
    ("1 element", |count| count == 1),
    ("2 elements", |count| count == 2),
    ("over 1,000 elements", |count| (1001..ELEMENTS).contains(&count)),
    ("65,536 elements", |count| count == ELEMENTS),
];

/// A pair to be planted: which of `PLANTS`, in places one after the other or at least half the list apart, and with what data.
#[derive(Clone, Copy)]
pub struct Planting {
    pub plant: usize,
    pub is_next: bool,
    pub data: PairData,
}

/// The data of an element that is there, none, or about as many bytes as may be.
#[derive(Clone, Copy)]
pub enum PairData {
    Own,
    None,
    Long,
}

impl Planting {
    pub fn every() -> impl Iterator<Item = Planting> {
        let of_plant = |plant| [true, false].into_iter().map(move |is_next| (plant, is_next));
        let with_data = |(plant, is_next)| [PairData::Own, PairData::None, PairData::Long].map(|data| Planting { plant, is_next, data });
        (0..PLANTS.len()).flat_map(of_plant).flat_map(with_data)
    }

    /// One of this plant, mostly with the data of an element that is there.
    pub fn any(rng: &mut Rng, plant: usize) -> Planting {
        let data = match rng.below(16) {
            0 => PairData::None,
            1 => PairData::Long,
            _ => PairData::Own,
        };
        Planting { plant, is_next: rng.below(2) == 0, data }
    }
}

/// A list, and what kinds it is of.
pub struct Made {
    pub list: List,
    pub kinds: Vec<&'static str>,
}

/// Every kind of list, each with an answer that must have come to it, if one must.
pub fn kinds() -> impl Iterator<Item = (&'static str, Option<u32>)> {
    let plants = PLANTS.iter().map(|(name, due, _)| (*name, Some(*due)));
    let shapes = SHAPES.iter().map(|(name, _)| (*name, None));
    let lengths = LENGTHS.iter().map(|(name, _)| (*name, None));
    plants.chain([NEXT, APART, EMPTY, LONG].map(|name| (name, None))).chain(shapes).chain(lengths)
}

/// So many elements of a shape, in any order.
pub fn elements(rng: &mut Rng, shape: usize, count: usize) -> Vec<Lent> {
    let mut elements = SHAPES[shape].1(rng, count);
    for i in (1..count).rev() {
        elements.swap(i, rng.below(i as u64 + 1) as usize);
    }
    elements
}

/// A list of elements as they are.
pub fn as_is(elements: &[Lent], shape: usize) -> Made {
    let lengths = LENGTHS.iter().filter(|(_, is_it)| is_it(elements.len()));
    Made { list: list_of(elements), kinds: lengths.map(|(name, _)| *name).chain([SHAPES[shape].0]).collect() }
}

/// The same with a pair in two of the places; one element or none as they are.
pub fn with_pair(rng: &mut Rng, elements: &[Lent], shape: usize, planting: Planting) -> Made {
    if elements.len() < 2 {
        return as_is(elements, shape);
    }
    let (first, second) = two_places(rng, elements.len(), planting.is_next);
    let pair = pair_of(rng, elements[first].clone(), planting);
    let mut kinds = vec![PLANTS[planting.plant].0, if second == first + 1 { NEXT } else { APART }];
    match pair[0].data.len().max(pair[1].data.len()) {
        0 => kinds.push(EMPTY),
        4001.. => kinds.push(LONG),
        _ => (),
    }
    let mut elements = elements.to_vec();
    [elements[first], elements[second]] = pair;
    let mut made = as_is(&elements, shape);
    made.kinds.extend(kinds);
    made
}

/// The two that are planted, made of an element, either of them first.
fn pair_of(rng: &mut Rng, mut one: Lent, planting: Planting) -> [Lent; 2] {
    match planting.data {
        PairData::Own => (),
        PairData::None => one.data.clear(),
        PairData::Long => one.data = room(rng)[..BYTES - rng.below(17) as usize].to_vec(),
    }
    if rng.below(2) == 0 {
        one.number = any_number(rng);
    }
    let mut pair = PLANTS[planting.plant].2(rng, one);
    pair.swap(0, rng.below(2) as usize);
    pair
}

/// Puts a pair into two lists that aren't empty, one of the two into each, and says into which place of the second.
pub fn across(rng: &mut Rng, first: &mut [Lent], second: &mut [Lent], planting: Planting) -> usize {
    let [a, b] = [first.len(), second.len()].map(|len| rng.below(len as u64) as usize);
    let one = if rng.below(2) == 0 { &first[a] } else { &second[b] }.clone();
    [first[a], second[b]] = pair_of(rng, one, planting);
    b
}

/// Two places of two or more.
fn two_places(rng: &mut Rng, count: usize, is_next: bool) -> (usize, usize) {
    if is_next {
        let first = rng.below(count as u64 - 1) as usize;
        return (first, first + 1);
    }
    let some = count as u64 / 8 + 1;
    (rng.below(some) as usize, count - 1 - rng.below(some) as usize)
}

/// Small ones, so that they are often equal, and any.
fn any_number(rng: &mut Rng) -> u64 {
    match rng.below(4) {
        0 => rng.below(3),
        1 => u64::MAX - rng.below(2),
        _ => rng.word(),
    }
}

/// Another in one bit or in any number of them.
fn other_number(rng: &mut Rng, number: u64) -> u64 {
    number ^ if rng.below(4) == 0 { rng.word().max(1) } else { 1 << rng.below(64) }
}

/// Another by one byte more or less at its end, or in one byte, the last or any.
fn other_data(rng: &mut Rng, data: &[u8]) -> Vec<u8> {
    let mut other = data.to_vec();
    let Some(last) = data.len().checked_sub(1) else {
        return vec![rng.below(2) as u8];
    };
    match rng.below(5) {
        0 if data.len() < BYTES => other.push(rng.below(2) as u8),
        1 => other.truncate(last),
        2 => other[last] ^= 1 + rng.below(255) as u8,
        _ => other[rng.below(data.len() as u64) as usize] ^= 1 + rng.below(255) as u8,
    }
    other
}

/// Data of each place, half of them marked, and few numbers.
fn by_data(rng: &mut Rng, count: usize, mut data: impl FnMut(&mut Rng, usize) -> Vec<u8>) -> Vec<Lent> {
    let of = |place| Lent { data: data(rng, place), is_marked: rng.below(2) == 0, number: rng.below(3) };
    (0..count).map(of).collect()
}

fn room(rng: &mut Rng) -> [u8; BYTES] {
    let mut room = [0; BYTES];
    rng.fill(&mut room);
    room
}

/// The place twice, so that no two differ in one byte alone, which a pair may.
fn numbers(rng: &mut Rng, count: usize) -> Vec<Lent> {
    let room = room(rng);
    by_data(rng, count, |_, place| [&room[..16], &(place as u64).to_be_bytes(), &(place as u64).to_be_bytes()].concat())
}

/// Each begins as the next does; the first is empty.
fn prefixes(rng: &mut Rng, count: usize) -> Vec<Lent> {
    let room = room(rng);
    by_data(rng, count, |_, place| room[..short(place, count)].to_vec())
}

fn zeros(rng: &mut Rng, count: usize) -> Vec<Lent> {
    by_data(rng, count, |_, place| vec![0; short(place, count)])
}

/// A length for each place, shorter ones in the longest lists.
fn short(place: usize, count: usize) -> usize {
    place % if count > BYTES + 1 { 256 } else { BYTES + 1 }
}

/// Of one length, 1 to 33, each with one byte of the same bytes altered.
fn one_byte_off(rng: &mut Rng, count: usize) -> Vec<Lent> {
    let (room, len) = (room(rng), 1 + rng.below(33));
    by_data(rng, count, |rng, _| {
        let mut bytes = room[..len as usize].to_vec();
        bytes[rng.below(len) as usize] ^= 1 + rng.below(255) as u8;
        bytes
    })
}

/// Few letters, so that much is repeated, and some is empty.
fn few_letters(rng: &mut Rng, count: usize) -> Vec<Lent> {
    by_data(rng, count, |rng, _| (0..rng.below(4)).map(|_| rng.below(3) as u8).collect())
}

/// Random bytes of random length.
fn random(rng: &mut Rng, count: usize) -> Vec<Lent> {
    let longest = rng.below(33);
    by_data(rng, count, |rng, _| {
        let mut bytes = vec![0; rng.below(1 + longest) as usize];
        rng.fill(&mut bytes);
        bytes
    })
}

/// So many bytes in which all agree, and the place in up to three more, the first of them the lowest.
fn alike(rng: &mut Rng, count: usize, first: usize) -> Vec<Lent> {
    let room = room(rng);
    by_data(rng, count, |_, place| {
        let own = (place as u32).to_le_bytes();
        let len = own.iter().rposition(|byte| *byte != 0).map_or(0, |last| last + 1);
        [&room[..first], &own[..len]].concat()
    })
}

fn one_data(rng: &mut Rng, count: usize) -> Vec<Lent> {
    let (room, len) = (room(rng), 1 + rng.below(33));
    each_its_index(rng, count, &room[..len as usize])
}

/// The same data at each place, the first without an index, the others with numbers that differ in low bits or in high ones.
fn each_its_index(rng: &mut Rng, count: usize, data: &[u8]) -> Vec<Lent> {
    let shift = rng.below(49);
    let of = |place: usize| Lent { data: data.to_vec(), is_marked: place > 0, number: (place.max(1) as u64 - 1) << shift };
    (0..count).map(of).collect()
}

#[cfg(test)]
mod tests {
    use super::*;
    use crate::model::rules;

    /// A planted pair alone decides what is due, by the word that stands beside it, where nothing else is repeated.
    #[test]
    fn a_pair_is_what_it_is_said_to_be() {
        let mut rng = Rng::new(1, 0);
        for (count, planting) in [2, 3, 9, 40].into_iter().flat_map(|count| Planting::every().map(move |planting| (count, planting))) {
            let (name, due, _) = PLANTS[planting.plant];
            for _ in 0..20 {
                let elements = elements(&mut rng, NUMBERS, count);
                assert_eq!(rules::distinctness(&list_of(&elements)), 0);
                assert_eq!(rules::distinctness(&with_pair(&mut rng, &elements, NUMBERS, planting).list), due, "{name}");
            }
        }
    }

    /// Lists keep their length and are lawful; what stands far apart is at least half the list apart.
    #[test]
    fn lists_keep_to_what_they_are_said_to_be() {
        let mut rng = Rng::new(2, 0);
        for (shape, count) in (0..SHAPES.len()).flat_map(|shape| [0, 1, 2, 3, 4, 7, 100, 5000].map(|count| (shape, count))) {
            let elements = elements(&mut rng, shape, count);
            let before = as_is(&elements, shape).list;
            for planting in Planting::every() {
                let made = with_pair(&mut rng, &elements, shape, planting);
                assert_eq!((made.list.len(), rules::list(&made.list)), (count, Ok(())));
                let changed: Vec<usize> = (0..count).filter(|at| !is_lent_alike(&before, &made.list, *at)).collect();
                let [first, second] = changed[..] else { continue };
                assert!(if planting.is_next { second == first + 1 } else { second - first >= count / 2 }, "{changed:?} of {count}");
            }
        }
    }

    fn is_lent_alike(a: &List, b: &List, place: usize) -> bool {
        (a.data_of(place), a.marks[place], a.indexes[place]) == (b.data_of(place), b.marks[place], b.indexes[place])
    }
}
