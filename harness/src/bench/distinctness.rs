//! The check of distinctness, of as many elements as are admitted, against a sort of the same keys by Rust's own library: the key of an
//! element is its data and then its index, or none, and equal ones then stand side by side. The Rust's `check_distinct` goes by data alone.

use super::measure::{in_rounds, Work, ROUNDS};
use super::row;
use crate::{ffi, list::List, rng::Rng};
use std::hint::black_box;

const COUNT: u64 = 65_536;
/// The least and the greatest data lengths that are measured.
const SHORT: usize = 32;
const LONG: usize = 4096;
/// Rounds of the long ones, of which a call takes up to a second.
pub const FEW: usize = 11;

type Key<'a> = (&'a [u8], Option<u64>);

pub fn run() -> Result<(), String> {
    let mut rng = Rng::new(3, 0);
    let mut elements: Vec<([u8; SHORT], u64)> = Vec::new();
    for index in 0..COUNT {
        let mut data = [0; SHORT];
        rng.fill(&mut data);
        elements.push((data, index));
    }
    let list_of = |elements: &[([u8; SHORT], u64)]| {
        let mut list = List::default();
        elements.iter().for_each(|(data, index)| list.push(data, Some(*index), 0));
        list
    };
    compare("random 32 bytes", &list_of(&elements), ROUNDS)?;
    elements.sort_unstable();
    compare("random 32 bytes, sorted", &list_of(&elements), ROUNDS)?;
    let mut list = one_data(&mut rng);
    compare("one data of 4,096 bytes, indexes ascending", &list, FEW)?;
    for place in (1..list.len()).rev() {
        list.indexes.swap(place, rng.below(place as u64 + 1) as usize);
    }
    compare("one data of 4,096 bytes, indexes shuffled", &list, FEW)
}

/// The same bytes at each place, and the place as index.
fn one_data(rng: &mut Rng) -> List {
    let mut data = [0; LONG];
    rng.fill(&mut data);
    let mut list = List::default();
    (0..COUNT).for_each(|place| list.push(&data, Some(place), 0));
    list
}

/// Ours against the faster of Rust's two sorts, all on the list as it is lent.
fn compare(what: &str, list: &List, rounds: usize) -> Result<(), String> {
    let ours = || ffi::check_distinct(black_box(list).lent()) == 0;
    let stable = || are_different(black_box(list), |keys| keys.sort());
    let unstable = || are_different(black_box(list), |keys| keys.sort_unstable());
    if !(ours() && stable() && unstable()) {
        return Err(format!("harness: distinctness, {what}: not all say that the elements are different"));
    }
    let [our_time, stable_time, unstable_time] = in_rounds(rounds, [over(ours), over(stable), over(unstable)]);
    let (against, their_time) =
        if stable_time.ns < unstable_time.ns { ("Rust's `sort`", stable_time) } else { ("Rust's `sort_unstable`", unstable_time) };
    row(&format!("distinctness of 65,536 elements: {what}"), against, our_time, their_time, None);
    Ok(())
}

fn are_different<'a>(list: &'a List, sort: impl Fn(&mut Vec<Key<'a>>)) -> bool {
    let mut keys: Vec<Key> = (0..list.len()).map(|place| (list.data_of(place), list.index_of(place))).collect();
    sort(&mut keys);
    keys.windows(2).all(|two| two[0] != two[1])
}

fn over<'a>(call: impl Fn() -> bool + 'a) -> Work<'a> {
    Box::new(move |calls| (0..calls).for_each(|_| assert!(call())))
}
