//! Two lists pooled. The size of a pool of as many elements as are admitted, against a sort of the first list's keys by Rust's own library
//! and a search by halves for each of the second's; the prover over the pool against the prover on the pool written out.

use super::distinctness::FEW;
use super::measure::{in_rounds, Work};
use super::row;
use crate::{
    compare::searches::list_of_48, ffi, ffi::Settings, list::List, model::pool, model::rules::ELEMENTS, model::threshold::Threshold::OfQ,
    original, rng::Rng,
};
use std::hint::black_box;

type Key<'a> = (&'a [u8], Option<u64>);

pub fn run() -> Result<(), String> {
    contents()?;
    // As many elements as bins, half of the second's being the first's too.
    let list = list_of_48(&mut Rng::new(6, 0), 1000);
    let (first, second) = (part(&list, 0, 700), part(&list, 400, 1000));
    search(
        "set_size 1000, u = 200, 700 and 600 elements of which 300 are common",
        &original::small_case(1000, 200, 128.0),
        &first,
        &second,
    )?;
    // Every chain comes to its full length.
    let deep = Settings { set_size: 1, proof_size: 1024, max_retries: 1, search_width: (1 << 32) - 1, dfs_bound: 500_000, x: OfQ(0.0) };
    search("set_size 1, u = 1024, no elements and 1, 500,000 steps", &deep, &List::default(), &part(&list, 0, 1))?;
    let list = list_of_48(&mut Rng::new(6, 1), ELEMENTS as u64);
    let wide = Settings { set_size: 32_768, proof_size: 50, max_retries: 1, search_width: 5000, dfs_bound: 100_000, x: OfQ(0.0) };
    search("set_size 32768, u = 50, 65,536 elements twice, 100,000 steps", &wide, &list, &list)?;
    search(
        "set_size 32768, u = 50, 32,768 and 32,768 elements, 100,000 steps",
        &wide,
        &part(&list, 0, 32_768),
        &part(&list, 32_768, 65_536),
    )
}

fn part(list: &List, from: u32, to: u32) -> List {
    list.at(&(from..to).collect::<Vec<u32>>())
}

/// 65,536 elements in each list, with each kind of content, and half as many all different: twice 65,536 of these are refused.
fn contents() -> Result<(), String> {
    let mut rng = Rng::new(5, 0);
    let different = list_of_48(&mut rng, 2 * ELEMENTS as u64);
    let (ours, others) = (part(&different, 0, ELEMENTS as u32), part(&different, ELEMENTS as u32, 2 * ELEMENTS as u32));
    size("all different", &ours, &others)?;
    size("all different", &part(&ours, 0, 32_768), &part(&others, 0, 32_768))?;
    size("the same ones in both", &ours, &ours)?;
    size("the same ones in both, the second shuffled", &ours, &shuffled(&mut rng, &ours))?;
    for (len, what) in [(24, "one data of 24 bytes"), (4096, "one data of 4,096 bytes")] {
        let mut data = vec![0; len];
        rng.fill(&mut data);
        let with = |index: fn(u64) -> u64| {
            let mut list = List::default();
            (0..ELEMENTS as u64).for_each(|place| list.push(&data, Some(index(place)), 0));
            list
        };
        let indexed = with(|place| place);
        size(&format!("{what}, one index"), &with(|_| 7), &with(|_| 7))?;
        size(&format!("{what}, the same indexes in both, shuffled"), &indexed, &shuffled(&mut rng, &indexed))?;
        size(&format!("{what}, other indexes"), &indexed, &with(|place| place + ELEMENTS as u64))?;
    }
    Ok(())
}

fn shuffled(rng: &mut Rng, list: &List) -> List {
    let mut places: Vec<u32> = (0..list.len() as u32).collect();
    for at in (1..places.len()).rev() {
        places.swap(at, rng.below(at as u64 + 1) as usize);
    }
    list.at(&places)
}

/// A row for the pool's size, which must be the one that the other comes to.
fn size(what: &str, first: &List, second: &List) -> Result<(), String> {
    let ours = || {
        let mut out = [0];
        let number = ffi::pool_size(black_box(first).lent(), black_box(second).lent(), &mut out[..]);
        (number, out[0])
    };
    let theirs = || match by_sort(black_box(first), black_box(second)) {
        size if size > ELEMENTS => (ffi::POOL_TOO_LARGE, 0),
        size => (0, size as u64),
    };
    if ours() != theirs() {
        return Err(format!("harness: the size of a pool, {what}: ours {:?}, by a sort {:?}", ours(), theirs()));
    }
    let [our_time, their_time] = in_rounds(FEW, [over(ours), over(theirs)]);
    row(
        &format!("the size of a pool of {} and {} elements: {what}", first.len(), second.len()),
        "Rust's `sort_unstable` and halving",
        our_time,
        their_time,
        None,
    );
    Ok(())
}

fn by_sort(first: &List, second: &List) -> usize {
    let mut keys: Vec<Key> = keys(first).collect();
    keys.sort_unstable();
    first.len() + self::keys(second).filter(|key| keys.binary_search(key).is_err()).count()
}

fn keys(list: &List) -> impl Iterator<Item = Key<'_>> {
    (0..list.len()).map(|place| (list.data_of(place), list.index_of(place)))
}

/// A row for a search over the pool, which must come to what the one on the pool written out comes to.
fn search(what: &str, s: &Settings, first: &List, second: &List) -> Result<(), String> {
    let pool = pool::written_out(first, second);
    let room = || (vec![0; s.proof_size as usize], vec![0; 3 * s.set_size as usize + 1], [0; 3]);
    let over_pool = || {
        let (mut places, mut table, mut out) = room();
        let number = ffi::prove_pool(black_box(s), first.lent(), second.lent(), &mut places[..], &mut table[..], &mut out[..]);
        (number, places, table, out)
    };
    let written_out = || {
        let (mut places, mut table, mut out) = room();
        let number = ffi::prove(black_box(s), pool.lent(), &mut places[..], &mut table[..], &mut out[..]);
        (number, places, table, out)
    };
    if over_pool() != written_out() {
        return Err(format!("harness: prove over a pool, {what}: it comes to something else than on the pool written out"));
    }
    let [our_time, their_time] = in_rounds(FEW, [over(over_pool), over(written_out)]);
    row(&format!("prove over a pool: {what}"), "ours on the pool written out", our_time, their_time, None);
    Ok(())
}

fn over<'a, T>(call: impl Fn() -> T + 'a) -> Work<'a> {
    Box::new(move |calls| {
        (0..calls).for_each(|_| {
            black_box(call());
        })
    })
}
