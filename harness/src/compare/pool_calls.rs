//! The exports for two lists pooled, with arguments whose answer is known, as in export_calls.rs. The lists and their data have different
//! lengths, so that with slices of one type in another order they are refused or hold other elements.

use super::export_calls::{found, least_x, settings, Export};
use super::parameters::Args;
use super::pool::{self, Two};
use crate::model;
use crate::{
    ffi,
    ffi::{Listed, Settings},
    list::List,
    model::threshold::{halves, Threshold::OfQ},
};

pub fn all() -> Result<[Export; 3], String> {
    Ok([pool_size(), pool_data(), prove_pool()?])
}

/// The slices of two lists. Behind them stand what else is lent of each type.
fn args_of(first: List, second: List) -> Args {
    Args {
        bytes: vec![first.data, first.marks, second.data, second.marks],
        words: vec![first.ends, second.ends],
        longs: vec![first.indexes, second.indexes],
        ..Args::default()
    }
}

fn two_of(args: &Args) -> Two {
    let Args { bytes, words, longs, .. } = args.clone();
    let list = |data: usize, number: usize| {
        let (data, marks) = (bytes[data].clone(), bytes[data + 1].clone());
        List { data, ends: words[number].clone(), marks, indexes: longs[number].clone() }
    };
    Two::of(list(0, 0), list(2, 1))
}

fn listed<'a>(data: &'a [u8], ends: &'a [u32], marks: &'a [u8], indexes: &'a [u64]) -> Listed<'a, u32, u64> {
    Listed { data: Some(data), ends: Some(ends), marks: Some(marks), indexes: Some(indexes) }
}

/// "abc" and "de" with an index, nothing without; then "de" again, and "fghi".
fn lists() -> (List, List) {
    let (mut first, mut second) = (List::default(), List::default());
    first.push(b"abc", Some(7), 0);
    first.push(b"de", Some(8), 0);
    first.push(b"", None, 9);
    second.push(b"de", Some(8), 0);
    second.push(b"fghi", None, 8);
    (first, second)
}

/// Parameters: data, ends, marks, indexes, data2, ends2, marks2, indexes2, out.
fn pool_size() -> Export {
    let (first, second) = lists();
    let mut args = args_of(first, second);
    args.longs.push(vec![7; 4]);
    let ours = |args: &mut Args| {
        let ([data, marks, data2, marks2], [ends, ends2]) = (&args.bytes[..], &args.words[..]) else { unreachable!("four and two") };
        let [indexes, indexes2, out] = &mut args.longs[..] else { unreachable!("three slices of u64") };
        ffi::pool_size(listed(data, ends, marks, indexes), listed(data2, ends2, marks2, indexes2), &mut out[..])
    };
    let due = |args: &mut Args| {
        let two = two_of(args);
        args.longs[2][0] = two.size();
        Ok(two.number())
    };
    Export { name: "alba_pool_size", args, answer: 0, ours, due }
}

/// Parameters: data, ends, marks, indexes, data2, ends2, marks2, indexes2, place, part, out.
fn pool_data() -> Export {
    let (first, second) = lists();
    let mut args = args_of(first, second);
    args.numbers.push(3);
    args.bytes.push(vec![0xa5; 6]);
    args.longs.push(vec![7; 4]);
    let ours = |args: &mut Args| {
        let ([data, marks, data2, marks2, part], [ends, ends2]) = (&mut args.bytes[..], &args.words[..]) else {
            unreachable!("five and two")
        };
        let [indexes, indexes2, out] = &mut args.longs[..] else { unreachable!("three slices of u64") };
        let (first, second) = (listed(data, ends, marks, indexes), listed(data2, ends2, marks2, indexes2));
        ffi::pool_data(first, second, args.numbers[0], &mut part[..], &mut out[..])
    };
    let due = |args: &mut Args| {
        let two = two_of(args);
        let own = two.data_at(args.numbers[0]);
        let Some(part) = args.bytes[4].get_mut(..own.len()) else {
            return Ok(ffi::BUFFER_SHORT);
        };
        part.copy_from_slice(own);
        args.longs[2][0] = own.len() as u64;
        Ok(0)
    };
    Export { name: "alba_pool_data", args, answer: 0, ours, due }
}

/// Parameters: set_size, proof_size, max_retries, search_width, dfs_bound, x_high, x_low, data, ends, marks, indexes, data2, ends2, marks2,
/// indexes2, places, table, out.
fn prove_pool() -> Result<Export, String> {
    let s = Settings { set_size: 5, proof_size: 3, max_retries: 9, search_width: 4, dfs_bound: 60, x: OfQ(0.005) };
    let cut = |list: &List| {
        let (first, mut second) = (list.at(&[0, 1, 2, 3]), list.at(&(4..list.len() as u32).collect::<Vec<u32>>()));
        second.push(list.data_of(1), list.index_of(1), 0);
        (first, second)
    };
    // As for prove; and the list is the pool of its two parts, from both of which the proof has elements.
    let (list, proof) = found(&s, |list, found| {
        let (first, second) = cut(list);
        let is_pool = model::pool::written_out(&first, &second) == list.at(&(0..list.len() as u32).collect::<Vec<u32>>());
        let of_first = found.places.iter().filter(|place| **place < 4).count();
        is_pool && found.retry_counter > 4 && (1..3).contains(&of_first)
    })?;
    let [x_high, x_low] = halves(least_x(&s, &list, &proof)?);
    let (first, second) = cut(&list);
    let mut args = args_of(first, second);
    args.numbers = vec![s.set_size, s.proof_size, s.max_retries, s.search_width, s.dfs_bound, x_high, x_low];
    args.words.extend([vec![0xa5a5; 100], vec![0x5a5a; 200]]);
    args.longs.push(vec![7; 5]);
    let ours = |args: &mut Args| {
        let s = settings(args);
        let [data, marks, data2, marks2] = &args.bytes[..] else { unreachable!("four slices of bytes") };
        let ([ends, ends2, places, table], [indexes, indexes2, out]) = (&mut args.words[..], &mut args.longs[..]) else {
            unreachable!("four and three")
        };
        let (first, second) = (listed(data, ends, marks, indexes), listed(data2, ends2, marks2, indexes2));
        ffi::prove_pool(&s, first, second, &mut places[..], &mut table[..], &mut out[..])
    };
    Ok(Export { name: "alba_prove_pool", args, answer: 0, ours, due: prove_due })
}

fn prove_due(args: &mut Args) -> Result<u32, String> {
    let (s, two) = (settings(args), two_of(args));
    let ([_, _, places, table], [_, _, out]) = (&mut args.words[..], &mut args.longs[..]) else { unreachable!("four and three") };
    let (due, due_table) = pool::due(&two, &s, (places.len(), table.len()))?;
    places[..due.places.len()].copy_from_slice(&due.places);
    table[..due_table.len()].copy_from_slice(&due_table);
    if let Some(first) = out.first_chunk_mut() {
        *first = [due.retry_counter, due.search_counter, due.count];
    }
    Ok(due.number)
}
