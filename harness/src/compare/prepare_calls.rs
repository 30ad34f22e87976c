//! The exports for prepare and commit, with arguments whose answer is known, as in export_calls.rs.

use super::export_calls::{found, least_x, list_of, settings, Export};
use super::parameters::Args;
use super::prepare;
use super::prover_refusals::Given;
use crate::model;
use crate::{
    ffi,
    ffi::{Listed, Settings},
    list::List,
    model::threshold::{halves, Threshold::Alone, Threshold::OfQ},
};

pub fn all() -> Result<[Export; 2], String> {
    let s = Settings { set_size: 5, proof_size: 3, max_retries: 9, search_width: 4, dfs_bound: 60, x: OfQ(0.005) };
    // As for prove. That the data have the length of a digest, and so of each other, is no help to tell them apart.
    let (list, proof) = found(&s, |list, found| found.retry_counter > 4 && list.data.len() == model::prepare::DIGEST)?;
    let s = Settings { x: Alone(least_x(&s, &list, &proof)?), ..s };
    Ok([prepare(&s, list.clone()), commit(&s, list)])
}

fn numbers_of(s: &Settings) -> Vec<u64> {
    let [x_high, x_low] = halves(s.x.x());
    vec![s.set_size, s.proof_size, s.max_retries, s.search_width, s.dfs_bound, x_high, x_low]
}

/// Parameters: set_size, proof_size, max_retries, search_width, dfs_bound, x_high, x_low, data, ends, marks, indexes, places, table, out.
/// Of the workspace only the lengths are read, which are just enough.
fn prepare(s: &Settings, list: List) -> Export {
    let args = Args {
        numbers: numbers_of(s),
        bytes: vec![list.data, list.marks, vec![0xa5; model::prepare::DIGEST]],
        words: vec![list.ends, vec![0xa5a5; 3], vec![0x5a5a; 16]],
        longs: vec![list.indexes],
        ..Args::default()
    };
    let ours = |args: &mut Args| {
        let (s, [data, marks, out]) = (settings(args), &mut args.bytes[..]) else { unreachable!("three slices of bytes") };
        let [ends, places, table] = &args.words[..] else { unreachable!("three slices of u32") };
        let list = Listed { data: Some(data), ends: Some(ends), marks: Some(marks), indexes: Some(&args.longs[0]) };
        ffi::prepare(&s, list, Some(places), Some(table), &mut out[..])
    };
    let due = |args: &mut Args| {
        let (s, list, workspace) = (settings(args), list_of(args), (args.words[1].len(), args.words[2].len()));
        let digest = model::prepare::prepare(&s, &list, workspace, args.bytes[2].len());
        digest.iter().for_each(|digest| args.bytes[2].copy_from_slice(digest));
        Ok(digest.err().unwrap_or(0))
    };
    Export { name: "alba_prepare", args, answer: 0, ours, due }
}

/// Parameters: set_size, proof_size, max_retries, search_width, dfs_bound, x_high, x_low, digest, data, ends, marks, indexes, places, table,
/// out.
fn commit(s: &Settings, list: List) -> Export {
    let digest = model::prepare::digest(s, &list);
    let args = Args {
        numbers: numbers_of(s),
        bytes: vec![list.data, list.marks, digest.to_vec()],
        words: vec![list.ends, vec![0xa5a5; 3], vec![0x5a5a; 16]],
        longs: vec![list.indexes, vec![7; 4]],
        ..Args::default()
    };
    let ours = |args: &mut Args| {
        let (s, [data, marks, digest]) = (settings(args), &args.bytes[..]) else { unreachable!("three slices of bytes") };
        let ([ends, places, table], [indexes, out]) = (&mut args.words[..], &mut args.longs[..]) else { unreachable!("three and two") };
        let list = Listed { data: Some(data), ends: Some(ends), marks: Some(marks), indexes: Some(indexes) };
        ffi::commit(&s, Some(digest), list, &mut places[..], &mut table[..], &mut out[..])
    };
    Export { name: "alba_commit", args, answer: 0, ours, due: commit_due }
}

fn commit_due(args: &mut Args) -> Result<u32, String> {
    let given = Given { settings: settings(args), list: list_of(args), places: args.words[1].len(), table: args.words[2].len() };
    let (due, due_table) = prepare::due(&given, &args.bytes[2])?;
    args.words[1][..due.places.len()].copy_from_slice(&due.places);
    args.words[2][..due_table.len()].copy_from_slice(&due_table);
    match args.longs[1].first_chunk_mut() {
        Some(first) if due.number != ffi::BAD_LENGTH => *first = [due.retry_counter, due.search_counter, due.count],
        _ => (),
    }
    Ok(due.number)
}
