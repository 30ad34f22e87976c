//! How much stack the deepest search takes: the least limit of the system under which it still ends well, found by halving.
//!
//! Each search runs in a process of its own, on its first thread, whose stack the system limits and below which it leaves a wide gap:
//! beyond its limit a process is always stopped.

use crate::args::{Call, Deep, COUNT, PARTIES_SEARCH, POOL_SEARCH, SEARCH};
use crate::{ffi, ffi::Party, ffi::Settings, list::List, model::rules::ELEMENTS, model::threshold::Threshold::OfQ};
use std::process::{Command, Stdio};

/// In kilobytes: the greatest limit tried, and how near the answer is.
const MOST: u64 = 64 << 10;
const NEAR: u64 = 4;
/// The longest chain of the settings.
const DEEPEST: u64 = 1024;

/// Measures, or runs the one search named.
pub fn run(one: Option<Deep>) -> Result<(), String> {
    if let Some(deep) = one {
        return search(deep);
    }
    println!("Stack that suffices, found to {NEAR} KB, the program's own and its arguments included:");
    let calls = [
        (Call::Prove, "a search"),
        (Call::ProvePool, "a search over the pool of two full lists"),
        (Call::TwoProducts, "two parties' tries on one bin table"),
        (Call::CountChains, "a tree counted, with chains"),
    ];
    for (by, what) in calls {
        let (least, most) = (least_limit(Deep { depth: 0, by })?, least_limit(Deep { depth: DEEPEST, by })?);
        println!("  {what} of length 0: {least} KB");
        println!("  {what} of length {DEEPEST}: {most} KB, so {} bytes for each length", (most - least) * 1024 / DEEPEST);
    }
    Ok(())
}

/// A chain of each length up to `depth`, of which the last passes, all of the first element and with one bin: on a list of one element,
/// or over the pool of two lists with as many as there may be. Two parties make that one try each.
fn search(deep: Deep) -> Result<(), String> {
    let depth = deep.depth;
    let settings = Settings { set_size: 1, proof_size: depth, max_retries: 1, search_width: 1, dfs_bound: depth + 1, x: OfQ(1.0) };
    let mut list = List::default();
    (0..if deep.by == Call::ProvePool { ELEMENTS as u64 } else { 1 }).for_each(|place| list.push(b"a", Some(7 + place), 0));
    let (mut places, mut table, mut out) = (vec![1; depth as usize], [0; 4], [0; 3]);
    let answer = match deep.by {
        Call::TwoProducts => return parties(&Party { settings, retry_counter: 1 }, &list, places),
        Call::CountChains => return count(&settings, &list),
        Call::ProvePool => ffi::prove_pool(&settings, list.lent(), list.lent(), &mut places[..], &mut table[..], &mut out[..]),
        Call::Prove => ffi::prove(&settings, list.lent(), &mut places[..], &mut table[..], &mut out[..]),
    };
    if answer != 0 || out != [1, 0, depth + 1] || places.iter().any(|place| *place != 0) {
        return Err(format!("harness: the search of length {depth} came to {answer}, {out:?}"));
    }
    Ok(())
}

/// The table of one bin with one element is the same for every retry counter.
const ONE_BIN: [u32; 4] = [0, 1, 0, 0];

fn parties(party: &Party, list: &List, mut places: Vec<u32>) -> Result<(), String> {
    let (mut places2, mut out) = (places.clone(), [0; 6]);
    let lent = [&mut places[..], &mut places2[..]];
    let answer = ffi::two_products(Some(&ONE_BIN[..]), party.retry_counter, list.lent(), [party, party], lent, &mut out[..]);
    let count = party.settings.proof_size + 1;
    if answer != 0 || out != [0, 0, count, 0, 0, count] || places.iter().chain(&places2).any(|place| *place != 0) {
        return Err(format!("harness: the parties' tries of length {} came to {answer}, {out:?}", count - 1));
    }
    Ok(())
}

/// The same chains, counted: one of each length, and the longest passes.
fn count(settings: &Settings, list: &List) -> Result<(), String> {
    let (depth, mut table, mut out) = (settings.proof_size, [0; 4], [7]);
    let mut counts = vec![7; depth as usize + 1];
    let answer = ffi::count_chains(settings, [1, 0], list.lent(), &mut table[..], &mut counts[..], &mut out[..]);
    if answer != 0 || out != [1] || table != ONE_BIN || counts.iter().any(|count| *count != 1) {
        return Err(format!("harness: the count of a tree with chains of length {depth} came to {answer}, {out:?}"));
    }
    Ok(())
}

fn least_limit(deep: Deep) -> Result<u64, String> {
    let (mut fails, mut suffices) = (0, MOST);
    if !ends_well(deep, MOST)? {
        return Err(format!("harness: the search of length {} does not end under {MOST} KB of stack", deep.depth));
    }
    while suffices - fails > NEAR {
        let middle = (fails + suffices) / 2;
        match ends_well(deep, middle)? {
            true => suffices = middle,
            false => fails = middle,
        }
    }
    Ok(suffices)
}

fn ends_well(deep: Deep, kilobytes: u64) -> Result<bool, String> {
    let myself = std::env::current_exe().map_err(|e| format!("harness: {e}"))?;
    let mut command = Command::new("/bin/sh");
    command.args(["-c", "ulimit -s \"$0\" && exec \"$@\"", &kilobytes.to_string()]);
    let which = match deep.by {
        Call::Prove => SEARCH,
        Call::ProvePool => POOL_SEARCH,
        Call::TwoProducts => PARTIES_SEARCH,
        Call::CountChains => COUNT,
    };
    command.arg(myself).args(["stack", which, &deep.depth.to_string()]).stdout(Stdio::null()).stderr(Stdio::null());
    command.status().map(|status| status.success()).map_err(|e| format!("harness: /bin/sh: {e}"))
}
