//! The export for two products, with arguments whose answer is known, as in export_calls.rs. It takes several calls to tell all its
//! parameters apart: both parties are served only where the three retry counters are the same, and max_retries is held to its limit alone.

use super::export_calls::{list_of_words, settings_at, Export, SEED};
use super::parameters::Args;
use super::product_checks::{figures, FIGURES};
use super::searches;
use super::verdicts::Claim;
use crate::ffi::{self, Listed, Party, Settings};
use crate::list::List;
use crate::model::products::{self, Common};
use crate::model::threshold::{halves, Threshold::Alone, Threshold::OfQ};
use crate::model::{chains, rules};
use crate::rng::Rng;

/// Over every limit of the settings, so that in none of their places it is lawful.
const RETRY: u64 = 0x0123_4567_89ab_cdef;
/// Where the settings of each party begin among the numbers, and how many numbers a party has.
const PARTIES: [usize; 2] = [1, 9];
const NUMBERS: usize = 8;

/// Both served; then one with another retry counter, with too great a max_retries, and with another set size, and then the other.
pub fn all() -> Result<Vec<Export>, String> {
    let (list, parties) = both_found()?;
    let whole = args_of(list, parties);
    let with = |at: usize, number: u64| {
        let mut args = whole.clone();
        args.numbers[at] = number;
        args
    };
    let mut calls = vec![whole.clone()];
    for first in PARTIES {
        calls.extend([with(first + 7, RETRY + 1), with(first + 2, 65_536), with(first, 4)]);
    }
    Ok(calls.into_iter().map(|args| Export { name: "alba_two_products", args, answer: 0, ours, due }).collect())
}

/// A list with two parties that each find a chain, with no more width, bound and threshold than that takes: all of them different.
fn both_found() -> Result<(List, [Settings; 2]), String> {
    let of = |proof_size, max_retries, q| Settings { set_size: 5, proof_size, max_retries, search_width: 40, dfs_bound: 2000, x: OfQ(q) };
    let parties = [of(3, 60_000, 0.05), of(2, 50_000, 0.02)];
    let mut rng = Rng::new(SEED, 17);
    for _ in 0..10_000 {
        let list = searches::list_of(&mut rng, 11, 1, 9);
        let found = parties.map(|s| chains::try_alone(&s, &list, RETRY));
        let [one, other] = &found;
        let is_apart = one.search_counter != other.search_counter && one.count > 50 && other.count > 50 && one.count != other.count;
        if (one.number, other.number) == (0, 0) && is_apart {
            let mut least = parties;
            for (s, found) in least.iter_mut().zip(&found) {
                let number = chains::last_number(&Claim::of(s, &list, found)).ok_or("  the chain found is none\n")?;
                (s.search_width, s.dfs_bound, s.x) = (found.search_counter + 1, found.count, Alone(number + 1));
            }
            return Ok((list, least));
        }
    }
    Err("  no list has a chain for both parties\n".to_string())
}

/// Parameters: table, table_retry, data, ends, marks, indexes; set_size, proof_size, max_retries, search_width, dfs_bound, x_high, x_low,
/// retry of the first party, then of the second; places, places2, out.
fn args_of(list: List, parties: [Settings; 2]) -> Args {
    let mut numbers = vec![RETRY];
    for s in parties {
        let [x_high, x_low] = halves(s.x.x());
        numbers.extend([s.set_size, s.proof_size, s.max_retries, s.search_width, s.dfs_bound, x_high, x_low, RETRY]);
    }
    let table = rules::bin_table(&list, parties[0].set_size, RETRY);
    Args {
        numbers,
        bytes: vec![list.data, list.marks],
        words: vec![table, list.ends, vec![0xa5a5; 20], vec![0x5a5a; 25]],
        longs: vec![list.indexes, vec![7; FIGURES]],
        ..Args::default()
    }
}

fn parties_of(args: &Args) -> [Party; 2] {
    PARTIES.map(|from| Party { settings: settings_at(args, from), retry_counter: args.numbers[from + NUMBERS - 1] })
}

fn ours(args: &mut Args) -> u32 {
    let ([first, second], retry) = (parties_of(args), args.numbers[0]);
    let ([table, ends, places, places2], [indexes, out]) = (&mut args.words[..], &mut args.longs[..]) else { unreachable!("four and two") };
    let list = Listed { data: Some(&args.bytes[0]), ends: Some(ends), marks: Some(&args.bytes[1]), indexes: Some(indexes) };
    ffi::two_products(Some(table), retry, list, [&first, &second], [&mut places[..], &mut places2[..]], &mut out[..])
}

fn due(args: &mut Args) -> Result<u32, String> {
    if args.longs[1].len() != FIGURES {
        return Ok(ffi::BAD_LENGTH);
    }
    let common = Common { list: list_of_words(args, 1), table: args.words[0].clone(), retry_counter: args.numbers[0] };
    let [first, second] = parties_of(args);
    let dues = [(first, 2), (second, 3)].map(|(party, places)| products::answer(&common, &party, args.words[places].len()));
    for (due, places) in dues.iter().zip(&mut args.words[2..]) {
        places[..due.places.len()].copy_from_slice(&due.places);
    }
    args.longs[1].copy_from_slice(&figures(&dues));
    Ok(0)
}
