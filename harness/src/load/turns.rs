//! The turns of the run: what each kind compares.

use super::draws::{self, up_to};
use crate::compare::blocks::Block;
use crate::compare::planned::{self, Planned};
use crate::compare::planted::{NUMBERS, PLANTS, SHAPES};
use crate::compare::{
    bernoulli, block_counts, chain_checks, chain_counts, distinct, faults, hash, plan, pool, prepare, product_refusals, products,
    proof_size, prover_refusals, refusals, searches, small_case, threshold, tickets, uniform, verdicts, verifier_refusals,
};
use crate::compare::{Answered, Checked};
use crate::model::rules::{BYTES, ELEMENTS, MOST};
use crate::{ffi, ffi::Settings, list::List, model::ticket::Proof, rng::Rng};
use std::sync::{Mutex, PoisonError};

type Turn = fn(&mut Block) -> Checked;

/// Each with its name and how often it comes in its turn: so often that most turns take some hundredths or tenths of a second.
const TURNS: [(&str, u64, Turn); 15] = [
    ("samplers", 20_000, samplers),
    ("hash", 4000, hashes),
    ("small case", 10_000, small_cases),
    ("distinctness", 4, distinctness),
    ("planning", 4, planning),
    ("proof size", 500, proof_size::any),
    ("searches", 4, search),
    ("bad input to prove", 8, bad_to_prove),
    ("random proofs", 32, random_proof),
    ("bad input to verify", 8, bad_to_verify),
    ("tickets", 2, tickets),
    ("pools", 1, pools),
    ("prepare and commit", 1, prepared),
    ("two products", 1, two_products),
    ("chain counts", 1, chains_counted),
];
/// Once in so many turns the fullest lists come instead: they take seconds.
const FULL_EACH: u64 = 1024;
/// The first of them; a short run comes to it too.
const FIRST_FULL: u64 = 8;
/// How many copies with faults are made of a list.
const COPIES: u64 = 8;

fn of(number: u64) -> (&'static str, u64, Turn) {
    match number % FULL_EACH {
        FIRST_FULL => ("full lists and strings", 1, full),
        _ => TURNS[(number % TURNS.len() as u64) as usize],
    }
}

pub fn name(number: u64) -> &'static str {
    of(number).0
}

pub fn run(number: u64, block: &mut Block) -> Checked {
    let (_, times, turn) = of(number);
    (0..times).try_for_each(|_| turn(block))
}

/// Counts the answer to a call.
fn note(block: &mut Block, call: &'static str, answer: Answered) -> Checked {
    block.tally.count(call, answer?);
    Ok(())
}

/// The right length mostly, else any from 0 to 40, or a null pointer.
fn any_length(rng: &mut Rng, right: usize) -> Option<usize> {
    match rng.below(64) {
        0 => None,
        1..=15 => Some(rng.below(*refusals::LENGTHS.end() as u64 + 1) as usize),
        _ => Some(right),
    }
}

fn samplers(block: &mut Block) -> Checked {
    let rng = &mut block.rng;
    let n = if rng.below(32) == 0 { 0 } else { uniform::any_n(rng) };
    let (h_len, out_len) = (any_length(rng, 16), any_length(rng, 8));
    let answer = refusals::uniform_of(rng, h_len, n, out_len);
    note(block, "uniform", answer)?;
    let rng = &mut block.rng;
    let (x, h_len) = (bernoulli::any_x(rng), any_length(rng, 16));
    let answer = refusals::bernoulli_of(rng, h_len, x);
    note(block, "Bernoulli", answer)?;
    let rng = &mut block.rng;
    let (q, out_len) = (threshold::any(rng), any_length(rng, threshold::WORDS));
    let answer = threshold::check(rng, q, out_len);
    note(block, "threshold", answer)?;
    let rng = &mut block.rng;
    let q = bernoulli::any_q(rng);
    let i = bernoulli::any_hash(rng, q);
    let answer = bernoulli::check(rng, i, q);
    note(block, "Bernoulli", answer)
}

fn hashes(block: &mut Block) -> Checked {
    let answer = match any_length(&mut block.rng, 32).unwrap_or(0) {
        32 => hash::check_any(&mut block.rng),
        out_len => hash::expect(&mut block.rng, [Some(b"Telescope"); 4], out_len, ffi::BAD_LENGTH, &[]),
    };
    note(block, "hash", answer)
}

fn small_cases(block: &mut Block) -> Checked {
    let rng = &mut block.rng;
    let u = if rng.below(8) == 0 { up_to(rng, u64::MAX - 1) } else { 1 + rng.below(1025) };
    let length = if rng.below(16) == 0 { rng.below(10) as usize } else { small_case::FIGURES };
    let c = small_case::any_c(rng);
    let answer = small_case::check(rng, u, c, length);
    note(block, "small case", answer)
}

/// Every pair in a short list; then lists of each shape and at the lengths that matter, each with some pair, and one as a search takes it,
/// these also with faults.
fn distinctness(block: &mut Block) -> Checked {
    distinct::every_pair(block, NUMBERS, 9)?;
    let each_shape = (0..SHAPES.len()).map(|shape| (shape, up_to(&mut block.rng, 4096) as usize));
    let mut wanted: Vec<(usize, usize)> = each_shape.collect();
    for count in [0, 1, 2, 1001 + block.rng.below(4096) as usize, ELEMENTS] {
        wanted.push((block.rng.below(SHAPES.len() as u64) as usize, count));
    }
    for (shape, count) in wanted {
        let plant = block.rng.below(PLANTS.len() as u64) as usize;
        let list = distinct::check_pair(block, shape, plant, count)?;
        check_faulty(block, list)?;
    }
    let len = up_to(&mut block.rng, ELEMENTS as u64);
    let list = draws::any_list(&mut block.rng, len as usize);
    distinct::check_list(block, &list)?;
    check_faulty(block, list)
}

fn check_faulty(block: &mut Block, mut list: List) -> Checked {
    (0..2).try_for_each(|_| {
        faults::in_list(&mut block.rng, &mut list);
        distinct::check_list(block, &list)
    })
}

/// Settings and lengths of every kind; then a search with what was planned for it, and some small ones.
fn planning(block: &mut Block) -> Checked {
    (0..5000).try_for_each(|_| plan::any(block))?;
    let mut settings = draws::any_settings(&mut block.rng);
    let list = draws::enough_elements(&mut block.rng, settings.set_size);
    draws::keep_within(&mut block.rng, &mut settings, &list, 1 << 14);
    let used = (0..list.len()).map(|place| list.data_of(place).len()).max().unwrap_or(0);
    let longest = if block.rng.below(4) == 0 { used + up_to(&mut block.rng, (BYTES - used) as u64) as usize } else { used };
    planned::check(block, &Planned { settings, list, longest })?;
    (0..32).try_for_each(|_| planned::any(block))
}

/// One list with three bounds: the one drawn as far as the work admits it, one at or near which the outcome may turn, and one of any
/// size. Where no try came to its bound, the tries go the same way under every greater one, so that is no more work.
fn search(block: &mut Block) -> Checked {
    let work = 1 << (8 + block.rng.below(12));
    let mut s = draws::any_settings(&mut block.rng);
    let list = draws::enough_elements(&mut block.rng, s.set_size);
    let most = draws::keep_within(&mut block.rng, &mut s, &list, work);
    let outcome = searches::check_and_verify(block, &s, &list)?;
    if outcome.count < s.dfs_bound {
        let dfs_bound = up_to(&mut block.rng, MOST.dfs_bound).max(s.dfs_bound);
        searches::check(block, &Settings { dfs_bound, ..s }, &list)?;
    }
    s.dfs_bound = searches::next_bound(&mut block.rng, &s, &outcome).min(most);
    searches::check_and_verify(block, &s, &list).map(|_| ())
}

/// Up to three faults in settings, list and workspace, each time of the same search; and that search with too few elements.
fn bad_to_prove(block: &mut Block) -> Checked {
    let mut settings = draws::any_settings(&mut block.rng);
    let list = match block.rng.below(4) {
        0 => {
            let len = up_to(&mut block.rng, settings.set_size - 1);
            draws::any_list(&mut block.rng, len as usize)
        }
        _ => draws::enough_elements(&mut block.rng, settings.set_size),
    };
    draws::keep_within(&mut block.rng, &mut settings, &list, 1 << 12);
    let given = prover_refusals::enough(settings, list);
    prover_refusals::check(block, &given)?;
    (0..COPIES).try_for_each(|_| prover_refusals::check_with_faults(block, given.clone()))
}

fn random_proof(block: &mut Block) -> Checked {
    let claim = draws::any_claim(&mut block.rng);
    verdicts::check(block, &claim)
}

/// Up to three faults, in turn in a proof that was found and in random elements.
fn bad_to_verify(block: &mut Block) -> Checked {
    for claim in [verifier_refusals::any_proof(&mut block.rng)?, draws::any_claim(&mut block.rng)] {
        (0..COPIES).try_for_each(|_| verifier_refusals::check_with_faults(block, &claim))?;
    }
    Ok(())
}

/// A list of any size there and back, its ticket changed, and the list with faults; the same with R, S and a list that is mostly short,
/// and some of these with each wrong number of blocks and in the first layout.
fn tickets(block: &mut Block) -> Checked {
    let len = up_to(&mut block.rng, ELEMENTS as u64);
    let list = draws::any_list(&mut block.rng, len as usize);
    let proof = Proof { list, ..tickets::any_proof(&mut block.rng) };
    tickets::of_proof(block, &proof)?;
    (0..64).try_for_each(|number| {
        let proof = tickets::any_proof(&mut block.rng);
        if number % 4 == 0 {
            block_counts::of_proof(block, &proof)?;
        }
        tickets::of_proof(block, &proof)
    })
}

/// Short lists of every kind, the sizes at the pool's limit, and a list of any size cut in two: searched over, and with faults.
fn pools(block: &mut Block) -> Checked {
    pool::every_length(block, NUMBERS)?;
    pool::sizes_at_the_limit(block)?;
    let mut settings = draws::any_settings(&mut block.rng);
    let list = draws::enough_elements(&mut block.rng, settings.set_size);
    draws::keep_within(&mut block.rng, &mut settings, &list, 1 << 14);
    let two = pool::cut(&mut block.rng, &list);
    pool::check_size(block, &two)?;
    pool::check_search(block, &two, &settings)?;
    (0..COPIES).try_for_each(|_| pool::check_with_faults(block, &two, settings))?;
    (0..32).try_for_each(|_| pool::any(block))
}

/// A run from the whole domain and small ones, each prepared and committed, changed in every way and with faults.
fn prepared(block: &mut Block) -> Checked {
    let mut settings = draws::any_settings(&mut block.rng);
    let list = draws::enough_elements(&mut block.rng, settings.set_size);
    draws::keep_within(&mut block.rng, &mut settings, &list, 1 << 14);
    let given = prover_refusals::enough(settings, list);
    prepare::check_pair(block, &given)?;
    prepare::check_changed(block, &given)?;
    (0..COPIES).try_for_each(|_| prepare::check_with_faults(block, given.clone()))?;
    (0..32).try_for_each(|_| prepare::any(block))
}

/// Two parties of one set size from the whole domain, and small ones: together, beside parties that differ from them in one number, with
/// other tables and with faults.
fn two_products(block: &mut Block) -> Checked {
    let mut settings = draws::any_settings(&mut block.rng);
    let list = draws::enough_elements(&mut block.rng, settings.set_size);
    let mut second = Settings { set_size: settings.set_size, ..draws::any_settings(&mut block.rng) };
    for s in [&mut settings, &mut second] {
        draws::keep_within(&mut block.rng, s, &list, 1 << 12);
    }
    let call = products::call(list, [settings, second], products::any_retry(&mut block.rng));
    products::check_some(block, &call)?;
    (0..COPIES).try_for_each(|_| product_refusals::check_with_faults(block, call.clone()))?;
    (0..16).try_for_each(|_| products::any(block))
}

/// A tree from the whole domain and small ones, each with bounds around the number of its chains and with faults; and all of some tries.
fn chains_counted(block: &mut Block) -> Checked {
    let mut settings = draws::any_settings(&mut block.rng);
    let len = up_to(&mut block.rng, 2 * settings.set_size);
    let list = draws::any_list(&mut block.rng, len as usize);
    draws::keep_within(&mut block.rng, &mut settings, &list, 1 << 12);
    let asked = chain_counts::any_tree(&mut block.rng, settings, list);
    chain_counts::check_tree(block, &asked)?;
    (0..COPIES).try_for_each(|_| chain_counts::check_with_faults(block, asked.clone()))?;
    chain_counts::some_tries(block)?;
    (0..16).try_for_each(|_| chain_counts::any(block))
}

/// One at a time: each holds some hundred megabytes.
static FULL: Mutex<()> = Mutex::new(());

/// The most elements that are admitted, each with the most data bytes, whole and with faults; and strings as long as a hash takes them
/// together, and one byte longer.
fn full(block: &mut Block) -> Checked {
    let _alone = FULL.lock().unwrap_or_else(PoisonError::into_inner);
    full_strings(block)?;
    let list = searches::list_of(&mut block.rng, ELEMENTS, BYTES, BYTES);
    distinct::check_list(block, &list)?;
    pool::check_size(block, &pool::Two::of(list.clone(), list.clone()))?;
    tickets::there_and_back(block, &Proof { retry: 1, search: 2, list: list.clone() })?;
    let settings = Settings { set_size: MOST.set_size, max_retries: 1, dfs_bound: 1000, ..draws::any_settings(&mut block.rng) };
    let given = prover_refusals::enough(settings, list);
    prover_refusals::check(block, &given)?;
    prover_refusals::check_with_faults(block, given.clone())?;
    prepare::check_pair(block, &given)?;
    // The second party is refused before its table is looked at, which of so much data takes long.
    let mut call = products::call(given.list.clone(), [settings, settings], 0);
    call.parties[1].retry_counter = 1;
    products::check_call(block, &call)?;
    let asked = chain_counts::any_tree(&mut block.rng, settings, given.list.clone());
    chain_checks::check(block, &asked)?;
    let claim = verdicts::Claim { list: given.list, ..draws::any_claim(&mut block.rng) };
    verdicts::check(block, &claim)?;
    verifier_refusals::check_with_faults(block, &claim)
}

fn full_strings(block: &mut Block) -> Checked {
    let mut quarter = vec![0; ffi::LONGEST / 4 + 1];
    block.rng.fill(&mut quarter);
    let before = quarter.clone();
    let (over, whole) = (Some(&quarter[..]), Some(&quarter[1..]));
    let answer = hash::check(&mut block.rng, [whole; 4]);
    note(block, "hash", answer)?;
    let mut strings = [whole; 4];
    strings[block.rng.below(4) as usize] = over;
    let answer = hash::expect(&mut block.rng, strings, 32, ffi::TOO_LONG, &[0; 32]);
    note(block, "hash", answer)?;
    if quarter != before {
        return Err("  strings of 2^29 bytes and more, which the seed gives: they are ALTERED\n".to_string());
    }
    Ok(())
}
