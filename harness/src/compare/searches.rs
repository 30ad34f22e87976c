//! `alba_prove` against the Rust: the outcome against `Telescope::prove`, the step count against `prove_routine`; with an X by itself both
//! against the specification's words (chains.rs); and what it leaves in every lent buffer against those words.

use super::blocks::{self, Block};
use super::fence::Fenced;
use super::{bernoulli, shown_list, verdicts, Checked, Run};
use crate::model::{chains, rules};
use crate::{
    ffi,
    ffi::Settings,
    list::{List, Placed},
    model::threshold::Threshold::{Alone, OfQ},
    original,
    original::ProofOf,
    rng::Rng,
};

/// Searches of one list, and of such a family, in a block.
const FAMILY: u64 = 4;
const BLOCK: u64 = 64;
/// The completeness of the realistic settings.
const COMPLETENESS: f64 = 128.0;

/// What a search came to: its number, and where there is a proof its counters and places.
#[derive(Debug, PartialEq)]
pub struct Outcome {
    pub number: u32,
    pub retry_counter: u64,
    pub search_counter: u64,
    pub count: u64,
    pub places: Vec<u32>,
}

impl Outcome {
    pub fn without_proof(number: u32, count: u64) -> Outcome {
        Outcome { number, retry_counter: 0, search_counter: 0, count, places: Vec::new() }
    }
}

/// Random small settings and lists. Each list is searched again with bounds at and around the count that came out before, where
/// the outcome turns from found to not found, and from the one to the other kind of that.
pub fn small(run: &mut Run, cases: u64) -> Checked {
    blocks::run(run, cases.div_ceil(FAMILY * BLOCK), |_, block| {
        for _ in 0..BLOCK {
            let mut settings = any_settings(&mut block.rng);
            let list = any_list(&mut block.rng, settings.set_size as usize);
            for _ in 0..FAMILY {
                let outcome = check_and_verify(block, &settings, &list)?;
                // With each turn the search could otherwise grow by the number of retries.
                settings.dfs_bound = next_bound(&mut block.rng, &settings, &outcome).min(1000);
            }
        }
        Ok(())
    })
}

/// Small-case settings as they are meant to be used, with lists from set_size elements on to more than are kept.
pub fn realistic(run: &mut Run, _: u64) -> Checked {
    let mut cases = Vec::new();
    for set_size in [1000, 200] {
        for (proof_size, times) in [(200, 1), (50, 5)] {
            for elements in [set_size, set_size + set_size / 4, 2 * set_size, 2 * set_size + 7] {
                cases.extend((0..times).map(|_| (original::small_case(set_size, proof_size, COMPLETENESS), elements)));
            }
        }
    }
    blocks::run(run, cases.len() as u64, |number, block| {
        let (settings, elements) = &cases[number as usize];
        let list = list_of_48(&mut block.rng, *elements);
        check_and_verify(block, settings, &list).map(|_| ())
    })
}

/// `n` elements of 48 random bytes and an index, as the Rust's own benchmarks have them.
pub fn list_of_48(rng: &mut Rng, n: u64) -> List {
    let mut list = List::default();
    let mut data = [0; 48];
    for index in 0..n {
        rng.fill(&mut data);
        list.push(&data, Some(index), 0);
    }
    list
}

/// One search, and where it finds a proof the verdicts on that and on its damaged copies.
pub fn check_and_verify(block: &mut Block, s: &Settings, list: &List) -> Result<Outcome, String> {
    let outcome = check(block, s, list)?;
    if outcome.number == 0 {
        verdicts::of_proof(block, s, list, &outcome)?;
    }
    Ok(outcome)
}

/// One search of a list that both serve, in workspace that is enough or more.
pub fn check(block: &mut Block, s: &Settings, list: &List) -> Result<Outcome, String> {
    let due = due(s, list)?;
    let workspace = (s.proof_size as usize + more(&mut block.rng), 3 * s.set_size as usize + 1 + more(&mut block.rng));
    check_in(block, s, list, &due, workspace)?;
    Ok(due)
}

/// The same with what is due at hand, in workspace of so many places and numbers of the bin table, which is enough: number, counters, count
/// and places, the bin table, and that nothing else has changed.
pub fn check_in(block: &mut Block, s: &Settings, list: &List, due: &Outcome, (places_len, table_len): (usize, usize)) -> Checked {
    let due_table = table_after(s, list, due);
    let rng = &mut block.rng;
    let out_len = if rng.below(16) == 0 { rng.below(3) as usize } else { 3 + more(rng) };
    let mut places = Fenced::new(rng, places_len, |word| word as u32);
    let mut table = Fenced::new(rng, table_len, |word| word as u32);
    let mut out = Fenced::new(rng, out_len, |word| word);
    let lent = list.clone();
    let ours = ffi::prove(s, lent.lent(), &mut places, &mut table, &mut out);

    let result = [due.retry_counter, due.search_counter, due.count];
    let result = if out_len < 3 { &[][..] } else { &result };
    let equal = ours == due.number && places.holds(&due.places) && table.holds(&due_table) && out.holds(result) && lent == *list;
    if !equal {
        return Err(format!(
            "  {s:?}\n{}  ours: {ours}\n  due: {}\n{}{}{}{}",
            shown_list(list),
            due.number,
            out.story("R, S and count", result),
            places.story("places", &due.places),
            table.story("bin table", &due_table),
            if lent == *list { String::new() } else { format!("  the list after:\n{}", shown_list(&lent)) }
        ));
    }
    block.tally.count("prove", ours);
    Ok(())
}

/// What a search comes to, 10 for too few elements too: with a q what the Rust answers, with an X by itself what the specification's words
/// do.
pub fn due(s: &Settings, list: &List) -> Result<Outcome, String> {
    match s.x {
        OfQ(_) => by_rust(s, list),
        Alone(_) => Ok(chains::search(s, list)),
    }
}

/// What comes out as the Rust's users get it, the count from its routine, which must come to the same. Too few elements only the users'
/// call refuses, so the routine isn't asked then, and the count is a refusal's, 0.
fn by_rust(s: &Settings, list: &List) -> Result<Outcome, String> {
    let elements = list.elements();
    let answer = original::prove(s, &elements);
    if let Err(number @ ffi::NOT_ENOUGH) = answer {
        return Ok(outcome(0, Err(number)));
    }
    let (count, by_routine) = original::prove_routine(s, &elements);
    let (by_users, by_routine) = (outcome(count, answer), outcome(count, by_routine));
    if by_users != by_routine {
        let list = shown_list(list);
        return Err(format!("  {s:?}\n{list}  the Rust's `Telescope::prove`: {by_users:?}\n  its `prove_routine`: {by_routine:?}\n"));
    }
    Ok(by_users)
}

/// The Rust's answer with a step count. A proof's elements know their places.
fn outcome(count: u64, answer: Result<ProofOf<Placed>, u32>) -> Outcome {
    match answer {
        Ok(proof) => Outcome {
            number: 0,
            retry_counter: proof.retry_counter,
            search_counter: proof.search_counter,
            count,
            places: proof.element_sequence.iter().map(|element| element.data.place).collect(),
        },
        Err(number) => Outcome::without_proof(number, count),
    }
}

/// The bin table after a search: that of the last try made, none where there was no try.
pub fn table_after(s: &Settings, list: &List, came_to: &Outcome) -> Vec<u32> {
    match s.max_retries {
        0 => Vec::new(),
        last => rules::bin_table(list, s.set_size, if came_to.number == 0 { came_to.retry_counter } else { last }),
    }
}

/// By how much a buffer is longer than it must be: often not at all.
fn more(rng: &mut Rng) -> usize {
    if rng.below(2) == 0 {
        0
    } else {
        rng.below(9) as usize
    }
}

/// Settings of searches that end soon.
pub fn any_settings(rng: &mut Rng) -> Settings {
    let set_size = match rng.below(3) {
        0 => 1 << rng.below(6),
        1 => 1 + rng.below(8),
        _ => 1 + rng.below(40),
    };
    let search_width = match rng.below(4) {
        0 => rng.below(4),
        _ => 1 + rng.below(40),
    };
    let bits = rng.below(10);
    Settings {
        set_size,
        proof_size: rng.below(13),
        max_retries: if rng.below(16) == 0 { 0 } else { 1 + rng.below(4) },
        search_width,
        dfs_bound: rng.below(2 << bits),
        x: OfQ(any_q(rng, search_width)),
    }
}

/// Both ends, both zeros, and such that no, a few, or most chains of full length pass.
pub fn any_q(rng: &mut Rng, one_in: u64) -> f64 {
    let part = (rng.word() >> 11) as f64 / (1u64 << 53) as f64;
    match rng.below(8) {
        0 => [0.0, -0.0][rng.below(2) as usize],
        1 => 1.0,
        2 => part,
        3 => bernoulli::any_q(rng),
        _ => part / (1 + one_in) as f64,
    }
}

/// A bound at or near which the outcome may turn; a greater one where the bound was what ended the search.
pub fn next_bound(rng: &mut Rng, s: &Settings, last: &Outcome) -> u64 {
    let count = last.count;
    match rng.below(8) {
        0..=3 if last.number == ffi::NOT_FOUND_IN_BOUNDS => count + 1 + rng.below(4 * count + 1),
        0 => count / s.max_retries.max(1),
        1 => rng.below(count + 1),
        2 => rng.below(4),
        3 => 2 * count + 1,
        4 => count + 1,
        5 => count,
        _ => count.saturating_sub(1),
    }
}

/// Enough elements for a set of this size, of which none is long.
pub fn any_list(rng: &mut Rng, set_size: usize) -> List {
    let len = any_len(rng, set_size);
    let longest = [0, 8, 48, 99][rng.below(4) as usize];
    list_of(rng, len, 0, longest)
}

/// From set_size elements to more than are kept.
pub fn any_len(rng: &mut Rng, set_size: usize) -> usize {
    match rng.below(4) {
        0 => set_size,
        1 => 2 * set_size + rng.below(9) as usize,
        _ => set_size + rng.below(set_size as u64 + 1) as usize,
    }
}

/// So many elements with data of these lengths; with and without index, with equal elements among them or nothing else, with bytes
/// behind the last.
pub fn list_of(rng: &mut Rng, len: usize, shortest: usize, longest: usize) -> List {
    let (indexed, repeats) = (rng.below(3), [0, 0, 0, 0, 1, 1, 1, 3][rng.below(8) as usize]);
    let mut list = List::default();
    let mut room = vec![0; longest];
    for place in 0..len {
        if place > 0 && rng.below(3) < repeats {
            list.repeat(rng.below(place as u64) as usize, rng.word());
            continue;
        }
        let data = &mut room[..shortest + rng.below((longest - shortest) as u64 + 1) as usize];
        rng.fill(data);
        let index = match indexed {
            0 => None,
            1 => Some(place as u64),
            _ => (rng.below(2) == 0).then(|| rng.word() >> rng.below(64)),
        };
        list.push(data, index, rng.word());
    }
    let behind = rng.below(4) as usize;
    list.data.resize(list.data.len() + behind, 0x5a);
    list
}
