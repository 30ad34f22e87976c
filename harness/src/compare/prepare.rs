//! `alba_prepare` and `alba_commit`: the digest against the harness's own bytes and `sha2` (model/prepare.rs), what is refused by the order of
//! the lines, and what commit comes to against what the Rust's prover comes to on the list that it is handed.

use super::blocks::{self, Block};
use super::changed_runs::{COVERED, UNREAD};
use super::fence::Fenced;
use super::prover_refusals::{enough, Given};
use super::searches::{self, Outcome};
use super::{bernoulli, faults, hex, shown_list, verdicts, Checked, Run};
use crate::model::prepare::{self, DIGEST};
use crate::model::rules::{BYTES, ELEMENTS, MOST};
use crate::model::threshold::Threshold::{Alone, OfQ};
use crate::{ffi, ffi::Settings};

/// Random runs in a block, and searches of each of them.
const BLOCK: u64 = 50;
const FAMILY: u64 = 3;
/// Up to so many data bytes of one element each length comes: the bytes hashed then end at every place of a block.
const LENGTHS: usize = 140;

/// The answers that must have come to each call.
const ANSWERS: [(&str, &[u32]); 2] = [("prepare", &[0, 1, 2, 4, 5, 6, 8, 10]), ("commit", &[0, 1, 2, 4, 5, 6, 8, 10, 11, 12, 46])];

/// A digest that isn't the one of the run.
const WRONG_DIGEST: &str = "a digest wrong in one bit";

/// Every kind of change, with the answer of commit: 46, or that of a search, which is counted as 0.
pub fn kinds() -> impl Iterator<Item = (&'static str, Option<u32>)> {
    let covered = COVERED.iter().map(|(name, _)| (*name, Some(ffi::RUN_CHANGED)));
    let unread = UNREAD.iter().map(|(name, _)| (*name, Some(0)));
    covered.chain(unread).chain([(WRONG_DIGEST, Some(ffi::RUN_CHANGED))])
}

pub fn run(run: &mut Run, cases: u64) -> Checked {
    blocks::run(run, LENGTHS as u64 + 1, |len, block| every_length(block, len as usize))?;
    blocks::run(run, 1, |_, block| {
        every_digest_length(block)?;
        nulls(block)
    })?;
    blocks::run(run, LINES.len() as u64, |line, block| every_order(block, LINES[line as usize]))?;
    let large = large();
    blocks::run(run, large.len() as u64, |number, block| check_changed(block, &large[number as usize]))?;
    blocks::run(run, cases.div_ceil(BLOCK), |_, block| (0..BLOCK).try_for_each(|_| any(block)))?;
    let answers = ANSWERS.iter().flat_map(|(call, answers)| answers.iter().map(|answer| (*call, Some(*answer))));
    run.tally.none_missing(answers)?;
    run.seen.none_missing(kinds())
}

/// Settings of a search that ends at once.
fn short() -> Settings {
    Settings { set_size: 2, proof_size: 2, max_retries: 2, search_width: 3, dfs_bound: 40, x: OfQ(0.2) }
}

/// Lists with an element of so many bytes in front, in the middle and at the end, with and without index, and with each change; one of them
/// with a digest wrong in each of its bits.
fn every_length(block: &mut Block, len: usize) -> Checked {
    for (place, is_marked) in (0..6).map(|n| (n / 2, n % 2 == 1)) {
        let mut list = faults::long_list(place, 3);
        list.push(&vec![0x5a; len], is_marked.then_some(block.rng.word()), block.rng.word());
        (place..2).for_each(|_| list.push(b"ab", None, block.rng.word()));
        let given = enough(short(), list);
        check_pair(block, &given)?;
        check_changed(block, &given)?;
        if (place, is_marked) == (1, true) {
            let digest = prepare::digest(&given.settings, &given.list);
            (0..8 * DIGEST).try_for_each(|bit| check_wrong(block, &given, digest, bit))?;
        }
    }
    Ok(())
}

/// The digest with one bit another.
fn check_wrong(block: &mut Block, given: &Given, mut digest: [u8; DIGEST], bit: usize) -> Checked {
    digest[bit / 8] ^= 1 << (bit % 8);
    let outcome = check_commit(block, given, Some(&digest))?;
    block.seen.count(WRONG_DIGEST, outcome.number);
    Ok(())
}

/// Lent places and digests of every other length, with each other fault and without one: 8 comes first.
fn every_digest_length(block: &mut Block) -> Checked {
    let whole = enough(short(), faults::long_list(3, 2));
    let mut faulty = vec![whole.clone()];
    faulty.extend([(0, 7), (1025, 7), (2, 6), (2, 7)].map(|(proof_size, table)| Given {
        settings: Settings { proof_size, set_size: if proof_size == 0 { 0 } else { 2 }, ..short() },
        table,
        ..whole.clone()
    }));
    faulty[4].list.marks[1] = 2;
    for given in &faulty {
        let digest = prepare::digest(&short(), &whole.list);
        let bytes = [&digest[..], &digest[..8]].concat();
        for len in (0..=bytes.len()).map(Some).chain([None]) {
            check_prepare(block, given, len)?;
            check_commit(block, given, len.map(|len| &bytes[..len]))?;
        }
    }
    Ok(())
}

/// Null pointers with length 0 are an empty list and no workspace.
fn nulls(block: &mut Block) -> Checked {
    let nothing = ffi::Listed { data: None, ends: None, marks: None, indexes: None };
    let mut out = Fenced::new(&mut block.rng, DIGEST, |word| word as u8);
    let s = Settings { proof_size: 0, ..short() };
    let room = [0; 7];
    let prepared = [
        ffi::prepare(&s, nothing, None, None, &mut out),
        ffi::prepare(&s, nothing, None, Some(&room), &mut out),
        ffi::prepare(&s, faults::long_list(2, 0).lent(), None, None, &mut out),
    ];
    let (mut places, mut table) = (Fenced::null(&mut block.rng, |word| word as u32), Fenced::new(&mut block.rng, 7, |word| word as u32));
    let mut none = Fenced::null(&mut block.rng, |word| word);
    let committed = ffi::commit(&s, Some(&[0; DIGEST]), nothing, &mut places, &mut table, &mut none);
    let ours = (prepared, committed, out.holds(&[]), table.holds(&[]));
    if ours != ([ffi::TOO_SHORT, ffi::NOT_ENOUGH, ffi::TOO_SHORT], ffi::NOT_ENOUGH, true, true) {
        return Err(format!("  null pointers: {ours:?}\n"));
    }
    block.tally.count("prepare", prepared[0]);
    Ok(())
}

/// The settings as they should be, with the set size out of range, with another number over its limit, and with both.
const LINES: [fn(&mut Settings); 4] =
    [|_| (), |s| s.set_size = 0, |s| s.proof_size = 1025, |s| (s.set_size, s.proof_size) = (32_769, 1025)];

/// With these settings every other refusal, alone and with each of the others: of the list, of each workspace, of too few elements, and of
/// the digest.
fn every_order(block: &mut Block, line: fn(&mut Settings)) -> Checked {
    for (fault, set_size) in (0..6).map(|n| (n % 3, if n < 3 { 3 } else { 6 })) {
        let mut list = faults::long_list(4, 2);
        match fault {
            0 => (),
            1 => list.marks[3] = 2,
            _ => list.push(&[7; BYTES + 1], None, 0),
        }
        for (places, table) in [(0, 0), (1, 0), (0, 1), (1, 1)] {
            let mut settings = Settings { set_size, ..short() };
            line(&mut settings);
            let given = Given { settings, list: list.clone(), places: 2 - places, table: 3 * set_size as usize + 1 - table };
            check_prepare(block, &given, Some(DIGEST))?;
            // A digest of a run with a bad list there is not.
            let right = if fault == 1 { [0; DIGEST] } else { prepare::digest(&settings, &list) };
            let wrong = right.map(|byte| byte ^ 0x10);
            [&right[..], &wrong, &right[1..]].into_iter().try_for_each(|digest| check_commit(block, &given, Some(digest)).map(|_| ()))?;
        }
    }
    Ok(())
}

/// Every setting and the list at its limit: as many elements as there may be, without data and with a byte, and elements with the most data.
fn large() -> Vec<Given> {
    let wide = Settings { set_size: MOST.set_size, proof_size: 3, max_retries: 1, search_width: 40, dfs_bound: 1000, x: OfQ(0.01) };
    let deep = Settings { set_size: 1, proof_size: 1024, max_retries: 1, search_width: 1, dfs_bound: 1025, x: OfQ(1.0) };
    let most = Settings { max_retries: 0, ..MOST };
    let every = Settings { set_size: 1, proof_size: 0, x: Alone(u128::MAX), ..MOST };
    [
        (wide, faults::long_list(ELEMENTS, 0)),
        (wide, faults::long_list(ELEMENTS, 1)),
        (most, faults::long_list(ELEMENTS, 1)),
        (deep, faults::long_list(1, 1)),
        (every, faults::long_list(3, BYTES)),
    ]
    .map(|(settings, list)| enough(settings, list))
    .to_vec()
}

/// A random run: prepared and committed with bounds around the one where the outcome turns, changed in every way, and with faults.
pub fn any(block: &mut Block) -> Checked {
    let mut settings = searches::any_settings(&mut block.rng);
    if block.rng.below(8) == 0 {
        settings.x = Alone(bernoulli::any_x(&mut block.rng));
    }
    let mut given = enough(settings, searches::any_list(&mut block.rng, settings.set_size as usize));
    for _ in 0..FAMILY {
        let outcome = check_pair(block, &given)?;
        given.settings.dfs_bound = searches::next_bound(&mut block.rng, &given.settings, &outcome).min(1000);
    }
    check_changed(block, &given)?;
    check_with_faults(block, given)
}

/// Prepare, and commit with what it gives, in other workspace.
pub fn check_pair(block: &mut Block, given: &Given) -> Result<Outcome, String> {
    let rng = &mut block.rng;
    let more = [0, 0, rng.below(9), rng.below(9)].map(|more| more as usize);
    let [one, other] = [rng.below(4) as usize, rng.below(4) as usize];
    let roomy = Given { places: given.places + more[one], table: given.table + more[other], ..given.clone() };
    let digest = check_prepare(block, &roomy, Some(DIGEST))?.unwrap_or([0; DIGEST]);
    check_commit(block, given, Some(&digest))
}

/// Commit with the digest of the run before each change, and prepare after it. The workspace grows with proof_size, and by one set size, so
/// that most changes pass the checks.
pub fn check_changed(block: &mut Block, given: &Given) -> Checked {
    let digest = check_prepare(block, given, Some(DIGEST))?.unwrap_or([0; DIGEST]);
    for (is_covered, (name, change)) in COVERED.map(|kind| (true, kind)).into_iter().chain(UNREAD.map(|kind| (false, kind))) {
        let mut after = given.clone();
        if !change(&mut block.rng, &mut after.settings, &mut after.list) {
            continue;
        }
        (after.places, after.table) = (after.places.max(after.settings.proof_size.min(2000) as usize), after.table + 3);
        check_prepare(block, &after, Some(DIGEST))?;
        let outcome = check_commit(block, &after, Some(&digest))?;
        block.seen.count(name, if is_covered { outcome.number } else { 0 });
    }
    let bit = block.rng.below(8 * DIGEST as u64) as usize;
    check_wrong(block, given, digest, bit)
}

/// Up to three faults in settings, list and workspace, with the digest of the run without them and with another.
pub fn check_with_faults(block: &mut Block, mut given: Given) -> Checked {
    let mut digest = prepare::digest(&given.settings, &given.list);
    for _ in 0..1 + block.rng.below(3) {
        let rng = &mut block.rng;
        match rng.below(8) {
            0..=1 => faults::in_settings(rng, &mut given.settings),
            2..=4 => faults::in_short_list(rng, &mut given.list),
            5 => given.places = given.places.saturating_sub(1),
            6 => given.table = given.table.saturating_sub(1),
            _ => given.settings.set_size = (given.list.len() as u64 + 1).min(MOST.set_size),
        }
    }
    let out = if block.rng.below(8) == 0 { block.rng.below(40) as usize } else { DIGEST };
    check_prepare(block, &given, Some(out))?;
    check_commit(block, &given, Some(&digest))?;
    block.rng.fill(&mut digest);
    let len = if block.rng.below(4) == 0 { block.rng.below(DIGEST as u64) as usize } else { DIGEST };
    check_commit(block, &given, Some(&digest[..len])).map(|_| ())
}

/// One call of prepare, with a lent place of so many bytes or a null pointer: the digest or the refusal's number, and that nothing else has
/// changed. Places and bin table are read by nobody, so that any numbers stand there.
pub fn check_prepare(block: &mut Block, given: &Given, out_len: Option<usize>) -> Result<Option<[u8; DIGEST]>, String> {
    let rng = &mut block.rng;
    let Given { settings, list, places, table } = given;
    let mut out = match out_len {
        Some(len) => Fenced::new(rng, len, |word| word as u8),
        None => Fenced::null(rng, |word| word as u8),
    };
    let room: [Vec<u32>; 2] = [*places, *table].map(|len| (0..len).map(|_| rng.word() as u32).collect());
    let (lent, was) = (list.clone(), room.clone());
    let ours = ffi::prepare(settings, lent.lent(), Some(&room[0]), Some(&room[1]), &mut out);

    let due = prepare::prepare(settings, list, (*places, *table), out.len());
    let (number, written) = (due.err().unwrap_or(0), due.as_ref().map_or(&[][..], |digest| digest));
    let is_kept = lent == *list && room == was;
    if ours != number || !out.holds(written) || !is_kept {
        return Err(format!(
            "{}  prepare, ours: {ours}\n  due: {number}\n{}  what was lent is {}\n",
            shown(given),
            out.story("digest", written),
            verdicts::as_it_was(is_kept)
        ));
    }
    block.tally.count("prepare", ours);
    Ok(due.ok())
}

fn shown(given: &Given) -> String {
    format!("  {:?}, workspace {} and {}\n{}", given.settings, given.places, given.table, shown_list(&given.list))
}

/// One call of commit with this digest, or a null pointer: what the Rust's prover comes to on the list, or the refusal's number with nothing
/// altered.
pub fn check_commit(block: &mut Block, given: &Given, digest: Option<&[u8]>) -> Result<Outcome, String> {
    let (due, due_table) = due(given, digest.unwrap_or(&[]))?;
    let rng = &mut block.rng;
    let Given { settings, list, places, table } = given;
    let out_len = [0, 2, 3, 3, 3, 3, 5][rng.below(7) as usize];
    let mut places = Fenced::new(rng, *places, |word| word as u32);
    let mut table = Fenced::new(rng, *table, |word| word as u32);
    let mut out = Fenced::new(rng, out_len, |word| word);
    let (lent, handed) = (list.clone(), digest.map(<[u8]>::to_vec));
    let ours = ffi::commit(settings, handed.as_deref(), lent.lent(), &mut places, &mut table, &mut out);

    let result = [due.retry_counter, due.search_counter, due.count];
    // Of a digest of another length nothing is said but its number.
    let result = if out_len < 3 || due.number == ffi::BAD_LENGTH { &[][..] } else { &result };
    let is_written = places.holds(&due.places) && table.holds(&due_table) && out.holds(result);
    let is_kept = lent == *list && handed.as_deref() == digest;
    if ours != due.number || !is_written || !is_kept {
        return Err(format!(
            "{}  commit with {}, ours: {ours}\n  due: {}\n{}{}{}  what was lent is {}\n",
            shown(given),
            digest.map_or("a null pointer".to_string(), hex),
            due.number,
            out.story("R, S and count", result),
            places.story("places", &due.places),
            table.story("bin table", &due_table),
            verdicts::as_it_was(is_kept)
        ));
    }
    block.tally.count("commit", ours);
    Ok(due)
}

/// What is due of commit, with the bin table: a refusal by the order of the lines, or what the search comes to.
pub fn due(given: &Given, digest: &[u8]) -> Result<(Outcome, Vec<u32>), String> {
    let Given { settings, list, places, table } = given;
    if let Err(number) = prepare::commit(settings, digest, list, (*places, *table)) {
        return Ok((Outcome::without_proof(number, 0), Vec::new()));
    }
    let outcome = searches::due(settings, list)?;
    let table = searches::table_after(settings, list, &outcome);
    Ok((outcome, table))
}
