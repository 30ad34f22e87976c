//! Each export with arguments whose answer is known, made by the library and worked out by the Rust, the specification's table and words
//! and the harness's own tickets and sizes. Those for two lists pooled are in pool_calls.rs, those for prepare and commit in
//! prepare_calls.rs, those for two products in product_calls.rs, that for the chains of each length in count_calls.rs.

use super::parameters::Args;
use super::searches::Outcome;
use super::verdicts::{self, Claim};
use super::{count_calls, plan, pool_calls, prepare_calls, product_calls, searches, small_case, threshold, verifier_refusals};
use crate::model::{chains, rules};
use crate::{
    ffi,
    ffi::{Listed, Rooms, Settings},
    list::{List, Written},
    model::proof_size,
    model::proof_size::Figures,
    model::threshold::Threshold::{Alone, OfQ},
    model::threshold::{halves, whole},
    model::ticket,
    model::ticket::Proof,
    rng::Rng,
};
use sha2::{Digest, Sha256};

pub struct Export {
    pub name: &'static str,
    pub args: Args,
    /// What the arguments are answered.
    pub answer: u32,
    /// The call.
    pub ours: fn(&mut Args) -> u32,
    /// The number that is due, with what is due in each slice after the call.
    pub due: fn(&mut Args) -> Result<u32, String>,
}

/// Whether the arguments tell the parameters apart is no matter of chance: they are the same in each run.
pub const SEED: u64 = 0x43_c389_a516;

pub fn all() -> Result<Vec<Export>, String> {
    let (samplers, tickets) = ([uniform(), bernoulli(), converter(), hash(), small()], [write_ticket(), read_ticket(), stated_blocks()]);
    let searches = [distinct(), prove()?, verify()?];
    let (pools, prepared, products, counted) = (pool_calls::all()?, prepare_calls::all()?, product_calls::all()?, count_calls::all()?);
    let before = samplers.into_iter().chain(searches).chain(tickets).chain([plan(), size()]);
    Ok(before.chain(pools).chain(prepared).chain(products).chain([counted]).collect())
}

/// Parameters: h, n, out.
fn uniform() -> Export {
    let args = Args { numbers: vec![1000], bytes: vec![(1..=16).collect(), vec![0xa5; 8]], ..Args::default() };
    let ours = |args: &mut Args| {
        let [h, out] = &mut args.bytes[..] else { unreachable!("two slices of bytes") };
        ffi::sample_uniform(Some(h), args.numbers[0], &mut out[..])
    };
    let due = |args: &mut Args| {
        let [h, out] = &mut args.bytes[..] else { unreachable!("two slices of bytes") };
        let (Ok(h), 8) = (<&[u8; 16]>::try_from(&h[..]), out.len()) else {
            return Ok(ffi::BAD_LENGTH);
        };
        let value = oracle::sample_uniform(h, args.numbers[0]);
        value.iter().for_each(|value| out.copy_from_slice(&value.to_be_bytes()));
        Ok(value.map_or(ffi::NO_DRAW, |_| 0))
    };
    Export { name: "alba_sample_uniform", args, answer: 0, ours, due }
}

/// Parameters: h, x_high, x_low. X is the number after h's own, whose halves the other way about are a lesser one.
fn bernoulli() -> Export {
    let h: Vec<u8> = (1..=16).rev().collect();
    let args = Args { numbers: vec![0x100f_0e0d_0c0b_0a09, 0x0807_0605_0403_0202], bytes: vec![h], ..Args::default() };
    let ours = |args: &mut Args| ffi::sample_bernoulli(Some(&args.bytes[0]), whole(args.numbers[0], args.numbers[1]));
    let due = |args: &mut Args| {
        let i = u128::from_be_bytes(args.bytes[0][..].try_into().expect("16 bytes"));
        Ok(u32::from(i < whole(args.numbers[0], args.numbers[1])))
    };
    Export { name: "alba_sample_bernoulli", args, answer: 1, ours, due }
}

/// Parameters: q, out. Both words of X have digits of q.
fn converter() -> Export {
    let args = Args { double: 0.3 / (1u64 << 40) as f64, longs: vec![vec![7; threshold::WORDS]], ..Args::default() };
    let ours = |args: &mut Args| ffi::threshold(args.double, &mut args.longs[0][..]);
    let due = |args: &mut Args| {
        let (number, written) = threshold::due(args.double, args.longs[0].len());
        args.longs[0][..written.len()].copy_from_slice(&written);
        Ok(number)
    };
    Export { name: "alba_threshold", args, answer: 0, ours, due }
}

/// Parameters: four strings and out.
fn hash() -> Export {
    let bytes = ["a", "bc", "def", "ghij"].iter().map(|string| string.as_bytes().to_vec()).chain([vec![0xa5; 32]]).collect();
    let ours = |args: &mut Args| {
        let [a, b, c, d, out] = &mut args.bytes[..] else { unreachable!("five slices of bytes") };
        ffi::sha256([Some(a), Some(b), Some(c), Some(d)], &mut out[..])
    };
    let due = |args: &mut Args| {
        let [strings @ .., out] = &mut args.bytes[..] else { unreachable!("five slices of bytes") };
        if out.len() != 32 {
            return Ok(ffi::BAD_LENGTH);
        }
        out.copy_from_slice(&Sha256::digest(strings.concat()));
        Ok(0)
    };
    Export { name: "alba_sha256", args: Args { bytes, ..Args::default() }, answer: 0, ours, due }
}

/// Parameters: u, c, out.
fn small() -> Export {
    let args = Args { numbers: vec![200], double: 128.0, longs: vec![vec![7; small_case::FIGURES]], ..Args::default() };
    let ours = |args: &mut Args| ffi::small_case(args.numbers[0], args.double, &mut args.longs[0][..]);
    let due = |args: &mut Args| {
        let (number, written) = small_case::due(args.numbers[0], args.double, args.longs[0].len());
        args.longs[0][..written.len()].copy_from_slice(&written);
        Ok(number)
    };
    Export { name: "alba_small_case", args, answer: 0, ours, due }
}

/// Parameters: data, ends, marks, indexes. The data are lawful marks and the marks lawful data: the elements differ in their indexes, and
/// with these unmarked in nothing.
fn distinct() -> Export {
    let args = Args { bytes: vec![vec![0, 0], vec![1, 1]], words: vec![vec![1, 2]], longs: vec![vec![8, 9]], ..Args::default() };
    let ours = |args: &mut Args| ffi::check_distinct(list_of(args).lent());
    let due = |args: &mut Args| Ok(rules::distinctness(&list_of(args)));
    Export { name: "alba_check_distinct", args, answer: 0, ours, due }
}

/// Parameters: set_size, proof_size, max_retries, search_width, dfs_bound, x_high, x_low, data, ends, marks, indexes, places, table, out.
/// Workspace is enough in most orders of the settings, so that they are searches too.
fn prove() -> Result<Export, String> {
    let s = Settings { set_size: 5, proof_size: 3, max_retries: 9, search_width: 4, dfs_bound: 60, x: OfQ(0.005) };
    // The try that finds is past search_width, so that the retries can't be as few.
    let (list, proof) = found(&s, |_, found| found.retry_counter > 4)?;
    let [x_high, x_low] = halves(least_x(&s, &list, &proof)?);
    let args = Args {
        numbers: vec![s.set_size, s.proof_size, s.max_retries, s.search_width, s.dfs_bound, x_high, x_low],
        bytes: vec![list.data, list.marks],
        words: vec![list.ends, vec![0xa5a5; 100], vec![0x5a5a; 200]],
        longs: vec![list.indexes, vec![7; 4]],
        ..Args::default()
    };
    let ours = |args: &mut Args| {
        let (s, bytes) = (settings(args), &args.bytes);
        let ([ends, places, table], [indexes, out]) = (&mut args.words[..], &mut args.longs[..]) else { unreachable!("three and two") };
        let list = Listed { data: Some(&bytes[0]), ends: Some(ends), marks: Some(&bytes[1]), indexes: Some(indexes) };
        ffi::prove(&s, list, &mut places[..], &mut table[..], &mut out[..])
    };
    Ok(Export { name: "alba_prove", args, answer: 0, ours, due: prove_due })
}

fn prove_due(args: &mut Args) -> Result<u32, String> {
    let (s, list) = (settings(args), list_of(args));
    let ([_, places, table], [_, out]) = (&mut args.words[..], &mut args.longs[..]) else { unreachable!("three and two") };
    let (number, result) = match rules::prover(&s, &list, places.len(), table.len()) {
        Err(number) => (number, [0; 3]),
        Ok(()) => {
            let due = searches::due(&s, &list)?;
            let due_table = searches::table_after(&s, &list, &due);
            places[..due.places.len()].copy_from_slice(&due.places);
            table[..due_table.len()].copy_from_slice(&due_table);
            (due.number, [due.retry_counter, due.search_counter, due.count])
        }
    };
    if let Some(first) = out.first_chunk_mut() {
        *first = result;
    }
    Ok(number)
}

/// Parameters: set_size, proof_size, max_retries, search_width, dfs_bound, x_high, x_low, retry_counter, search_counter, data, ends, marks,
/// indexes.
fn verify() -> Result<Export, String> {
    let s = Settings { set_size: 11, proof_size: 5, max_retries: 7, search_width: 41, dfs_bound: 1 << 33, x: OfQ(0.0015) };
    // All nine numbers are different, S is no lawful R, and the try isn't the first.
    let (list, proof) = found(&s, |_, found| {
        let (retry, search) = (found.retry_counter, found.search_counter);
        ![1, s.proof_size, s.max_retries].contains(&retry) && search > s.max_retries && search != s.set_size
    })?;
    let claim = Claim::of(&s, &list, &proof);
    // X is just above the number of the last hash, and below it with its words in each other's place. Both are over every limit.
    let [high, _] = halves(chains::last_number(&claim).filter(|_| verdicts::by_rust(&claim) == 0).ok_or("  the proof has no chain\n")?);
    let (x_high, x_low) = (high + 1, 1 << 49);
    let Claim { retry_counter, search_counter, list, .. } = claim;
    let Written { data, ends, marks, indexes } = list.written();
    let counters = [retry_counter, search_counter];
    let args = Args {
        numbers: [&[s.set_size, s.proof_size, s.max_retries, s.search_width, s.dfs_bound, x_high, x_low][..], &counters].concat(),
        bytes: vec![data, ends, marks, indexes],
        ..Args::default()
    };
    let ours = |args: &mut Args| ffi::verify(&settings(args), args.numbers[7], args.numbers[8], written(args).lent());
    let due = |args: &mut Args| {
        let (settings, retry_counter, search_counter) = (settings(args), args.numbers[7], args.numbers[8]);
        let judge = |list: List| chains::verify(&Claim { settings, retry_counter, search_counter, list });
        Ok(verifier_refusals::due(&settings, &written(args)).map_or_else(|number| number, judge))
    };
    Ok(Export { name: "alba_verify", args, answer: 0, ours, due })
}

/// Parameters: retry, search, data, ends, marks, indexes, ticket, out. The data are lawful marks and the marks lawful data.
fn write_ticket() -> Export {
    let args = Args {
        numbers: vec![3, 4],
        bytes: vec![vec![0, 1], vec![1, 1], vec![0xa5; 600]],
        words: vec![vec![1, 2]],
        longs: vec![vec![8, 9], vec![7; 2]],
        ..Args::default()
    };
    let ours = |args: &mut Args| {
        let ([data, marks, ticket], [indexes, out]) = (&mut args.bytes[..], &mut args.longs[..]) else { unreachable!("three and two") };
        let list = Listed { data: Some(data), ends: Some(&args.words[0]), marks: Some(marks), indexes: Some(indexes) };
        ffi::write_ticket(args.numbers[0], args.numbers[1], list, &mut ticket[..], &mut out[..])
    };
    let due = |args: &mut Args| {
        let list = list_of(args);
        let answer = ticket::write(args.numbers[0], args.numbers[1], &list, &mut args.bytes[2]);
        args.longs[1][0] = answer.map_or(0, |blocks| blocks as u64);
        Ok(answer.err().unwrap_or(0))
    };
    Export { name: "alba_write_ticket", args, answer: 0, ours, due }
}

/// Parameters: ticket, data, ends, marks, indexes, out. Each buffer has room for what belongs into another of its type.
fn read_ticket() -> Export {
    let mut list = List::default();
    list.push(b"ab", Some(9), 0);
    list.push(b"c", None, 0);
    let args = Args {
        bytes: vec![ticket::of(&Proof { retry: 3, search: 4, list }), vec![0xa5; 600], vec![0x5a; 600]],
        words: vec![vec![7; 5]],
        longs: vec![vec![7; 5], vec![6; 5]],
        ..Args::default()
    };
    let ours = |args: &mut Args| {
        let ([ticket, data, marks], [indexes, out]) = (&mut args.bytes[..], &mut args.longs[..]) else { unreachable!("three and two") };
        let rooms = Rooms { data: &mut data[..], ends: &mut args.words[0][..], marks: &mut marks[..], indexes: &mut indexes[..] };
        ffi::read_ticket(Some(ticket), rooms, &mut out[..])
    };
    let due = |args: &mut Args| {
        let ([ticket, data, marks], [indexes, out]) = (&mut args.bytes[..], &mut args.longs[..]) else { unreachable!("three and two") };
        let answer = ticket::read(ticket, data, &mut args.words[0], marks, indexes);
        let told = answer.unwrap_or_default();
        out[..4].copy_from_slice(&[told.retry, told.search, told.count as u64, told.len as u64]);
        Ok(answer.err().unwrap_or(0))
    };
    Export { name: "alba_read_ticket", args, answer: 0, ours, due }
}

/// Parameter: ticket.
fn stated_blocks() -> Export {
    let args = Args { bytes: vec![ticket::of(&Proof::default())], ..Args::default() };
    let ours = |args: &mut Args| ffi::stated_blocks(Some(&args.bytes[0])) as u32;
    let due = |args: &mut Args| Ok(ticket::stated_blocks(&args.bytes[0]) as u32);
    Export { name: "alba_stated_blocks", args, answer: 1, ours, due }
}

/// Parameters: set_size, proof_size, max_retries, search_width, dfs_bound, x_high, x_low, longest, out. X's words are over every limit,
/// dfs_bound over all but its own, and search_width over all but these two.
fn plan() -> Export {
    let args = Args {
        numbers: vec![5, 3, 9, 1 << 31, 1 << 40, 3 << 62, 1 << 50, 700],
        longs: vec![vec![7; plan::FIGURES + 1]],
        unread: &[5, 6],
        ..Args::default()
    };
    let ours = |args: &mut Args| ffi::plan(&settings(args), args.numbers[7], &mut args.longs[0][..]);
    let due = |args: &mut Args| {
        let (number, written) = plan::due(&settings(args), args.numbers[7]);
        args.longs[0][..written.len()].copy_from_slice(&written);
        Ok(number)
    };
    Export { name: "alba_plan", args, answer: 0, ours, due }
}

/// Parameters: s, c, n, f, out. In another order the figures have another size or are out of range.
fn size() -> Export {
    let args = Args { numbers: vec![20, 50, 1000, 200], longs: vec![vec![7; 2]], ..Args::default() };
    let ours = |args: &mut Args| ffi::proof_size(&figures_of(args), &mut args.longs[0][..]);
    let due = |args: &mut Args| {
        let size = proof_size::due(&figures_of(args));
        args.longs[0][0] = size.unwrap_or(0);
        Ok(size.err().unwrap_or(0))
    };
    Export { name: "alba_proof_size", args, answer: 0, ours, due }
}

fn figures_of(args: &Args) -> Figures {
    let [s, c, n, f] = args.numbers[..] else { unreachable!("four numbers") };
    Figures { s, c, n, f }
}

/// A list of which the Rust finds a proof that is wanted, and the proof.
pub fn found(s: &Settings, is_wanted: impl Fn(&List, &Outcome) -> bool) -> Result<(List, Outcome), String> {
    let mut rng = Rng::new(SEED, s.set_size);
    loop {
        let list = searches::list_of(&mut rng, 2 * s.set_size as usize + 1, 1, 9);
        let outcome = searches::due(s, &list)?;
        if outcome.number == 0 && is_wanted(&list, &outcome) {
            return Ok((list, outcome));
        }
    }
}

/// The least X under which the first chain that passes is still that of the proof, which the Rust found with a greater X: the next number
/// after that of the chain's last hash. So every digit of both words counts.
pub fn least_x(s: &Settings, list: &List, proof: &Outcome) -> Result<u128, String> {
    let number = chains::last_number(&Claim::of(s, list, proof));
    let x = 1 + number.ok_or("  the proof that the Rust found has no chain by the specification's words\n")?;
    match chains::search(&Settings { x: Alone(x), ..*s }, list) {
        same if same == *proof => Ok(x),
        other => Err(format!("  {s:?}\n  the Rust: {proof:?}\n  by the specification's words, with the least X: {other:?}\n")),
    }
}

pub fn settings(args: &Args) -> Settings {
    settings_at(args, 0)
}

/// Those that begin with this one of the numbers.
pub fn settings_at(args: &Args, from: usize) -> Settings {
    let [set_size, proof_size, max_retries, search_width, dfs_bound, x_high, x_low, ..] = args.numbers[from..] else {
        unreachable!("seven numbers or more")
    };
    Settings { set_size, proof_size, max_retries, search_width, dfs_bound, x: Alone(whole(x_high, x_low)) }
}

/// The list of a call that takes ends and indexes as numbers.
pub fn list_of(args: &Args) -> List {
    list_of_words(args, 0)
}

/// The same where the ends are this one of the slices of u32.
pub fn list_of_words(args: &Args, ends: usize) -> List {
    let Args { bytes, words, longs, .. } = args;
    List { data: bytes[0].clone(), ends: words[ends].clone(), marks: bytes[1].clone(), indexes: longs[0].clone() }
}

/// The list of a call that takes all as bytes.
fn written(args: &Args) -> Written {
    let [data, ends, marks, indexes] = args.bytes.clone().try_into().expect("four slices of bytes");
    Written { data, ends, marks, indexes }
}
