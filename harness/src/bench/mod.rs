//! Speeds of the library, the Rust and OpenSSL, as a Markdown table.
//!
//! All work on the same buffers, which are filled once and not cleared between calls. The library is called by its C exports and
//! OpenSSL by its C functions; the Rust is another crate, of which the compiler may inline what it likes, as for any user.

mod counts;
mod distinctness;
mod measure;
mod openssl;
mod pools;
mod prepare;
mod products;
mod searches;
mod sizes;
mod steps;
mod tickets;

use crate::{
    args::{Bench, AGAIN},
    ffi,
    model::threshold::{self, Threshold::OfQ},
    rng::Rng,
};
use measure::{in_turns, Measured, Work, ROUNDS};
use sha2::{Digest, Sha256};
use std::{fs, hint::black_box, process};

const SHA2: &str = if cfg!(feature = "portable") { "`sha2`, portable code" } else { "`sha2` as it stands" };

pub fn run(part: Bench) -> Result<(), String> {
    if let Bench::OpenSsl(setting) = part {
        return hashes(&[openssl::SETTINGS[setting % openssl::SETTINGS.len()].0]);
    }
    let (cpu, has) = processor();
    println!("Processor: {cpu}, {} SHA instructions.\n", if has { "with" } else { "without" });
    println!("| work | against | ours | theirs | ours / theirs |\n|---|---|---|---|---|");
    match part {
        Bench::Steps => steps::run(),
        Bench::Tickets => tickets::run(),
        Bench::Distinctness => distinctness::run(),
        Bench::Sizes => sizes::run(),
        Bench::Pools => pools::run(),
        Bench::Prepare => prepare::run(),
        Bench::Products => products::run(),
        Bench::Counts => counts::run(),
        _ => whole(),
    }
}

fn whole() -> Result<(), String> {
    hashes(&[SHA2, "OpenSSL as it stands"])?;
    for setting in 0..openssl::SETTINGS.len() {
        again(setting)?;
    }
    samplers();
    distinctness::run()?;
    searches::run()?;
    steps::run()?;
    tickets::run()?;
    sizes::run()?;
    pools::run()?;
    prepare::run()?;
    products::run()?;
    counts::run()?;
    println!("\nThe ratio is of speeds: 1.00 is as fast, above it faster. Times are the thread's own; times and ratios are medians of {ROUNDS} rounds,");
    println!(
        "of {} for elements of 4,096 bytes, pools, two products and chains counted, of searches over their seeds; where nothing is found it is one search.",
        distinctness::FEW
    );
    Ok(())
}

/// A row: the two times are shown as MB/s where the call works on that many bytes.
fn row(work: &str, against: &str, ours: Measured, theirs: Measured, bytes: Option<usize>) {
    let show = |ns: f64| match bytes {
        Some(bytes) => format!("{:.0} MB/s", bytes as f64 / ns * 1e3),
        None if ns >= 1e7 => format!("{:.2} ms", ns / 1e6),
        None if ns >= 1e5 => format!("{:.0} µs", ns / 1e3),
        None => format!("{ns:.1} ns"),
    };
    println!("| {work} | {against} | {} | {} | {:.2} |", show(ours.ns), show(theirs.ns), theirs.longer);
}

/// Rows against the contenders named: OpenSSL last, and `sha2` before it if there are two.
fn hashes(against: &[&str]) -> Result<(), String> {
    let mut message = vec![0; 1 << 20];
    Rng::new(1, 0).fill(&mut message);
    let long = [&message[..], &[], &[], &[]];
    let short = [&message[..20], &message[20..52], &message[52..100], &message[100..108]];
    for (work, strings, bytes) in
        [("SHA-256 of 2^20 bytes in one string", long, Some(1 << 20)), ("SHA-256 of 108 bytes in four strings", short, None)]
    {
        if by_library(strings) != by_sha2(strings) || by_sha2(strings) != by_openssl(strings) {
            return Err(format!("harness: {work}: the digests differ"));
        }
        let [ours, theirs @ ..] = in_turns([by_library, by_sha2, by_openssl].map(|hash| work_of(hash, strings)));
        for (name, time) in against.iter().zip(&theirs[theirs.len() - against.len()..]) {
            row(work, name, ours, *time, bytes);
        }
    }
    Ok(())
}

/// The rows for another setting come from a process of their own, all contenders again in turns: OpenSSL reads its environment once,
/// when it starts.
fn again(setting: usize) -> Result<(), String> {
    let myself = std::env::current_exe().map_err(|e| format!("harness: {e}"))?;
    let mut command = process::Command::new(myself);
    command.args(["bench", AGAIN, &setting.to_string()]).env(openssl::CAPABILITIES, openssl::SETTINGS[setting].1);
    match command.status() {
        Ok(status) if status.success() => Ok(()),
        other => Err(format!("harness: {} failed: {other:?}", openssl::SETTINGS[setting].0)),
    }
}

fn work_of<'a>(hash: fn([&[u8]; 4]) -> [u8; 32], strings: [&'a [u8]; 4]) -> Work<'a> {
    Box::new(move |calls| {
        for _ in 0..calls {
            black_box(hash(black_box(strings)));
        }
    })
}

fn by_library(strings: [&[u8]; 4]) -> [u8; 32] {
    let mut out = [0; 32];
    ffi::sha256(strings.map(Some), &mut out[..]);
    out
}

fn by_sha2(strings: [&[u8]; 4]) -> [u8; 32] {
    strings.iter().fold(Sha256::new(), |hasher, string| hasher.chain_update(string)).finalize().into()
}

fn by_openssl(strings: [&[u8]; 4]) -> [u8; 32] {
    let mut out = [0; 32];
    openssl::sha256(strings, &mut out);
    out
}

fn samplers() {
    let mut rng = Rng::new(2, 0);
    let hashes: [[u8; 16]; 256] = std::array::from_fn(|_| rng.wide().to_be_bytes());
    let against = "the Rust";
    for (name, n) in [("n = 1000", 1000), ("n = 1024", 1024), ("n = 2^40 + 15", (1 << 40) + 15)] {
        let [ours, theirs] = in_turns([
            over(&hashes, move |h| {
                let mut out = [0; 8];
                let answer = ffi::sample_uniform(Some(h), black_box(n), &mut out[..]);
                black_box(&out);
                answer
            }),
            over(&hashes, move |h| oracle::sample_uniform(h, black_box(n))),
        ]);
        row(&format!("uniform, {name}"), against, ours, theirs, None);
    }
    let (q, x) = (0.3, OfQ(0.3).x());
    let theirs = move |h: &[u8; 16]| oracle::sample_bernoulli(h, black_box(q));
    let [by_x, by_q] = in_turns([over(&hashes, move |h| ffi::sample_bernoulli(Some(h), black_box(x))), over(&hashes, theirs)]);
    row("Bernoulli, X of q = 0.3", against, by_x, by_q, None);
    let converted = move |h: &[u8; 16]| {
        let mut out = [0; 2];
        ffi::threshold(black_box(q), &mut out[..]);
        ffi::sample_bernoulli(Some(h), threshold::whole(out[0], out[1]))
    };
    let [by_x, by_q] = in_turns([over(&hashes, converted), over(&hashes, theirs)]);
    row("X of q = 0.3, then Bernoulli", against, by_x, by_q, None);
}

fn over<'a, T>(hashes: &'a [[u8; 16]; 256], call: impl Fn(&[u8; 16]) -> T + 'a) -> Work<'a> {
    Box::new(move |calls| {
        for i in 0..calls {
            black_box(call(black_box(&hashes[i as usize % 256])));
        }
    })
}

/// The processor's name, and whether it has SHA instructions.
fn processor() -> (String, bool) {
    let text = fs::read_to_string("/proc/cpuinfo").unwrap_or_default();
    let line = |key: &str| text.lines().find(|l| l.starts_with(key)).and_then(|l| l.split_once(": ")).map(|(_, v)| v.to_string());
    let flags = line("flags").unwrap_or_default();
    (line("model name").unwrap_or("unknown".to_string()), flags.split(' ').any(|flag| flag == "sha_ni"))
}
