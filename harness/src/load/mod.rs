//! The library against the original Rust for as long as asked: settings and lists from the whole of the specification's domain, and bad
//! input of every kind.

pub mod draws;
mod turns;

use crate::args::Load;
use crate::compare::blocks::{self, Block, Tally};
use crate::compare::{block_counts, chain_counts, planned, planted, pool, prepare, products, Checked};
use std::panic::{self, AssertUnwindSafe};
use std::sync::{Mutex, MutexGuard, PoisonError};
use std::thread;
use std::time::{Duration, Instant};

/// The exported calls, as the tallies name them; that for two products by each party's answers.
const CALLS: [&str; 21] = [
    "uniform",
    "Bernoulli",
    "threshold",
    "hash",
    "small case",
    "distinctness",
    "prove",
    "verify",
    "write ticket",
    "read ticket",
    "stated count",
    "plan",
    "proof size",
    "pool size",
    "pool data",
    "prove pool",
    "prepare",
    "commit",
    "first party",
    "second party",
    "count chains",
];
/// How often a line says how far it is.
const EVERY: Duration = Duration::from_secs(10);
/// Where a kind hasn't come when the time is over, turns go on for so many times as long at most: on a busy machine fewer come in a minute.
const PATIENCE: u32 = 5;

/// What has been shared out, and what came of it.
struct Shared {
    next: u64,
    /// Turns from here on aren't run.
    end: u64,
    running: usize,
    tally: Tally,
    /// How often each kind of list for distinctness, of what is planned, of security figures, of tickets by their number of blocks, of two
    /// lists, of a run's changes, of tables and parties and of trees came.
    seen: Tally,
    failed: Checked,
}

pub fn run(options: &Load) -> Checked {
    let Load { time, seed, threads, turn } = *options;
    println!("seed 0x{seed:016x}, threads {threads}");
    let started = Instant::now();
    let (next, end) = turn.map_or((0, u64::MAX), |turn| (turn, turn + 1));
    let shared = Mutex::new(Shared { next, end, running: threads, tally: Tally::default(), seen: Tally::default(), failed: Ok(()) });
    let is_time = || {
        let past = started.elapsed();
        turn.is_some() || past < time || (past < time * PATIENCE && lock(&shared).seen.none_missing(kinds()).is_err())
    };
    let worker = || {
        while let Some(number) = take(&shared, is_time()) {
            let (block, done) = run_turn(seed, number);
            give_back(&shared, seed, number, &block, done);
        }
        lock(&shared).running -= 1;
    };
    thread::scope(|scope| {
        blocks::start(scope, threads, &worker);
        say_how_far(&shared, started);
    });
    let ended = shared.into_inner().unwrap_or_else(PoisonError::into_inner);
    ended.failed?;
    print!("{}{}", table(&ended.tally), ended.seen.lines("kinds"));
    if turn.is_none() {
        ended.seen.none_missing(kinds()).map_err(|why| format!("kinds: FAILED (seed 0x{seed:016x})\n{why}"))?;
    }
    println!("equal in all cases: {}", so_far(&ended.tally, started));
    Ok(())
}

/// What has to come, whatever the seed.
fn kinds() -> impl Iterator<Item = (&'static str, Option<u32>)> {
    let before = planted::kinds().chain(planned::kinds()).chain(block_counts::kinds()).chain(pool::kinds());
    before.chain(prepare::kinds()).chain(products::kinds()).chain(chain_counts::kinds())
}

fn lock(shared: &Mutex<Shared>) -> MutexGuard<'_, Shared> {
    shared.lock().unwrap_or_else(PoisonError::into_inner)
}

fn take(shared: &Mutex<Shared>, is_time: bool) -> Option<u64> {
    let mut shared = lock(shared);
    let number = shared.next;
    if !is_time || number >= shared.end || shared.failed.is_err() {
        return None;
    }
    shared.next += 1;
    Some(number)
}

/// What a turn runs is fixed by the seed and its number. Where the harness or the Rust stops, that is a case that differs.
fn run_turn(seed: u64, number: u64) -> (Block, Checked) {
    let mut block = Block::new(seed, number);
    let done = panic::catch_unwind(AssertUnwindSafe(|| turns::run(number, &mut block)));
    (block, done.unwrap_or_else(|_| Err("  it stopped, with the message above\n".to_string())))
}

fn give_back(shared: &Mutex<Shared>, seed: u64, number: u64, block: &Block, done: Checked) {
    let mut shared = lock(shared);
    shared.tally.add(&block.tally);
    shared.seen.add(&block.seen);
    if let (Err(case), true) = (done, shared.failed.is_ok()) {
        let again = format!("harness load --seed 0x{seed:016x} --turn {number}");
        shared.failed = Err(format!("{}: DIFFERS (`{again}` runs it again)\n{case}", turns::name(number)));
    }
}

/// A line now and then, until no thread runs any more.
fn say_how_far(shared: &Mutex<Shared>, started: Instant) {
    let mut shown = Instant::now();
    while lock(shared).running > 0 {
        if shown.elapsed() >= EVERY {
            println!("{}", so_far(&lock(shared).tally, started));
            shown = Instant::now();
        }
        thread::sleep(Duration::from_millis(100));
    }
}

/// The time, how often each call was compared, and how many comparisons that makes a second.
fn so_far(tally: &Tally, started: Instant) -> String {
    let seconds = started.elapsed().as_secs_f64();
    let counts = CALLS.map(|call| format!("{call} {}", tally.asked(call))).join(", ");
    let all: u64 = CALLS.iter().map(|call| tally.asked(call)).sum();
    let whole = seconds as u64;
    format!("{}:{:02}: {counts}; {:.0} cases a second", whole / 60, whole % 60, all as f64 / seconds)
}

/// A row for each answer's number, a column for each call.
fn table(tally: &Tally) -> String {
    let row = |head: &str, cells: [String; CALLS.len()]| format!("{head:>6}{}\n", cells.map(|cell| format!(" {cell:>12}")).concat());
    let mut text = row("answer", CALLS.map(str::to_string));
    for answer in tally.answers() {
        text += &row(&answer.to_string(), CALLS.map(|call| tally.times(call, answer).to_string()));
    }
    text + &row("all", CALLS.map(|call| tally.asked(call).to_string()))
}
