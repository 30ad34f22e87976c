//! The library against the original Rust (and `sha2`), on the same inputs, and against the specification's words where the Rust has no
//! answer.

pub mod bernoulli;
pub mod block_counts;
pub mod blocks;
mod by_x;
pub mod chain_checks;
pub mod chain_counts;
mod changed_runs;
mod changed_tickets;
mod count_calls;
mod damaged_tables;
pub mod distinct;
mod export_calls;
pub mod faults;
mod fence;
pub mod hash;
pub mod limits;
mod parameters;
pub mod plan;
pub mod planned;
pub mod planted;
pub mod pool;
mod pool_calls;
pub mod prepare;
mod prepare_calls;
mod product_calls;
mod product_checks;
pub mod product_refusals;
pub mod products;
pub mod proof_size;
pub mod prover_refusals;
mod raised;
pub mod refusals;
pub mod searches;
pub mod small_case;
pub mod threshold;
pub mod tickets;
pub mod uniform;
pub mod verdicts;
pub mod verifier_refusals;

use crate::{args::Compare, list::List, rng::Rng};
use blocks::Tally;
use std::fmt::Write;
use std::time::{Duration, Instant};

/// A case that differs, printed whole.
pub type Checked = Result<(), String>;

/// The answer of both, or a case that differs.
pub type Answered = Result<u32, String>;

/// Runs one kind's cases and says how many there were.
type Kind = fn(&mut Run, u64) -> Checked;

pub fn run(options: &Compare) -> Checked {
    println!("seed 0x{:016x}, {} random cases", options.seed, options.cases);
    let kinds: [(&str, Kind, u64); 26] = [
        ("orders of parameters", parameters::run, 0),
        ("uniform", uniform::run, options.cases),
        ("threshold", threshold::run, options.cases),
        ("Bernoulli", bernoulli::run, options.cases),
        ("Bernoulli by X", bernoulli::by_x, options.cases),
        ("hash", hash::run, options.cases / 20),
        ("hash at its limit", hash::at_limit, 0),
        ("small case", small_case::run, options.cases / 20),
        ("distinctness", distinct::run, options.cases / 10),
        ("refusals", refusals::run, 0),
        ("small searches", searches::small, options.cases / 10),
        ("realistic searches", searches::realistic, 0),
        ("searches at the limits", limits::run, 0),
        ("searches by X", by_x::run, options.cases / 20),
        ("refusals of prove", prover_refusals::run, options.cases / 100),
        ("refusals of verify", verifier_refusals::run, options.cases / 100),
        ("tickets", tickets::run, options.cases / 50),
        ("block counts", block_counts::run, options.cases / 1000),
        ("planning", plan::run, options.cases),
        ("planned runs", planned::run, options.cases / 200),
        ("proof size", proof_size::run, options.cases / 40),
        ("pools", pool::run, options.cases / 400),
        ("prepare and commit", prepare::run, options.cases / 400),
        ("raised bounds", raised::run, options.cases / 20),
        ("two products", products::run, options.cases / 1000),
        ("chain counts", chain_counts::run, options.cases / 20),
    ];
    let (mut counts, mut parts) = (Vec::new(), String::new());
    for (stream, (name, kind, cases)) in (0..).zip(kinds) {
        let seeds = (options.seed, stream);
        let (tally, seen) = (Tally::default(), Tally::default());
        let mut run = Run { rng: Rng::new(seeds.0, seeds.1), seeds, name, done: 0, tally, seen, shown: Instant::now() };
        kind(&mut run, cases).map_err(|case| format!("{name}: DIFFERS (seed 0x{:016x}, case {})\n{case}", options.seed, run.done))?;
        counts.push(format!("{name} {}{}", run.done, run.tally.totals()));
        parts += &(run.tally.lines(name) + &run.seen.lines(name));
    }
    print!("{parts}");
    println!("equal in all cases: {}", counts.join(", "));
    Ok(())
}

/// One kind under way.
pub struct Run {
    rng: Rng,
    /// The run's seed and the kind's stream, for random numbers that a part of the kind has of its own.
    seeds: (u64, u64),
    name: &'static str,
    done: u64,
    /// How often each answer came, where that tells something.
    tally: Tally,
    /// How often each kind of input came, by its answers, where none may be left out.
    seen: Tally,
    shown: Instant,
}

impl Run {
    /// Counts a case that was equal; in a long run says now and then how far it is.
    fn count(&mut self) {
        self.done += 1;
        if self.done % 0x1_0000 == 0 {
            self.say_how_far();
        }
    }

    /// The same for many cases at once.
    fn count_more(&mut self, cases: u64) {
        self.done += cases;
        self.say_how_far();
    }

    fn say_how_far(&mut self) {
        if self.shown.elapsed() > Duration::from_secs(10) {
            eprintln!("{}: {} equal so far", self.name, self.done);
            self.shown = Instant::now();
        }
    }
}

/// Bytes lent at an address of any alignment.
struct Shifted {
    room: [u8; 64],
    start: usize,
    len: usize,
}

impl Shifted {
    fn new(rng: &mut Rng, bytes: &[u8]) -> Self {
        let (mut room, start) = ([0; 64], rng.below(8) as usize);
        rng.fill(&mut room);
        room[start..start + bytes.len()].copy_from_slice(bytes);
        Shifted { room, start, len: bytes.len() }
    }

    fn bytes(&self) -> &[u8] {
        &self.room[self.start..self.start + self.len]
    }
}

/// A list for the print of a failing case; a long one is told by the seed.
pub fn shown_list(list: &List) -> String {
    if list.len() > 5000 || list.data.len() > 1 << 20 {
        return format!("  a list of {} ends and {} data bytes, which the seed gives\n", list.len(), list.data.len());
    }
    format!("  data {}\n  ends {:?}\n  marks {:?}\n  indexes {:?}\n", hex(&list.data), list.ends, list.marks, list.indexes)
}

pub fn hex(bytes: &[u8]) -> String {
    bytes.iter().fold(String::with_capacity(2 * bytes.len()), |mut text, byte| {
        write!(text, "{byte:02x}").expect("a string takes all");
        text
    })
}
