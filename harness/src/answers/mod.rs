//! A list of cases with the answers of the original Rust, on distinctness with those of the request's words (`distinctness` of
//! model/rules.rs), for a program that replays them where no Rust is at hand. The library is not asked.

mod elements;
mod samplers;

use crate::{compare::hex, list::List, rng::Rng};
use std::fmt::Write as _;
use std::io::{self, Write as _};

/// What the lines mean. Words are parted by single spaces.
const FORM: &str = "\
# uniform H N = 0 VALUE                              a draw, or 1: no draw
# bernoulli H Q = ANSWER                             1: yes, 0: no
# small U C = 0 PROOF_SIZE MAX_RETRIES SEARCH_WIDTH DFS_BOUND X
# list                                               begins a list, empty so far, of which the lines below ask
# + DATA INDEX                                       the list's next element; without an index: + DATA
# distinct = ANSWER                                  1: no two elements are the same, 0: some two are
# prove SETTINGS = 0 R S COUNT PLACES                or 10, or 11 COUNT, or 12 COUNT
# verify SETTINGS R S = NUMBER                       of the list as a proof's: 0, 20, 21 or 22
# SETTINGS are SET_SIZE PROOF_SIZE MAX_RETRIES SEARCH_WIDTH DFS_BOUND Q. PLACES are PROOF_SIZE numbers, counted from 0.
# H is 16 bytes and DATA any, in hexadecimal, no data as -. Q and C are a double's bits in 16 hexadecimal digits, N to PLACES decimal.
# X is the whole part of the Rust's Q * 2^128, at most 2^128 - 1, in 32 hexadecimal digits.
";

pub fn run(seed: u64) -> Result<(), String> {
    let mut answers = Answers { seed, lines: String::new(), counts: [0; 6], list: List::default() };
    samplers::write(&mut answers);
    elements::write(&mut answers)?;
    let counts: Vec<String> = KINDS.iter().zip(answers.counts).map(|((name, _), count)| format!("{name} {count}")).collect();
    let head = format!(
        "# Answers of the original Rust, cardano-scaling/alba, commit 43c389a516, in a release build.\n\
         # On distinctness the answer is that of the definition, which the harness works out: two elements are the same when data and mark\n\
         # agree and, where the mark is 1, the index. The Rust goes by data alone, and would say 0 to some that have 1.\n\
         # `harness answers --seed 0x{seed:x}` wrote this list. The library was not asked.\n# Cases: {}.\n{FORM}",
        counts.join(", ")
    );
    io::stdout().write_all((head + &answers.lines).as_bytes()).map_err(|e| format!("harness: {e}"))
}

/// The kinds of cases by their first words, and how many there are of each: the program that replays them expects as many.
const KINDS: [(&str, u64); 6] = [("uniform", 800), ("bernoulli", 600), ("small", 400), ("distinct", 250), ("prove", 600), ("verify", 750)];
const UNIFORM: usize = 0;
const BERNOULLI: usize = 1;
const SMALL: usize = 2;
const DISTINCT: usize = 3;
const PROVE: usize = 4;
const VERIFY: usize = 5;

/// The list under way.
struct Answers {
    seed: u64,
    lines: String,
    counts: [u64; 6],
    /// The elements that the lines last written ask of.
    list: List,
}

impl Answers {
    /// Random numbers of a kind's own. The streams of `compare` are others.
    fn rng(&self, kind: usize) -> Rng {
        Rng::new(self.seed, 0x100 + kind as u64)
    }

    fn is_full(&self, kind: usize) -> bool {
        self.counts[kind] == KINDS[kind].1
    }

    /// Writes a case, if its kind still has room.
    fn case(&mut self, kind: usize, question: &str, answer: &str) {
        if self.is_full(kind) {
            return;
        }
        self.counts[kind] += 1;
        let part = if question.is_empty() { "" } else { " " };
        writeln!(self.lines, "{}{part}{question} = {answer}", KINDS[kind].0).expect("a string takes all");
    }

    /// Begins a list, unless it is the one under way.
    fn list(&mut self, list: &List) {
        let elements = |list: &List| -> Vec<_> { (0..list.len()).map(|at| (list.data_of(at).to_vec(), list.index_of(at))).collect() };
        if elements(list) == elements(&self.list) {
            return;
        }
        self.lines += "list\n";
        for (data, index) in elements(list) {
            let data = if data.is_empty() { "-".to_string() } else { hex(&data) };
            let index = index.map_or(String::new(), |index| format!(" {index}"));
            writeln!(self.lines, "+ {data}{index}").expect("a string takes all");
        }
        self.list = list.clone();
    }
}

/// A double by its bits.
fn bits(x: f64) -> String {
    format!("{:016x}", x.to_bits())
}
