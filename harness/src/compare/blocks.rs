//! Cases run on all processors, in blocks that don't depend on each other, and how often each answer came.

use super::{Checked, Run};
use crate::rng::Rng;
use std::collections::{BTreeMap, BTreeSet};
use std::fmt::Write;
use std::sync::{Mutex, PoisonError};
use std::thread::{self, Scope};

/// Room for the deepest search, whatever the compiler makes of it.
const STACK: usize = 64 << 20;

/// How often each number was the answer to each question.
#[derive(Default)]
pub struct Tally(BTreeMap<(&'static str, u32), u64>);

impl Tally {
    pub fn count(&mut self, question: &'static str, answer: u32) {
        *self.0.entry((question, answer)).or_default() += 1;
    }

    pub fn add(&mut self, other: &Tally) {
        for (key, times) in &other.0 {
            *self.0.entry(*key).or_default() += times;
        }
    }

    fn sum(&self) -> u64 {
        self.0.values().sum()
    }

    /// How often a question was asked.
    pub fn asked(&self, question: &str) -> u64 {
        self.0.iter().filter(|(key, _)| key.0 == question).map(|(_, times)| times).sum()
    }

    pub fn times(&self, question: &'static str, answer: u32) -> u64 {
        self.0.get(&(question, answer)).copied().unwrap_or(0)
    }

    /// The answers that there were, to whatever question.
    pub fn answers(&self) -> BTreeSet<u32> {
        self.0.keys().map(|key| key.1).collect()
    }

    /// Each of these kinds must have come, with the answer if one is named.
    pub fn none_missing(&self, mut kinds: impl Iterator<Item = (&'static str, Option<u32>)>) -> Checked {
        let is_missing = |kind, answer: Option<u32>| answer.map_or(self.asked(kind), |answer| self.times(kind, answer)) == 0;
        match kinds.find(|(kind, answer)| is_missing(kind, *answer)) {
            Some((kind, answer)) => {
                let with = answer.map_or(String::new(), |answer| format!(", with the answer {answer}"));
                Err(format!("  nothing differs, but nothing of this kind has come: {kind}{with}\n"))
            }
            None => Ok(()),
        }
    }

    /// How many answers there were to each question, in parentheses; nothing where nothing was asked.
    pub fn totals(&self) -> String {
        let mut questions: BTreeMap<&str, u64> = BTreeMap::new();
        for ((question, _), times) in &self.0 {
            *questions.entry(question).or_default() += times;
        }
        let questions: Vec<String> = questions.iter().map(|(question, times)| format!("{question} {times}")).collect();
        match questions.is_empty() {
            true => String::new(),
            false => format!(" ({})", questions.join(", ")),
        }
    }

    /// A line for each question, the answers by their numbers.
    pub fn lines(&self, kind: &str) -> String {
        let mut questions: BTreeMap<&str, Vec<String>> = BTreeMap::new();
        for ((question, answer), times) in &self.0 {
            questions.entry(question).or_default().push(format!("{answer} {times} times"));
        }
        questions.iter().fold(String::new(), |mut text, (question, answers)| {
            writeln!(text, "{kind}, {question}: {}", answers.join(", ")).expect("a string takes all");
            text
        })
    }
}

/// One block under way: random numbers of its own, its answers, and the kinds of input that they were to, where those are counted.
pub struct Block {
    pub rng: Rng,
    pub tally: Tally,
    pub seen: Tally,
}

impl Block {
    pub fn new(seed: u64, stream: u64) -> Self {
        Block { rng: Rng::new(seed, stream), tally: Tally::default(), seen: Tally::default() }
    }
}

/// What has been shared out, and what came of it.
struct Shared<'a> {
    run: &'a mut Run,
    next: u64,
    failed: Checked,
}

/// Runs the blocks 0 to `blocks` - 1. What a block runs is fixed by the seed and its number, however many processors there are.
pub fn run(run: &mut Run, blocks: u64, work: impl Fn(u64, &mut Block) -> Checked + Sync) -> Checked {
    let (seed, stream) = run.seeds;
    let shared = Mutex::new(Shared { run, next: 0, failed: Ok(()) });
    let worker = || {
        while let Some(number) = take(&shared, blocks) {
            let mut block = Block::new(seed, (number + 1) << 16 | stream);
            let done = work(number, &mut block);
            give_back(&shared, number, &block, done);
        }
    };
    thread::scope(|scope| start(scope, thread::available_parallelism().map_or(1, |n| n.get()), &worker));
    shared.into_inner().unwrap_or_else(PoisonError::into_inner).failed
}

/// Starts so many threads that have room for the deepest search.
pub fn start<'scope>(scope: &'scope Scope<'scope, '_>, threads: usize, worker: &'scope (impl Fn() + Sync)) {
    for _ in 0..threads {
        thread::Builder::new().stack_size(STACK).spawn_scoped(scope, worker).expect("a thread");
    }
}

fn take(shared: &Mutex<Shared>, blocks: u64) -> Option<u64> {
    let mut shared = shared.lock().ok()?;
    let number = shared.next;
    shared.next += 1;
    (number < blocks && shared.failed.is_ok()).then_some(number)
}

fn give_back(shared: &Mutex<Shared>, number: u64, block: &Block, done: Checked) {
    let mut shared = shared.lock().unwrap_or_else(PoisonError::into_inner);
    shared.run.tally.add(&block.tally);
    shared.run.seen.add(&block.seen);
    shared.run.count_more(block.tally.sum());
    if let (Err(case), true) = (done, shared.failed.is_ok()) {
        shared.failed = Err(format!("  block {number}\n{case}"));
    }
}
