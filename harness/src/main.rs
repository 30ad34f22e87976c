//! Compares the verified library with the Rust that it is made from, and with the specification's words where they say what the Rust hasn't
//! (`compare`, `load`), looks where the Rust's proof size is another (`sizes`), counts under how many functions in SHA-256's place a proof
//! is accepted (`model`), stores answers (`answers`), and measures both (`bench`, `stack`).

mod answers;
mod args;
#[cfg(feature = "bench")]
mod bench;
mod big;
mod compare;
mod ffi;
mod green;
mod list;
mod load;
mod model;
mod original;
mod rng;
mod sizes;
mod stack;
mod turning;

use args::Command;
use std::process::ExitCode;

#[cfg(not(feature = "bench"))]
mod bench {
    /// In place of the benchmark, so that a build without it needs no OpenSSL.
    pub fn run(_: crate::args::Bench) -> Result<(), String> {
        Err("harness: this build has no benchmark; build with --features portable, or with --features bench".to_string())
    }
}

fn main() -> ExitCode {
    let command = match args::parse(std::env::args().skip(1)) {
        Ok(command) => command,
        Err(why) => {
            eprintln!("harness: {why}\n\n{}", args::HELP);
            return ExitCode::from(2);
        }
    };
    // The reference is the Rust in a release build: its debug assertions stop on inputs that are compared here.
    if cfg!(debug_assertions) {
        eprintln!("harness: build with --release");
        return ExitCode::from(2);
    }
    let done = match command {
        Command::Help => {
            print!("{}", args::HELP);
            Ok(())
        }
        Command::Compare(options) => compare::run(&options),
        Command::Load(options) => load::run(&options),
        Command::Sizes(options) => sizes::run(&options),
        Command::Model(options) => green::run(&options),
        Command::Answers(seed) => answers::run(seed),
        Command::Bench(part) => bench::run(part),
        Command::Stack(depth) => stack::run(depth),
    };
    match done {
        Ok(()) => ExitCode::SUCCESS,
        Err(why) => {
            eprintln!("{why}");
            ExitCode::FAILURE
        }
    }
}
