//! The command line.

use std::time::{Duration, SystemTime, UNIX_EPOCH};

pub const HELP: &str = "\
usage: harness compare [--cases N] [--seed S]
       harness load --minutes N | --seconds N [--seed S] [--threads T]
       harness load --turn N --seed S
       harness sizes --minutes N | --seconds N | --turns N [--seed S]
       harness model [--functions N] [--seed S]
       harness answers [--seed S]
       harness bench [--steps | --tickets | --distinctness | --sizes | --pools | --prepare | --products | --counts]
       harness stack
       harness --help

compare   Runs the verified library and the original Rust on the same inputs and compares every answer and every byte lent.
          Limits and bad input are always run whole; --cases says how many random inputs there are besides.
  --cases N   random inputs for each of the uniform sampler, the Bernoulli sampler by q and by X, the converter and planning, N / 20
              messages to hash, N / 20 of the small case, N / 10 lists for distinctness, N / 10 small searches, N / 20 by X, N / 100 bad
              inputs for each of prover and verifier, N / 50 lists for tickets, each with five changed tickets, N / 1000 with each wrong
              number of blocks, N / 200 searches with what was planned, N / 40 security figures, N / 400 times two lists pooled, N / 400
              runs prepared and committed, N / 20 pairs of bounds, N / 1000 lists with a bin table for two, and N / 20 calls for the
              chains of each length (default 2000000)
  --seed S    decimal, or hexadecimal after 0x (default: from the clock; it is printed)
          It ends with a line of counts, or with the first case that differs and status 1.

          It uses all processors for the searches; what is run doesn't depend on how many there are.

load      Compares them for as long as asked, on settings and lists from the whole of the specification's domain and on bad input,
          each kind in its turn. Every ten seconds a line says how far it is; it ends with a table of the answers, or with the first
          case that differs and status 1.
  --minutes N, --seconds N   how long; the turns under way are finished
  --seed S    as above
  --threads T (default 2)
  --turn N    that turn of the seed's alone, as after a case that differs

sizes     Looks for security figures of which the Rust, by its doubles, makes another proof size than the request's words do, and says
          which of the two is right by log2 e with sixty decimals. It prints how many were tried and every kind of difference. Such
          differences are no failure; that the library doesn't keep to the request is.
  --minutes N, --seconds N   how long
  --turns N   so many turns, as a run before had them
  --seed S    as above

model     Counts under how many functions in SHA-256's place someone with few elements has a proof that the verifier accepts: in small games
          under all functions, and with settings made from small security figures under random ones, which hash a key before each
          message. It prints the shares beside the bounds that are proved. A share beyond its bound is a failure, with status 1.
  --functions N   random functions for each game and for each of the figures, 1000 or more (default 20000)
  --seed S    as above

answers   Writes a list of cases to standard output with the original Rust's answers, on distinctness with those of its definition; the
          library is not asked. With the same seed the list is the same, byte for byte; with the usual one it is the list in
          crates/vectors/data/answers.txt.
  --seed S    decimal, or hexadecimal after 0x (default 0x43c389a516)

bench     Prints a Markdown table of speeds: the library, the Rust and OpenSSL, in turns within one run.
          It needs a build with --features portable (`sha2` held to portable code) or --features bench (`sha2` as it stands).
  --steps     the time of a search's step alone, at proof sizes from 1 to 1,024
  --tickets   the speed of the calls for tickets alone
  --distinctness   the time of the check of distinctness alone
  --sizes     the time of the proof size alone
  --pools     the time of pooling and of searches over a pool alone
  --prepare   the speed of prepare alone
  --products  the time of two products on one bin table alone
  --counts    the time of the chains of one S counted alone

stack     Says how much stack a search of the greatest length takes, on a list and over a pool of two full lists, and the count of as deep a
          tree.
";

pub struct Compare {
    pub cases: u64,
    pub seed: u64,
}

pub struct Load {
    pub time: Duration,
    pub seed: u64,
    pub threads: usize,
    /// One turn alone, however long it takes.
    pub turn: Option<u64>,
}

pub struct Sizes {
    pub time: Duration,
    pub turns: u64,
    pub seed: u64,
}

pub struct Model {
    pub functions: u64,
    pub seed: u64,
}

pub enum Command {
    Help,
    Compare(Compare),
    Load(Load),
    Sizes(Sizes),
    Model(Model),
    /// With this seed.
    Answers(u64),
    Bench(Bench),
    /// Whole, or one search, for which the measurement starts itself again.
    Stack(Option<Deep>),
}

/// One search whose stack is measured.
#[derive(Clone, Copy, Debug, PartialEq)]
pub struct Deep {
    pub depth: u64,
    pub by: Call,
}

/// The call that searches: on a list, over the pool of two full lists, or for two parties on one bin table; or that counts a tree.
#[derive(Clone, Copy, Debug, PartialEq)]
pub enum Call {
    Prove,
    ProvePool,
    TwoProducts,
    CountChains,
}

pub enum Bench {
    Whole,
    /// The time of a step against proof_size.
    Steps,
    /// The writer and the reader of tickets.
    Tickets,
    /// The check of distinctness.
    Distinctness,
    /// The proof size from security figures.
    Sizes,
    /// Two lists pooled.
    Pools,
    /// Prepare.
    Prepare,
    /// Two products on one bin table.
    Products,
    /// The chains of one search counter.
    Counts,
    /// The rows for one of OpenSSL's other settings, for which the benchmark starts itself again.
    #[cfg_attr(not(feature = "bench"), allow(dead_code))]
    OpenSsl(usize),
}

/// The seed of the stored answers: the commit of the source.
const STORED: u64 = 0x43_c389_a516;
/// The word before the setting's number when the benchmark starts itself again.
pub const AGAIN: &str = "--openssl-setting";
/// The words before the length of the search when the measurement of the stack starts itself again.
pub const SEARCH: &str = "--search";
pub const POOL_SEARCH: &str = "--pool-search";
pub const PARTIES_SEARCH: &str = "--parties-search";
pub const COUNT: &str = "--count";

pub fn parse(mut words: impl Iterator<Item = String>) -> Result<Command, String> {
    match words.next().as_deref() {
        Some("compare") => compare(words).map(Command::Compare),
        Some("load") => load(words).map(Command::Load),
        Some("sizes") => sizes(words).map(Command::Sizes),
        Some("model") => model(words).map(Command::Model),
        Some("answers") => answers(words).map(Command::Answers),
        Some("bench") => bench(words).map(Command::Bench),
        Some("stack") => stack(words).map(Command::Stack),
        Some("--help" | "-h" | "help") => Ok(Command::Help),
        Some(word) => Err(format!("there is no `{word}`")),
        None => Err("say what to do".to_string()),
    }
}

fn stack(mut words: impl Iterator<Item = String>) -> Result<Option<Deep>, String> {
    let by = match words.next().as_deref() {
        None => return Ok(None),
        Some(SEARCH) => Call::Prove,
        Some(POOL_SEARCH) => Call::ProvePool,
        Some(PARTIES_SEARCH) => Call::TwoProducts,
        Some(COUNT) => Call::CountChains,
        Some(word) => return Err(format!("stack has no `{word}`")),
    };
    let depth = words.next().and_then(|word| word.parse().ok()).ok_or("the length of a search is wanted")?;
    Ok(Some(Deep { depth, by }))
}

fn bench(mut words: impl Iterator<Item = String>) -> Result<Bench, String> {
    let part = match words.next().as_deref() {
        None => Bench::Whole,
        Some("--steps") => Bench::Steps,
        Some("--tickets") => Bench::Tickets,
        Some("--distinctness") => Bench::Distinctness,
        Some("--sizes") => Bench::Sizes,
        Some("--pools") => Bench::Pools,
        Some("--prepare") => Bench::Prepare,
        Some("--products") => Bench::Products,
        Some("--counts") => Bench::Counts,
        Some(AGAIN) => Bench::OpenSsl(words.next().and_then(|word| word.parse().ok()).ok_or("a setting's number is wanted")?),
        Some(word) => return Err(format!("bench has no `{word}`")),
    };
    words.next().map_or(Ok(part), |word| Err(format!("bench has no `{word}` here")))
}

fn compare(words: impl Iterator<Item = String>) -> Result<Compare, String> {
    let [cases, seed] = numbers("compare", words, [("--cases", 2_000_000), ("--seed", from_clock())])?;
    Ok(Compare { cases, seed })
}

fn load(words: impl Iterator<Item = String>) -> Result<Load, String> {
    let any_turn = u64::MAX;
    let options = [("--minutes", 0), ("--seconds", 0), ("--seed", from_clock()), ("--threads", 2), ("--turn", any_turn)];
    let [minutes, seconds, seed, threads, turn] = numbers("load", words, options)?;
    let time = duration(minutes, seconds);
    if turn == any_turn && time.is_zero() {
        return Err("load wants --minutes or --seconds".to_string());
    }
    Ok(Load { time, seed, threads: threads.clamp(1, 64) as usize, turn: (turn != any_turn).then_some(turn) })
}

fn sizes(words: impl Iterator<Item = String>) -> Result<Sizes, String> {
    let [minutes, seconds, turns, seed] =
        numbers("sizes", words, [("--minutes", 0), ("--seconds", 0), ("--turns", u64::MAX), ("--seed", from_clock())])?;
    let time = duration(minutes, seconds);
    if time.is_zero() && turns == u64::MAX {
        return Err("sizes wants --minutes, --seconds or --turns".to_string());
    }
    Ok(Sizes { time: if time.is_zero() { Duration::MAX } else { time }, turns, seed })
}

fn model(words: impl Iterator<Item = String>) -> Result<Model, String> {
    let [functions, seed] = numbers("model", words, [("--functions", 20_000), ("--seed", from_clock())])?;
    // Of fewer a share says too little.
    if functions < 1000 {
        return Err("model wants 1000 functions or more".to_string());
    }
    Ok(Model { functions, seed })
}

fn duration(minutes: u64, seconds: u64) -> Duration {
    Duration::from_secs(minutes.saturating_mul(60).saturating_add(seconds))
}

/// The numbers after these words, or those given here.
fn numbers<const N: usize>(command: &str, mut words: impl Iterator<Item = String>, options: [(&str, u64); N]) -> Result<[u64; N], String> {
    let mut values = options.map(|option| option.1);
    while let Some(word) = words.next() {
        let place = options.iter().position(|option| option.0 == word).ok_or(format!("{command} has no `{word}`"))?;
        let value = words.next().ok_or(format!("{word} wants a number"))?;
        values[place] = number(&value).ok_or(format!("`{value}` is no number of 64 bits"))?;
    }
    Ok(values)
}

fn answers(words: impl Iterator<Item = String>) -> Result<u64, String> {
    let [seed] = numbers("answers", words, [("--seed", STORED)])?;
    Ok(seed)
}

fn number(text: &str) -> Option<u64> {
    match text.strip_prefix("0x") {
        Some(digits) => u64::from_str_radix(digits, 16).ok(),
        None => text.parse().ok(),
    }
}

fn from_clock() -> u64 {
    SystemTime::now().duration_since(UNIX_EPOCH).map_or(0, |since| since.as_nanos() as u64)
}

#[cfg(test)]
mod tests {
    use super::*;

    fn parsed(line: &str) -> Result<Command, String> {
        parse(line.split_whitespace().map(str::to_string))
    }

    fn why_not(line: &str) -> String {
        parsed(line).err().unwrap_or_else(|| panic!("`{line}` is taken"))
    }

    #[test]
    fn numbers_are_decimal_or_hexadecimal_and_have_their_usual_value() {
        let Ok(Command::Compare(Compare { cases, seed })) = parsed("compare --seed 0x1F --cases 12") else { panic!() };
        assert_eq!((cases, seed), (12, 31));
        let Ok(Command::Compare(Compare { cases, .. })) = parsed("compare") else { panic!() };
        assert_eq!(cases, 2_000_000);
        // The usual seed is the one that the stored answers were written with.
        assert!(matches!(parsed("answers"), Ok(Command::Answers(0x43_c389_a516))));
        assert!(matches!(parsed("answers --seed 18446744073709551615"), Ok(Command::Answers(u64::MAX))));
    }

    #[test]
    fn load_wants_a_time_or_a_turn() {
        let load = |line| match parsed(line) {
            Ok(Command::Load(load)) => (load.time.as_secs(), load.seed, load.threads, load.turn),
            _ => panic!("{line}"),
        };
        assert_eq!(load("load --minutes 2 --seconds 5 --seed 3"), (125, 3, 2, None));
        assert_eq!(load("load --turn 0 --seed 3 --threads 0"), (0, 3, 1, Some(0)));
        assert_eq!(load("load --seconds 1 --seed 3 --threads 1000"), (1, 3, 64, None));
        assert_eq!(why_not("load --seed 3"), "load wants --minutes or --seconds");
    }

    #[test]
    fn sizes_want_a_time_or_turns() {
        let sizes = |line| match parsed(line) {
            Ok(Command::Sizes(sizes)) => (sizes.time, sizes.turns, sizes.seed),
            _ => panic!("{line}"),
        };
        assert_eq!(sizes("sizes --minutes 10 --seed 3"), (Duration::from_secs(600), u64::MAX, 3));
        assert_eq!(sizes("sizes --turns 7 --seed 3"), (Duration::MAX, 7, 3));
        assert_eq!(why_not("sizes --seed 3"), "sizes wants --minutes, --seconds or --turns");
    }

    #[test]
    fn model_wants_functions_enough() {
        let model = |line| match parsed(line) {
            Ok(Command::Model(model)) => (model.functions, model.seed),
            _ => panic!("{line}"),
        };
        assert_eq!((model("model --seed 3"), model("model --functions 1000 --seed 0x10")), ((20_000, 3), (1000, 16)));
        assert_eq!(why_not("model --functions 999"), "model wants 1000 functions or more");
        assert_eq!(why_not("model --cases 5"), "model has no `--cases`");
    }

    #[test]
    fn stack_runs_whole_or_one_search() {
        let stack = |line| match parsed(line) {
            Ok(Command::Stack(deep)) => deep,
            _ => panic!("{line}"),
        };
        assert_eq!((stack("stack"), stack("stack --search 3")), (None, Some(Deep { depth: 3, by: Call::Prove })));
        assert_eq!(stack("stack --pool-search 1024"), Some(Deep { depth: 1024, by: Call::ProvePool }));
        assert_eq!(stack("stack --parties-search 0"), Some(Deep { depth: 0, by: Call::TwoProducts }));
        assert_eq!(stack("stack --count 7"), Some(Deep { depth: 7, by: Call::CountChains }));
        assert_eq!(why_not("stack --pool-search"), "the length of a search is wanted");
    }

    #[test]
    fn what_is_not_meant_is_refused() {
        assert_eq!(why_not(""), "say what to do");
        assert_eq!(why_not("prove"), "there is no `prove`");
        assert_eq!(why_not("compare --minutes 1"), "compare has no `--minutes`");
        assert_eq!(why_not("compare --cases"), "--cases wants a number");
        assert_eq!(why_not("compare --cases many"), "`many` is no number of 64 bits");
        assert_eq!(why_not("answers --seed 18446744073709551616"), "`18446744073709551616` is no number of 64 bits");
        assert_eq!(why_not("bench --steps twice"), "bench has no `twice` here");
        assert_eq!(why_not("stack deep"), "stack has no `deep`");
    }
}
