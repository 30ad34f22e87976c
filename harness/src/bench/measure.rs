//! Processor times of several contenders, taken in turns, so that what disturbs the machine disturbs all alike.

/// Runs a piece of work the number of times given.
pub type Work<'a> = Box<dyn FnMut(u64) + 'a>;

pub const ROUNDS: usize = 101;
/// About how long a turn takes, in seconds: short, so that a round is mostly all disturbed or all undisturbed.
const TURN: f64 = 0.005;

/// What was measured of a contender: nanoseconds a call, and how much longer than the first contender's they were in the same round.
/// Both are medians over the rounds; the second holds still when the machine runs slower for a while.
#[derive(Clone, Copy)]
pub struct Measured {
    pub ns: f64,
    pub longer: f64,
}

pub fn in_turns<const N: usize>(contenders: [Work; N]) -> [Measured; N] {
    in_rounds(ROUNDS, contenders)
}

/// The same in so many rounds.
pub fn in_rounds<const N: usize>(rounds: usize, mut contenders: [Work; N]) -> [Measured; N] {
    let calls: [u64; N] = std::array::from_fn(|i| calls_in_a_turn(&mut contenders[i]));
    let rounds: Vec<[f64; N]> =
        (0..rounds).map(|_| std::array::from_fn(|i| seconds(&mut contenders[i], calls[i]) / calls[i] as f64 * 1e9)).collect();
    std::array::from_fn(|i| Measured {
        ns: median(rounds.iter().map(|round| round[i]).collect()),
        longer: median(rounds.iter().map(|round| round[i] / round[0]).collect()),
    })
}

pub fn median(mut values: Vec<f64>) -> f64 {
    values.sort_unstable_by(f64::total_cmp);
    values[values.len() / 2]
}

fn calls_in_a_turn(work: &mut Work) -> u64 {
    let mut calls = 1;
    loop {
        let took = seconds(work, calls);
        if took > TURN / 4.0 {
            return ((TURN / took * calls as f64) as u64).max(1);
        }
        calls *= 2;
    }
}

fn seconds(work: &mut Work, calls: u64) -> f64 {
    timed(|| work(calls)).0
}

/// How long one call took, and its answer.
pub fn timed<T>(call: impl FnOnce() -> T) -> (f64, T) {
    let start = processor_time();
    let answer = call();
    (processor_time() - start, answer)
}

#[repr(C)]
struct Timespec {
    seconds: i64,
    nanoseconds: i64,
}

extern "C" {
    fn clock_gettime(clock: i32, time: *mut Timespec) -> i32;
}

/// CLOCK_THREAD_CPUTIME_ID of Linux.
const THREAD_TIME: i32 = 3;

/// Seconds that this thread has run: time that the system gave to others meanwhile isn't in it.
fn processor_time() -> f64 {
    let mut time = Timespec { seconds: 0, nanoseconds: 0 };
    // SAFETY: the struct is the C library's own on Linux of 64 bits, and lives through the call.
    let answer = unsafe { clock_gettime(THREAD_TIME, &mut time) };
    assert_eq!(answer, 0, "the thread's clock can't be read");
    time.seconds as f64 + time.nanoseconds as f64 / 1e9
}
