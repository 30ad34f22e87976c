//! One call of `alba_two_products` against what each party is due by itself: the request's words (model/products.rs), and where the Rust
//! can be asked about that try, the Rust.

use super::blocks::Block;
use super::fence::Fenced;
use super::searches::{self, Outcome};
use super::verdicts::{self, Claim};
use super::{shown_list, Checked};
use crate::ffi::{self, Party, Settings};
use crate::list::List;
use crate::model::products::{self, Common};
use crate::model::threshold::Threshold::OfQ;

/// How many numbers are lent for the two answers.
pub const FIGURES: usize = 6;
/// The Rust's runs start with the first try, so it is asked about the first few alone.
const BY_RUST: u64 = 3;

/// What is lent: what both parties are served from, what each has of its own, and how many places.
#[derive(Clone)]
pub struct Call {
    pub common: Common,
    pub parties: [Party; 2],
    pub places: [usize; 2],
}

impl Call {
    /// With just enough places for each.
    pub fn of(common: Common, parties: [Party; 2]) -> Call {
        Call { common, parties, places: parties.map(|party| party.settings.proof_size as usize) }
    }

    /// The parties in each other's place.
    pub fn exchanged(&self) -> Call {
        let ([first, second], [one, other]) = (self.parties, self.places);
        Call { common: self.common.clone(), parties: [second, first], places: [other, one] }
    }

    fn shown(&self) -> String {
        let Common { list, table, retry_counter } = &self.common;
        let [first, second] = &self.parties;
        format!(
            "  the first: {first:?}, {} places\n  the second: {second:?}, {} places\n{}  the table, R = {retry_counter}: {}\n",
            self.places[0],
            self.places[1],
            shown_list(list),
            if table.len() > 5000 { format!("{} numbers, which the seed gives", table.len()) } else { format!("{table:?}") }
        )
    }
}

/// The first party's answer, and with it that of the second.
const BESIDE: [(u32, &str); 11] = [
    (0, "the second party, the first answered 0"),
    (ffi::BAD_SET_SIZE, "the second party, the first answered 1"),
    (ffi::BAD_LIMIT, "the second party, the first answered 2"),
    (ffi::BAD_LIST, "the second party, the first answered 4"),
    (ffi::TOO_LARGE, "the second party, the first answered 5"),
    (ffi::TOO_SHORT, "the second party, the first answered 6"),
    (ffi::NOT_ENOUGH, "the second party, the first answered 10"),
    (ffi::NOT_FOUND_IN_BOUNDS, "the second party, the first answered 11"),
    (ffi::NOT_FOUND, "the second party, the first answered 12"),
    (ffi::OTHER_RETRY, "the second party, the first answered 47"),
    (ffi::OTHER_TABLE, "the second party, the first answered 48"),
];

/// A try by its retry counter and by what it was held to.
const TRIES: [&str; 4] = ["a try held to the Rust, R = 1", "a try held to the Rust, R above 1", "a try of R = 0", "a try of R = 2^64 − 1"];

/// Each two answers that can come together: a bad list is refused to both, after each one's own settings.
pub fn pairs() -> impl Iterator<Item = (&'static str, Option<u32>)> {
    let is_of_settings = |number| number == ffi::BAD_SET_SIZE || number == ffi::BAD_LIMIT;
    let is_of_list = |number| number == ffi::BAD_LIST || number == ffi::TOO_LARGE;
    let can_come = move |one, other| match (is_of_list(one), is_of_list(other)) {
        (false, false) => true,
        _ => one == other || is_of_settings(one) || is_of_settings(other),
    };
    let all = BESIDE.iter().flat_map(|first| BESIDE.iter().map(move |second| (first, second.0)));
    all.filter(move |(first, second)| can_come(first.0, *second)).map(|(first, second)| (first.1, Some(second)))
}

/// Each kind of try, with each of its ends.
pub fn tries() -> impl Iterator<Item = (&'static str, Option<u32>)> {
    TRIES.into_iter().flat_map(|kind| [0, ffi::NOT_FOUND_IN_BOUNDS, ffi::NOT_FOUND].map(|answer| (kind, Some(answer))))
}

/// Whether a party was served: its try was made.
pub fn is_served(outcome: &Outcome) -> bool {
    [0, ffi::NOT_FOUND_IN_BOUNDS, ffi::NOT_FOUND].contains(&outcome.number)
}

/// One call: both answers, both parties' places, and that nothing else has changed.
pub fn check(block: &mut Block, call: &Call) -> Result<[Outcome; 2], String> {
    let dues = [due(block, call, 0)?, due(block, call, 1)?];
    check_in(block, call, &dues, Some(FIGURES))?;
    let beside = BESIDE.iter().find(|(number, _)| *number == dues[0].number);
    block.seen.count(beside.expect("one of the request's numbers").1, dues[1].number);
    Ok(dues)
}

/// The call with room for so many numbers, or a null pointer: 8 where they aren't six, before all else.
pub fn check_length(block: &mut Block, call: &Call, out_len: Option<usize>) -> Checked {
    match out_len {
        Some(FIGURES) => check(block, call).map(|_| ()),
        _ => check_in(block, call, &[ffi::BAD_LENGTH; 2].map(|number| Outcome::without_proof(number, 0)), out_len),
    }
}

fn check_in(block: &mut Block, call: &Call, dues: &[Outcome; 2], out_len: Option<usize>) -> Checked {
    let (rng, Common { list, table, retry_counter }) = (&mut block.rng, &call.common);
    let table = Fenced::of(rng, table, |word| word as u32);
    let [mut places, mut places2] = call.places.map(|len| Fenced::new(rng, len, |word| word as u32));
    let mut out = match out_len {
        Some(len) => Fenced::new(rng, len, |word| word),
        None => Fenced::null(rng, |word| word),
    };
    let (lent, [first, second]) = (list.clone(), &call.parties);
    let (retry_counter, rooms) = (*retry_counter, [&mut places, &mut places2]);
    let ours = ffi::two_products(table.lent(), retry_counter, lent.lent(), [first, second], rooms, &mut out);

    let figures = figures(dues);
    let (number, written) = if out_len == Some(FIGURES) { (0, &figures[..]) } else { (ffi::BAD_LENGTH, &[][..]) };
    let is_written = out.holds(written) && places.holds(&dues[0].places) && places2.holds(&dues[1].places);
    let is_kept = table.holds(&[]) && lent == *list;
    if ours != number || !is_written || !is_kept {
        return Err(format!(
            "{}  ours: {ours}\n  due: {number}\n{}{}{}  table and list are {}\n",
            call.shown(),
            out.story("number, S and count of each", written),
            places.story("the first's places", &dues[0].places),
            places2.story("the second's places", &dues[1].places),
            verdicts::as_it_was(is_kept)
        ));
    }
    block.tally.count("first party", dues[0].number);
    block.tally.count("second party", dues[1].number);
    Ok(())
}

/// Number, S and count of the first, then of the second.
pub fn figures(dues: &[Outcome; 2]) -> [u64; FIGURES] {
    let [[number, search, count], [number2, search2, count2]] =
        [&dues[0], &dues[1]].map(|due| [u64::from(due.number), due.search_counter, due.count]);
    [number, search, count, number2, search2, count2]
}

/// What is due to a party, whoever the other is.
fn due(block: &mut Block, call: &Call, which: usize) -> Result<Outcome, String> {
    let (party, Common { list, retry_counter, .. }) = (&call.parties[which], &call.common);
    let due = products::answer(&call.common, party, call.places[which]);
    if !is_served(&due) {
        return Ok(due);
    }
    if let Some(by_rust) = by_rust(&party.settings, list, *retry_counter)? {
        if by_rust != due {
            return Err(format!("{}  a try of the Rust: {by_rust:?}\n  by the specification's words: {due:?}\n", call.shown()));
        }
        block.seen.count(TRIES[usize::from(*retry_counter > 1)], due.number);
    }
    match *retry_counter {
        0 => block.seen.count(TRIES[2], due.number),
        u64::MAX => block.seen.count(TRIES[3], due.number),
        _ => (),
    }
    is_proof(&party.settings, list, &due).map_err(|why| format!("{}{why}", call.shown()))?;
    Ok(due)
}

/// The try as the Rust makes it: where there is a q and no try before it finds. Of two runs of which one makes that try more, the step
/// counts differ by its own; and what is found in the longer one alone is that try's.
fn by_rust(s: &Settings, list: &List, retry_counter: u64) -> Result<Option<Outcome>, String> {
    if !matches!(s.x, OfQ(_)) || !(1..=BY_RUST).contains(&retry_counter) {
        return Ok(None);
    }
    let run = |max_retries| searches::due(&Settings { max_retries, ..*s }, list);
    let (before, whole) = (run(retry_counter - 1)?, run(retry_counter)?);
    let count = whole.count - before.count;
    // A run says 11 or 12 by its sum, which of one try is the try's own.
    let number = match (whole.number, retry_counter) {
        (0, _) | (_, 1) => whole.number,
        _ if count >= s.dfs_bound => ffi::NOT_FOUND_IN_BOUNDS,
        _ => ffi::NOT_FOUND,
    };
    Ok((before.number != 0).then_some(Outcome { number, count, ..whole }))
}

/// The Rust's verifier takes a chain of any retry counter below its limit, which here is the next number.
fn is_proof(s: &Settings, list: &List, due: &Outcome) -> Checked {
    let (OfQ(_), 0, Some(max_retries)) = (s.x, due.number, due.retry_counter.checked_add(1)) else {
        return Ok(());
    };
    match verdicts::by_rust(&Claim::of(&Settings { max_retries, ..*s }, list, due)) {
        0 => Ok(()),
        number => Err(format!("  {due:?}, by the specification's words\n  the Rust's verifier: {number}\n")),
    }
}

#[cfg(test)]
mod tests {
    use super::*;
    use crate::model::chains;
    use crate::rng::Rng;

    /// Nine answers come with each other, and those to a bad list with themselves and with those to settings.
    #[test]
    fn which_answers_come_together() {
        let all: Vec<(&str, Option<u32>)> = pairs().collect();
        assert_eq!(all.len(), 9 * 9 + 2 * 5);
        let with = |first: u32| {
            let kind = BESIDE.iter().find(|(number, _)| *number == first).expect("an answer").1;
            all.iter().filter(|(own, _)| *own == kind).filter_map(|(_, second)| *second).collect::<Vec<u32>>()
        };
        assert_eq!((with(4), with(5)), (vec![1, 2, 4], vec![1, 2, 5]));
        assert_eq!((with(1), with(48)), (vec![0, 1, 2, 4, 5, 6, 10, 11, 12, 47, 48], vec![0, 1, 2, 6, 10, 11, 12, 47, 48]));
    }

    /// Of the first try the Rust's run with one retry; of a later one what it adds to the run before, where that found nothing.
    #[test]
    fn a_try_of_the_rust() {
        let mut rng = Rng::new(1, 0);
        let mut told = [0; 3];
        for _ in 0..100 {
            let s = searches::any_settings(&mut rng);
            let list = searches::any_list(&mut rng, s.set_size as usize);
            for retry_counter in 0..=4 {
                let theirs = by_rust(&s, &list, retry_counter).expect("the Rust's two calls agree");
                let can_be_asked = (1..=3).contains(&retry_counter);
                assert!(theirs.is_none() || can_be_asked);
                theirs.iter().for_each(|theirs| assert_eq!(*theirs, chains::try_alone(&s, &list, retry_counter)));
                told[if theirs.is_some() { 0 } else { 1 + usize::from(can_be_asked) }] += 1;
            }
        }
        assert!(told[0] > 100 && told[1] == 200 && told[2] > 10, "{told:?}");
    }
}
