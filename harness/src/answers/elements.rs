//! Cases that ask of a list of elements: distinctness, prover and verifier.

use super::{bits, Answers, DISTINCT, PROVE, VERIFY};
use crate::compare::planted::{self, PairData, Planting, PLANTS, SHAPES};
use crate::compare::searches::{self, Outcome};
use crate::compare::verdicts::{self, Claim};
use crate::compare::{limits, Checked};
use crate::model::rules;
use crate::model::threshold::Threshold::OfQ;
use crate::{ffi, ffi::Settings, list::List, original, rng::Rng};

/// The completeness of the realistic settings.
const COMPLETENESS: f64 = 10.0;
/// The bound of a family's first search, and the most data bytes of its list.
const WIDE: u64 = 1000;
const MOST: usize = 1000;
/// The most elements whose distinctness is asked of each shape.
const LONGEST: usize = 9;

pub fn write(answers: &mut Answers) -> Checked {
    write_distinct(answers);
    let mut rng = answers.rng(PROVE);
    for (settings, list) in limits::i_to_l() {
        prove(answers, &settings, &list)?;
    }
    write_deepest(answers)?;
    write_claims(answers);
    write_realistic(answers, &mut rng)?;
    while !(answers.is_full(DISTINCT) && answers.is_full(PROVE) && answers.is_full(VERIFY)) {
        write_family(answers, &mut rng)?;
    }
    Ok(())
}

/// Lists of each length of every shape, and each again with a pair planted in it, each pair in its turn.
fn write_distinct(answers: &mut Answers) {
    let mut rng = answers.rng(DISTINCT);
    for count in 0..=LONGEST {
        for shape in 0..SHAPES.len() {
            let elements = planted::elements(&mut rng, shape, count);
            distinct(answers, &planted::as_is(&elements, shape).list);
            if count > 1 {
                let planting = Planting { plant: (count + shape) % PLANTS.len(), is_next: count % 2 == 0, data: PairData::Own };
                distinct(answers, &planted::with_pair(&mut rng, &elements, shape, planting).list);
            }
        }
    }
}

/// What the request's words say: the Rust goes by data alone.
fn distinct(answers: &mut Answers, list: &List) {
    if answers.is_full(DISTINCT) {
        return;
    }
    answers.list(list);
    let answer = u32::from(rules::distinctness(list) == 0);
    answers.case(DISTINCT, "", &answer.to_string());
}

/// Searches as deep as the settings admit: found just within the bound, just past it, and with a choice at each length.
fn write_deepest(answers: &mut Answers) -> Checked {
    let of = |elements: &[&[u8]]| {
        let mut list = List::default();
        elements.iter().for_each(|data| list.push(data, None, 0));
        list
    };
    let one = Settings { set_size: 1, proof_size: 1024, max_retries: 2, search_width: 1, dfs_bound: 1025, x: OfQ(1.0) };
    prove(answers, &one, &of(&[b"a"]))?;
    prove(answers, &Settings { dfs_bound: 1024, ..one }, &of(&[b"a"]))?;
    prove(answers, &Settings { x: OfQ(0.001), dfs_bound: 1 << 48, ..one }, &of(&[b"a", b"b"]))?;
    prove(answers, &Settings { proof_size: 0, max_retries: 1000, x: OfQ(0.0), ..one }, &of(&[b""]))?;
    prove(answers, &Settings { search_width: (1 << 32) - 1, x: OfQ(0.001), proof_size: 1, ..one }, &of(&[b""]))?;
    Ok(())
}

/// Chains that surely exist, of a single bin: what the counters and the length decide by themselves, R = 0 and more elements than the
/// prover keeps among it.
fn write_claims(answers: &mut Answers) {
    let one = Settings { set_size: 1, proof_size: 3, max_retries: 5, search_width: 7, dfs_bound: 0, x: OfQ(1.0) };
    let mut list = List::default();
    list.push(b"a", Some(7), 0);
    list.push(b"", None, 0);
    list.push(b"a", Some(7), 0);
    let width = (1 << 32) - 1;
    for (settings, counters) in [
        (one, vec![(0, 0), (1, 6), (4, 0), (4, 6), (5, 0), (0, 7), (5, 7), (u64::MAX, 0), (0, u64::MAX)]),
        (Settings { x: OfQ(0.0), ..one }, vec![(0, 0), (5, 0)]),
        (Settings { max_retries: 0, ..one }, vec![(0, 0), (1, 0)]),
        (Settings { search_width: 0, ..one }, vec![(0, 0), (1, 0)]),
        (Settings { proof_size: 2, ..one }, vec![(0, 0), (5, 7)]),
        (Settings { proof_size: 4, ..one }, vec![(0, 0), (5, 7)]),
        (Settings { set_size: 32_768, ..one }, vec![(0, 0), (1, 1)]),
        (Settings { max_retries: 65_535, search_width: width, ..one }, vec![(65_534, width - 1), (65_535, 0), (0, width)]),
    ] {
        for (retry_counter, search_counter) in counters {
            verify(answers, &Claim { settings, retry_counter, search_counter, list: list.clone() });
        }
    }
    let none = Settings { proof_size: 0, ..one };
    for settings in [none, Settings { x: OfQ(0.0), ..none }, Settings { x: OfQ(0.5), ..none }, Settings { proof_size: 1, ..none }] {
        verify(answers, &Claim { settings, retry_counter: 0, search_counter: 3, list: List::default() });
    }
}

/// The small case's settings as they are meant to be used, with lists from set_size elements on to more than are kept.
fn write_realistic(answers: &mut Answers, rng: &mut Rng) -> Checked {
    for (set_size, proof_size, elements, bytes) in [(100, 20, 100, 32), (100, 20, 150, 48), (150, 30, 300, 8), (200, 50, 407, 4)] {
        let mut list = List::default();
        let mut data = [0; 48];
        for index in 0..elements {
            rng.fill(&mut data);
            list.push(&data[..bytes], Some(index), 0);
        }
        let settings = original::small_case(set_size, proof_size, COMPLETENESS);
        let found = prove(answers, &settings, &list)?;
        verify_all(answers, rng, &settings, &list, &found);
    }
    Ok(())
}

/// A random list, searched four times, with bounds at and around the count that came out before; then asked for more than it has; the
/// first proof that was found, and damaged copies of it.
fn write_family(answers: &mut Answers, rng: &mut Rng) -> Checked {
    let mut settings = Settings { dfs_bound: WIDE, ..searches::any_settings(rng) };
    let list = searches::any_list(rng, settings.set_size as usize);
    if list.data.len() > MOST {
        return Ok(());
    }
    distinct(answers, &list);
    let mut first = None;
    for _ in 0..4 {
        let outcome = prove(answers, &settings, &list)?;
        let bound = searches::next_bound(rng, &settings, &outcome);
        if outcome.number == 0 && first.is_none() {
            first = Some((settings, outcome));
        }
        settings.dfs_bound = bound;
    }
    if rng.below(4) == 0 {
        prove(answers, &Settings { set_size: list.len() as u64 + 1 + rng.below(9), ..settings }, &list)?;
    }
    if let Some((settings, outcome)) = first {
        verify_all(answers, rng, &settings, &list, &outcome);
    }
    Ok(())
}

/// A proof as it is, and about a third of its damaged copies.
fn verify_all(answers: &mut Answers, rng: &mut Rng, settings: &Settings, list: &List, found: &Outcome) {
    if found.number != 0 {
        return;
    }
    let claims = verdicts::claims(rng, settings, list, found);
    let own = claims.len() - 2;
    for (at, claim) in claims.iter().enumerate() {
        if at >= own || rng.below(3) == 0 {
            verify(answers, claim);
        }
    }
}

fn shown(s: &Settings) -> String {
    format!("{} {} {} {} {} {}", s.set_size, s.proof_size, s.max_retries, s.search_width, s.dfs_bound, bits(s.x.q()))
}

fn prove(answers: &mut Answers, s: &Settings, list: &List) -> Result<Outcome, String> {
    let found = searches::due(s, list)?;
    if answers.is_full(PROVE) {
        return Ok(found);
    }
    let Outcome { number, retry_counter, search_counter, count, .. } = found;
    let answer = match number {
        0 => found.places.iter().fold(format!("0 {retry_counter} {search_counter} {count}"), |text, place| format!("{text} {place}")),
        ffi::NOT_ENOUGH => number.to_string(),
        _ => format!("{number} {count}"),
    };
    answers.list(list);
    answers.case(PROVE, &shown(s), &answer);
    Ok(found)
}

fn verify(answers: &mut Answers, claim: &Claim) {
    if answers.is_full(VERIFY) {
        return;
    }
    let Claim { settings, retry_counter, search_counter, list } = claim;
    let number = verdicts::by_rust(claim);
    answers.list(list);
    answers.case(VERIFY, &format!("{} {retry_counter} {search_counter}", shown(settings)), &number.to_string());
}
