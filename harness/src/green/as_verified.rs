//! That the game is the verifier's: with SHA-256 in its own place it is green exactly where the library's verifier and the Rust's accept
//! something. All that can be sent of a small list is shown to both.

use super::{keyed, telescope};
use crate::compare::verdicts::{self, Claim};
use crate::compare::{searches, shown_list};
use crate::model::threshold::Threshold::OfQ;
use crate::{ffi::Settings, list::List, rng::Rng};

/// How many settings, each with a list.
const CASES: u64 = 5000;

/// What came of them.
#[derive(Default)]
struct Seen {
    green: u64,
    dark: u64,
    shown: u64,
    accepted: u64,
}

/// It says how many there were, or the first case that differs. A run in which green or dark never came differs too.
pub fn run(rng: &mut Rng) -> Result<String, String> {
    let mut seen = Seen::default();
    for _ in 0..CASES {
        let (settings, list) = any_case(rng);
        check(&settings, &list, &mut seen).map_err(|why| format!("  {settings:?}\n{}{why}", shown_list(&list)))?;
    }
    let Seen { green, dark, shown, accepted } = seen;
    if green == 0 || dark == 0 {
        return Err(format!("  of {CASES} small settings {green} are green and {dark} dark\n"));
    }
    Ok(format!(
        "with SHA-256 the verifier's: {CASES} small settings, {green} green and {dark} dark; of {shown} proofs shown {accepted} accepted"
    ))
}

/// Settings and lists so small that all proofs can be shown, and such that many are green.
fn any_case(rng: &mut Rng) -> (Settings, List) {
    let settings = Settings {
        set_size: 1 + rng.below(4),
        proof_size: rng.below(4),
        max_retries: rng.below(4),
        search_width: rng.below(10),
        dfs_bound: rng.below(3),
        x: OfQ(searches::any_q(rng, 4)),
    };
    let elements = rng.below(4) as usize;
    (settings, searches::list_of(rng, elements, 0, 9))
}

fn check(s: &Settings, list: &List, seen: &mut Seen) -> Result<(), String> {
    let accepted = accepted(s, list, seen)?;
    let found = telescope::proof(&keyed::function(&[]), s, list);
    if found.is_some() != (accepted > 0) {
        return Err(format!("  a proof in the game: {}\n  proofs that the verifier accepts: {accepted}\n", found.is_some()));
    }
    match found {
        Some(claim) if verdicts::verdict(&claim)? != 0 => return Err(format!("  not accepted:\n{}", verdicts::shown(&claim))),
        Some(_) => seen.green += 1,
        None => seen.dark += 1,
    }
    Ok(())
}

/// How many of all proofs the verifiers accept, which must agree on each: every R and S up to one too many, every list of proof_size
/// elements.
fn accepted(s: &Settings, list: &List, seen: &mut Seen) -> Result<u64, String> {
    let mut accepted = 0;
    for retry_counter in 0..=s.max_retries {
        for search_counter in 0..=s.search_width {
            for places in all_places(list.len() as u64, s.proof_size as u32) {
                let claim = Claim { settings: *s, retry_counter, search_counter, list: list.at(&places) };
                accepted += u64::from(verdicts::verdict(&claim)? == 0);
                seen.shown += 1;
            }
        }
    }
    seen.accepted += accepted;
    Ok(accepted)
}

/// All lists of so many places below `len`.
fn all_places(len: u64, count: u32) -> impl Iterator<Item = Vec<u32>> {
    (0..len.pow(count)).map(move |number| (0..count).map(|digit| (number / len.pow(digit) % len) as u32).collect())
}

#[cfg(test)]
mod tests {
    use super::*;

    #[test]
    fn each_list_of_places_once() {
        let of = |len, count| all_places(len, count).collect::<Vec<_>>();
        assert_eq!(of(2, 2), [[0, 0], [1, 0], [0, 1], [1, 1]]);
        assert_eq!((of(3, 0), of(0, 0), of(0, 2).len()), (vec![vec![]], vec![vec![]], 0));
        let mut all = of(3, 3);
        all.sort();
        all.dedup();
        assert!(all.len() == 27 && all.iter().flatten().all(|place| *place < 3));
    }

    /// Cases are lawful, some have no element and some no counter.
    #[test]
    fn cases_are_small() {
        let mut rng = Rng::new(1, 0);
        let cases: Vec<_> = (0..1000).map(|_| any_case(&mut rng)).collect();
        let is_lawful = |s, list| crate::model::rules::settings(s).is_ok() && crate::model::rules::list(list).is_ok();
        assert!(cases.iter().all(|(s, list)| is_lawful(s, list)));
        assert!(cases.iter().any(|(_, list)| list.len() == 0) && cases.iter().any(|(s, _)| s.max_retries == 0));
    }
}
