//! Searches with each setting and each list at its limit, against the Rust, and the specification's cases i to l, against the Rust and
//! what the specification says of them.

use super::{blocks, faults, searches, Checked, Run};
use crate::model::rules;
use crate::{ffi, ffi::Settings, list::List, model::threshold::Threshold::OfQ};

pub fn run(run: &mut Run, _: u64) -> Checked {
    let cases = cases();
    blocks::run(run, cases.len() as u64, |number, block| {
        let (settings, list) = &cases[number as usize];
        searches::check_and_verify(block, settings, list).map(|_| ())
    })?;
    let listed = i_to_l();
    blocks::run(run, listed.len() as u64, |number, block| {
        let ((settings, list), said) = (&listed[number as usize], SAID[number as usize]);
        let outcome = searches::check_and_verify(block, settings, list)?;
        match (outcome.number, outcome.count) == said {
            true => Ok(()),
            false => Err(format!("  {settings:?}\n  the specification's cases i to l: {said:?} is said, and {outcome:?} comes out\n")),
        }
    })
}

/// The number and the count that the specification gives for its cases i to l, or that follow from its words where it leaves one out.
pub const SAID: [(u32, u64); 8] = [
    (ffi::NOT_FOUND, 9),
    (ffi::NOT_FOUND_IN_BOUNDS, 9),
    (ffi::NOT_FOUND, 7),
    (ffi::NOT_FOUND_IN_BOUNDS, 4),
    (ffi::NOT_FOUND, 2),
    (ffi::NOT_FOUND_IN_BOUNDS, 2),
    (ffi::NOT_FOUND_IN_BOUNDS, 0),
    (ffi::NOT_FOUND, 0),
];

fn cases() -> Vec<(Settings, List)> {
    let mut cases = Vec::new();
    let of = faults::long_list;
    let one = Settings { set_size: 1, proof_size: 1024, max_retries: 2, search_width: 1, dfs_bound: 1 << 48, x: OfQ(1.0) };
    // The deepest search: found, not found, and with a choice at each length.
    cases.push((one, of(1, 48)));
    cases.push((Settings { x: OfQ(0.0), ..one }, of(1, rules::BYTES)));
    cases.push((Settings { dfs_bound: 1025, ..one }, of(1, 0)));
    cases.push((Settings { dfs_bound: 1024, ..one }, of(1, 0)));
    cases.push((Settings { x: OfQ(0.0), dfs_bound: 9000, ..one }, of(2, 8)));
    cases.push((Settings { x: OfQ(0.001), dfs_bound: 9000, ..one }, of(3, 8)));
    // The largest set, its bins, and the longest lists.
    for (set_size, elements) in [(32_768, 32_768), (32_768, rules::ELEMENTS), (32_767, rules::ELEMENTS), (1, rules::ELEMENTS)] {
        let settings = Settings { set_size, proof_size: 3, max_retries: 3, search_width: 40, dfs_bound: 1000, x: OfQ(0.01) };
        cases.push((settings, of(elements, 2)));
        cases.push((Settings { x: OfQ(0.0), ..settings }, of(elements, 2)));
    }
    // The most retries, the greatest width and bound.
    let idle = Settings { proof_size: 0, max_retries: 65_535, x: OfQ(0.0), ..one };
    for dfs_bound in [1 << 48, 65_536, 65_535, 65_534, 1, 0] {
        cases.push((Settings { dfs_bound, ..idle }, of(1, 1)));
    }
    cases.push((Settings { search_width: (1 << 32) - 1, max_retries: 2, dfs_bound: 1000, ..idle }, of(1, 1)));
    cases.push((Settings { search_width: (1 << 32) - 1, max_retries: 2, x: OfQ(0.001), ..idle }, of(1, 1)));
    cases
}

pub fn i_to_l() -> Vec<(Settings, List)> {
    let mut cases = Vec::new();
    for (elements, proof_size, search_width, max_retries, bounds) in
        [(1, 2, 1, 3, [100, 9]), (2, 2, 1, 1, [100, 4]), (1, 0, 2, 1, [5, 2]), (1, 0, 2, 0, [0, 1])]
    {
        for dfs_bound in bounds {
            cases.push((
                Settings { set_size: 1, proof_size, max_retries, search_width, dfs_bound, x: OfQ(0.0) },
                faults::long_list(elements, 4),
            ));
        }
    }
    cases
}
