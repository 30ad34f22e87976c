//! Prepare against the library's own hash of the same bytes in one string: what making them out of the list costs.

use super::measure::{in_turns, Work};
use super::{by_library, row};
use crate::{ffi, ffi::Settings, list::List, model, model::rules::ELEMENTS, original, rng::Rng};
use std::hint::black_box;

pub fn run() -> Result<(), String> {
    let settings = |set_size| original::small_case(set_size, 200, 128.0);
    prepare(&settings(32_768), ELEMENTS, 64)?;
    prepare(&settings(1000), 1000, 48)
}

/// A row for so many elements of so many random bytes with an index. The digests must be the same.
fn prepare(s: &Settings, count: usize, len: usize) -> Result<(), String> {
    let (mut rng, mut list, mut data) = (Rng::new(7, 0), List::default(), vec![0; len]);
    for index in 0..count as u64 {
        rng.fill(&mut data);
        list.push(&data, Some(index), 0);
    }
    let (bytes, workspace) = (model::prepare::bytes(s, &list), (vec![0; s.proof_size as usize], vec![0; 3 * s.set_size as usize + 1]));
    let prepared = || {
        let mut digest = [0; 32];
        let number = ffi::prepare(black_box(s), list.lent(), Some(&workspace.0), Some(&workspace.1), &mut digest[..]);
        (number, digest)
    };
    let hashed = || (0, by_library([black_box(&bytes), &[], &[], &[]]));
    let work = format!("prepare, {count} elements of {len} bytes");
    if prepared() != hashed() || hashed().1 != model::prepare::digest(s, &list) {
        return Err(format!("harness: {work}: the digests differ"));
    }
    let [ours, theirs] = in_turns([over(prepared), over(hashed)]);
    row(&work, "ours, the same bytes in one string", ours, theirs, Some(bytes.len()));
    Ok(())
}

fn over<'a, T>(call: impl Fn() -> T + 'a) -> Work<'a> {
    Box::new(move |calls| {
        (0..calls).for_each(|_| {
            black_box(call());
        })
    })
}
