//! The proof size from security figures: where no size serves, which takes longest, at the greatest size, and of the Rust's own example;
//! each against the harness's walk over the same sizes in whole numbers (src/model/proof_size.rs).

use super::measure::{in_turns, Work};
use super::row;
use crate::model::proof_size::{last, meets, walk, Figures, Log2E, MOST, MOST_C, MOST_N, MOST_S};
use crate::{ffi, ffi::NO_SIZE};
use std::hint::black_box;

pub fn run() -> Result<(), String> {
    let most = Figures { s: MOST_S, c: MOST_C, n: MOST_N, f: MOST_N - 1 };
    let least = Figures { s: 0, c: 1, ..most };
    of("none (44), the greatest figures, f = n − 1", most)?;
    of("none (44), s = 0, c = 1, n = 32,768, f = n − 1", least)?;
    of_greatest_size("the greatest s and c", most)?;
    of_greatest_size("s = 0, c = 1", least)?;
    of("s = 128, c = 128, n = 1,000, f = 750", Figures { s: 128, c: 128, n: 1000, f: 750 })
}

/// With the greatest f that a size of 1,024 is enough for.
fn of_greatest_size(what: &str, figures: Figures) -> Result<(), String> {
    let log2_e = Log2E::cut();
    let f = last(1..=figures.n - 1, |f| meets(&Figures { f, ..figures }, MOST, &log2_e)).ok_or("harness: no f has the size 1,024")?;
    of(&format!("{what}, n = 32,768, f = {f}"), Figures { f, ..figures })
}

fn of(what: &str, figures: Figures) -> Result<(), String> {
    let ours = move || {
        let mut out = [0];
        match ffi::proof_size(black_box(&figures), &mut out[..]) {
            NO_SIZE => None,
            _ => Some(out[0]),
        }
    };
    let theirs = move || walk(black_box(&figures));
    let size = ours();
    if size != theirs() {
        return Err(format!("harness: the size of {figures:?}: ours {size:?}, the harness's {:?}", theirs()));
    }
    let [our_time, their_time] = in_turns([over(ours), over(theirs)]);
    let size = size.map_or(String::new(), |size| format!(" ({size})"));
    row(&format!("proof size: {what}{size}"), "the harness's own walk", our_time, their_time, None);
    Ok(())
}

fn over(call: impl Fn() -> Option<u64> + 'static) -> Work<'static> {
    Box::new(move |calls| {
        for _ in 0..calls {
            black_box(call());
        }
    })
}
