//! What was found: how many figures were tried, and the kinds of differences with examples.

use crate::compare::Checked;
use crate::ffi;
use crate::model::proof_size::{Figures, MOST};
use std::collections::BTreeMap;
use std::fmt::Write;

/// In place of a size, where it is above 1,024 or there is none.
pub const NONE: u64 = MOST + 1;
/// Examples of each kind that are kept, and how many of each the library is asked too.
const EXAMPLES: usize = 3;
const ASKED: u64 = 1000;

/// The size by the Rust's doubles, by the request's words, and by sixty decimals of log2 e.
#[derive(Clone, Copy)]
pub struct Three {
    pub rust: u64,
    pub here: u64,
    pub right: u64,
}

/// How the Rust's and the request's sizes stand to the right one, and whether one of the three is none.
type Kind = (i64, i64, bool);

#[derive(Default)]
struct Like {
    times: u64,
    examples: Vec<String>,
}

#[derive(Default)]
pub struct Found {
    tried: BTreeMap<&'static str, [u64; 3]>,
    kinds: BTreeMap<Kind, Like>,
}

impl Found {
    /// The library must give what the request's words do, where the sizes differ.
    pub fn note(&mut self, name: &'static str, figures: Figures, sizes: Three) -> Checked {
        let Three { rust, here, right } = sizes;
        let tried = self.tried.entry(name).or_default();
        tried[0] += 1;
        tried[1] += u64::from(rust == NONE && here == NONE);
        if rust == here && here == right {
            return Ok(());
        }
        tried[2] += u64::from(rust != here);
        let apart = |size: u64| size as i64 - right as i64;
        let like = self.kinds.entry((apart(rust), apart(here), [rust, here, right].contains(&NONE))).or_default();
        like.times += 1;
        if like.examples.len() < EXAMPLES {
            like.examples.push(example(&figures, sizes));
        }
        if like.times <= ASKED {
            ask(&figures, here)
        } else {
            Ok(())
        }
    }

    pub fn text(&self) -> String {
        let mut text = "| figures | tried | over 1,024 in the Rust and 44 here | other sizes |\n|---|---|---|---|\n".to_string();
        let mut all = [0; 3];
        for (name, tried) in &self.tried {
            (0..3).for_each(|column| all[column] += tried[column]);
            row(&mut text, name, tried);
        }
        row(&mut text, "all", &all);
        text += "\n| kind | how often | examples | right by sixty decimals |\n|---|---|---|---|\n";
        for (kind, like) in &self.kinds {
            let (name, right) = said(*kind);
            writeln!(text, "| {name} | {} | {} | {right} |", grouped(like.times), like.examples.join("; ")).expect("a string takes all");
        }
        text
    }
}

fn row(text: &mut String, name: &str, numbers: &[u64; 3]) {
    let [tried, beyond, other] = numbers.map(grouped);
    writeln!(text, "| {name} | {tried} | {beyond} | {other} |").expect("a string takes all");
}

fn ask(figures: &Figures, here: u64) -> Checked {
    let mut out = [0];
    let (number, due) = (ffi::proof_size(figures, &mut out[..]), if here == NONE { (ffi::NO_SIZE, 0) } else { (0, here) });
    if (number, out[0]) == due {
        return Ok(());
    }
    Err(format!("  {figures:?}: DIFFERS\n  ours: {number}, size {}\n  due: {}, size {}\n", out[0], due.0, due.1))
}

fn example(figures: &Figures, sizes: Three) -> String {
    let Figures { s, c, n, f } = figures;
    let Three { rust, here, right } = sizes;
    let shown = |size: u64, none: &str| if size == NONE { none.to_string() } else { size.to_string() };
    let (rust, here, right) = (shown(rust, "over 1,024"), shown(here, "44"), shown(right, "over 1,024"));
    format!("s = {s}, c = {c}, n = {n}, f = {f}: the Rust {rust}, here {here}, right {right}")
}

/// What a kind is, and which of the two is right.
fn said(kind: Kind) -> (String, &'static str) {
    let (name, right) = match kind {
        (0, 1, false) => ("here one more: log2 e is cut", "the Rust"),
        (0, 1, true) => ("44 here, 1,024 in the Rust: log2 e is cut", "the Rust"),
        (1, 0, false) => ("the Rust one more: doubles are rounded", "here"),
        (1, 0, true) => ("1,024 here, over 1,024 in the Rust: doubles are rounded", "here"),
        (-1, 0, false) => ("the Rust one less: doubles are rounded", "here"),
        (-1, 0, true) => ("44 here, 1,024 in the Rust: doubles are rounded", "here"),
        (1, 1, _) => ("the same in both, one more than right", "neither"),
        (rust, here, _) => return (format!("the Rust {rust:+}, here {here:+}"), right_of(rust, here)),
    };
    (name.to_string(), right)
}

fn right_of(rust: i64, here: i64) -> &'static str {
    match (rust, here) {
        (0, 0) => "both",
        (0, _) => "the Rust",
        (_, 0) => "here",
        _ => "neither",
    }
}

/// With commas between the thousands.
fn grouped(number: u64) -> String {
    let digits = number.to_string();
    let comma = |place: usize| if place > 0 && (digits.len() - place) % 3 == 0 { "," } else { "" };
    digits.char_indices().fold(String::new(), |text, (place, digit)| format!("{text}{}{digit}", comma(place)))
}

#[cfg(test)]
mod tests {
    use super::*;

    #[test]
    fn thousands() {
        assert_eq!([0, 7, 999, 1000, 1_234_567].map(grouped), ["0", "7", "999", "1,000", "1,234,567"]);
    }

    #[test]
    fn kinds_and_examples() {
        let figures = Figures { s: 1, c: 2, n: 4, f: 3 };
        let sizes = Three { rust: 1024, here: NONE, right: NONE };
        assert_eq!(example(&figures, sizes), "s = 1, c = 2, n = 4, f = 3: the Rust 1024, here 44, right over 1,024");
        assert_eq!(said((0, 1, true)), ("44 here, 1,024 in the Rust: log2 e is cut".to_string(), "the Rust"));
        assert_eq!(said((-1, 1, false)), ("the Rust -1, here +1".to_string(), "neither"));
    }

    /// Equal sizes are counted, and those above the limit among them.
    #[test]
    fn equal_sizes() {
        let (mut found, figures) = (Found::default(), Figures { s: 1, c: 2, n: 4, f: 3 });
        for size in [1, 1024, NONE] {
            found.note("some", figures, Three { rust: size, here: size, right: size }).expect("the library isn't asked");
        }
        assert_eq!((found.tried["some"], found.kinds.len()), ([3, 1, 0], 0));
    }
}
