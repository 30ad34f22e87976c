//! The order of each export's parameters. A contract names parameters and doesn't number them, so the order is kept by tests alone.
//!
//! Each export is called with arguments whose answer is known, and then with those of one type in each other order: every answer must be
//! the one that the Rust and the specification give. A library whose own parameters stood in that order would have to answer the
//! first call otherwise than is due; where it would not, the arguments don't tell the parameters apart, and that fails too. Of an export
//! that has several such calls one suffices. Let off are the orders of parameters on which no answer depends: planning takes X's two words,
//! as every call with settings does, and reads neither.
//!
//! The seventeen numbers of two products have too many orders. Of so many, those are tried in which two are exchanged, and those in which
//! two ranges side by side are, of any lengths: so one number is moved anywhere, and one party's are put before the other's.
//!
//! On x86-64 a double is passed apart from whole numbers and slices, so its place among them is none of the call's.

use super::export_calls::{self, Export};
use super::{Checked, Run};

/// The arguments of a call, those of one type side by side, in the order of the export's own parameters.
#[derive(Clone, Debug, Default, PartialEq)]
pub struct Args {
    pub numbers: Vec<u64>,
    pub double: f64,
    pub bytes: Vec<Vec<u8>>,
    pub words: Vec<Vec<u32>>,
    pub longs: Vec<Vec<u64>>,
    /// Which of the numbers no answer depends on, so that nothing tells their order among themselves.
    pub unread: &'static [usize],
}

/// The types of which an export may have several parameters.
#[derive(Clone, Copy, Debug)]
enum Type {
    Numbers,
    Bytes,
    Words,
    Longs,
}

impl Args {
    fn how_many(&self, of: Type) -> usize {
        match of {
            Type::Numbers => self.numbers.len(),
            Type::Bytes => self.bytes.len(),
            Type::Words => self.words.len(),
            Type::Longs => self.longs.len(),
        }
    }

    /// With the arguments of one type in another order.
    fn reordered(&self, of: Type, order: &[usize]) -> Args {
        let mut args = self.clone();
        match of {
            Type::Numbers => args.numbers = reordered(&self.numbers, order),
            Type::Bytes => args.bytes = reordered(&self.bytes, order),
            Type::Words => args.words = reordered(&self.words, order),
            Type::Longs => args.longs = reordered(&self.longs, order),
        }
        args
    }

    /// Whether an order moves none but the numbers that no answer depends on.
    fn moves_unread_alone(&self, of: Type, order: &[usize]) -> bool {
        matches!(of, Type::Numbers) && order.iter().enumerate().all(|(to, from)| to == *from || self.unread.contains(from))
    }
}

fn reordered<T: Clone>(items: &[T], order: &[usize]) -> Vec<T> {
    order.iter().map(|from| items[*from].clone()).collect()
}

/// Of more parameters of one type not every order is tried.
const FEW: usize = 9;

/// Every order of a few, or those of many that are tried; their own first.
fn orders(count: usize) -> Vec<Vec<usize>> {
    if count <= FEW {
        return every_order(count);
    }
    let own: Vec<usize> = (0..count).collect();
    let exchanged = |one: usize, other: usize| {
        let mut order = own.clone();
        order.swap(one, other);
        order
    };
    let side_by_side = |from: usize, at: usize, to: usize| [&own[..from], &own[at..to], &own[from..at], &own[to..]].concat();
    let mut orders = vec![own.clone()];
    for one in 0..count {
        for other in one + 1..count {
            orders.push(exchanged(one, other));
            orders.extend((other + 1..=count).map(|to| side_by_side(one, other, to)));
        }
    }
    orders
}

fn every_order(count: usize) -> Vec<Vec<usize>> {
    let Some(last) = count.checked_sub(1) else {
        return vec![Vec::new()];
    };
    let with_last_at = |order: Vec<usize>, at: usize| [&order[..at], &[last], &order[at..]].concat();
    (0..count).rev().flat_map(|at| every_order(last).into_iter().map(move |order| with_last_at(order, at))).collect()
}

/// The order that takes back another.
fn back(order: &[usize]) -> Vec<usize> {
    let mut back = vec![0; order.len()];
    order.iter().enumerate().for_each(|(to, from)| back[*from] = to);
    back
}

pub fn run(run: &mut Run, _: u64) -> Checked {
    let exports = export_calls::all()?;
    // Those of one name are calls of the same export.
    for calls in exports.chunk_by(|one, next| one.name == next.name) {
        let calls: Vec<Known> = calls.iter().map(|export| known(run, export)).collect::<Result<_, _>>()?;
        for of in [Type::Numbers, Type::Bytes, Type::Words, Type::Longs] {
            in_other_orders(run, &calls, of)?;
        }
    }
    Ok(())
}

/// A call with the answer to the arguments in their own order.
struct Known<'a> {
    export: &'a Export,
    own: Answer,
}

fn known<'a>(run: &mut Run, export: &'a Export) -> Result<Known<'a>, String> {
    let own = answer(export, &export.args)?;
    if own.0 != export.answer {
        return Err(format!("  {}: {} instead of {}\n  {:?}\n", export.name, own.0, export.answer, export.args));
    }
    note(run, export, own.0);
    Ok(Known { export, own })
}

/// The number, and the arguments after the call.
type Answer = (u32, Args);

/// The library's answer, which is the one that is due.
fn answer(export: &Export, args: &Args) -> Result<Answer, String> {
    let (mut after, mut due_after) = (args.clone(), args.clone());
    let (ours, due) = ((export.ours)(&mut after), (export.due)(&mut due_after)?);
    if ours != due || after != due_after {
        return Err(format!("  {} of {args:?}\n  ours: {ours}, then {after:?}\n  due: {due}, then {due_after:?}\n", export.name));
    }
    Ok((ours, after))
}

fn in_other_orders(run: &mut Run, calls: &[Known], of: Type) -> Checked {
    for order in orders(calls[0].export.args.how_many(of)).iter().skip(1) {
        let (mut is_told, name) = (false, calls[0].export.name);
        for Known { export, own } in calls {
            let (number, after) = answer(export, &export.args.reordered(of, order))?;
            // What a caller would see of a library with its parameters in this order, each argument where the caller put it.
            let is_same = (number, after.reordered(of, &back(order))) == *own;
            is_told |= !is_same || export.args.moves_unread_alone(of, order);
            note(run, export, number);
        }
        if !is_told {
            return Err(format!("  {name}: the test is at fault, it doesn't tell {of:?} in the order {order:?} from their own\n"));
        }
    }
    Ok(())
}

fn note(run: &mut Run, export: &Export, number: u32) {
    run.tally.count(export.name, number);
    run.count();
}

#[cfg(test)]
mod tests {
    use super::*;

    #[test]
    fn orders_are_all_and_each_is_taken_back() {
        let mut all = orders(4);
        assert_eq!(all[0], [0, 1, 2, 3]);
        for order in &all {
            assert_eq!(reordered(&reordered(b"abcd", order), &back(order)), b"abcd");
        }
        all.sort();
        all.dedup();
        assert_eq!(all.len(), 24);
    }

    /// Of seventeen: each of 136 pairs exchanged, and each of 816 pairs of ranges, of which 16 are of one each and exchange the same.
    #[test]
    fn of_many_two_or_two_ranges_are_exchanged() {
        let mut some = orders(17);
        let own: Vec<usize> = (0..17).collect();
        assert_eq!(some[0], own);
        let parties = [&own[..1], &own[9..], &own[1..9]].concat();
        let (moved, exchanged) = ([&own[1..17], &own[..1]].concat(), [&[16], &own[1..16], &[0]].concat());
        assert!([parties, moved, exchanged].iter().all(|order| some.contains(order)));
        some.sort();
        some.dedup();
        assert_eq!(some.len(), 1 + 136 + 816 - 16);
        assert!(some.iter().all(|order| reordered(&reordered(&own, order), &back(order)) == own));
    }

    #[test]
    fn what_is_unread_is_let_off_among_itself() {
        let args = Args { numbers: vec![5, 6, 7, 8], unread: &[1, 2], ..Args::default() };
        let let_off: Vec<_> = orders(4).into_iter().filter(|order| args.moves_unread_alone(Type::Numbers, order)).collect();
        assert_eq!(let_off, [[0, 1, 2, 3], [0, 2, 1, 3]]);
        assert!(!args.moves_unread_alone(Type::Longs, &[0, 2, 1, 3]));
    }
}
