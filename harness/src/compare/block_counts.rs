//! The number of blocks that a ticket states: another than there are blocks, or in another place; blocks less or more than are stated; and
//! tickets of the first layout, which stated none. What is due is the answer of the harness's own reader (src/model/ticket.rs). Where the
//! request's words leave but one answer, it is also looked at that this reader gives it.

use super::blocks::{self, Block};
use super::tickets::{self, Rooms};
use super::{changed_tickets, searches, Checked, Run};
use crate::model::rules::BYTES;
use crate::{
    ffi,
    list::List,
    model::ticket,
    model::ticket::{in_blocks, Proof, BLOCK, BODY, HEAD, STATED},
    rng::Rng,
};

/// Tickets in a block of cases, and so many blocks at least, in which every kind comes.
const TICKETS: u64 = 50;
const LEAST: u64 = 10;
/// Where the number has its second byte, and its third.
const MANY: [usize; 4] = [255, 256, 257, 65_536];

/// What makes a lawful ticket of fewer than 65,536 blocks one that is refused with 41, once its checks are right again.
pub const WRONG: [(&str, fn(&mut Rng, &mut Vec<u8>)); 19] = [
    ("a ticket that states one block more", |_, ticket| state(ticket, |count| count + 1)),
    ("a ticket that states one block less", |_, ticket| state(ticket, |count| count - 1)),
    ("a ticket that states 0 blocks", |_, ticket| state(ticket, |_| 0)),
    ("a ticket that states 2^31 blocks", |_, ticket| state(ticket, |_| 1 << 31)),
    ("a ticket that states 2^32 - 1 blocks", |_, ticket| state(ticket, |_| u32::MAX)),
    ("a ticket that states its bytes", |_, ticket| state(ticket, |count| count * BLOCK as u32)),
    ("a ticket that states its bodies' bytes", |_, ticket| state(ticket, |count| count * BODY as u32)),
    ("a ticket that states its blocks little-endian", |_, ticket| state(ticket, u32::swap_bytes)),
    ("a ticket that states its blocks but for a bit above the last byte", |rng, ticket| {
        let bit = 8 + rng.below(24);
        state(ticket, |count| count ^ 1 << bit);
    }),
    ("a ticket that states any other number", |rng, ticket| {
        let more = 1 + rng.below(u64::from(u32::MAX)) as u32;
        state(ticket, |count| count.wrapping_add(more));
    }),
    ("a ticket that states its blocks behind R, which is below 2^32", |_, ticket| {
        ticket[STATED..2 * STATED].fill(0);
        swap_with_retry(ticket);
    }),
    ("a ticket without its last block", |_, ticket| ticket.truncate(ticket.len() - BLOCK)),
    ("a ticket with blocks cut off its end", |rng, ticket| ticket.truncate(rng.below((ticket.len() / BLOCK) as u64) as usize * BLOCK)),
    ("a ticket with a block of zeros added", |_, ticket| ticket.extend([0; BLOCK])),
    ("a ticket with blocks of zeros added", |rng, ticket| ticket.resize(ticket.len() + (2 + rng.below(9) as usize) * BLOCK, 0)),
    ("a ticket with its last block once more", |_, ticket| ticket.extend_from_within(ticket.len() - BLOCK..)),
    ("a ticket with all its blocks once more", |_, ticket| ticket.extend_from_within(..)),
    // N1's rule alone is broken here.
    ("a ticket with a block of zeros added and counted", |_, ticket| {
        ticket.extend([0; BLOCK]);
        state(ticket, |count| count);
    }),
    ("a ticket without its last block, which isn't counted", |_, ticket| {
        ticket.truncate(ticket.len() - BLOCK);
        state(ticket, |count| count);
    }),
];
const WRONG_AND_DAMAGED: &str = "a ticket of a wrong number with a bit changed";
const MANY_WRONG: &str = "a ticket of 255 blocks or more, with another number or other blocks";
const BEHIND_LIKE: &str = "a ticket that states its blocks behind R, which begins with them";

/// R of a ticket in the first layout, by the number of its blocks. All of these are refused with 41 whatever else the ticket holds.
const FIRST: [(&str, fn(&mut Rng, u64) -> u64); 7] = [
    ("the first layout, R = 0", |_, _| 0),
    ("the first layout, R = 1", |_, _| 1),
    ("the first layout, its number of blocks as R", |_, count| count),
    ("the first layout, R = 2^32 - 1", |_, _| (1 << 32) - 1),
    ("the first layout, any R below 2^32", |rng, _| rng.below(1 << 32)),
    ("the first layout, R begins with one more than its blocks", |rng, count| begins_with(rng, count + 1)),
    ("the first layout, R begins with any other number", |rng, count| {
        let other = count ^ 1 << rng.below(32);
        begins_with(rng, other)
    }),
];
/// What R begins with is the number of blocks, so that the rest decides.
const LIKE: &str = "the first layout, R begins with its number of blocks";
const LIKE_NONE: &str = "the first layout, such an R and no elements";
const LIKE_EMPTY: &str = "the first layout, such an R and elements without index and data";
const LIKE_BOTH: &str = "the first layout, such an R and an element whose data are elements";

pub fn run(run: &mut Run, cases: u64) -> Checked {
    blocks::run(run, cases.div_ceil(TICKETS).max(LEAST), |_, block| (0..TICKETS).try_for_each(|_| any(block)))?;
    blocks::run(run, MANY.len() as u64, |number, block| of_many(block, MANY[number as usize]))?;
    blocks::run(run, 3 * BLOCK as u64, |len, block| any_bytes(block, len as usize))?;
    run.seen.none_missing(kinds().chain([(MANY_WRONG, Some(ffi::NO_TICKET))]))
}

/// Every kind that must have come, in `load` too, with its answer.
pub fn kinds() -> impl Iterator<Item = (&'static str, Option<u32>)> {
    let wrong = WRONG.iter().map(|(kind, _)| *kind).chain(FIRST.iter().map(|(kind, _)| *kind)).map(|kind| (kind, ffi::NO_TICKET));
    let read = [BEHIND_LIKE, LIKE, LIKE_NONE, LIKE_EMPTY, LIKE_BOTH].map(|kind| (kind, 0));
    let others = [(WRONG_AND_DAMAGED, ffi::DAMAGED_TICKET), (LIKE, ffi::NO_TICKET), (LIKE_EMPTY, ffi::NO_TICKET)];
    wrong.chain(read).chain(others).map(|(kind, answer)| (kind, Some(answer)))
}

/// Puts a number before R, made from that of the blocks that there are, if there are any.
pub fn state(ticket: &mut [u8], number: impl Fn(u32) -> u32) {
    let count = (ticket.len() / BLOCK) as u32;
    if count > 0 {
        ticket[..STATED].copy_from_slice(&number(count).to_be_bytes());
    }
}

/// R first, then the number of blocks.
fn swap_with_retry(ticket: &mut [u8]) {
    ticket[..STATED + 8].rotate_left(STATED);
}

/// A number of 64 bits whose first half is this one.
fn begins_with(rng: &mut Rng, number: u64) -> u64 {
    number << 32 | rng.below(1 << 32)
}

/// A ticket with its checks right again, read into as much room as it takes, or more: the answer, which is to be this one if one is named.
fn check(block: &mut Block, kind: &'static str, mut bytes: Vec<u8>, due: Option<u32>) -> Checked {
    ticket::seal(&mut bytes);
    let answer = read_with_room(block, &bytes)?;
    if due.is_some_and(|due| due != answer) {
        return Err(format!("  {kind}: {due:?} is due by the request's words, and the harness's own reader says {answer}\n"));
    }
    block.seen.count(kind, answer);
    Ok(())
}

fn read_with_room(block: &mut Block, bytes: &[u8]) -> Result<u32, String> {
    let (told, more) = (ticket::tell(bytes).unwrap_or_default(), [0, 1, 30][block.rng.below(3) as usize]);
    let rooms = Rooms { data: told.len + more, ends: told.count + more, marks: told.count + more, indexes: told.count + more, out: 4 };
    tickets::read(block, bytes, rooms)
}

fn any(block: &mut Block) -> Checked {
    let proof = tickets::any_proof(&mut block.rng);
    of_proof(block, &proof)
}

/// The ticket of a proof with each wrong number, and the proof in the first layout with each R.
pub fn of_proof(block: &mut Block, proof: &Proof) -> Checked {
    let bytes = ticket::of(proof);
    WRONG.iter().try_for_each(|(kind, change)| {
        let mut changed = bytes.clone();
        change(&mut block.rng, &mut changed);
        check(block, kind, changed, Some(ffi::NO_TICKET))
    })?;
    wrong_and_damaged(block, &bytes)?;
    behind_like(block, bytes)?;
    FIRST.iter().try_for_each(|(kind, retry)| of_first(block, kind, &proof.list, retry, Some(ffi::NO_TICKET)))?;
    like(block, proof)
}

/// The check of a block comes first, so this is 40.
fn wrong_and_damaged(block: &mut Block, bytes: &[u8]) -> Checked {
    let mut changed = any_wrong(&mut block.rng, bytes);
    ticket::seal(&mut changed);
    let damaged = changed_tickets::damaged(&mut block.rng, 0, &changed);
    let answer = read_with_room(block, &damaged)?;
    block.seen.count(WRONG_AND_DAMAGED, answer);
    Ok(())
}

/// Any of the wrong numbers in what is or was a ticket.
pub fn any_wrong(rng: &mut Rng, bytes: &[u8]) -> Vec<u8> {
    let mut changed = bytes.to_vec();
    if changed.len() >= BLOCK {
        let (_, change) = WRONG[rng.below(WRONG.len() as u64) as usize];
        change(rng, &mut changed);
    }
    changed
}

/// R and the number in each other's place make another R where R begins with the number.
fn behind_like(block: &mut Block, mut bytes: Vec<u8>) -> Checked {
    bytes.copy_within(..STATED, STATED);
    swap_with_retry(&mut bytes);
    check(block, BEHIND_LIKE, bytes, Some(0))
}

/// Elements in a ticket of the first layout, with such an R and any S.
fn of_first(block: &mut Block, kind: &'static str, list: &List, retry: impl Fn(&mut Rng, u64) -> u64, due: Option<u32>) -> Checked {
    let (count, rng) = (ticket::first_layout_blocks(list), &mut block.rng);
    let search = [0, 1, u64::MAX, count as u64, (count as u64) << 32, rng.word(), rng.word() >> rng.below(64)][rng.below(7) as usize];
    let bytes = ticket::in_first_layout(&Proof { retry: retry(rng, count as u64), search, list: list.clone() });
    check(block, kind, bytes, due)
}

/// Tickets of the first layout of which the first four bytes are their number of blocks.
fn like(block: &mut Block, proof: &Proof) -> Checked {
    let like = |rng: &mut Rng, count: u64| begins_with(rng, count);
    of_first(block, LIKE, &proof.list, like, None)?;
    of_first(block, LIKE_NONE, &List::default(), like, Some(0))?;
    let mut empty = List::default();
    (0..1 + block.rng.below(200)).for_each(|_| empty.push(&[], None, 0));
    // They are filling to the reader, and in a second block nothing else would be.
    let due = if ticket::first_layout_blocks(&empty) == 1 { 0 } else { ffi::NO_TICKET };
    of_first(block, LIKE_EMPTY, &empty, like, Some(due))?;
    let both = in_both_layouts(&mut block.rng).0;
    of_first(block, LIKE_BOTH, &both, like, Some(0))
}

/// An element of the first layout, and the elements that stand there in this one: their number is its mark and its length but for the last
/// byte, their first mark that byte, and what follows is its data.
fn in_both_layouts(rng: &mut Rng) -> (List, List) {
    let count = 1 + rng.below(4) as usize;
    let mut list = searches::list_of(rng, count - 1, 0, 20);
    let index = (rng.below(2) == 0).then(|| rng.word());
    let mark = list.marks.first().copied().unwrap_or(u8::from(index.is_some()));
    let len = count << 8 | usize::from(mark);
    let mut data = vec![0; HEAD + 1 + len - ticket::content_len(&list) - ticket::before_data(index)];
    rng.fill(&mut data);
    list.push(&data, index, 0);
    let bytes = ticket::of(&Proof { list: list.clone(), ..Proof::default() });
    let data: Vec<u8> = (HEAD + 1..ticket::content_len(&list)).map(|place| bytes[in_blocks(place)]).collect();
    let mut first = List::default();
    first.push(&data, None, 0);
    (first, list)
}

/// So many blocks, all of them full or nearly so.
fn list_of_blocks(count: usize) -> List {
    let (mut list, mut left) = (List::default(), count * BODY - HEAD);
    while let Some(most) = left.checked_sub(ticket::before_data(None)) {
        list.push(&vec![7; most.min(BYTES)], None, 0);
        left = most - most.min(BYTES);
    }
    list
}

/// A ticket of many blocks there and back, and with numbers beside its own.
fn of_many(block: &mut Block, count: usize) -> Checked {
    let bytes = tickets::there_and_back(block, &Proof { retry: 1, search: 2, list: list_of_blocks(count) })?;
    let numbers: [fn(u32) -> u32; 4] = [|count| count + 1, |count| count - 1, |count| count ^ 1 << 16, |count| count ^ 1 << 8];
    for number in numbers {
        let mut changed = bytes.clone();
        state(&mut changed, number);
        check(block, MANY_WRONG, changed, Some(ffi::NO_TICKET))?;
    }
    check(block, MANY_WRONG, bytes[..bytes.len() - BLOCK].to_vec(), Some(ffi::NO_TICKET))?;
    check(block, MANY_WRONG, bytes[BLOCK..].to_vec(), Some(ffi::NO_TICKET))
}

/// Bytes of every length, with right checks where they are blocks; and nothing as a null pointer.
fn any_bytes(block: &mut Block, len: usize) -> Checked {
    let mut bytes = vec![0; len];
    block.rng.fill(&mut bytes);
    read_with_room(block, &bytes)?;
    ticket::seal(&mut bytes);
    read_with_room(block, &bytes)?;
    state(&mut bytes, |count| count);
    ticket::seal(&mut bytes);
    read_with_room(block, &bytes)?;
    match ffi::stated_blocks(None) {
        0 => Ok(()),
        number => Err(format!("  a null pointer states {number} blocks\n")),
    }
}

#[cfg(test)]
mod tests {
    use super::*;

    /// Each change makes the number differ from that of the blocks, save the two that break another rule and the ones that leave no block.
    #[test]
    fn what_is_wrong_is_refused() {
        let mut rng = Rng::new(1, 0);
        for (kind, change) in WRONG {
            let mut differs = 0;
            for _ in 0..300 {
                let mut changed = ticket::of(&tickets::any_proof(&mut rng));
                change(&mut rng, &mut changed);
                ticket::seal(&mut changed);
                assert_eq!(ticket::tell(&changed), Err(41), "{kind}");
                differs += u32::from(ticket::stated_blocks(&changed) != (changed.len() / BLOCK) as u64);
            }
            match kind {
                "a ticket with a block of zeros added and counted" | "a ticket without its last block, which isn't counted" => {
                    assert_eq!(differs, 0, "{kind}")
                }
                "a ticket without its last block" | "a ticket with blocks cut off its end" => assert!(differs > 20, "{kind}: {differs}"),
                _ => assert_eq!(differs, 300, "{kind}"),
            }
        }
    }

    /// The element of the first layout has another reading in this one, which is the list that it was made of.
    #[test]
    fn one_ticket_of_both_layouts() {
        let mut rng = Rng::new(1, 0);
        for _ in 0..300 {
            let (first, list) = in_both_layouts(&mut rng);
            let count = ticket::first_layout_blocks(&first);
            assert_eq!((first.len(), count), (1, ticket::count_blocks(&list)));
            let proof = Proof { retry: (count as u64) << 32 | 5, search: 6 << 32 | 7, list: first };
            let read = Proof { retry: 5 << 32 | 6, search: 7 << 32 | 1, list };
            assert_eq!(ticket::in_first_layout(&proof), ticket::of(&read));
            assert!(ticket::tell(&ticket::of(&read)).is_ok_and(|told| told.count == read.list.len()));
        }
    }

    #[test]
    fn lists_of_many_blocks() {
        for count in [1, 2, 3, 8, 9, 255, 256, 257] {
            let list = list_of_blocks(count);
            assert_eq!((ticket::count_blocks(&list), crate::model::rules::list(&list)), (count, Ok(())));
        }
    }
}
