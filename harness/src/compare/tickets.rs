//! `alba_write_ticket` and `alba_read_ticket` against the harness's own writer and reader (src/model/ticket.rs): the number, what stands in
//! `out`, and every byte of every lent buffer. Of whatever is read, `alba_stated_blocks` is asked too.

use super::blocks::{self, Block, Tally};
use super::fence::Fenced;
use super::verdicts::Claim;
use super::{changed_tickets, faults, hex, searches, shown_list, verdicts, verifier_refusals, Answered, Checked, Run};
use crate::model::rules::{self, BYTES, ELEMENTS};
use crate::{
    ffi,
    list::List,
    model::ticket,
    model::ticket::{Proof, Told, BLOCK, BODY},
    rng::Rng,
};

/// How many numbers are lent of each kind to the reader.
#[derive(Clone, Copy, Debug)]
pub struct Rooms {
    pub data: usize,
    pub ends: usize,
    pub marks: usize,
    pub indexes: usize,
    pub out: usize,
}

/// Numbers of `out` that writer and reader write.
pub const BLOCKS: usize = 1;
const FIGURES: usize = 4;
/// Lists in a block of cases, and changed tickets of each list.
const LISTS: u64 = 50;
const CHANGED: u64 = 5;
/// Data lengths past two blocks, so that the content ends at every place of a block.
const LENGTHS: usize = 2 * BODY + 40;

pub fn run(run: &mut Run, cases: u64) -> Checked {
    blocks::run(run, cases.div_ceil(LISTS), |_, block| {
        (0..LISTS).try_for_each(|_| {
            let proof = any_proof(&mut block.rng);
            of_proof(block, &proof)
        })
    })?;
    blocks::run(run, LENGTHS as u64, |len, block| every_room(block, len as usize))?;
    blocks::run(run, 12, |number, block| every_byte(block, number as usize))?;
    let large = large();
    blocks::run(run, large.len() as u64, |number, block| of_large(block, &large[number as usize]))?;
    blocks::run(run, cases.div_ceil(LISTS), |_, block| judged_after(block))?;
    blocks::run(run, 1, |_, block| {
        empty_and_null(block)?;
        several_faults(block)
    })
}

/// One call of the writer: the answer, the number of blocks in `out`, the lent bytes, and that nothing else has changed.
pub fn write(block: &mut Block, proof: &Proof, room: usize, out_len: usize) -> Answered {
    let Proof { retry, search, list } = proof;
    let mut due = vec![0; room];
    let answer = ticket::write(*retry, *search, list, &mut due);
    let (number, count) = answer.map_or_else(|number| (number, 0), |count| (0, count));
    due.truncate(count * BLOCK);
    let mut place = Fenced::new(&mut block.rng, room, |word| word as u8);
    let mut out = Fenced::new(&mut block.rng, out_len, |word| word);
    let lent = list.clone();
    let ours = ffi::write_ticket(*retry, *search, lent.lent(), &mut place, &mut out);

    let figures = [count as u64];
    let figures = if out_len < BLOCKS { &[][..] } else { &figures };
    if ours != number || !place.holds(&due) || !out.holds(figures) || lent != *list {
        return Err(format!(
            "  R {retry}, S {search}\n{}  ours: {ours}\n  due: {number}\n{}{}  the list is {}\n",
            shown_list(list),
            out.story("number of blocks", figures),
            shown_place(&place, "ticket", &due),
            verdicts::as_it_was(lent == *list)
        ));
    }
    block.tally.count("write ticket", ours);
    Ok(ours)
}

/// One call of the reader: the answer, what `out` tells, the lent buffers, and that nothing else has changed.
pub fn read(block: &mut Block, bytes: &[u8], rooms: Rooms) -> Answered {
    let (number, told, list) = due(bytes, rooms);
    let rng = &mut block.rng;
    let mut data = Fenced::new(rng, rooms.data, |word| word as u8);
    let mut ends = Fenced::new(rng, rooms.ends, |word| word as u32);
    let mut marks = Fenced::new(rng, rooms.marks, |word| word as u8);
    let mut indexes = Fenced::new(rng, rooms.indexes, |word| word);
    let mut out = Fenced::new(rng, rooms.out, |word| word);
    let lent = bytes.to_vec();
    stated(&mut block.tally, &lent)?;
    let places = ffi::Rooms { data: &mut data, ends: &mut ends, marks: &mut marks, indexes: &mut indexes };
    let ours = ffi::read_ticket(Some(&lent), places, &mut out);

    let figures = [told.retry, told.search, told.count as u64, told.len as u64];
    let figures = if rooms.out < FIGURES { &[][..] } else { &figures };
    let is_list_right = data.holds(&list.data) && ends.holds(&list.ends) && marks.holds(&list.marks) && indexes.holds(&list.indexes);
    if ours != number || !is_list_right || !out.holds(figures) || lent != bytes {
        return Err(format!(
            "{}  {rooms:?}\n  ours: {ours}\n  due: {number}\n{}{}{}{}{}  the ticket is {}\n",
            shown_ticket(bytes),
            out.story("R, S, elements and data bytes", figures),
            shown_place(&data, "data", &list.data),
            shown_place(&ends, "ends", &list.ends),
            shown_place(&marks, "marks", &list.marks),
            shown_place(&indexes, "indexes", &list.indexes),
            verdicts::as_it_was(lent == bytes)
        ));
    }
    block.tally.count("read ticket", ours);
    Ok(ours)
}

/// The number of blocks that is stated, in whatever bytes. It is counted as 0 where there are as many, as 1 where there aren't.
fn stated(tally: &mut Tally, bytes: &[u8]) -> Checked {
    let (ours, due) = (ffi::stated_blocks(Some(bytes)), ticket::stated_blocks(bytes));
    if ours != due {
        return Err(format!("{}  blocks stated, ours: {ours}\n  due: {due}\n", shown_ticket(bytes)));
    }
    tally.count("stated count", u32::from(ours != (bytes.len() / BLOCK) as u64));
    Ok(())
}

/// The number that is due, what is told, and what is written of the list: nothing where it is refused.
fn due(bytes: &[u8], rooms: Rooms) -> (u32, Told, List) {
    let mut list =
        List { data: vec![0; rooms.data], ends: vec![0; rooms.ends], marks: vec![0; rooms.marks], indexes: vec![0; rooms.indexes] };
    let answer = ticket::read(bytes, &mut list.data, &mut list.ends, &mut list.marks, &mut list.indexes);
    let (number, told) = answer.map_or_else(|number| (number, Told::default()), |told| (0, told));
    list.data.truncate(told.len);
    list.ends.truncate(told.count);
    list.marks.truncate(told.count);
    list.indexes.truncate(told.count);
    (number, told, list)
}

fn shown_ticket(bytes: &[u8]) -> String {
    match bytes.len() {
        ..=8192 => format!("  ticket of {} bytes: {}\n", bytes.len(), hex(bytes)),
        len => format!("  a ticket of {len} bytes, which the seed gives\n"),
    }
}

fn shown_place<T: Copy + PartialEq + std::fmt::Debug>(place: &Fenced<T>, name: &str, due: &[T]) -> String {
    match place.len() {
        ..=8192 => place.story(name, due),
        len if place.holds(due) => format!("  {name}: {len} numbers, as due\n"),
        len => format!("  {name}: {len} numbers, NOT as due\n"),
    }
}

/// Just enough room for the list, and for what is told of it.
pub fn enough(list: &List) -> Rooms {
    let data = list.ends.last().map_or(0, |end| *end as usize);
    Rooms { data, ends: list.len(), marks: list.len(), indexes: list.len(), out: FIGURES }
}

/// The same with one number less in one place.
fn one_short(rooms: Rooms, place: u64) -> Rooms {
    let mut short = rooms;
    let room = match place {
        0 => &mut short.data,
        1 => &mut short.ends,
        2 => &mut short.marks,
        _ => &mut short.indexes,
    };
    *room = room.saturating_sub(1);
    short
}

/// Enough, one short or more in each place.
pub fn any_rooms(rng: &mut Rng, list: &List) -> Rooms {
    let rooms = enough(list);
    match rng.below(4) {
        0 => rooms,
        1 => one_short(rooms, rng.below(4)),
        _ => {
            let mut more = |room: usize| room + [0, 1, 9, 600][rng.below(4) as usize];
            Rooms { data: more(rooms.data), ends: more(rooms.ends), marks: more(rooms.marks), indexes: more(rooms.indexes), out: more(2) }
        }
    }
}

/// A list, lawful or not, written into just enough room and into another.
fn write_twice(block: &mut Block, proof: &Proof, enough: usize) -> Checked {
    let out_len = block.rng.below(3) as usize;
    write(block, proof, enough, out_len)?;
    let room = match block.rng.below(4) {
        0 => block.rng.below(enough as u64 + 1) as usize,
        1 => enough + block.rng.below(1000) as usize,
        _ => enough.saturating_sub(1),
    };
    write(block, proof, room, BLOCKS).map(|_| ())
}

/// A lawful list written, its ticket read, and what was read written again: the same elements and the same blocks.
pub fn there_and_back(block: &mut Block, proof: &Proof) -> Result<Vec<u8>, String> {
    let bytes = ticket::of(proof);
    write_twice(block, proof, bytes.len())?;
    let rooms = enough(&proof.list);
    read(block, &bytes, rooms)?;
    let (number, told, list) = due(&bytes, rooms);
    let back = Proof { retry: told.retry, search: told.search, list };
    write(block, &back, bytes.len(), BLOCKS)?;
    let is_same = |place| back.list.data_of(place) == proof.list.data_of(place) && back.list.index_of(place) == proof.list.index_of(place);
    let is_same = back.list.len() == proof.list.len() && (0..back.list.len()).all(is_same) && ticket::of(&back) == bytes;
    if number != 0 || !is_same || (back.retry, back.search) != (proof.retry, proof.search) {
        return Err(format!("{}  the harness itself reads something else than it wrote\n", shown_list(&proof.list)));
    }
    Ok(bytes)
}

/// A list there and back, its ticket changed, and the list with faults.
pub fn of_proof(block: &mut Block, proof: &Proof) -> Checked {
    let bytes = there_and_back(block, proof)?;
    let rooms = any_rooms(&mut block.rng, &proof.list);
    read(block, &bytes, rooms)?;
    for _ in 0..CHANGED {
        let changed = changed_tickets::any(&mut block.rng, proof, &bytes);
        let rooms = any_rooms(&mut block.rng, &proof.list);
        read(block, &changed, rooms)?;
    }
    let mut faulty = proof.clone();
    for _ in 0..1 + block.rng.below(2) {
        // Lists of too many elements are run with the large ones.
        faults::in_short_list(&mut block.rng, &mut faulty.list);
    }
    write_twice(block, &faulty, bytes.len())
}

/// R, S and few elements, short ones mostly; often such that the content ends at the end of a body, or a byte beside it.
pub fn any_proof(rng: &mut Rng) -> Proof {
    let longest = [0, 8, 64, 200][rng.below(4) as usize];
    let len = rng.below(if longest < 100 { 16 } else { 6 }) as usize;
    let mut list = searches::list_of(rng, len, 0, longest);
    if rng.below(3) == 0 {
        let into = [0, 1, BODY - 1][rng.below(3) as usize];
        let index = (rng.below(2) == 0).then(|| rng.word());
        let content = ticket::content_len(&list) + ticket::before_data(index);
        let mut data = vec![0; (into + 10 * BODY - content % BODY) % BODY];
        rng.fill(&mut data);
        list.push(&data, index, rng.word());
    }
    Proof { retry: rng.word() >> rng.below(64), search: rng.word() >> rng.below(64), list }
}

/// An element of every length up to past two blocks, with and without index, alone and behind another; every room one short.
fn every_room(block: &mut Block, len: usize) -> Checked {
    for (index, before) in [(None, 0), (Some(len as u64), 0), (None, 1), (Some(u64::MAX), 1)] {
        let mut list = searches::list_of(&mut block.rng, before, 0, 30);
        let mut data = vec![0; len];
        block.rng.fill(&mut data);
        list.push(&data, index, block.rng.word());
        let proof = Proof { retry: block.rng.word(), search: block.rng.word(), list };
        let bytes = there_and_back(block, &proof)?;
        write(block, &proof, bytes.len() - 1, BLOCKS)?;
        for place in 0..4 {
            read(block, &bytes, one_short(enough(&proof.list), place))?;
        }
        read(block, &bytes, Rooms { out: len % (FIGURES + 2), ..enough(&proof.list) })?;
    }
    Ok(())
}

/// Each byte of a ticket changed, with the checks as they were and with the checks right again.
fn every_byte(block: &mut Block, number: usize) -> Checked {
    let mut proof = any_proof(&mut block.rng);
    while ticket::count_blocks(&proof.list) != 1 + number % 3 {
        proof = any_proof(&mut block.rng);
    }
    let bytes = ticket::of(&proof);
    let rooms = Rooms { data: BYTES, ends: 600, marks: 600, indexes: 600, out: FIGURES };
    for place in 0..bytes.len() {
        let mut changed = bytes.clone();
        changed[place] ^= 1 + block.rng.below(255) as u8;
        read(block, &changed, rooms)?;
        changed[place] = bytes[place] ^ 1 << block.rng.below(8);
        read(block, &changed, rooms)?;
        ticket::seal(&mut changed);
        read(block, &changed, rooms)?;
    }
    Ok(())
}

/// Lists at the limits and past them.
fn large() -> Vec<Proof> {
    let mut lists = faults::large_lists();
    lists.extend(
        [(ELEMENTS, 0), (ELEMENTS, 2), (1, BYTES - 1), (1, BYTES), (1, BYTES + 1), (2, 1 << 20)]
            .map(|(len, bytes)| faults::long_list(len, bytes)),
    );
    lists.into_iter().map(|list| Proof { retry: u64::MAX, search: 1, list }).collect()
}

/// Written with room for it; and where it makes a ticket, though perhaps too large a one, that is read.
fn of_large(block: &mut Block, proof: &Proof) -> Checked {
    if rules::list(&proof.list) == Err(ffi::BAD_LIST) {
        return [0, BLOCK * proof.list.len()].into_iter().try_for_each(|room| write(block, proof, room, BLOCKS).map(|_| ()));
    }
    let bytes = ticket::of(proof);
    for room in [bytes.len(), bytes.len() - 1, bytes.len() + 7] {
        write(block, proof, room, BLOCKS)?;
    }
    read(block, &bytes, enough(&proof.list))?;
    (0..4).try_for_each(|place| read(block, &bytes, one_short(enough(&proof.list), place)).map(|_| ()))?;
    let changed = changed_tickets::any(&mut block.rng, proof, &bytes);
    read(block, &changed, enough(&proof.list)).map(|_| ())
}

/// A found proof and damaged copies of it: the verdict on each is the Rust's before and after it went through a ticket.
fn judged_after(block: &mut Block) -> Checked {
    let (settings, list, found) = verifier_refusals::any_search(&mut block.rng)?;
    for claim in verdicts::claims(&mut block.rng, &settings, &list, &found) {
        let before = verdicts::verdict(&claim)?;
        let Claim { retry_counter, search_counter, list, .. } = &claim;
        let bytes = there_and_back(block, &Proof { retry: *retry_counter, search: *search_counter, list: list.clone() })?;
        let read = ticket::proof_in(&bytes).map_err(|number| format!("{}  read: {number}\n", verdicts::shown(&claim)))?;
        let carried = Claim { retry_counter: read.retry, search_counter: read.search, list: read.list, ..claim };
        let after = verdicts::verdict(&carried)?;
        if before != after {
            return Err(format!("{}  verdict {before}, and {after} on what its ticket carries\n", verdicts::shown(&carried)));
        }
        block.tally.count("verify", after);
    }
    Ok(())
}

/// Nothing lent, as an empty slice and as a null pointer.
fn empty_and_null(block: &mut Block) -> Checked {
    let bytes = there_and_back(block, &Proof::default())?;
    for (ticket, due) in [(&[][..], ffi::NO_TICKET), (&bytes, 0), (&bytes[1..], ffi::DAMAGED_TICKET)] {
        read(block, ticket, Rooms { out: 0, ..enough(&List::default()) })?;
        let ours = read_into_null(&mut block.rng, (!ticket.is_empty()).then_some(ticket));
        if ours != due {
            return Err(format!("{}  with null pointers\n  ours: {ours}\n  due: {due}\n", shown_ticket(ticket)));
        }
    }
    let list = ffi::Listed { data: None, ends: None, marks: None, indexes: None };
    let mut place = Fenced::new(&mut block.rng, BLOCK, |word| word as u8);
    let (mut out, mut nowhere) = (Fenced::null(&mut block.rng, |word| word), Fenced::null(&mut block.rng, |word| word as u8));
    let (written, short) = (ffi::write_ticket(0, 0, list, &mut place, &mut out), ffi::write_ticket(0, 0, list, &mut nowhere, &mut out));
    if (written, short) != (0, ffi::BUFFER_SHORT) || !place.holds(&bytes) {
        return Err(format!("  an empty list of null pointers\n  ours: {written}, {short}\n{}", place.story("ticket", &bytes)));
    }
    Ok(())
}

/// The reader's answer where every place is a null pointer.
fn read_into_null(rng: &mut Rng, ticket: ffi::Lent) -> u32 {
    let (mut data, mut marks) = (Fenced::null(rng, |word| word as u8), Fenced::null(rng, |word| word as u8));
    let (mut ends, mut indexes) = (Fenced::null(rng, |word| word as u32), Fenced::null(rng, |word| word));
    let places = ffi::Rooms { data: &mut data, ends: &mut ends, marks: &mut marks, indexes: &mut indexes };
    ffi::read_ticket(ticket, places, &mut Fenced::null(rng, |word| word))
}

/// Every change of a ticket with every damage, every pair of a list's faults, and short buffers with each: the first of the order is due.
fn several_faults(block: &mut Block) -> Checked {
    let proof = Proof { list: faults::long_list(9, 90), ..any_proof(&mut block.rng) };
    let bytes = ticket::of(&proof);
    for change in 0..changed_tickets::KINDS {
        let sealed = changed_tickets::of_kind(&mut block.rng, change, &proof, &bytes);
        for damage in 0..changed_tickets::DAMAGES {
            let both = changed_tickets::damaged(&mut block.rng, damage, &sealed);
            for changed in [&sealed, &both] {
                read(block, changed, enough(&proof.list))?;
                for place in 0..4 {
                    read(block, changed, one_short(enough(&proof.list), place))?;
                }
            }
        }
    }
    for (first, second) in (0..faults::IN_LISTS).flat_map(|first| (0..faults::IN_LISTS).map(move |second| (first, second))) {
        let mut faulty = proof.clone();
        faults::at_place(&mut block.rng, &mut faulty.list, first, 4);
        write(block, &faulty, 0, BLOCKS)?;
        faults::at_place(&mut block.rng, &mut faulty.list, second, 5);
        write(block, &faulty, 0, BLOCKS)?;
        write(block, &faulty, bytes.len(), BLOCKS)?;
    }
    Ok(())
}
