//! Writer and reader of tickets against the harness's own (src/model/ticket.rs), over the same lists and into the same buffers. Both clear
//! them before each call, and that is within the time.

use super::measure::{in_turns, Work};
use super::{row, SHA2};
use crate::{
    ffi,
    list::List,
    model::ticket,
    model::ticket::{Proof, Told, BLOCK},
    rng::Rng,
};
use std::hint::black_box;

/// Elements of a ticket, and data bytes of each. All have an index.
const COUNTS: [usize; 2] = [1000, 60_000];
const DATA: usize = 64;

pub fn run() -> Result<(), String> {
    COUNTS.into_iter().try_for_each(|count| {
        let mut rng = Rng::new(4, count as u64);
        let mut proof = Proof { retry: 1, search: 2, list: List::default() };
        let mut data = [0; DATA];
        for place in 0..count {
            rng.fill(&mut data);
            proof.list.push(&data, Some(place as u64), 0);
        }
        writer(&proof)?;
        reader(&proof)
    })
}

fn against() -> String {
    format!("the harness's own, {SHA2}")
}

fn writer(proof: &Proof) -> Result<(), String> {
    let bytes = ticket::of(proof);
    let (mut ours, mut theirs) = (vec![0; bytes.len()], vec![0; bytes.len()]);
    let write_ours = |room: &mut [u8]| {
        let mut out = [0];
        room.fill(0);
        ffi::write_ticket(proof.retry, proof.search, black_box(&proof.list).lent(), room, &mut out[..]);
        out[0] as usize
    };
    let write_theirs = |room: &mut [u8]| {
        room.fill(0);
        ticket::write(proof.retry, proof.search, black_box(&proof.list), room).unwrap_or(0)
    };
    let blocks = bytes.len() / BLOCK;
    if (write_ours(&mut ours), write_theirs(&mut theirs)) != (blocks, blocks) || ours != bytes || theirs != bytes {
        return Err(format!("harness: the tickets of {} elements differ", proof.list.len()));
    }
    let our_work: Work = Box::new(|calls| over(calls, || write_ours(&mut ours)));
    let their_work: Work = Box::new(|calls| over(calls, || write_theirs(&mut theirs)));
    let [our_time, their_time] = in_turns([our_work, their_work]);
    row(&format!("write a ticket of {} elements of {DATA} bytes", proof.list.len()), &against(), our_time, their_time, Some(bytes.len()));
    Ok(())
}

fn over<T>(calls: u64, mut call: impl FnMut() -> T) {
    for _ in 0..calls {
        black_box(call());
    }
}

fn clear(list: &mut List) {
    list.data.fill(0);
    list.ends.fill(0);
    list.marks.fill(0);
    list.indexes.fill(0);
}

fn reader(proof: &Proof) -> Result<(), String> {
    let bytes = ticket::of(proof);
    let (mut ours, mut theirs) = (proof.list.clone(), proof.list.clone());
    let read_ours = |list: &mut List| {
        let mut out = [0; 4];
        clear(list);
        let rooms =
            ffi::Rooms { data: &mut list.data[..], ends: &mut list.ends[..], marks: &mut list.marks[..], indexes: &mut list.indexes[..] };
        ffi::read_ticket(Some(black_box(&bytes)), rooms, &mut out[..]);
        let [retry, search, count, len] = out;
        Told { retry, search, count: count as usize, len: len as usize }
    };
    let read_theirs = |list: &mut List| {
        clear(list);
        ticket::read(black_box(&bytes), &mut list.data, &mut list.ends, &mut list.marks, &mut list.indexes).unwrap_or_default()
    };
    let told = Told { retry: proof.retry, search: proof.search, count: proof.list.len(), len: proof.list.data.len() };
    if (read_ours(&mut ours), read_theirs(&mut theirs)) != (told, told) || ours != proof.list || theirs != proof.list {
        return Err(format!("harness: the lists of {} elements that were read differ", proof.list.len()));
    }
    let our_work: Work = Box::new(|calls| over(calls, || read_ours(&mut ours)));
    let their_work: Work = Box::new(|calls| over(calls, || read_theirs(&mut theirs)));
    let [our_time, their_time] = in_turns([our_work, their_work]);
    row(&format!("read a ticket of {} elements of {DATA} bytes", proof.list.len()), &against(), our_time, their_time, Some(bytes.len()));
    Ok(())
}
