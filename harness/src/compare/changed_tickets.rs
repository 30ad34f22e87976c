//! Tickets that are none any more, or other ones: damaged, or changed and sealed again, so that the checks are right and the layout isn't.

use super::block_counts;
use crate::{
    list::List,
    model::ticket,
    model::ticket::{in_blocks, Proof, BLOCK, BODY, HEAD, STATED},
    rng::Rng,
};

/// Where the fields of an element stand among the joined bodies.
struct Field {
    mark: usize,
    index: Option<usize>,
    length: usize,
    data: usize,
}

fn fields(list: &List) -> Vec<Field> {
    let mut at = HEAD;
    let place_of = |place| {
        let (index, len) = (list.index_of(place), list.data_of(place).len());
        let data = at + ticket::before_data(index);
        let field = Field { mark: at, index: index.map(|_| at + 1), length: data - 4, data };
        at = data + len;
        field
    };
    (0..list.len()).map(place_of).collect()
}

/// R stands behind the number of blocks, then S, then the number of elements.
const RETRY: usize = STATED;
const SEARCH: usize = RETRY + 8;
const COUNT: usize = SEARCH + 8;

/// Writes bytes over the joined bodies from a place on, as far as there are any.
fn put(blocks: &mut [u8], place: usize, bytes: &[u8]) {
    for (i, byte) in bytes.iter().enumerate() {
        if let Some(there) = blocks.get_mut(in_blocks(place + i)) {
            *there = *byte;
        }
    }
}

/// Any of these changes, one or two of them; sealed or damaged.
pub fn any(rng: &mut Rng, proof: &Proof, bytes: &[u8]) -> Vec<u8> {
    let mut changed = bytes.to_vec();
    for _ in 0..1 + rng.below(8) / 6 {
        let kind = rng.below(KINDS);
        changed = of_kind(rng, kind, proof, &changed);
    }
    match rng.below(4) {
        0 => {
            let damage = rng.below(DAMAGES);
            damaged(rng, damage, &changed)
        }
        _ => changed,
    }
}

/// How many kinds of changes there are.
pub const KINDS: u64 = 23;

/// The ticket of a proof, or what came of it before, with a change of this kind, its checks right again.
pub fn of_kind(rng: &mut Rng, kind: u64, proof: &Proof, bytes: &[u8]) -> Vec<u8> {
    let mut changed = bytes.to_vec();
    match kind {
        0..=3 => count(rng, kind, proof, &mut changed),
        4..=11 => element(rng, kind, proof, &mut changed),
        12..=13 => filling(rng, kind, proof, &mut changed),
        14 if !changed.is_empty() => {
            let place = rng.below((changed.len() / BLOCK * BODY) as u64 + 1) as usize;
            put(&mut changed, place, &[rng.word() as u8]);
        }
        // Other counters.
        20 => {
            put(&mut changed, RETRY, &rng.word().to_be_bytes());
            put(&mut changed, SEARCH, &rng.word().to_be_bytes());
        }
        21 => changed = block_counts::any_wrong(rng, bytes),
        22 => changed = ticket::in_first_layout(proof),
        _ => changed = other_blocks(rng, kind, changed),
    }
    let whole = changed.len() / BLOCK * BLOCK;
    ticket::seal(&mut changed[..whole]);
    changed
}

/// The number of elements: one more, one less, at the limit and past it, far past it.
fn count(rng: &mut Rng, kind: u64, proof: &Proof, changed: &mut [u8]) {
    let own = proof.list.len() as u32;
    let count = match kind {
        0 => own.wrapping_add(1),
        1 => own.wrapping_sub(1),
        2 => [65_535, 65_536, 65_537, 1 << 31, u32::MAX][rng.below(5) as usize],
        _ => rng.word() as u32 >> rng.below(32),
    };
    put(changed, COUNT, &count.to_be_bytes());
}

/// A field of an element.
fn element(rng: &mut Rng, kind: u64, proof: &Proof, changed: &mut [u8]) {
    let fields = fields(&proof.list);
    let Some(place) = fields.len().checked_sub(1).map(|last| rng.below(last as u64 + 1) as usize) else {
        return;
    };
    let Field { mark, index, length, data } = fields[place];
    let own = proof.list.data_of(place).len() as u32;
    match kind {
        4 => put(changed, mark, &[2 + rng.below(254) as u8]),
        5 => put(changed, mark, &[1 - proof.list.marks[place]]),
        6 => put(changed, length, &(own + 1).to_be_bytes()),
        7 => put(changed, length, &own.wrapping_sub(1).to_be_bytes()),
        8 => {
            let lengths = [4096, 4097, 1 << 16, 1 << 24, 1 << 31, u32::MAX, u32::MAX - 3, rng.word() as u32];
            put(changed, length, &lengths[rng.below(8) as usize].to_be_bytes());
        }
        9 => put(changed, length, &(rng.word() as u32 >> rng.below(32)).to_be_bytes()),
        10 => put(changed, index.unwrap_or(data), &rng.word().to_be_bytes()),
        _ => put(changed, data, &[rng.word() as u8]),
    }
}

/// A byte of the filling that isn't 0; or the last element made as long as there is filling, or a byte longer.
fn filling(rng: &mut Rng, kind: u64, proof: &Proof, changed: &mut [u8]) {
    let (from, to) = (ticket::content_len(&proof.list), changed.len() / BLOCK * BODY);
    let left = to.saturating_sub(from) as u64;
    if kind == 12 && left > 0 {
        let place = match rng.below(3) {
            0 => from,
            1 => to - 1,
            _ => from + rng.below(left) as usize,
        };
        put(changed, place, &[1 << rng.below(8)]);
    }
    if let (13, Some(last)) = (kind, fields(&proof.list).last()) {
        let len = to.saturating_sub(last.data) as u32 + rng.below(2) as u32;
        put(changed, last.length, &len.to_be_bytes());
    }
}

/// Blocks added, swapped, repeated or cut, and their number right again.
fn other_blocks(rng: &mut Rng, kind: u64, changed: Vec<u8>) -> Vec<u8> {
    let mut blocks: Vec<&[u8]> = changed.chunks(BLOCK).collect();
    let mut random = [0; BLOCK];
    rng.fill(&mut random);
    let place = rng.below(blocks.len() as u64 + 1) as usize;
    match kind {
        15 => blocks.push(&[0; BLOCK]),
        16 => blocks.insert(place, &random),
        17 if !blocks.is_empty() => blocks.insert(place, blocks[place.min(blocks.len() - 1)]),
        18 if place < blocks.len() => {
            blocks.remove(place);
        }
        _ if place < blocks.len() => {
            let other = rng.below(blocks.len() as u64) as usize;
            blocks.swap(place, other);
        }
        _ => blocks.clear(),
    }
    let mut changed = blocks.concat();
    block_counts::state(&mut changed, |count| count);
    changed
}

/// How many kinds of damages there are.
pub const DAMAGES: u64 = 6;

/// With the checks as they were: a bit, a byte of a check, bytes less or more than whole blocks, a check that is another block's or zeros.
pub fn damaged(rng: &mut Rng, damage: u64, bytes: &[u8]) -> Vec<u8> {
    let mut damaged = bytes.to_vec();
    let len = bytes.len() as u64;
    let block = |rng: &mut Rng| rng.below(len / BLOCK as u64) as usize * BLOCK;
    match damage {
        _ if bytes.len() < BLOCK => damaged.push(0),
        0 => damaged[rng.below(len) as usize] ^= 1 << rng.below(8),
        1 => damaged[block(rng) + BODY + rng.below(8) as usize] ^= 1 + rng.below(255) as u8,
        2 => damaged.truncate(rng.below(len) as usize),
        3 => damaged.resize(bytes.len() + 1 + rng.below(BLOCK as u64 - 1) as usize, 0),
        4 => {
            let (from, to) = (block(rng), block(rng));
            damaged.copy_within(from + BODY..from + BLOCK, to + BODY);
        }
        _ => {
            let from = block(rng);
            damaged[from..from + BLOCK].fill(0);
        }
    }
    damaged
}

#[cfg(test)]
mod tests {
    use super::*;
    use crate::compare::faults;

    /// Every kind of change comes to what it is meant for, and leaves the checks right.
    #[test]
    fn changes_are_told_by_the_layout_and_damages_by_the_checks() {
        let mut rng = Rng::new(1, 0);
        let proof = Proof { retry: 1, search: 2, list: faults::long_list(9, 90) };
        let bytes = ticket::of(&proof);
        assert_eq!(bytes.len(), 2 * BLOCK);
        let mut refused = [0; KINDS as usize];
        for kind in 0..KINDS {
            for _ in 0..200 {
                let changed = of_kind(&mut rng, kind, &proof, &bytes);
                match ticket::tell(&changed) {
                    Err(41) => refused[kind as usize] += 1,
                    answer => assert!(answer.is_ok(), "kind {kind}: {answer:?}"),
                }
            }
        }
        // A mark over 1, a byte in the filling, a block of zeros at the end, a wrong number of blocks and, with this R, none are never a
        // ticket's.
        assert!([4, 12, 15, 21, 22].iter().all(|kind| refused[*kind] == 200), "{refused:?}");
        // An index, data, R and S can be others.
        assert!([10, 11, 20].iter().all(|kind| refused[*kind] == 0), "{refused:?}");
        for damage in 0..DAMAGES {
            let answers: Vec<_> = (0..50).map(|_| ticket::tell(&damaged(&mut rng, damage, &bytes))).collect();
            // A cut may be at the end of a block, and a check may be put over itself.
            let is_due =
                |answer: &Result<_, u32>| *answer == Err(40) || (damage == 2 && *answer == Err(41)) || (damage == 4 && answer.is_ok());
            assert!(answers.iter().all(is_due) && answers.contains(&Err(40)), "damage {damage}: {answers:?}");
        }
    }
}
