//! Tickets by the words of the change requests alone, apart from the library: what a ticket is, what its writer and its reader answer, and
//! what they leave in what they are lent. The library is compared with this, and measured against it. The first layout, which had no number
//! of blocks, is here as far as writing goes.

use super::rules::{self, BYTES, ELEMENTS};
use crate::{ffi, list::List};
use sha2::{Digest, Sha256};

/// A block, and its part before the check.
pub const BLOCK: usize = 512;
pub const BODY: usize = 504;
/// The number of blocks; with it R, S and the number of elements.
pub const STATED: usize = 4;
pub const HEAD: usize = STATED + 8 + 8 + 4;

/// What a ticket carries.
#[derive(Clone, Debug, Default)]
pub struct Proof {
    pub retry: u64,
    pub search: u64,
    pub list: List,
}

/// How many bytes stand before an element's data: the mark, an index if there is one, the length.
pub fn before_data(index: Option<u64>) -> usize {
    1 + index.map_or(0, |_| 8) + 4
}

/// How many bytes the joined bodies hold before the filling. The list is lawful, or only too large.
pub fn content_len(list: &List) -> usize {
    HEAD + (0..list.len()).map(|place| before_data(list.index_of(place)) + list.data_of(place).len()).sum::<usize>()
}

/// As few blocks as hold that, so that none has filling alone.
pub fn count_blocks(list: &List) -> usize {
    content_len(list).div_ceil(BODY)
}

/// Where a place of the joined bodies is among the blocks.
pub fn in_blocks(place: usize) -> usize {
    place / BODY * BLOCK + place % BODY
}

fn check_of(body: &[u8]) -> [u8; BLOCK - BODY] {
    let digest: [u8; 32] = Sha256::digest(body).into();
    digest[..BLOCK - BODY].try_into().expect("eight bytes")
}

/// Gives each block the check of its body.
pub fn seal(blocks: &mut [u8]) {
    for block in blocks.chunks_exact_mut(BLOCK) {
        let (body, check) = block.split_at_mut(BODY);
        check.copy_from_slice(&check_of(body));
    }
}

/// Bodies that are written from front to back.
struct Filling<'a> {
    blocks: &'a mut [u8],
    at: usize,
}

impl Filling<'_> {
    fn put(&mut self, mut bytes: &[u8]) {
        while !bytes.is_empty() {
            let (now, later) = bytes.split_at(bytes.len().min(BODY - self.at % BODY));
            let from = in_blocks(self.at);
            self.blocks[from..from + now.len()].copy_from_slice(now);
            self.at += now.len();
            bytes = later;
        }
    }

    fn put_element(&mut self, data: &[u8], index: Option<u64>) {
        self.put(&[u8::from(index.is_some())]);
        if let Some(index) = index {
            self.put(&index.to_be_bytes());
        }
        self.put(&(data.len() as u32).to_be_bytes());
        self.put(data);
    }
}

/// A ticket in just as many blocks as it takes, with these bytes before R.
fn put_ticket(before: &[u8], retry: u64, search: u64, list: &List, blocks: &mut [u8]) {
    let mut bodies = Filling { blocks, at: 0 };
    bodies.put(before);
    bodies.put(&retry.to_be_bytes());
    bodies.put(&search.to_be_bytes());
    bodies.put(&(list.len() as u32).to_be_bytes());
    for place in 0..list.len() {
        bodies.put_element(list.data_of(place), list.index_of(place));
    }
    let rest = bodies.at % BODY;
    if rest > 0 {
        bodies.put(&[0; BODY][rest..]);
    }
    seal(blocks);
}

/// The ticket of a list that is lawful or only too large.
pub fn of(proof: &Proof) -> Vec<u8> {
    let count = count_blocks(&proof.list);
    let mut blocks = vec![0; count * BLOCK];
    put_ticket(&(count as u32).to_be_bytes(), proof.retry, proof.search, &proof.list, &mut blocks);
    blocks
}

/// How many blocks that took in the first layout.
pub fn first_layout_blocks(list: &List) -> usize {
    (content_len(list) - STATED).div_ceil(BODY)
}

/// The ticket in the first layout: nothing stood before R.
pub fn in_first_layout(proof: &Proof) -> Vec<u8> {
    let mut blocks = vec![0; first_layout_blocks(&proof.list) * BLOCK];
    put_ticket(&[], proof.retry, proof.search, &proof.list, &mut blocks);
    blocks
}

/// The writer: how many blocks stand over the first bytes of `out`; or the refusal's number, and `out` is as it was.
pub fn write(retry: u64, search: u64, list: &List, out: &mut [u8]) -> Result<usize, u32> {
    rules::list(list)?;
    let count = count_blocks(list);
    let blocks = out.get_mut(..count * BLOCK).ok_or(ffi::BUFFER_SHORT)?;
    put_ticket(&(count as u32).to_be_bytes(), retry, search, list, blocks);
    Ok(count)
}

/// Bodies that are read from front to back.
struct Bodies<'a> {
    blocks: &'a [u8],
    at: usize,
}

impl Bodies<'_> {
    fn left(&self) -> usize {
        self.blocks.len() / BLOCK * BODY - self.at
    }

    fn skip(&mut self, bytes: usize) -> Option<()> {
        if self.left() < bytes {
            return None;
        }
        self.at += bytes;
        Some(())
    }

    fn copy(&mut self, mut out: &mut [u8]) -> Option<()> {
        if self.left() < out.len() {
            return None;
        }
        while !out.is_empty() {
            let (now, later) = out.split_at_mut((BODY - self.at % BODY).min(out.len()));
            let from = in_blocks(self.at);
            now.copy_from_slice(&self.blocks[from..from + now.len()]);
            self.at += now.len();
            out = later;
        }
        Some(())
    }

    fn take<const N: usize>(&mut self) -> Option<[u8; N]> {
        let mut bytes = [0; N];
        self.copy(&mut bytes)?;
        Some(bytes)
    }

    /// A number of four bytes.
    fn take_number(&mut self) -> Option<u32> {
        self.take().map(u32::from_be_bytes)
    }

    /// What stands before an element's data: its index, and how many data bytes follow.
    fn take_element(&mut self) -> Option<(Option<u64>, usize)> {
        let index = match self.take()? {
            [0] => None,
            [1] => Some(u64::from_be_bytes(self.take()?)),
            _ => return None,
        };
        let len = self.take_number()? as usize;
        (len <= BYTES).then_some((index, len))
    }
}

/// What a reader tells beside the list: R, S, the number of elements and that of data bytes.
#[derive(Clone, Copy, Debug, Default, PartialEq)]
pub struct Told {
    pub retry: u64,
    pub search: u64,
    pub count: usize,
    pub len: usize,
}

/// The number that the first four bytes of the bodies are; 0 without a whole block.
pub fn stated_blocks(bytes: &[u8]) -> u64 {
    Bodies { blocks: bytes, at: 0 }.take_number().map_or(0, u64::from)
}

/// What the bodies of whole blocks hold, if it is the number of these blocks, a proof within the limits, and less than a body of zeros.
fn laid_out(ticket: &[u8]) -> Option<Told> {
    let mut bodies = Bodies { blocks: ticket, at: 0 };
    if bodies.take_number()? as usize != ticket.len() / BLOCK {
        return None;
    }
    let (retry, search) = (u64::from_be_bytes(bodies.take()?), u64::from_be_bytes(bodies.take()?));
    let count = bodies.take_number()? as usize;
    if count > ELEMENTS {
        return None;
    }
    let mut len = 0;
    for _ in 0..count {
        let (_, own) = bodies.take_element()?;
        bodies.skip(own)?;
        len += own;
    }
    let mut filling = [0; BODY];
    let filling = filling.get_mut(..bodies.left()).filter(|filling| filling.len() < BODY)?;
    bodies.copy(filling)?;
    filling.iter().all(|byte| *byte == 0).then_some(Told { retry, search, count, len })
}

/// What a ticket tells, or the number by which it is refused whatever is lent.
pub fn tell(ticket: &[u8]) -> Result<Told, u32> {
    let is_right = |block: &[u8]| check_of(&block[..BODY])[..] == block[BODY..];
    if ticket.len() % BLOCK != 0 || !ticket.chunks_exact(BLOCK).all(is_right) {
        return Err(ffi::DAMAGED_TICKET);
    }
    laid_out(ticket).ok_or(ffi::NO_TICKET)
}

/// The reader: what the ticket tells, with its list over the first numbers of what is lent; or the refusal's number, and all is as it was.
pub fn read(ticket: &[u8], data: &mut [u8], ends: &mut [u32], marks: &mut [u8], indexes: &mut [u64]) -> Result<Told, u32> {
    let told = tell(ticket)?;
    if data.len() < told.len || ends.len().min(marks.len()).min(indexes.len()) < told.count {
        return Err(ffi::BUFFER_SHORT);
    }
    let mut bodies = Bodies { blocks: ticket, at: HEAD };
    let mut used = 0;
    for place in 0..told.count {
        let (index, len) = bodies.take_element().expect("it was looked at");
        bodies.copy(&mut data[used..used + len]).expect("it was looked at");
        used += len;
        ends[place] = used as u32;
        marks[place] = u8::from(index.is_some());
        indexes[place] = index.unwrap_or(0);
    }
    Ok(told)
}

/// The proof that a ticket carries, which is one.
pub fn proof_in(ticket: &[u8]) -> Result<Proof, u32> {
    let Told { retry, search, count, len } = tell(ticket)?;
    let mut list = List { data: vec![0; len], ends: vec![0; count], marks: vec![0; count], indexes: vec![0; count] };
    read(ticket, &mut list.data, &mut list.ends, &mut list.marks, &mut list.indexes)?;
    Ok(Proof { retry, search, list })
}

#[cfg(test)]
mod tests {
    use super::*;
    use crate::compare::faults;

    /// "ab" with the index 0x0102030405060708, and no data without one, where 9 stands instead.
    fn sample() -> Proof {
        let mut list = List::default();
        list.push(b"ab", Some(0x0102_0304_0506_0708), 0);
        list.push(b"", None, 9);
        Proof { retry: 3, search: 0x1_0000_0002, list }
    }

    fn of_one(len: usize, index: Option<u64>) -> Proof {
        let mut list = List::default();
        list.push(&vec![7; len], index, 0);
        Proof { retry: 1, search: 1, list }
    }

    /// With the joined bodies' bytes from a place on replaced, and the checks right again.
    fn with(proof: &Proof, place: usize, bytes: &[u8]) -> Result<Told, u32> {
        let mut ticket = of(proof);
        bytes.iter().enumerate().for_each(|(i, byte)| ticket[in_blocks(place + i)] = *byte);
        seal(&mut ticket);
        tell(&ticket)
    }

    #[test]
    fn the_layout_byte_by_byte() {
        let ticket = of(&sample());
        let mut body = [0; 504];
        body[3] = 1;
        body[11] = 3;
        body[12..20].copy_from_slice(&[0, 0, 0, 1, 0, 0, 0, 2]);
        body[23] = 2;
        body[24..39].copy_from_slice(&[1, 1, 2, 3, 4, 5, 6, 7, 8, 0, 0, 0, 2, b'a', b'b']);
        // The second element is five zeros, and the rest is filling.
        assert_eq!(ticket[..504], body);
        // From `sha256sum` over these 504 bytes.
        assert_eq!(ticket[504..], [0x4d, 0x8a, 0x27, 0x75, 0x0e, 0xb2, 0x95, 0xf1]);
        // In the first layout, likewise: the same from R on.
        let first = in_first_layout(&sample());
        assert_eq!((&first[..500], &first[500..504]), (&body[4..], &[0; 4][..]));
        assert_eq!(first[504..], [0x26, 0x08, 0x99, 0x73, 0x55, 0xce, 0xc4, 0x27]);
    }

    #[test]
    fn as_few_blocks_as_hold_the_content() {
        // 24 bytes, then 5 or 13, then the data.
        for (len, index, blocks) in
            [(0, None, 1), (475, None, 1), (476, None, 2), (467, Some(0), 1), (468, Some(0), 2), (979, None, 2), (980, None, 3)]
        {
            let ticket = of(&of_one(len, index));
            assert_eq!((count_blocks(&of_one(len, index).list), stated_blocks(&ticket)), (blocks, blocks as u64), "{len}");
            assert_eq!(tell(&ticket), Ok(Told { retry: 1, search: 1, count: 1, len }));
        }
        assert_eq!(count_blocks(&List::default()), 1);
        // 20 in the first layout.
        let first = |len| first_layout_blocks(&of_one(len, None).list);
        assert_eq!((first(479), first(480)), (1, 2));
    }

    /// Each number but that of the blocks present is refused, and so are blocks more or less.
    #[test]
    fn the_number_of_blocks() {
        for (len, blocks) in [(0, 1u32), (475, 1), (476, 2), (1200, 3)] {
            let proof = of_one(len, None);
            for number in (0..600).chain([1 << 8 | blocks, 1 << 31, 1 << 31 | blocks, blocks.swap_bytes(), 512 * blocks, u32::MAX]) {
                let due = if number == blocks { Ok(len) } else { Err(41) };
                assert_eq!(with(&proof, 0, &number.to_be_bytes()).map(|told| told.len), due, "{number}");
            }
            let ticket = of(&proof);
            assert_eq!(tell(&ticket[..ticket.len() - 512]), Err(41));
            assert_eq!(tell(&[&ticket[..], &ticket[..512]].concat()), Err(41));
            assert_eq!(stated_blocks(&ticket[..511]), 0);
            assert_eq!((stated_blocks(&ticket[..512]), stated_blocks(&[&ticket[..], &[9]].concat())), (blocks.into(), blocks.into()));
        }
        assert_eq!(stated_blocks(&[]), 0);
    }

    /// A ticket of the first layout is one of this if it happens to be one: of R at least 2^32, and then of another proof.
    #[test]
    fn the_first_layout_is_not_read_as_such() {
        let first = |retry, search, list: &List| tell(&in_first_layout(&Proof { retry, search, list: list.clone() }));
        for list in [List::default(), sample().list, faults::long_list(3, 0), faults::long_list(9, 400)] {
            for retry in [0, 1, 1 << 31, u64::from(u32::MAX)] {
                assert_eq!((first(retry, 0, &list), first(retry, u64::MAX, &list)), (Err(41), Err(41)));
            }
        }
        // 2^32 and 0 as R and S, and no elements: the bytes are those of 0 and 0.
        assert_eq!(in_first_layout(&Proof { retry: 1 << 32, ..Proof::default() }), of(&Proof::default()));
        let none = List::default();
        assert_eq!(first(1 << 32 | 2, 3 << 32 | 4, &none), Ok(Told { retry: 2 << 32 | 3, search: 4 << 32, count: 0, len: 0 }));
        assert_eq!((first(2 << 32, 0, &none), first(u64::MAX, 0, &none), first(1 << 32, 0, &sample().list)), (Err(41), Err(41), Err(41)));
    }

    #[test]
    fn what_is_read_is_what_was_written_save_what_is_not_carried() {
        let mut proof = sample();
        proof.list.data.extend(b"spare");
        let back = proof_in(&of(&proof)).expect("a ticket");
        assert_eq!((back.retry, back.search), (3, 0x1_0000_0002));
        assert_eq!((&back.list.data[..], &back.list.ends[..]), (&b"ab"[..], &[2, 2][..]));
        assert_eq!((&back.list.marks[..], &back.list.indexes[..]), (&[1, 0][..], &[0x0102_0304_0506_0708, 0][..]));
        assert_eq!(of(&back), of(&proof));
    }

    #[test]
    fn a_damaged_ticket_is_40_before_all_else() {
        let whole = of(&of_one(600, None));
        assert_eq!(whole.len(), 1024);
        for place in 0..whole.len() {
            let mut damaged = whole.clone();
            damaged[place] ^= 1;
            assert_eq!(tell(&damaged), Err(40));
        }
        assert_eq!(tell(&whole[..1023]), Err(40));
        assert_eq!(tell(&[0]), Err(40));
        assert_eq!(tell(&[0; 512]), Err(40));
        // No block at all has no wrong one.
        assert_eq!(tell(&[]), Err(41));
    }

    #[test]
    fn what_is_outside_the_layout_is_41() {
        let proof = sample();
        assert_eq!(with(&proof, 24, &[2]), Err(41));
        assert_eq!(with(&proof, 20, &[0, 0, 0, 1]), Ok(Told { count: 1, len: 2, retry: 3, search: 0x1_0000_0002 }));
        // Zeros can be one element more, if there are enough of them, and anything else can't be filling.
        // After the first element there are 465, and one without index and data takes five.
        assert_eq!(with(&proof, 20, &[0, 0, 0, 94]).map(|told| told.count), Ok(94));
        assert_eq!(with(&proof, 20, &[0, 0, 0, 95]), Err(41));
        assert_eq!(with(&proof, 503, &[1]), Err(41));
        assert_eq!(with(&proof, 33, &[0, 0, 16, 0]), Err(41));
        // The filling can be data; one byte more isn't there.
        assert_eq!(with(&of_one(9, None), 25, &[0, 0, 1, 219]).map(|told| told.len), Ok(475));
        assert_eq!(with(&of_one(9, None), 25, &[0, 0, 1, 220]), Err(41));
        // A block of filling alone, though it is counted.
        let mut one_more = of(&proof);
        one_more.extend([0; 512]);
        one_more[3] = 2;
        seal(&mut one_more);
        assert_eq!(tell(&one_more), Err(41));
        assert_eq!(tell(&of(&of_one(4096, Some(1)))).map(|told| told.len), Ok(4096));
        assert_eq!(tell(&of(&of_one(4097, Some(1)))), Err(41));
        let many = |count| tell(&of(&Proof { list: faults::long_list(count, 0), ..Proof::default() })).map(|told| told.count);
        assert_eq!((many(65_536), many(65_537)), (Ok(65_536), Err(41)));
    }

    #[test]
    fn a_buffer_too_short_is_42_and_comes_last() {
        let proof = sample();
        let ticket = of(&proof);
        let read_into =
            |ticket: &[u8], [d, e, m, x]: [usize; 4]| read(ticket, &mut vec![0; d], &mut vec![0; e], &mut vec![0; m], &mut vec![0; x]);
        assert!(read_into(&ticket, [2, 2, 2, 2]).is_ok());
        for short in [[1, 2, 2, 2], [2, 1, 2, 2], [2, 2, 1, 2], [2, 2, 2, 1]] {
            assert_eq!(read_into(&ticket, short), Err(42));
        }
        assert_eq!(read_into(&[], [0; 4]), Err(41));
        assert_eq!(read_into(&[0; 512], [0; 4]), Err(40));
        // A mark of 2 in the body of a ticket that would be too much for each of these.
        let mut marked = ticket.clone();
        marked[HEAD] = 2;
        let no_room = [[0; 4], [0, 2, 2, 2], [2, 0, 2, 2], [2, 2, 0, 2], [2, 2, 2, 0]];
        assert!(no_room.iter().all(|rooms| read_into(&ticket, *rooms) == Err(42)));
        assert!(no_room.iter().all(|rooms| read_into(&marked, *rooms) == Err(40)));
        seal(&mut marked);
        assert!(no_room.iter().all(|rooms| read_into(&marked, *rooms) == Err(41)));
        assert_eq!(write(0, 0, &proof.list, &mut [0; 512]), Ok(1));
        assert_eq!(write(0, 0, &proof.list, &mut [0; 511]), Err(42));
        assert_eq!(write(0, 0, &faults::long_list(1, 4097), &mut []), Err(5));
        let mut bad = faults::long_list(1, 4097);
        bad.marks[0] = 2;
        assert_eq!(write(0, 0, &bad, &mut []), Err(4));
    }
}
