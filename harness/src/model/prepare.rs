//! Prepare and commit by the request's words, apart from the library: the bytes that stand for a run, their hash with `sha2`, and what is
//! refused before a search.

use super::rules;
use crate::{ffi, ffi::Settings, list::List};
use sha2::{Digest, Sha256};

pub const DIGEST: usize = 32;

/// The settings and the number of elements in 8 bytes each, X in 16, and each element as in a ticket, all big-endian. The list is lawful,
/// or only too large.
pub fn bytes(s: &Settings, list: &List) -> Vec<u8> {
    let mut bytes = Vec::new();
    for number in [s.set_size, s.proof_size, s.max_retries, s.search_width, s.dfs_bound, list.len() as u64] {
        bytes.extend(number.to_be_bytes());
    }
    bytes.extend(s.x.x().to_be_bytes());
    for place in 0..list.len() {
        put_element(&mut bytes, list.data_of(place), list.index_of(place));
    }
    bytes
}

/// The mark, the index where there is one, the data's length in 4 bytes, the data.
fn put_element(bytes: &mut Vec<u8>, data: &[u8], index: Option<u64>) {
    bytes.push(u8::from(index.is_some()));
    bytes.extend(index.iter().flat_map(|index| index.to_be_bytes()));
    bytes.extend((data.len() as u32).to_be_bytes());
    bytes.extend(data);
}

pub fn digest(s: &Settings, list: &List) -> [u8; DIGEST] {
    Sha256::digest(bytes(s, list)).into()
}

/// What is answered to prepare, with a lent place of so many bytes for the digest.
pub fn prepare(s: &Settings, list: &List, workspace: (usize, usize), out: usize) -> Result<[u8; DIGEST], u32> {
    if out != DIGEST {
        return Err(ffi::BAD_LENGTH);
    }
    rules::prover(s, list, workspace.0, workspace.1)?;
    Ok(digest(s, list))
}

/// What commit meets before it searches.
pub fn commit(s: &Settings, handed: &[u8], list: &List, workspace: (usize, usize)) -> Result<(), u32> {
    if handed.len() != DIGEST {
        return Err(ffi::BAD_LENGTH);
    }
    rules::prover(s, list, workspace.0, workspace.1)?;
    if digest(s, list) != *handed {
        return Err(ffi::RUN_CHANGED);
    }
    Ok(())
}

/// The numbers are those of the specification's table and of the request, written out.
#[cfg(test)]
mod tests {
    use super::*;
    use crate::compare::faults;
    use crate::model::threshold::Threshold::Alone;

    /// "ab" with the index 7 and nothing without one, where 9 stands instead.
    fn sample() -> (Settings, List) {
        let x = Alone(0x0011_2233_4455_6677_8899_aabb_ccdd_eeff);
        let s = Settings { set_size: 2, proof_size: 3, max_retries: 4, search_width: 0x0102_0304, dfs_bound: 1 << 40, x };
        let mut list = List::default();
        list.push(b"ab", Some(7), 0);
        list.push(b"", None, 9);
        (s, list)
    }

    #[test]
    fn byte_by_byte() {
        let (s, mut list) = sample();
        #[rustfmt::skip]
        let due = [
            0, 0, 0, 0, 0, 0, 0, 2,
            0, 0, 0, 0, 0, 0, 0, 3,
            0, 0, 0, 0, 0, 0, 0, 4,
            0, 0, 0, 0, 1, 2, 3, 4,
            0, 0, 1, 0, 0, 0, 0, 0,
            0, 0, 0, 0, 0, 0, 0, 2,
            0x00, 0x11, 0x22, 0x33, 0x44, 0x55, 0x66, 0x77, 0x88, 0x99, 0xaa, 0xbb, 0xcc, 0xdd, 0xee, 0xff,
            1, 0, 0, 0, 0, 0, 0, 0, 7, 0, 0, 0, 2, b'a', b'b',
            0, 0, 0, 0, 0,
        ];
        assert_eq!(bytes(&s, &list), due);
        // What isn't read isn't covered.
        list.indexes[1] = 8;
        list.data.push(b'c');
        assert_eq!(bytes(&s, &list), due);
    }

    /// As `sha256sum` gives it of these bytes.
    #[test]
    fn the_digest() {
        let (s, list) = sample();
        assert_eq!(crate::compare::hex(&digest(&s, &list)), "27112a423052b0aad3630e0d5ab14a13ce7a112bdec614d725933b49a1532cd0");
    }

    /// A call with every fault meets the first line; with that one mended, the next; and so on.
    #[test]
    fn the_order_of_the_lines() {
        let (mut s, whole) = sample();
        let (mut list, right) = (faults::long_list(2, 4097), digest(&s, &whole));
        let wrong = [right[0] ^ 1; DIGEST];
        (s.set_size, s.proof_size, list.marks[1]) = (0, 1025, 2);
        let both = |s: &Settings, list: &List, workspace| {
            let (one, other) = (prepare(s, list, workspace, DIGEST), commit(s, &wrong, list, workspace));
            assert_eq!((prepare(s, list, workspace, 31), prepare(s, list, workspace, 33)), (Err(8), Err(8)));
            assert_eq!((commit(s, &wrong[1..], list, workspace), commit(s, &[0; 33], list, workspace)), (Err(8), Err(8)));
            (one.err(), other.err())
        };
        assert_eq!(both(&s, &list, (2, 9)), (Some(1), Some(1)));
        s.set_size = 3;
        assert_eq!(both(&s, &list, (2, 9)), (Some(2), Some(2)));
        s.proof_size = 3;
        assert_eq!(both(&s, &list, (2, 9)), (Some(4), Some(4)));
        list.marks[1] = 0;
        assert_eq!(both(&s, &list, (2, 9)), (Some(5), Some(5)));
        assert_eq!((both(&s, &whole, (2, 10)), both(&s, &whole, (3, 9))), ((Some(6), Some(6)), (Some(6), Some(6))));
        assert_eq!(both(&s, &whole, (3, 10)), (Some(10), Some(10)));
        s.set_size = 2;
        assert_eq!(both(&s, &whole, (3, 7)), (None, Some(46)));
        assert_eq!((prepare(&s, &whole, (3, 7), DIGEST), commit(&s, &right, &whole, (3, 7))), (Ok(right), Ok(())));
    }
}
