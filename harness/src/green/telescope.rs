//! The verifier's game itself with a function in SHA-256's place: whether R, S and elements of a list, in any order and each as often as
//! one likes, can be sent that it accepts. The sender has the whole function at hand, so all are tried.

use crate::compare::verdicts::Claim;
use crate::model::chains::{id_of, next_hash, number_of, start_hash, Hash};
use crate::model::rules;
use crate::{ffi::Settings, list::List};
use sha2::Sha256;

/// The first proof, of the lowest R. The verifier admits R = 0 and not R = max_retries, and all elements that are sent.
pub fn proof(function: &Sha256, s: &Settings, list: &List) -> Option<Claim> {
    (0..s.max_retries).find_map(|retry_counter| {
        let bins = (0..list.len()).map(|place| rules::bin_by(function, list, place, s.set_size, retry_counter)).collect();
        let mut chains = Chains { function, s, x: s.x.x(), list, bins, places: Vec::new() };
        let mut counters = 0..s.search_width;
        let search_counter = counters.find(|search_counter| chains.grows(start_hash(function, retry_counter, *search_counter)))?;
        Some(Claim { settings: *s, retry_counter, search_counter, list: list.at(&chains.places) })
    })
}

/// The chains of one R.
struct Chains<'a> {
    function: &'a Sha256,
    s: &'a Settings,
    x: u128,
    list: &'a List,
    /// Each element's bin.
    bins: Vec<Option<u64>>,
    /// The chain under way.
    places: Vec<u32>,
}

impl Chains<'_> {
    /// Whether the chain under way, whose last hash this is, passes or can be made to by more elements.
    fn grows(&mut self, hash: Hash) -> bool {
        let Some(id) = id_of(&hash, self.s.set_size) else {
            return false;
        };
        if self.places.len() as u64 == self.s.proof_size {
            return number_of(self.function, &hash) < self.x;
        }
        for place in 0..self.list.len() {
            if self.bins[place] == Some(id) {
                self.places.push(place as u32);
                if self.grows(next_hash(self.function, &hash, self.list, place)) {
                    return true;
                }
                self.places.pop();
            }
        }
        false
    }
}

#[cfg(test)]
mod tests {
    use super::*;
    use crate::green::keyed;
    use crate::model::threshold::Threshold::Alone;

    fn two() -> List {
        let mut list = List::default();
        list.push(b"a", None, 9);
        list.push(b"bc", Some(0x0102), 0);
        list
    }

    /// The four messages by the specification's words, written out, with a key before them and with none.
    #[test]
    fn what_is_hashed() {
        let (list, hash) = (two(), [7; 32]);
        for key in [&[][..], &[b'k'; 16]] {
            let function = keyed::function(key);
            let start = b"Telescope-round_hash\0\0\0\0\0\0\x01\x02\0\0\0\0\0\0\0\x03";
            assert_eq!(start_hash(&function, 0x0102, 3), keyed::digest(key, &[start]));
            let next = [b"Telescope-round_hash".as_slice(), &hash, b"bc\0\0\0\0\0\0\x01\x02"];
            assert_eq!(next_hash(&function, &hash, &list, 1), keyed::digest(key, &next));
            assert_eq!(next_hash(&function, &hash, &list, 0), keyed::digest(key, &[b"Telescope-round_hash", &hash, b"a"]));
            let last = keyed::digest(key, &[b"Telescope-proof_hash", &hash]);
            assert_eq!(number_of(&function, &hash).to_be_bytes(), last[..16]);
            // With 256 bins it is the eighth byte.
            let bin = keyed::digest(key, &[b"Telescope-bin_hash\0\0\0\0\0\0\0\x05bc\0\0\0\0\0\0\x01\x02"])[7];
            assert_eq!(rules::bin_by(&function, &list, 1, 256, 5), Some(u64::from(bin)));
        }
    }

    /// With one bin every chain exists, and all ones let through every number but all ones itself: the first chain passes, with R = 0.
    /// Without a counter or an element there is none, and the empty chain needs no element.
    #[test]
    fn of_one_bin() {
        let s = Settings { set_size: 1, proof_size: 3, max_retries: 2, search_width: 2, dfs_bound: 0, x: Alone(u128::MAX) };
        let of = |s: Settings, list: &List| {
            proof(&keyed::function(b"key"), &s, list).map(|claim| (claim.retry_counter, claim.search_counter, claim.list.data))
        };
        assert_eq!(of(s, &two()), Some((0, 0, b"aaa".to_vec())));
        for none in [Settings { max_retries: 0, ..s }, Settings { search_width: 0, ..s }, Settings { x: Alone(0), ..s }] {
            assert_eq!(of(none, &two()), None, "{none:?}");
        }
        assert_eq!((of(s, &List::default()), of(Settings { proof_size: 0, ..s }, &List::default())), (None, Some((0, 0, Vec::new()))));
    }

    /// One R, one S and proofs of one element: by the digests themselves, with an X just above the number and at it.
    #[test]
    fn of_one_element() {
        let (list, mut fitting) = (two().at(&[0]), 0);
        for key in 0..100u8 {
            let digest = |strings: &[&[u8]]| keyed::digest(&[key], strings);
            let start = digest(&[b"Telescope-round_hash", &[0; 16]]);
            let is_met = start[7] % 4 == digest(&[b"Telescope-bin_hash", &[0; 8], b"a"])[7] % 4;
            let last = digest(&[b"Telescope-proof_hash", &digest(&[b"Telescope-round_hash", &start, b"a"])]);
            let number = u128::from_be_bytes(*last.first_chunk().expect("16 bytes"));
            let is_green = |x| {
                let s = Settings { set_size: 4, proof_size: 1, max_retries: 1, search_width: 1, dfs_bound: 0, x: Alone(x) };
                proof(&keyed::function(&[key]), &s, &list).is_some()
            };
            assert_eq!((is_green(number + 1), is_green(number)), (is_met, false), "{key}");
            fitting += u32::from(is_met);
        }
        // A quarter of them, by chance.
        assert!((10..45).contains(&fitting), "{fitting}");
    }
}
