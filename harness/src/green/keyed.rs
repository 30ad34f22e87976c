//! Functions in SHA-256's place, drawn at random: SHA-256 of a random key and then the message.
//!
//! A key in front is enough here. It is known to be weak where somebody extends a message: from a digest, without the key, follows that of
//! the message with its padding and more behind it. Here nobody does, and no message that is asked is another one with its padding.

use super::share::Share;
use crate::rng::Rng;
use sha2::{Digest as _, Sha256};

pub type Key = [u8; 16];
pub type Digest = [u8; 32];

/// The function of a key, as src/model/chains.rs takes it. With an empty key it is SHA-256.
pub fn function(key: &[u8]) -> Sha256 {
    Sha256::new_with_prefix(key)
}

/// Its digest of the strings joined.
pub fn digest(key: &[u8], strings: &[&[u8]]) -> Digest {
    let mut hasher = function(key);
    for string in strings {
        hasher.update(string);
    }
    hasher.finalize().into()
}

/// Of how many functions, each with a key of its own, it is so.
pub fn count(mut rng: Rng, functions: u64, mut is_so: impl FnMut(&Key) -> bool) -> Share {
    let mut share = Share { green: 0, functions };
    for _ in 0..functions {
        let mut key = Key::default();
        rng.fill(&mut key);
        share.green += u64::from(is_so(&key));
    }
    share
}

#[cfg(test)]
mod tests {
    use super::*;
    use crate::compare::hex;

    /// By `sha256sum`: "abc", and 16 bytes of "k" before it.
    #[test]
    fn the_key_stands_before_the_message() {
        let abc = "ba7816bf8f01cfea414140de5dae2223b00361a396177a9cb410ff61f20015ad";
        assert_eq!(hex(&digest(&[], &[b"a", b"", b"bc"])), abc);
        let keyed = "c94e2353756d7fa35a62a03f58ad119180246ceb0f085ce07f9d7a0fddb2977d";
        assert_eq!(hex(&digest(&[b'k'; 16], &[b"ab", b"c"])), keyed);
    }

    /// As many functions as asked, no key twice, and the same ones with the same seed.
    #[test]
    fn keys_come_from_the_seed() {
        let keys = |seed| {
            let mut keys = Vec::new();
            let share = count(Rng::new(seed, 0), 100, |key| {
                keys.push(*key);
                keys.len() % 4 == 0
            });
            assert_eq!((share.green, share.functions), (25, 100));
            keys
        };
        let (first, again, other) = (keys(1), keys(1), keys(2));
        assert!(first == again && first[0] != other[0]);
        assert_eq!(first.iter().collect::<std::collections::HashSet<_>>().len(), 100);
    }
}
