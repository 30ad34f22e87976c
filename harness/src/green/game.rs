//! The verifier's game with digests so small that all functions can be gone over.
//!
//! A function answers four kinds of questions, each with a number below m: the start hash, the next hash, the last hash, and the bin. Which
//! bytes are hashed plays no part, only that different questions are different messages.

use super::fraction::Fraction;
use super::keyed::{self, Digest};

/// The figures, by the letters of the bound.
#[derive(Clone, Copy, Debug, PartialEq)]
pub struct Game {
    /// max_retries.
    pub r: u64,
    /// search_width.
    pub d: u64,
    /// How many elements there are to choose from.
    pub f: u64,
    /// proof_size.
    pub u: u64,
    /// set_size. It divides m, so that each id is that of as many digests.
    pub n: u64,
    /// How many digests there are.
    pub m: u64,
    /// The threshold: of the last hash's answers those below it say yes.
    pub x: u64,
}

/// What a function is asked.
#[derive(Clone, Copy, Debug, PartialEq)]
pub enum Question {
    Start { retry: u64, search: u64 },
    Next { digest: u64, element: u64 },
    Last { digest: u64 },
    Bin { retry: u64, element: u64 },
}

impl Question {
    /// Three bytes to each, no two the same.
    fn message(self) -> [u8; 3] {
        let (kind, first, second) = match self {
            Question::Start { retry, search } => (0, retry, search),
            Question::Next { digest, element } => (1, digest, element),
            Question::Last { digest } => (2, digest, 0),
            Question::Bin { retry, element } => (3, retry, element),
        };
        [kind, first as u8, second as u8]
    }

    /// A keyed function's answer, a number below m.
    pub fn keyed(self, key: &[u8], m: u64) -> u64 {
        below(&keyed::digest(key, &[&self.message()]), m)
    }
}

/// The digest's first 8 bytes modulo m. Where they are past the last whole round of m, which would favour the low numbers, the next 8.
fn below(digest: &Digest, m: u64) -> u64 {
    let rounds = (1u128 << 64) / u128::from(m) * u128::from(m);
    let mut words = digest.chunks_exact(8).map(|bytes| bytes.iter().fold(0, |word, byte| word << 8 | u128::from(*byte)));
    let word = words.find(|word| *word < rounds).expect("for a small m four such words in a row never come");
    (word % u128::from(m)) as u64
}

impl Game {
    /// Whether some R, S and u elements, one perhaps more than once, are accepted. It ends early where a question has no answer.
    pub fn is_green<E>(&self, ask: &mut impl FnMut(Question) -> Result<u64, E>) -> Result<bool, E> {
        for retry in 0..self.r {
            for search in 0..self.d {
                let start = ask(Question::Start { retry, search })?;
                if self.grows(retry, start, self.u, ask)? {
                    return Ok(true);
                }
            }
        }
        Ok(false)
    }

    /// Whether so many more elements behind this digest can make the chain pass.
    fn grows<E>(&self, retry: u64, digest: u64, more: u64, ask: &mut impl FnMut(Question) -> Result<u64, E>) -> Result<bool, E> {
        if more == 0 {
            return Ok(ask(Question::Last { digest })? < self.x);
        }
        for element in 0..self.f {
            let bin = ask(Question::Bin { retry, element })? % self.n;
            if bin == digest % self.n {
                let next = ask(Question::Next { digest, element })?;
                if self.grows(retry, next, more - 1, ask)? {
                    return Ok(true);
                }
            }
        }
        Ok(false)
    }

    /// The bound's first term, r·d·f^u·x / (n^u·m): the sum over all proofs of the chance of one whose digests are all different.
    pub fn first_term(&self) -> Fraction {
        let [r, d, f, n, m, x] = [self.r, self.d, self.f, self.n, self.m, self.x].map(u128::from);
        Fraction::new(r * d * f.pow(self.u as u32) * x, n.pow(self.u as u32) * m)
    }

    /// Both terms. The second, r·d·u² / m, is there for digests that come again within a chain.
    pub fn bound(&self) -> Fraction {
        let [r, d, u, m] = [self.r, self.d, self.u, self.m].map(u128::from);
        self.first_term().plus(Fraction::new(r * d * u * u, m))
    }
}

#[cfg(test)]
mod tests {
    use super::*;
    use std::collections::HashSet;

    /// Under a multiple of m a word counts, past it the next one does. 2^64 is one more than a multiple of 3.
    #[test]
    fn below_m_without_favour() {
        let of = |words: [u64; 4], m| {
            let bytes: Vec<u8> = words.iter().flat_map(|word| word.to_be_bytes()).collect();
            below(&bytes.try_into().expect("32 bytes"), m)
        };
        assert_eq!((of([7, 1, 1, 1], 3), of([u64::MAX - 1, 1, 1, 1], 3), of([u64::MAX, 1, 2, 2], 3)), (1, 2, 1));
        assert_eq!((of([u64::MAX, 1, 1, 1], 4), of([1 << 8, 1, 1, 1], 2), of([0x0102, 0, 0, 0], 16)), (3, 0, 2));
        assert_eq!(of([u64::MAX, u64::MAX, u64::MAX, 5], 3), 2);
    }

    #[test]
    fn no_two_questions_are_one_message() {
        let numbers = || (0..16).flat_map(|a| (0..16).map(move |b| (a, b)));
        let mut messages = HashSet::new();
        for (a, b) in numbers() {
            messages.insert(Question::Start { retry: a, search: b }.message());
            messages.insert(Question::Next { digest: a, element: b }.message());
            messages.insert(Question::Bin { retry: a, element: b }.message());
        }
        messages.extend((0..16).map(|digest| Question::Last { digest }.message()));
        assert_eq!(messages.len(), 3 * 256 + 16);
    }

    /// Three digests, two elements in bins 1 and 2, and the chain 1, 2, 2 over the elements 0 and 1, which R = 0 and S = 1 begin.
    #[test]
    fn a_chain_by_hand() {
        let game = Game { r: 1, d: 2, f: 2, u: 2, n: 3, m: 3, x: 1 };
        let green = |last: u64, asked: &mut Vec<Question>| {
            let mut ask = |question| {
                asked.push(question);
                Ok::<u64, ()>(match question {
                    Question::Start { search, .. } => search,
                    Question::Bin { element, .. } => element + 1,
                    Question::Next { digest: 1, element: 0 } | Question::Next { digest: 2, element: 1 } => 2,
                    Question::Next { .. } => panic!("an element that doesn't fit"),
                    Question::Last { digest } => {
                        if digest == 2 {
                            last
                        } else {
                            0
                        }
                    }
                })
            };
            game.is_green(&mut ask)
        };
        let mut asked = Vec::new();
        assert_eq!((green(1, &mut Vec::new()), green(0, &mut asked)), (Ok(false), Ok(true)));
        assert_eq!(asked.last(), Some(&Question::Last { digest: 2 }));
        // A question without an answer ends it.
        assert_eq!(game.is_green(&mut |question| Err::<u64, Question>(question)), Err(Question::Start { retry: 0, search: 0 }));
    }

    /// 1 × 1 × 1 × 1 over 2^3 × 2, and 9 halves; 2 × 3 × 2^2 × 2 over 4^2 × 8, and 2 × 3 × 4 eighths.
    #[test]
    fn both_terms_by_hand() {
        let game = Game { r: 1, d: 1, f: 1, u: 3, n: 2, m: 2, x: 1 };
        assert_eq!((game.first_term(), game.bound()), (Fraction::new(1, 16), Fraction::new(73, 16)));
        let game = Game { r: 2, d: 3, f: 2, u: 2, n: 4, m: 8, x: 2 };
        assert_eq!((game.first_term(), game.bound()), (Fraction::new(3, 8), Fraction::new(27, 8)));
    }
}
