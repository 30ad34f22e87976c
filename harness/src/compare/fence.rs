//! A place lent to be written: inside a larger buffer of random bytes or numbers, so that everything written is seen, also outside the
//! place.

use crate::{
    ffi::{Lent, Place},
    rng::Rng,
};
use std::fmt::Debug;

/// Numbers before and after the place, at least. The starts differ by up to 7, so that bytes meet every alignment.
const BESIDE: usize = 16;

pub struct Fenced<T> {
    now: Vec<T>,
    was: Vec<T>,
    start: usize,
    len: usize,
    null: bool,
}

impl<T: Copy + PartialEq + Debug> Fenced<T> {
    /// `number` makes a random number of the type from a word.
    pub fn new(rng: &mut Rng, len: usize, number: fn(u64) -> T) -> Self {
        let start = BESIDE + rng.below(8) as usize;
        let was: Vec<T> = (0..start + len + BESIDE).map(|_| number(rng.word())).collect();
        Fenced { now: was.clone(), was, start, len, null: false }
    }

    /// A null pointer with length 0 in place of the buffer's address.
    pub fn null(rng: &mut Rng, number: fn(u64) -> T) -> Self {
        Fenced { null: true, ..Fenced::new(rng, 0, number) }
    }

    /// With these numbers in the place.
    pub fn of(rng: &mut Rng, numbers: &[T], number: fn(u64) -> T) -> Self {
        let mut fenced = Fenced::new(rng, numbers.len(), number);
        let place = fenced.start..fenced.start + fenced.len;
        fenced.now[place.clone()].copy_from_slice(numbers);
        fenced.was[place].copy_from_slice(numbers);
        fenced
    }

    /// Lent to be read alone.
    pub fn lent(&self) -> Lent<'_, T> {
        (!self.null).then(|| &self.now[self.start..self.start + self.len])
    }

    pub fn len(&self) -> usize {
        self.len
    }

    /// Whether the place now starts with `written`, and everything behind that and around the place is as it was.
    pub fn holds(&self, written: &[T]) -> bool {
        let (start, end) = (self.start, self.start + written.len());
        written.len() <= self.len
            && self.now[..start] == self.was[..start]
            && self.now[start..end] == *written
            && self.now[end..] == self.was[end..]
    }

    /// The whole buffer before and after, for the print of a failing case.
    pub fn story(&self, name: &str, written: &[T]) -> String {
        format!(
            "  {name}: {} numbers at place {} of a buffer{}\n    due: {written:x?}, else as before\n    before: {:x?}\n    after:  {:x?}\n",
            self.len,
            self.start,
            if self.null { ", lent as a null pointer" } else { "" },
            self.was,
            self.now
        )
    }
}

// SAFETY: the place ends inside the buffer.
unsafe impl<T> Place<T> for Fenced<T> {
    // The pointer is made from the whole buffer, so a write beside the place is a failing case and not undefined here.
    fn parts(&mut self) -> (*mut T, usize) {
        match self.null {
            true => (std::ptr::null_mut(), 0),
            false => (self.now.as_mut_ptr().wrapping_add(self.start), self.len),
        }
    }
}

#[cfg(test)]
mod tests {
    use super::*;

    /// A write before the place, behind it, or into it past what is due is seen, and so is one that is missing.
    #[test]
    fn a_write_beside_the_place_is_seen() {
        for at in -1..=4 {
            let mut place = Fenced::new(&mut Rng::new(1, 0), 4, |word| word as u8);
            assert!(place.holds(&[]));
            let (start, len) = Place::parts(&mut place);
            assert_eq!(len, 4);
            // SAFETY: there are `BESIDE` bytes of the buffer before the place and behind it.
            let written = unsafe {
                let byte = start.offset(at);
                *byte = !*byte;
                *byte
            };
            assert!(!place.holds(&[]));
            assert_eq!(place.holds(&[written]), at == 0);
        }
    }
    /// Numbers that are lent to be read stand in the place, and a write to them is seen.
    #[test]
    fn what_is_lent_to_be_read() {
        let mut place = Fenced::of(&mut Rng::new(1, 0), &[5, 6, 7], |word| word as u32);
        assert_eq!((place.lent(), place.holds(&[])), (Some(&[5, 6, 7][..]), true));
        place.now[place.start + 2] = 8;
        assert_eq!((place.lent(), place.holds(&[])), (Some(&[5, 6, 8][..]), false));
    }
}
