//! Lists of elements in the three forms that they are handed over in: as the prover is lent them, as the verifier is, and as the Rust
//! takes them.

use crate::ffi::Listed;
use oracle::utils::types::Element;

/// An element's data as the Rust takes it. Its place goes along, so that of equal elements it is known which one was taken.
#[derive(Clone)]
pub struct Placed<'a> {
    data: &'a [u8],
    pub place: u32,
}

impl AsRef<[u8]> for Placed<'_> {
    fn as_ref(&self) -> &[u8] {
        self.data
    }
}

/// A list as the prover is lent it. It need not be a lawful one.
#[derive(Clone, Debug, Default, PartialEq)]
pub struct List {
    pub data: Vec<u8>,
    pub ends: Vec<u32>,
    pub marks: Vec<u8>,
    pub indexes: Vec<u64>,
}

impl List {
    /// Adds an element at the end. `unread` stands in the place of an index that it doesn't have.
    pub fn push(&mut self, data: &[u8], index: Option<u64>, unread: u64) {
        self.data.truncate(self.ends.last().map_or(0, |end| *end as usize));
        self.data.extend_from_slice(data);
        self.ends.push(self.data.len() as u32);
        self.marks.push(u8::from(index.is_some()));
        self.indexes.push(index.unwrap_or(unread));
    }

    /// Adds an element like the one at a place of a lawful list.
    pub fn repeat(&mut self, place: usize, unread: u64) {
        let (data, index) = (self.data_of(place).to_vec(), self.index_of(place));
        self.push(&data, index, unread);
    }

    pub fn len(&self) -> usize {
        self.ends.len()
    }

    /// The data of the element at a place of a lawful list.
    pub fn data_of(&self, place: usize) -> &[u8] {
        let start = if place == 0 { 0 } else { self.ends[place - 1] };
        &self.data[start as usize..self.ends[place] as usize]
    }

    pub fn index_of(&self, place: usize) -> Option<u64> {
        (self.marks[place] == 1).then_some(self.indexes[place])
    }

    /// The elements at these places, in their order, as a list of its own.
    pub fn at(&self, places: &[u32]) -> List {
        let mut list = List::default();
        for place in places.iter().map(|place| *place as usize) {
            list.push(self.data_of(place), self.index_of(place), self.indexes[place]);
        }
        list
    }

    /// A lawful list's elements for the Rust.
    pub fn elements(&self) -> Vec<Element<Placed<'_>>> {
        let placed = |place| Placed { data: self.data_of(place), place: place as u32 };
        (0..self.len()).map(|place| Element::new(placed(place), self.index_of(place))).collect()
    }

    pub fn lent(&self) -> Listed<'_, u32, u64> {
        Listed { data: Some(&self.data), ends: Some(&self.ends), marks: Some(&self.marks), indexes: Some(&self.indexes) }
    }

    pub fn written(&self) -> Written {
        Written {
            data: self.data.clone(),
            ends: self.ends.iter().flat_map(|end| end.to_be_bytes()).collect(),
            marks: self.marks.clone(),
            indexes: self.indexes.iter().flat_map(|index| index.to_be_bytes()).collect(),
        }
    }
}

/// A list as the verifier is lent it.
#[derive(Clone, Debug, PartialEq)]
pub struct Written {
    pub data: Vec<u8>,
    pub ends: Vec<u8>,
    pub marks: Vec<u8>,
    pub indexes: Vec<u8>,
}

impl Written {
    /// The list that the bytes write, lawful or not; none where a length is no whole count of numbers.
    pub fn read(&self) -> Option<List> {
        if self.ends.len() % 4 != 0 || self.indexes.len() % 8 != 0 {
            return None;
        }
        let ends = self.ends.chunks_exact(4).map(|b| u32::from_be_bytes([b[0], b[1], b[2], b[3]]));
        let indexes = self.indexes.chunks_exact(8).map(|b| b.iter().fold(0, |n, byte| n << 8 | u64::from(*byte)));
        Some(List { data: self.data.clone(), ends: ends.collect(), marks: self.marks.clone(), indexes: indexes.collect() })
    }

    pub fn lent(&self) -> Listed<'_, u8, u8> {
        Listed { data: Some(&self.data), ends: Some(&self.ends), marks: Some(&self.marks), indexes: Some(&self.indexes) }
    }
}

#[cfg(test)]
mod tests {
    use super::*;

    /// "a" without an index, where 9 stands instead, "bc" with 7, and no data with 0.
    fn sample() -> List {
        let mut list = List::default();
        list.push(b"a", None, 9);
        list.push(b"bc", Some(7), 1);
        list.push(b"", Some(0), 1);
        list
    }

    #[test]
    fn data_is_joined_and_an_end_is_where_an_element_stops() {
        let list = sample();
        assert_eq!(list.data, b"abc");
        assert_eq!(list.ends, [1, 3, 3]);
        assert_eq!(list.marks, [0, 1, 1]);
        assert_eq!(list.indexes, [9, 7, 0]);
    }

    #[test]
    fn the_rust_gets_the_data_the_index_and_the_place() {
        let list = sample();
        let told: Vec<_> = list.elements().iter().map(|e| (e.as_ref().to_vec(), e.index, e.data.place)).collect();
        // An index of 0 is one, and what stands beside the mark 0 is none.
        assert_eq!(told, [(b"a".to_vec(), None, 0), (b"bc".to_vec(), Some(7), 1), (b"".to_vec(), Some(0), 2)]);
    }

    #[test]
    fn data_behind_the_last_end_goes_before_an_element_is_added() {
        let mut list = sample();
        list.data.extend(b"stray");
        list.push(b"d", None, 0);
        assert_eq!((list.data.as_slice(), list.data_of(3)), (b"abcd".as_slice(), b"d".as_slice()));
    }

    #[test]
    fn places_are_taken_in_their_order_and_again() {
        let taken = sample().at(&[2, 1, 1, 0]);
        let mut list = List::default();
        list.push(b"", Some(0), 0);
        list.push(b"bc", Some(7), 0);
        list.repeat(1, 0);
        list.push(b"a", None, 9);
        assert_eq!(taken, list);
    }

    #[test]
    fn the_verifier_gets_ends_in_four_bytes_and_indexes_in_eight() {
        let mut list = sample();
        list.indexes[2] = 0x0102_0304_0506_0708;
        let written = list.written();
        assert_eq!(written.ends, [0, 0, 0, 1, 0, 0, 0, 3, 0, 0, 0, 3]);
        assert_eq!(written.indexes[16..], [1, 2, 3, 4, 5, 6, 7, 8]);
        assert_eq!(written.read().as_ref(), Some(&list));
        // An unlawful list is read as it stands; bytes that make no whole number are not read.
        list.ends.swap(0, 2);
        list.marks.push(255);
        assert_eq!(list.written().read(), Some(list));
        assert_eq!(Written { ends: written.ends[1..].to_vec(), ..written.clone() }.read(), None);
        assert_eq!(Written { indexes: written.indexes[4..].to_vec(), ..written }.read(), None);
    }
}
