//! The library's exported functions, behind safe calls.
//!
//! Nothing checks these declarations against the library, so they are few, and on numbers and bytes alone. A slice passes as a pointer
//! and then a length. No call has a precondition: whatever is lent, the answer is one of the numbers named here.

use crate::model::proof_size::Figures;
use crate::model::threshold::{self, Threshold};

#[rustfmt::skip]
extern "C" {
    fn alba_sample_uniform(h: *const u8, h_len: usize, n: u64, out: *mut u8, out_len: usize) -> u32;
    fn alba_sample_bernoulli(h: *const u8, h_len: usize, x_high: u64, x_low: u64) -> u32;
    fn alba_threshold(q: f64, out: *mut u64, out_len: usize) -> u32;
    fn alba_small_case(u: u64, c: f64, out: *mut u64, out_len: usize) -> u32;
    fn alba_sha256(
        a: *const u8, a_len: usize, b: *const u8, b_len: usize, c: *const u8, c_len: usize, d: *const u8, d_len: usize,
        out: *mut u8, out_len: usize,
    ) -> u32;
    fn alba_check_distinct(
        data: *const u8, data_len: usize, ends: *const u32, ends_len: usize,
        marks: *const u8, marks_len: usize, indexes: *const u64, indexes_len: usize,
    ) -> u32;
    fn alba_prove(
        set_size: u64, proof_size: u64, max_retries: u64, search_width: u64, dfs_bound: u64, x_high: u64, x_low: u64,
        data: *const u8, data_len: usize, ends: *const u32, ends_len: usize,
        marks: *const u8, marks_len: usize, indexes: *const u64, indexes_len: usize,
        places: *mut u32, places_len: usize, table: *mut u32, table_len: usize, out: *mut u64, out_len: usize,
    ) -> u32;
    fn alba_verify(
        set_size: u64, proof_size: u64, max_retries: u64, search_width: u64, dfs_bound: u64, x_high: u64, x_low: u64,
        retry_counter: u64, search_counter: u64,
        data: *const u8, data_len: usize, ends: *const u8, ends_len: usize,
        marks: *const u8, marks_len: usize, indexes: *const u8, indexes_len: usize,
    ) -> u32;
    fn alba_write_ticket(
        retry: u64, search: u64,
        data: *const u8, data_len: usize, ends: *const u32, ends_len: usize,
        marks: *const u8, marks_len: usize, indexes: *const u64, indexes_len: usize,
        ticket: *mut u8, ticket_len: usize, out: *mut u64, out_len: usize,
    ) -> u32;
    fn alba_read_ticket(
        ticket: *const u8, ticket_len: usize, data: *mut u8, data_len: usize, ends: *mut u32, ends_len: usize,
        marks: *mut u8, marks_len: usize, indexes: *mut u64, indexes_len: usize, out: *mut u64, out_len: usize,
    ) -> u32;
    fn alba_stated_blocks(ticket: *const u8, ticket_len: usize) -> u64;
    fn alba_plan(
        set_size: u64, proof_size: u64, max_retries: u64, search_width: u64, dfs_bound: u64, x_high: u64, x_low: u64, longest: u64,
        out: *mut u64, out_len: usize,
    ) -> u32;
    fn alba_proof_size(s: u64, c: u64, n: u64, f: u64, out: *mut u64, out_len: usize) -> u32;
    fn alba_pool_size(
        data: *const u8, data_len: usize, ends: *const u32, ends_len: usize,
        marks: *const u8, marks_len: usize, indexes: *const u64, indexes_len: usize,
        data2: *const u8, data2_len: usize, ends2: *const u32, ends2_len: usize,
        marks2: *const u8, marks2_len: usize, indexes2: *const u64, indexes2_len: usize,
        out: *mut u64, out_len: usize,
    ) -> u32;
    fn alba_pool_data(
        data: *const u8, data_len: usize, ends: *const u32, ends_len: usize,
        marks: *const u8, marks_len: usize, indexes: *const u64, indexes_len: usize,
        data2: *const u8, data2_len: usize, ends2: *const u32, ends2_len: usize,
        marks2: *const u8, marks2_len: usize, indexes2: *const u64, indexes2_len: usize,
        place: u64, part: *mut u8, part_len: usize, out: *mut u64, out_len: usize,
    ) -> u32;
    fn alba_prove_pool(
        set_size: u64, proof_size: u64, max_retries: u64, search_width: u64, dfs_bound: u64, x_high: u64, x_low: u64,
        data: *const u8, data_len: usize, ends: *const u32, ends_len: usize,
        marks: *const u8, marks_len: usize, indexes: *const u64, indexes_len: usize,
        data2: *const u8, data2_len: usize, ends2: *const u32, ends2_len: usize,
        marks2: *const u8, marks2_len: usize, indexes2: *const u64, indexes2_len: usize,
        places: *mut u32, places_len: usize, table: *mut u32, table_len: usize, out: *mut u64, out_len: usize,
    ) -> u32;
    fn alba_prepare(
        set_size: u64, proof_size: u64, max_retries: u64, search_width: u64, dfs_bound: u64, x_high: u64, x_low: u64,
        data: *const u8, data_len: usize, ends: *const u32, ends_len: usize,
        marks: *const u8, marks_len: usize, indexes: *const u64, indexes_len: usize,
        places: *const u32, places_len: usize, table: *const u32, table_len: usize, out: *mut u8, out_len: usize,
    ) -> u32;
    fn alba_commit(
        set_size: u64, proof_size: u64, max_retries: u64, search_width: u64, dfs_bound: u64, x_high: u64, x_low: u64,
        digest: *const u8, digest_len: usize,
        data: *const u8, data_len: usize, ends: *const u32, ends_len: usize,
        marks: *const u8, marks_len: usize, indexes: *const u64, indexes_len: usize,
        places: *mut u32, places_len: usize, table: *mut u32, table_len: usize, out: *mut u64, out_len: usize,
    ) -> u32;
    fn alba_two_products(
        table: *const u32, table_len: usize, table_retry: u64,
        data: *const u8, data_len: usize, ends: *const u32, ends_len: usize,
        marks: *const u8, marks_len: usize, indexes: *const u64, indexes_len: usize,
        set_size: u64, proof_size: u64, max_retries: u64, search_width: u64, dfs_bound: u64, x_high: u64, x_low: u64, retry: u64,
        set_size2: u64, proof_size2: u64, max_retries2: u64, search_width2: u64, dfs_bound2: u64, x_high2: u64, x_low2: u64, retry2: u64,
        places: *mut u32, places_len: usize, places2: *mut u32, places2_len: usize, out: *mut u64, out_len: usize,
    ) -> u32;
    fn alba_count_chains(
        set_size: u64, proof_size: u64, max_retries: u64, search_width: u64, dfs_bound: u64, x_high: u64, x_low: u64,
        retry: u64, search: u64,
        data: *const u8, data_len: usize, ends: *const u32, ends_len: usize,
        marks: *const u8, marks_len: usize, indexes: *const u64, indexes_len: usize,
        bins: *mut u32, bins_len: usize, counts: *mut u64, counts_len: usize, out: *mut u64, out_len: usize,
    ) -> u32;
}

/// set_size is out of range.
pub const BAD_SET_SIZE: u32 = 1;
/// Another number of the settings is over its limit.
pub const BAD_LIMIT: u32 = 2;
/// No draw, the uniform sampler's second answer beside 0.
pub const NO_DRAW: u32 = 1;
/// Two elements are the same, the second answer on distinctness beside 0.
pub const REPEATED: u32 = 1;
/// q is no number from 0 to 1.
pub const BAD_Q: u32 = 3;
/// The four slices make no list.
pub const BAD_LIST: u32 = 4;
/// Too many elements, or too long a one.
pub const TOO_LARGE: u32 = 5;
/// A workspace is too short.
pub const TOO_SHORT: u32 = 6;
/// n is 0.
pub const BAD_N: u32 = 7;
/// A length that is not the one wanted.
pub const BAD_LENGTH: u32 = 8;
/// Over `LONGEST` bytes joined.
pub const TOO_LONG: u32 = 9;
/// Fewer elements than set_size.
pub const NOT_ENOUGH: u32 = 10;
/// No proof, and the bound was reached.
pub const NOT_FOUND_IN_BOUNDS: u32 = 11;
/// No proof.
pub const NOT_FOUND: u32 = 12;
/// The proof's length isn't proof_size.
pub const WRONG_NUMBER: u32 = 20;
/// A counter of the proof is out of range.
pub const INVALID_PARAMETERS: u32 = 21;
/// The proof's elements make no chain that passes.
pub const INVALID_PROOF: u32 = 22;
/// u is out of range.
pub const BAD_U: u32 = 30;
/// c is no number from 0 to 65,535.
pub const BAD_C: u32 = 31;
/// A ticket's size isn't whole blocks, or a block's check fails.
pub const DAMAGED_TICKET: u32 = 40;
/// What a ticket holds is no proof in the layout and within the limits.
pub const NO_TICKET: u32 = 41;
/// A lent buffer is too short for what is to be written.
pub const BUFFER_SHORT: u32 = 42;
/// A security figure is out of its range.
pub const BAD_FIGURES: u32 = 43;
/// No proof size up to 1,024 meets the security figures.
pub const NO_SIZE: u32 = 44;
/// Two lists pooled have too many elements.
pub const POOL_TOO_LARGE: u32 = 45;
/// A digest that isn't that of what is to be searched.
pub const RUN_CHANGED: u32 = 46;
/// A retry counter other than the bin table's.
pub const OTHER_RETRY: u32 = 47;
/// A bin table that isn't the one of the list, the set size and the retry counter.
pub const OTHER_TABLE: u32 = 48;
/// Fewer counts lent than there are lengths.
pub const COUNTS_SHORT: u32 = 49;
/// More chains than dfs_bound.
pub const TREE_TOO_LARGE: u32 = 50;
/// The most bytes that the four strings of a hash may have together.
pub const LONGEST: usize = 1 << 29;

/// Bytes or numbers lent to be read; `None` is a null pointer with length 0.
pub type Lent<'a, T = u8> = Option<&'a [T]>;

fn parts<T>(lent: Lent<T>) -> (*const T, usize) {
    lent.map_or((std::ptr::null(), 0), |numbers| (numbers.as_ptr(), numbers.len()))
}

/// A place lent to be written: where it starts and its length.
///
/// # Safety
/// The numbers are valid for writes, or the length is 0.
pub unsafe trait Place<T = u8> {
    fn parts(&mut self) -> (*mut T, usize);
}

// SAFETY: a slice is valid for its own length.
unsafe impl<T> Place<T> for [T] {
    fn parts(&mut self) -> (*mut T, usize) {
        (self.as_mut_ptr(), self.len())
    }
}

/// The settings of prover and verifier.
#[derive(Clone, Copy, Debug)]
pub struct Settings {
    pub set_size: u64,
    pub proof_size: u64,
    pub max_retries: u64,
    pub search_width: u64,
    pub dfs_bound: u64,
    pub x: Threshold,
}

/// A list of elements as it is lent: with ends and indexes as numbers, or to the verifier with both in big-endian bytes.
#[derive(Clone, Copy)]
pub struct Listed<'a, End, Index> {
    pub data: Lent<'a>,
    pub ends: Lent<'a, End>,
    pub marks: Lent<'a>,
    pub indexes: Lent<'a, Index>,
}

/// `BAD_N`, then `BAD_LENGTH` (h not of 16 bytes, or out not of 8), `NO_DRAW`, or 0 with the value big-endian in `out`.
/// `out` is untouched unless the answer is 0.
pub fn sample_uniform(h: Lent, n: u64, out: &mut (impl Place + ?Sized)) -> u32 {
    let ((h, h_len), (out, out_len)) = (parts(h), out.parts());
    // SAFETY: each pointer is valid for its length, h for reads and out for writes.
    unsafe { alba_sample_uniform(h, h_len, n, out, out_len) }
}

/// `BAD_LENGTH` (h not of 16 bytes), otherwise 1 for yes and 0 for no.
pub fn sample_bernoulli(h: Lent, x: u128) -> u32 {
    let ((h, h_len), [x_high, x_low]) = (parts(h), threshold::halves(x));
    // SAFETY: the pointer is valid for reads of its length.
    unsafe { alba_sample_bernoulli(h, h_len, x_high, x_low) }
}

/// `BAD_LENGTH` (out not of two numbers), then `BAD_Q`, `out` untouched in each; or 0 with X's high word and its low in `out`.
pub fn threshold(q: f64, out: &mut (impl Place<u64> + ?Sized)) -> u32 {
    let (out, out_len) = out.parts();
    // SAFETY: the pointer is valid for writes of its length.
    unsafe { alba_threshold(q, out, out_len) }
}

/// `BAD_LENGTH` (out not of 32 bytes), `out` then untouched; `TOO_LONG` with zeros in `out`; or 0 with the SHA-256 of the strings joined.
pub fn sha256(strings: [Lent; 4], out: &mut (impl Place + ?Sized)) -> u32 {
    let [(a, a_len), (b, b_len), (c, c_len), (d, d_len)] = strings.map(parts);
    let (out, out_len) = out.parts();
    // SAFETY: each pointer is valid for its length, the four strings for reads and out for writes.
    unsafe { alba_sha256(a, a_len, b, b_len, c, c_len, d, d_len, out, out_len) }
}

/// `BAD_LENGTH` (out not of six numbers), then `BAD_U`, then `BAD_C`, `out` untouched in each; or 0 with proof_size, max_retries,
/// search_width, dfs_bound and X's high word and its low in `out`.
pub fn small_case(u: u64, c: f64, out: &mut (impl Place<u64> + ?Sized)) -> u32 {
    let (out, out_len) = out.parts();
    // SAFETY: the pointer is valid for writes of its length.
    unsafe { alba_small_case(u, c, out, out_len) }
}

/// `BAD_LIST`, then `TOO_LARGE`, otherwise 0 for a list in which no two elements are the same and `REPEATED` for another.
pub fn check_distinct(list: Listed<u32, u64>) -> u32 {
    let ((data, data_len), (ends, ends_len)) = (parts(list.data), parts(list.ends));
    let ((marks, marks_len), (indexes, indexes_len)) = (parts(list.marks), parts(list.indexes));
    // SAFETY: each pointer is valid for reads of its length.
    unsafe { alba_check_distinct(data, data_len, ends, ends_len, marks, marks_len, indexes, indexes_len) }
}

/// 0, or the number of the refusal or of a search that found nothing. If `out` has three numbers or more, the first three take R, S
/// (0 without a proof) and the step count (0 with a refusal).
#[rustfmt::skip]
pub fn prove(
    s: &Settings,
    list: Listed<u32, u64>,
    places: &mut (impl Place<u32> + ?Sized),
    table: &mut (impl Place<u32> + ?Sized),
    out: &mut (impl Place<u64> + ?Sized),
) -> u32 {
    let ((data, data_len), (ends, ends_len)) = (parts(list.data), parts(list.ends));
    let ((marks, marks_len), (indexes, indexes_len)) = (parts(list.marks), parts(list.indexes));
    let ((places, places_len), (table, table_len), (out, out_len)) = (places.parts(), table.parts(), out.parts());
    let [x_high, x_low] = threshold::halves(s.x.x());
    // SAFETY: each pointer is valid for its length, those of the list for reads and the last three for reads and writes.
    unsafe {
        alba_prove(
            s.set_size, s.proof_size, s.max_retries, s.search_width, s.dfs_bound, x_high, x_low,
            data, data_len, ends, ends_len, marks, marks_len, indexes, indexes_len,
            places, places_len, table, table_len, out, out_len,
        )
    }
}

/// 0 for a proof that is accepted, or the number.
#[rustfmt::skip]
pub fn verify(s: &Settings, retry_counter: u64, search_counter: u64, list: Listed<u8, u8>) -> u32 {
    let ((data, data_len), (ends, ends_len)) = (parts(list.data), parts(list.ends));
    let ((marks, marks_len), (indexes, indexes_len)) = (parts(list.marks), parts(list.indexes));
    let [x_high, x_low] = threshold::halves(s.x.x());
    // SAFETY: each pointer is valid for reads of its length.
    unsafe {
        alba_verify(
            s.set_size, s.proof_size, s.max_retries, s.search_width, s.dfs_bound, x_high, x_low, retry_counter, search_counter,
            data, data_len, ends, ends_len, marks, marks_len, indexes, indexes_len,
        )
    }
}

/// 0, or the number of the refusal, `ticket` untouched then. If `out` has a number or more, the first takes the number of blocks (0 with a
/// refusal).
#[rustfmt::skip]
pub fn write_ticket(
    retry: u64,
    search: u64,
    list: Listed<u32, u64>,
    ticket: &mut (impl Place + ?Sized),
    out: &mut (impl Place<u64> + ?Sized),
) -> u32 {
    let ((data, data_len), (ends, ends_len)) = (parts(list.data), parts(list.ends));
    let ((marks, marks_len), (indexes, indexes_len)) = (parts(list.marks), parts(list.indexes));
    let ((ticket, ticket_len), (out, out_len)) = (ticket.parts(), out.parts());
    // SAFETY: each pointer is valid for its length, those of the list for reads and the last two for reads and writes.
    unsafe {
        alba_write_ticket(
            retry, search, data, data_len, ends, ends_len, marks, marks_len, indexes, indexes_len, ticket, ticket_len, out, out_len,
        )
    }
}

/// Four places that a list is read into.
pub struct Rooms<'a, Data: ?Sized, Ends: ?Sized, Indexes: ?Sized> {
    pub data: &'a mut Data,
    pub ends: &'a mut Ends,
    pub marks: &'a mut Data,
    pub indexes: &'a mut Indexes,
}

/// 0, or the number of the refusal, the list's places untouched then. If `out` has four numbers or more, the first four take R, S, the
/// number of elements and that of data bytes (zeros with a refusal).
#[rustfmt::skip]
pub fn read_ticket(
    ticket: Lent,
    list: Rooms<'_, impl Place + ?Sized, impl Place<u32> + ?Sized, impl Place<u64> + ?Sized>,
    out: &mut (impl Place<u64> + ?Sized),
) -> u32 {
    let ((ticket, ticket_len), (out, out_len)) = (parts(ticket), out.parts());
    let ((data, data_len), (ends, ends_len)) = (list.data.parts(), list.ends.parts());
    let ((marks, marks_len), (indexes, indexes_len)) = (list.marks.parts(), list.indexes.parts());
    // SAFETY: each pointer is valid for its length, the ticket for reads and the others for reads and writes.
    unsafe {
        alba_read_ticket(
            ticket, ticket_len, data, data_len, ends, ends_len, marks, marks_len, indexes, indexes_len, out, out_len,
        )
    }
}

/// The number of blocks that a ticket states; 0 without a whole block.
pub fn stated_blocks(ticket: Lent) -> u64 {
    let (ticket, ticket_len) = parts(ticket);
    // SAFETY: the pointer is valid for reads of its length.
    unsafe { alba_stated_blocks(ticket, ticket_len) }
}

/// 0, or the number of the refusal. If `out` has four numbers or more, the first four take the places, the numbers of the bin table, the
/// steps and the ticket's blocks (zeros with a refusal).
pub fn plan(s: &Settings, longest: u64, out: &mut (impl Place<u64> + ?Sized)) -> u32 {
    let ((out, out_len), [x_high, x_low]) = (out.parts(), threshold::halves(s.x.x()));
    let Settings { set_size, proof_size, max_retries, search_width, dfs_bound, .. } = *s;
    // SAFETY: the pointer is valid for reads and writes of its length.
    unsafe { alba_plan(set_size, proof_size, max_retries, search_width, dfs_bound, x_high, x_low, longest, out, out_len) }
}

/// 0, or the number of the refusal. If `out` has a number or more, the first takes the size (0 with a refusal).
pub fn proof_size(figures: &Figures, out: &mut (impl Place<u64> + ?Sized)) -> u32 {
    let ((out, out_len), Figures { s, c, n, f }) = (out.parts(), *figures);
    // SAFETY: the pointer is valid for reads and writes of its length.
    unsafe { alba_proof_size(s, c, n, f, out, out_len) }
}

/// 0, or the number of the refusal. If `out` has a number or more, the first takes the pool's size (0 with a refusal).
#[rustfmt::skip]
pub fn pool_size(first: Listed<u32, u64>, second: Listed<u32, u64>, out: &mut (impl Place<u64> + ?Sized)) -> u32 {
    let ((data, data_len), (ends, ends_len)) = (parts(first.data), parts(first.ends));
    let ((marks, marks_len), (indexes, indexes_len)) = (parts(first.marks), parts(first.indexes));
    let ((data2, data2_len), (ends2, ends2_len)) = (parts(second.data), parts(second.ends));
    let ((marks2, marks2_len), (indexes2, indexes2_len)) = (parts(second.marks), parts(second.indexes));
    let (out, out_len) = out.parts();
    // SAFETY: each pointer is valid for its length, those of the lists for reads and out for reads and writes.
    unsafe {
        alba_pool_size(
            data, data_len, ends, ends_len, marks, marks_len, indexes, indexes_len,
            data2, data2_len, ends2, ends2_len, marks2, marks2_len, indexes2, indexes2_len, out, out_len,
        )
    }
}

/// 0 with the data of the pool's element in the first bytes of `part`, and, if `out` has a number or more, their number in the first; or
/// `BUFFER_SHORT` with nothing written. Past the pool, and of lists or a pool that are refused, there are no data: 0 bytes.
#[rustfmt::skip]
pub fn pool_data(
    first: Listed<u32, u64>,
    second: Listed<u32, u64>,
    place: u64,
    part: &mut (impl Place + ?Sized),
    out: &mut (impl Place<u64> + ?Sized),
) -> u32 {
    let ((data, data_len), (ends, ends_len)) = (parts(first.data), parts(first.ends));
    let ((marks, marks_len), (indexes, indexes_len)) = (parts(first.marks), parts(first.indexes));
    let ((data2, data2_len), (ends2, ends2_len)) = (parts(second.data), parts(second.ends));
    let ((marks2, marks2_len), (indexes2, indexes2_len)) = (parts(second.marks), parts(second.indexes));
    let ((part, part_len), (out, out_len)) = (part.parts(), out.parts());
    // SAFETY: each pointer is valid for its length, those of the lists for reads and the last two for reads and writes.
    unsafe {
        alba_pool_data(
            data, data_len, ends, ends_len, marks, marks_len, indexes, indexes_len,
            data2, data2_len, ends2, ends2_len, marks2, marks2_len, indexes2, indexes2_len, place, part, part_len, out, out_len,
        )
    }
}

/// As `prove`, over the pool of two lists.
#[rustfmt::skip]
pub fn prove_pool(
    s: &Settings,
    first: Listed<u32, u64>,
    second: Listed<u32, u64>,
    places: &mut (impl Place<u32> + ?Sized),
    table: &mut (impl Place<u32> + ?Sized),
    out: &mut (impl Place<u64> + ?Sized),
) -> u32 {
    let ((data, data_len), (ends, ends_len)) = (parts(first.data), parts(first.ends));
    let ((marks, marks_len), (indexes, indexes_len)) = (parts(first.marks), parts(first.indexes));
    let ((data2, data2_len), (ends2, ends2_len)) = (parts(second.data), parts(second.ends));
    let ((marks2, marks2_len), (indexes2, indexes2_len)) = (parts(second.marks), parts(second.indexes));
    let ((places, places_len), (table, table_len), (out, out_len)) = (places.parts(), table.parts(), out.parts());
    let [x_high, x_low] = threshold::halves(s.x.x());
    // SAFETY: each pointer is valid for its length, those of the lists for reads and the last three for reads and writes.
    unsafe {
        alba_prove_pool(
            s.set_size, s.proof_size, s.max_retries, s.search_width, s.dfs_bound, x_high, x_low,
            data, data_len, ends, ends_len, marks, marks_len, indexes, indexes_len,
            data2, data2_len, ends2, ends2_len, marks2, marks2_len, indexes2, indexes2_len,
            places, places_len, table, table_len, out, out_len,
        )
    }
}

/// `BAD_LENGTH` (out not of 32 bytes), then the number of the prover's refusal, `out` untouched in each; or 0 with the digest in `out`.
/// Of places and bin table only the lengths count.
#[rustfmt::skip]
pub fn prepare(
    s: &Settings,
    list: Listed<u32, u64>,
    places: Lent<u32>,
    table: Lent<u32>,
    out: &mut (impl Place + ?Sized),
) -> u32 {
    let ((data, data_len), (ends, ends_len)) = (parts(list.data), parts(list.ends));
    let ((marks, marks_len), (indexes, indexes_len)) = (parts(list.marks), parts(list.indexes));
    let ((places, places_len), (table, table_len), (out, out_len)) = (parts(places), parts(table), out.parts());
    let [x_high, x_low] = threshold::halves(s.x.x());
    // SAFETY: each pointer is valid for its length, out for reads and writes and the others for reads.
    unsafe {
        alba_prepare(
            s.set_size, s.proof_size, s.max_retries, s.search_width, s.dfs_bound, x_high, x_low,
            data, data_len, ends, ends_len, marks, marks_len, indexes, indexes_len,
            places, places_len, table, table_len, out, out_len,
        )
    }
}

/// `BAD_LENGTH` (the digest not of 32 bytes) with nothing written; else as `prove`, with `RUN_CHANGED` behind the prover's refusals.
#[rustfmt::skip]
pub fn commit(
    s: &Settings,
    digest: Lent,
    list: Listed<u32, u64>,
    places: &mut (impl Place<u32> + ?Sized),
    table: &mut (impl Place<u32> + ?Sized),
    out: &mut (impl Place<u64> + ?Sized),
) -> u32 {
    let ((data, data_len), (ends, ends_len)) = (parts(list.data), parts(list.ends));
    let ((marks, marks_len), (indexes, indexes_len)) = (parts(list.marks), parts(list.indexes));
    let ((places, places_len), (table, table_len), (out, out_len)) = (places.parts(), table.parts(), out.parts());
    let ((digest, digest_len), [x_high, x_low]) = (parts(digest), threshold::halves(s.x.x()));
    // SAFETY: each pointer is valid for its length, those of digest and list for reads and the last three for reads and writes.
    unsafe {
        alba_commit(
            s.set_size, s.proof_size, s.max_retries, s.search_width, s.dfs_bound, x_high, x_low, digest, digest_len,
            data, data_len, ends, ends_len, marks, marks_len, indexes, indexes_len,
            places, places_len, table, table_len, out, out_len,
        )
    }
}

/// What a party to a bin table has of its own, beside its places.
#[derive(Clone, Copy, Debug)]
pub struct Party {
    pub settings: Settings,
    pub retry_counter: u64,
}

/// `BAD_LENGTH` (out not of six numbers) with nothing written; else 0 with the first party's number, S (0 without a proof) and count (0
/// with a refusal) in `out`, then the second's. A party's places are written where its number is 0.
#[rustfmt::skip]
pub fn two_products(
    table: Lent<u32>,
    table_retry: u64,
    list: Listed<u32, u64>,
    parties: [&Party; 2],
    places: [&mut (impl Place<u32> + ?Sized); 2],
    out: &mut (impl Place<u64> + ?Sized),
) -> u32 {
    let ((table, table_len), (data, data_len), (ends, ends_len)) = (parts(table), parts(list.data), parts(list.ends));
    let ((marks, marks_len), (indexes, indexes_len)) = (parts(list.marks), parts(list.indexes));
    let ([(places, places_len), (places2, places2_len)], (out, out_len)) = (places.map(|places| places.parts()), out.parts());
    let [(s, retry), (s2, retry2)] = parties.map(|party| (&party.settings, party.retry_counter));
    let [[x_high, x_low], [x_high2, x_low2]] = [s, s2].map(|s| threshold::halves(s.x.x()));
    // SAFETY: each pointer is valid for its length, those of table and list for reads and the last three for reads and writes.
    unsafe {
        alba_two_products(
            table, table_len, table_retry, data, data_len, ends, ends_len, marks, marks_len, indexes, indexes_len,
            s.set_size, s.proof_size, s.max_retries, s.search_width, s.dfs_bound, x_high, x_low, retry,
            s2.set_size, s2.proof_size, s2.max_retries, s2.search_width, s2.dfs_bound, x_high2, x_low2, retry2,
            places, places_len, places2, places2_len, out, out_len,
        )
    }
}

/// `BAD_LENGTH` (out not of one number) with nothing written; else 0 with the chains of each length in the first proof_size + 1 counts and
/// those that pass in `out`, or the number of the refusal with a 0 there. The bin table is filled with 0 and with `TREE_TOO_LARGE`.
#[rustfmt::skip]
pub fn count_chains(
    s: &Settings,
    [retry, search]: [u64; 2],
    list: Listed<u32, u64>,
    bins: &mut (impl Place<u32> + ?Sized),
    counts: &mut (impl Place<u64> + ?Sized),
    out: &mut (impl Place<u64> + ?Sized),
) -> u32 {
    let ((data, data_len), (ends, ends_len)) = (parts(list.data), parts(list.ends));
    let ((marks, marks_len), (indexes, indexes_len)) = (parts(list.marks), parts(list.indexes));
    let ((bins, bins_len), (counts, counts_len), (out, out_len)) = (bins.parts(), counts.parts(), out.parts());
    let [x_high, x_low] = threshold::halves(s.x.x());
    // SAFETY: each pointer is valid for its length, those of the list for reads and the last three for reads and writes.
    unsafe {
        alba_count_chains(
            s.set_size, s.proof_size, s.max_retries, s.search_width, s.dfs_bound, x_high, x_low, retry, search,
            data, data_len, ends, ends_len, marks, marks_len, indexes, indexes_len,
            bins, bins_len, counts, counts_len, out, out_len,
        )
    }
}
