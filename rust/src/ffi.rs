//! The library's calls as include/tuple.h declares them, each on slices. All of the crate's `unsafe` is here.

use crate::refusal::Refusal;
use crate::sheet::ValueSheet;
use std::mem::{offset_of, size_of};

#[cfg(not(all(target_arch = "x86_64", target_pointer_width = "64")))]
compile_error!("libtuple.a is for x86-64");

/// bytes written, an end, a place or a used length
#[repr(C)]
pub(crate) struct Length {
    refusal: u32,
    detail: u64,
    pub(crate) length: u64,
}

/// bytes written, and how many zeros were escaped in them
#[repr(C)]
pub(crate) struct Encoded {
    refusal: u32,
    detail: u64,
    length: u64,
    pub(crate) zeros: u64,
}

impl Encoded {
    /// The same without the zeros.
    pub(crate) fn written(self) -> Length {
        Length { refusal: self.refusal, detail: self.detail, length: self.length }
    }
}

/// the values begun, also where refused; the words and pool bytes written
#[repr(C)]
pub(crate) struct Sheet {
    refusal: u32,
    detail: u64,
    pub(crate) begun: u64,
    pub(crate) words: u64,
    pub(crate) pool: u64,
}

/// the lengths of a lower and an upper end
#[repr(C)]
pub(crate) struct Ends {
    refusal: u32,
    detail: u64,
    pub(crate) lower: u64,
    pub(crate) upper: u64,
}

/// -1 less, 0 equal, 1 greater
#[repr(C)]
pub(crate) struct Order {
    refusal: u32,
    detail: u64,
    pub(crate) order: i32,
}

/// an integer and how many bytes it took
#[repr(C)]
pub(crate) struct Number {
    refusal: u32,
    detail: u64,
    pub(crate) value: u64,
    pub(crate) used: u64,
}

/// where a payload is (source 1: the bytes from `at` on; 2: the scratch buffer's beginning), its length and how many bytes its field took
#[repr(C)]
pub(crate) struct Part {
    refusal: u32,
    detail: u64,
    pub(crate) source: u32,
    pub(crate) at: u64,
    pub(crate) len: u64,
    pub(crate) used: u64,
}

/// a value (0 where the step has none), and the cursor behind it; where refused, the cursor given
#[repr(C)]
pub(crate) struct Step {
    refusal: u32,
    detail: u64,
    pub(crate) value: u64,
    pub(crate) at: u64,
    pub(crate) depth: u64,
}

/// where a payload is (source 1: the bytes from `part` on; 2: the scratch buffer's beginning), its length, and the cursor behind its field
#[repr(C)]
pub(crate) struct PartStep {
    refusal: u32,
    detail: u64,
    pub(crate) source: u32,
    pub(crate) part: u64,
    pub(crate) len: u64,
    pub(crate) at: u64,
    pub(crate) depth: u64,
}

/// given 1: the character `code`; given 0 without a refusal: the end; and the reader's place and flag after the step
#[repr(C)]
pub(crate) struct Char {
    refusal: u32,
    detail: u64,
    pub(crate) given: u32,
    pub(crate) code: u32,
    pub(crate) at: u64,
    pub(crate) done: bool,
}

// The same sizes and places as in include/tuple.h; a difference does not compile.
const _: () = {
    assert!(size_of::<Step>() == 40 && offset_of!(Step, detail) == 8 && offset_of!(Step, value) == 16);
    assert!(offset_of!(Step, at) == 24 && offset_of!(Step, depth) == 32);
    assert!(size_of::<PartStep>() == 56 && offset_of!(PartStep, detail) == 8 && offset_of!(PartStep, source) == 16);
    assert!(offset_of!(PartStep, part) == 24 && offset_of!(PartStep, len) == 32);
    assert!(offset_of!(PartStep, at) == 40 && offset_of!(PartStep, depth) == 48);
    assert!(size_of::<Char>() == 40 && offset_of!(Char, detail) == 8 && offset_of!(Char, given) == 16);
    assert!(offset_of!(Char, code) == 20 && offset_of!(Char, at) == 24 && offset_of!(Char, done) == 32);
    assert!(size_of::<Length>() == 24 && offset_of!(Length, detail) == 8 && offset_of!(Length, length) == 16);
    assert!(size_of::<Encoded>() == 32 && offset_of!(Encoded, detail) == 8);
    assert!(offset_of!(Encoded, length) == 16 && offset_of!(Encoded, zeros) == 24);
    assert!(size_of::<Sheet>() == 40 && offset_of!(Sheet, detail) == 8 && offset_of!(Sheet, begun) == 16);
    assert!(offset_of!(Sheet, words) == 24 && offset_of!(Sheet, pool) == 32);
    assert!(size_of::<Ends>() == 32 && offset_of!(Ends, detail) == 8 && offset_of!(Ends, lower) == 16 && offset_of!(Ends, upper) == 24);
    assert!(size_of::<Order>() == 24 && offset_of!(Order, detail) == 8 && offset_of!(Order, order) == 16);
    assert!(size_of::<Number>() == 32 && offset_of!(Number, detail) == 8);
    assert!(offset_of!(Number, value) == 16 && offset_of!(Number, used) == 24);
    assert!(size_of::<Part>() == 48 && offset_of!(Part, detail) == 8 && offset_of!(Part, source) == 16);
    assert!(offset_of!(Part, at) == 24 && offset_of!(Part, len) == 32 && offset_of!(Part, used) == 40);
    assert!(size_of::<usize>() == 8 && size_of::<bool>() == 1);
};

/// An answer: every one begins with a refusal and its detail, both 0 where the call was accepted.
pub(crate) trait Answer: Sized {
    /// refusal and detail
    fn said(&self) -> (u32, u64);

    /// The answer of an accepted call, or its refusal.
    fn accepted(self) -> Result<Self, Refusal> {
        match self.said() {
            (0, _) => Ok(self),
            (number, detail) => Err(Refusal::answered(number, detail)),
        }
    }
}

macro_rules! answers {
    ($($answer:ty),*) => {$(
        impl Answer for $answer {
            fn said(&self) -> (u32, u64) {
                (self.refusal, self.detail)
            }
        }
    )*};
}

answers!(Length, Encoded, Sheet, Ends, Order, Number, Part, Step, PartStep, Char);

#[rustfmt::skip]
unsafe extern "C" {
    fn tuple_encode_typed(ty: *const u32, ty_len: usize, words: *const u64, words_len: usize, pool: *const u8, pool_len: usize, out: *mut u8, out_len: usize) -> Encoded;
    fn tuple_encode_key(ty: *const u32, ty_len: usize, words: *const u64, words_len: usize, pool: *const u8, pool_len: usize, out: *mut u8, out_len: usize) -> Encoded;
    fn tuple_decode_typed(ty: *const u32, ty_len: usize, bytes: *const u8, bytes_len: usize, words: *mut u64, words_len: usize, pool: *mut u8, pool_len: usize) -> Sheet;
    fn tuple_decode_key(ty: *const u32, ty_len: usize, bytes: *const u8, bytes_len: usize, words: *mut u64, words_len: usize, pool: *mut u8, pool_len: usize) -> Sheet;
    fn tuple_check_key(ty: *const u32, ty_len: usize, bytes: *const u8, bytes_len: usize) -> Sheet;
    fn tuple_skip(bytes: *const u8, bytes_len: usize, start: usize, require_escape_null: bool) -> Length;
    fn tuple_compare(words_a: *const u64, words_a_len: usize, pool_a: *const u8, pool_a_len: usize, words_b: *const u64, words_b_len: usize, pool_b: *const u8, pool_b_len: usize) -> Order;
    fn tuple_strinc(prefix: *const u8, prefix_len: usize, out: *mut u8, out_len: usize) -> Length;
    fn tuple_above_field(key: *const u8, key_len: usize, out: *mut u8, out_len: usize) -> Length;
    fn tuple_bounds(ty: *const u32, ty_len: usize, key: *const u8, key_len: usize, k: usize, lower: *mut u8, lower_len: usize, upper: *mut u8, upper_len: usize) -> Ends;
    fn tuple_span(
        ty: *const u32, ty_len: usize, words: *const u64, words_len: usize, pool: *const u8, pool_len: usize,
        lowest_words: *const u64, lowest_words_len: usize, lowest_pool: *const u8, lowest_pool_len: usize,
        highest_words: *const u64, highest_words_len: usize, highest_pool: *const u8, highest_pool_len: usize,
        lower: *mut u8, lower_len: usize, upper: *mut u8, upper_len: usize
    ) -> Ends;
    fn tuple_starting_with(
        ty: *const u32, ty_len: usize, words: *const u64, words_len: usize, pool: *const u8, pool_len: usize, start: *const u8, start_len: usize,
        lower: *mut u8, lower_len: usize, upper: *mut u8, upper_len: usize
    ) -> Ends;
    fn tuple_replace(ty: *const u32, ty_len: usize, buffer: *mut u8, buffer_len: usize, used: usize, field: usize, words: *const u64, words_len: usize, pool: *const u8, pool_len: usize) -> Length;
    fn tuple_get_i64(bytes: *const u8, bytes_len: usize) -> Number;
    fn tuple_get_u64(bytes: *const u8, bytes_len: usize) -> Number;
    fn tuple_get_str(bytes: *const u8, bytes_len: usize, scratch: *mut u8, scratch_len: usize) -> Part;
    fn tuple_get_bytes(bytes: *const u8, bytes_len: usize, scratch: *mut u8, scratch_len: usize) -> Part;
    fn tuple_put_i64(out: *mut u8, out_len: usize, at: usize, word: u64) -> Length;
    fn tuple_put_u64(out: *mut u8, out_len: usize, at: usize, number: u64) -> Length;
    fn tuple_put_str(out: *mut u8, out_len: usize, at: usize, text: *const u8, text_len: usize) -> Length;
    fn tuple_put_bytes(out: *mut u8, out_len: usize, at: usize, payload: *const u8, payload_len: usize) -> Length;
    fn tuple_put_fact_id(out: *mut u8, out_len: usize, at: usize, raw: u64) -> Length;
    fn tuple_take_null(bytes: *const u8, bytes_len: usize, at: usize, depth: usize) -> Step;
    fn tuple_take_i64(bytes: *const u8, bytes_len: usize, at: usize, depth: usize) -> Step;
    fn tuple_take_u64(bytes: *const u8, bytes_len: usize, at: usize, depth: usize) -> Step;
    fn tuple_take_fact_id(bytes: *const u8, bytes_len: usize, at: usize, depth: usize) -> Step;
    fn tuple_take_str(bytes: *const u8, bytes_len: usize, at: usize, depth: usize, scratch: *mut u8, scratch_len: usize) -> PartStep;
    fn tuple_take_bytes(bytes: *const u8, bytes_len: usize, at: usize, depth: usize, scratch: *mut u8, scratch_len: usize) -> PartStep;
    fn tuple_open_record(bytes: *const u8, bytes_len: usize, at: usize, depth: usize) -> Step;
    fn tuple_open_union(bytes: *const u8, bytes_len: usize, at: usize, depth: usize) -> Step;
    fn tuple_close(bytes: *const u8, bytes_len: usize, at: usize, depth: usize) -> Step;
    fn tuple_is_record_end(bytes: *const u8, bytes_len: usize, at: usize, depth: usize) -> Number;
    fn tuple_put_null(out: *mut u8, out_len: usize, at: usize, depth: usize) -> Step;
    fn tuple_put_record(out: *mut u8, out_len: usize, at: usize, depth: usize) -> Step;
    fn tuple_put_union(out: *mut u8, out_len: usize, at: usize, depth: usize, disc: u32) -> Step;
    fn tuple_put_end(out: *mut u8, out_len: usize, at: usize, depth: usize) -> Step;
    fn tuple_str_chars(bytes: *const u8, bytes_len: usize) -> Length;
    fn tuple_chars_next(bytes: *const u8, bytes_len: usize, at: usize, done: bool) -> Char;
}

// What makes each call below safe is the same: the header asks for nothing but that a pointer and a length belong to one slice, that a slice which is
// written overlaps no other of its call, and that an empty one may have any pointer; a call is total, reads and writes within the slices lent to it alone,
// and keeps nothing. A Rust slice gives the first, `&mut` the second.

pub(crate) fn encode_typed(ty: &[u32], value: &ValueSheet, out: &mut [u8]) -> Encoded {
    let (words, pool) = (value.words(), value.pool());
    // SAFETY: each pointer and length are of one slice that lives through the call; `out`, which is written, is borrowed alone.
    unsafe {
        tuple_encode_typed(ty.as_ptr(), ty.len(), words.as_ptr(), words.len(), pool.as_ptr(), pool.len(), out.as_mut_ptr(), out.len())
    }
}

pub(crate) fn encode_key(ty: &[u32], value: &ValueSheet, out: &mut [u8]) -> Encoded {
    let (words, pool) = (value.words(), value.pool());
    // SAFETY: each pointer and length are of one slice that lives through the call; `out`, which is written, is borrowed alone.
    unsafe { tuple_encode_key(ty.as_ptr(), ty.len(), words.as_ptr(), words.len(), pool.as_ptr(), pool.len(), out.as_mut_ptr(), out.len()) }
}

pub(crate) fn decode_typed(ty: &[u32], bytes: &[u8], words: &mut [u64], pool: &mut [u8]) -> Sheet {
    // SAFETY: each pointer and length are of one slice that lives through the call; `words` and `pool`, which are written, are borrowed alone.
    unsafe {
        tuple_decode_typed(
            ty.as_ptr(),
            ty.len(),
            bytes.as_ptr(),
            bytes.len(),
            words.as_mut_ptr(),
            words.len(),
            pool.as_mut_ptr(),
            pool.len(),
        )
    }
}

pub(crate) fn decode_key(ty: &[u32], bytes: &[u8], words: &mut [u64], pool: &mut [u8]) -> Sheet {
    // SAFETY: each pointer and length are of one slice that lives through the call; `words` and `pool`, which are written, are borrowed alone.
    unsafe {
        tuple_decode_key(ty.as_ptr(), ty.len(), bytes.as_ptr(), bytes.len(), words.as_mut_ptr(), words.len(), pool.as_mut_ptr(), pool.len())
    }
}

pub(crate) fn check_key(ty: &[u32], bytes: &[u8]) -> Sheet {
    // SAFETY: each pointer and length are of one slice that lives through the call; nothing is written.
    unsafe { tuple_check_key(ty.as_ptr(), ty.len(), bytes.as_ptr(), bytes.len()) }
}

pub(crate) fn skip(bytes: &[u8], start: usize, require_escape_null: bool) -> Length {
    // SAFETY: the pointer and length are of one slice that lives through the call; nothing is written; any start is answered.
    unsafe { tuple_skip(bytes.as_ptr(), bytes.len(), start, require_escape_null) }
}

pub(crate) fn compare(a: &ValueSheet, b: &ValueSheet) -> Order {
    let (words_a, pool_a, words_b, pool_b) = (a.words(), a.pool(), b.words(), b.pool());
    // SAFETY: each pointer and length are of one slice that lives through the call; nothing is written, so the two sheets may be one.
    unsafe {
        tuple_compare(
            words_a.as_ptr(),
            words_a.len(),
            pool_a.as_ptr(),
            pool_a.len(),
            words_b.as_ptr(),
            words_b.len(),
            pool_b.as_ptr(),
            pool_b.len(),
        )
    }
}

pub(crate) fn strinc(prefix: &[u8], out: &mut [u8]) -> Length {
    // SAFETY: each pointer and length are of one slice that lives through the call; `out`, which is written, is borrowed alone.
    unsafe { tuple_strinc(prefix.as_ptr(), prefix.len(), out.as_mut_ptr(), out.len()) }
}

pub(crate) fn above_field(key: &[u8], out: &mut [u8]) -> Length {
    // SAFETY: each pointer and length are of one slice that lives through the call; `out`, which is written, is borrowed alone.
    unsafe { tuple_above_field(key.as_ptr(), key.len(), out.as_mut_ptr(), out.len()) }
}

pub(crate) fn bounds(ty: &[u32], key: &[u8], k: usize, lower: &mut [u8], upper: &mut [u8]) -> Ends {
    // SAFETY: each pointer and length are of one slice that lives through the call; `lower` and `upper`, which are written, are borrowed alone;
    // any k is answered.
    unsafe {
        tuple_bounds(ty.as_ptr(), ty.len(), key.as_ptr(), key.len(), k, lower.as_mut_ptr(), lower.len(), upper.as_mut_ptr(), upper.len())
    }
}

pub(crate) fn span(ty: &[u32], first: &ValueSheet, lowest: &ValueSheet, highest: &ValueSheet, lower: &mut [u8], upper: &mut [u8]) -> Ends {
    let (words, pool) = (first.words(), first.pool());
    let (lowest_words, lowest_pool, highest_words, highest_pool) = (lowest.words(), lowest.pool(), highest.words(), highest.pool());
    // SAFETY: each pointer and length are of one slice that lives through the call; `lower` and `upper`, which are written, are borrowed alone; the
    // sheets are only read, so that two of them may be one.
    unsafe {
        tuple_span(
            ty.as_ptr(),
            ty.len(),
            words.as_ptr(),
            words.len(),
            pool.as_ptr(),
            pool.len(),
            lowest_words.as_ptr(),
            lowest_words.len(),
            lowest_pool.as_ptr(),
            lowest_pool.len(),
            highest_words.as_ptr(),
            highest_words.len(),
            highest_pool.as_ptr(),
            highest_pool.len(),
            lower.as_mut_ptr(),
            lower.len(),
            upper.as_mut_ptr(),
            upper.len(),
        )
    }
}

pub(crate) fn starting_with(ty: &[u32], first: &ValueSheet, start: &[u8], lower: &mut [u8], upper: &mut [u8]) -> Ends {
    let (words, pool) = (first.words(), first.pool());
    // SAFETY: each pointer and length are of one slice that lives through the call; `lower` and `upper`, which are written, are borrowed alone.
    unsafe {
        tuple_starting_with(
            ty.as_ptr(),
            ty.len(),
            words.as_ptr(),
            words.len(),
            pool.as_ptr(),
            pool.len(),
            start.as_ptr(),
            start.len(),
            lower.as_mut_ptr(),
            lower.len(),
            upper.as_mut_ptr(),
            upper.len(),
        )
    }
}

pub(crate) fn replace(ty: &[u32], buffer: &mut [u8], used: usize, field: usize, value: &ValueSheet) -> Length {
    let (words, pool) = (value.words(), value.pool());
    // SAFETY: each pointer and length are of one slice that lives through the call; `buffer`, which is written, is borrowed alone; any used length
    // and field number are answered.
    unsafe {
        tuple_replace(
            ty.as_ptr(),
            ty.len(),
            buffer.as_mut_ptr(),
            buffer.len(),
            used,
            field,
            words.as_ptr(),
            words.len(),
            pool.as_ptr(),
            pool.len(),
        )
    }
}

pub(crate) fn get_i64(bytes: &[u8]) -> Number {
    // SAFETY: the pointer and length are of one slice that lives through the call; nothing is written.
    unsafe { tuple_get_i64(bytes.as_ptr(), bytes.len()) }
}

pub(crate) fn get_u64(bytes: &[u8]) -> Number {
    // SAFETY: the pointer and length are of one slice that lives through the call; nothing is written.
    unsafe { tuple_get_u64(bytes.as_ptr(), bytes.len()) }
}

pub(crate) fn get_str(bytes: &[u8], scratch: &mut [u8]) -> Part {
    // SAFETY: each pointer and length are of one slice that lives through the call; `scratch`, which is written, is borrowed alone.
    unsafe { tuple_get_str(bytes.as_ptr(), bytes.len(), scratch.as_mut_ptr(), scratch.len()) }
}

pub(crate) fn get_bytes(bytes: &[u8], scratch: &mut [u8]) -> Part {
    // SAFETY: each pointer and length are of one slice that lives through the call; `scratch`, which is written, is borrowed alone.
    unsafe { tuple_get_bytes(bytes.as_ptr(), bytes.len(), scratch.as_mut_ptr(), scratch.len()) }
}

pub(crate) fn put_i64(out: &mut [u8], at: usize, word: u64) -> Length {
    // SAFETY: the pointer and length are of one slice that lives through the call and is borrowed alone; any place is answered.
    unsafe { tuple_put_i64(out.as_mut_ptr(), out.len(), at, word) }
}

pub(crate) fn put_u64(out: &mut [u8], at: usize, number: u64) -> Length {
    // SAFETY: the pointer and length are of one slice that lives through the call and is borrowed alone; any place is answered.
    unsafe { tuple_put_u64(out.as_mut_ptr(), out.len(), at, number) }
}

pub(crate) fn put_str(out: &mut [u8], at: usize, text: &[u8]) -> Length {
    // SAFETY: each pointer and length are of one slice that lives through the call; `out`, which is written, is borrowed alone; any place is answered.
    unsafe { tuple_put_str(out.as_mut_ptr(), out.len(), at, text.as_ptr(), text.len()) }
}

pub(crate) fn put_bytes(out: &mut [u8], at: usize, payload: &[u8]) -> Length {
    // SAFETY: each pointer and length are of one slice that lives through the call; `out`, which is written, is borrowed alone; any place is answered.
    unsafe { tuple_put_bytes(out.as_mut_ptr(), out.len(), at, payload.as_ptr(), payload.len()) }
}

pub(crate) fn put_fact_id(out: &mut [u8], at: usize, raw: u64) -> Length {
    // SAFETY: the pointer and length are of one slice that lives through the call and is borrowed alone; any place is answered.
    unsafe { tuple_put_fact_id(out.as_mut_ptr(), out.len(), at, raw) }
}

pub(crate) fn take_null(bytes: &[u8], at: usize, depth: usize) -> Step {
    // SAFETY: the pointer and length are of one slice that lives through the call; nothing is written; any place and depth are answered.
    unsafe { tuple_take_null(bytes.as_ptr(), bytes.len(), at, depth) }
}

pub(crate) fn take_i64(bytes: &[u8], at: usize, depth: usize) -> Step {
    // SAFETY: the pointer and length are of one slice that lives through the call; nothing is written; any place and depth are answered.
    unsafe { tuple_take_i64(bytes.as_ptr(), bytes.len(), at, depth) }
}

pub(crate) fn take_u64(bytes: &[u8], at: usize, depth: usize) -> Step {
    // SAFETY: the pointer and length are of one slice that lives through the call; nothing is written; any place and depth are answered.
    unsafe { tuple_take_u64(bytes.as_ptr(), bytes.len(), at, depth) }
}

pub(crate) fn take_fact_id(bytes: &[u8], at: usize, depth: usize) -> Step {
    // SAFETY: the pointer and length are of one slice that lives through the call; nothing is written; any place and depth are answered.
    unsafe { tuple_take_fact_id(bytes.as_ptr(), bytes.len(), at, depth) }
}

pub(crate) fn open_record(bytes: &[u8], at: usize, depth: usize) -> Step {
    // SAFETY: the pointer and length are of one slice that lives through the call; nothing is written; any place and depth are answered.
    unsafe { tuple_open_record(bytes.as_ptr(), bytes.len(), at, depth) }
}

pub(crate) fn open_union(bytes: &[u8], at: usize, depth: usize) -> Step {
    // SAFETY: the pointer and length are of one slice that lives through the call; nothing is written; any place and depth are answered.
    unsafe { tuple_open_union(bytes.as_ptr(), bytes.len(), at, depth) }
}

pub(crate) fn close(bytes: &[u8], at: usize, depth: usize) -> Step {
    // SAFETY: the pointer and length are of one slice that lives through the call; nothing is written; any place and depth are answered.
    unsafe { tuple_close(bytes.as_ptr(), bytes.len(), at, depth) }
}

pub(crate) fn is_record_end(bytes: &[u8], at: usize, depth: usize) -> Number {
    // SAFETY: the pointer and length are of one slice that lives through the call; nothing is written; any place and depth are answered.
    unsafe { tuple_is_record_end(bytes.as_ptr(), bytes.len(), at, depth) }
}

pub(crate) fn take_str(bytes: &[u8], at: usize, depth: usize, scratch: &mut [u8]) -> PartStep {
    // SAFETY: each pointer and length are of one slice that lives through the call; `scratch`, which is written, is borrowed alone; any place and depth
    // are answered.
    unsafe { tuple_take_str(bytes.as_ptr(), bytes.len(), at, depth, scratch.as_mut_ptr(), scratch.len()) }
}

pub(crate) fn take_bytes(bytes: &[u8], at: usize, depth: usize, scratch: &mut [u8]) -> PartStep {
    // SAFETY: each pointer and length are of one slice that lives through the call; `scratch`, which is written, is borrowed alone; any place and depth
    // are answered.
    unsafe { tuple_take_bytes(bytes.as_ptr(), bytes.len(), at, depth, scratch.as_mut_ptr(), scratch.len()) }
}

pub(crate) fn put_null(out: &mut [u8], at: usize, depth: usize) -> Step {
    // SAFETY: the pointer and length are of one slice that lives through the call and is borrowed alone; any place and depth are answered.
    unsafe { tuple_put_null(out.as_mut_ptr(), out.len(), at, depth) }
}

pub(crate) fn put_record(out: &mut [u8], at: usize, depth: usize) -> Step {
    // SAFETY: the pointer and length are of one slice that lives through the call and is borrowed alone; any place and depth are answered.
    unsafe { tuple_put_record(out.as_mut_ptr(), out.len(), at, depth) }
}

pub(crate) fn put_end(out: &mut [u8], at: usize, depth: usize) -> Step {
    // SAFETY: the pointer and length are of one slice that lives through the call and is borrowed alone; any place and depth are answered.
    unsafe { tuple_put_end(out.as_mut_ptr(), out.len(), at, depth) }
}

pub(crate) fn put_union(out: &mut [u8], at: usize, depth: usize, disc: u32) -> Step {
    // SAFETY: the pointer and length are of one slice that lives through the call and is borrowed alone; any place and depth are answered.
    unsafe { tuple_put_union(out.as_mut_ptr(), out.len(), at, depth, disc) }
}

pub(crate) fn str_chars(bytes: &[u8]) -> Length {
    // SAFETY: the pointer and length are of one slice that lives through the call; nothing is written.
    unsafe { tuple_str_chars(bytes.as_ptr(), bytes.len()) }
}

pub(crate) fn chars_next(bytes: &[u8], at: usize, done: bool) -> Char {
    // SAFETY: the pointer and length are of one slice that lives through the call; nothing is written; any place is answered.
    unsafe { tuple_chars_next(bytes.as_ptr(), bytes.len(), at, done) }
}

/// The rows of the table of refusals that no `Type`, `Value` or growing buffer can bring about: sheets and rooms given by hand.
#[cfg(test)]
mod tests {
    use super::*;

    #[test]
    fn a_type_sheet_without_words_is_15() {
        assert_eq!(encode_key(&[], &ValueSheet::of(&[1, 0], &[]), &mut [0; 9]).said(), (15, 0));
    }

    #[test]
    fn a_value_sheet_whose_pool_is_short_is_16() {
        assert_eq!(encode_key(&[2], &ValueSheet::of(&[2, 5], b"abc"), &mut [0; 9]).said(), (16, 0));
    }

    #[test]
    fn a_type_is_judged_before_a_value() {
        assert_eq!(encode_key(&[9], &ValueSheet::of(&[9], &[]), &mut []).said(), (15, 0));
    }

    #[test]
    fn int_0_into_no_room_is_17_with_1() {
        assert_eq!(encode_key(&[1], &ValueSheet::of(&[1, 0], &[]), &mut []).said(), (17, 1));
    }

    #[test]
    fn a_refused_call_shows_no_zeros() {
        let short = ValueSheet::of(&[3, 1], &[0]);
        let blank = ValueSheet::of(&[5, 2, 3, 1, 0], &[0]);
        for encode in [encode_typed, encode_key] {
            for (ty, value, room, refusal) in [
                (&[3][..], &short, 3, (17, 4)),
                (&[5, 2, 3, 1], &blank, 9, (11, 1)),
                (&[], &short, 9, (15, 0)),
                (&[3], &ValueSheet::of(&[3, 2], &[0]), 9, (16, 0)),
            ] {
                let answer = encode(ty, value, &mut vec![0; room]);
                assert_eq!((answer.said(), answer.length, answer.zeros), (refusal, 0, 0));
            }
        }
        let long = ValueSheet::of(&[3, 40_000], &[0; 40_000]);
        let mut out = vec![0; 80_002];
        let answer = encode_typed(&[3], &long, &mut out);
        assert_eq!((answer.said(), answer.length, answer.zeros), ((0, 0), 80_002, 40_000));
        let answer = encode_key(&[3], &long, &mut out);
        assert_eq!((answer.said(), answer.length, answer.zeros), ((7, 80_002), 0, 0));
    }

    #[test]
    fn bytes_that_are_not_utf_8_are_4_for_put_str_before_17() {
        assert_eq!(put_str(&mut [], 0, &[0xFF]).said(), (4, 0));
    }

    #[test]
    fn words_are_reported_before_pool_and_a_refusal_writes_nothing() {
        let (mut words, mut pool) = ([0xEE; 5], [0xEE; 0]);
        assert_eq!(decode_key(&[5, 2, 3, 1], &[0x53, 0x0A, 0, 0x49, 7], &mut words, &mut pool).said(), (17, 6));
        assert_eq!(words, [0xEE; 5]);
        let mut words = [0xEE; 6];
        assert_eq!(decode_key(&[5, 2, 3, 1], &[0x53, 0x0A, 0, 0x49, 7], &mut words, &mut pool).said(), (17, 1));
        assert_eq!(words, [0xEE; 6]);
    }

    #[test]
    fn a_used_length_over_the_buffer_is_17_with_it() {
        let mut buffer = [0x53, 0x0A, 0, 0x49, 7];
        assert_eq!(replace(&[5, 2, 3, 1], &mut buffer, 6, 1, &ValueSheet::of(&[1, 8], &[])).said(), (17, 6));
        assert_eq!(buffer, [0x53, 0x0A, 0, 0x49, 7]);
    }

    /// A span from these sheets into rooms of EE: refusal and detail, both lengths, both buffers.
    fn spanned(
        ty: &[u32],
        (words, pool): (&[u64], &[u8]),
        lowest: &[u64],
        highest: &[u64],
        (lower, upper): (usize, usize),
    ) -> ((u32, u64), u64, u64, Vec<u8>, Vec<u8>) {
        let (mut lower, mut upper) = (vec![0xEE; lower], vec![0xEE; upper]);
        let [lowest, highest] = [lowest, highest].map(|words| ValueSheet::of(words, &[]));
        let answer = span(ty, &ValueSheet::of(words, pool), &lowest, &highest, &mut lower, &mut upper);
        (answer.said(), answer.lower, answer.upper, lower, upper)
    }

    #[test]
    fn a_span_writes_the_beginnings_of_its_buffers() {
        let (tank, first) = ([5, 2, 3, 1], (&[5, 1, 3, 1][..], &[0x0A][..]));
        let (lower, upper) = (vec![0x53, 0x0A, 0, 0x49, 40], vec![0x53, 0x0A, 0, 0x49, 60, 0xFF]);
        assert_eq!(spanned(&tank, first, &[1, 40], &[1, 60], (5, 6)), ((0, 0), 5, 6, lower.clone(), upper.clone()));
        let behind = |bytes: &[u8]| [bytes, &[0xEE; 2]].concat();
        assert_eq!(spanned(&tank, first, &[1, 40], &[1, 60], (7, 8)), ((0, 0), 5, 6, behind(&lower), behind(&upper)));
        // the one may be much longer than the other
        let (lower, upper) = (vec![0x53, 0x0A, 0, 0x48], vec![0x53, 0x0A, 0, 0x4E, 1, 0, 0, 0, 0, 0, 0xFF]);
        assert_eq!(spanned(&tank, first, &[1, 0], &[1, 1 << 40], (4, 11)), ((0, 0), 4, 11, lower, upper));
    }

    #[test]
    fn a_refused_span_shows_no_lengths_and_writes_nothing() {
        let (tank, first) = ([5, 2, 3, 1], (&[5, 1, 3, 1][..], &[0x0A][..]));
        let none = (&[5, 0][..], &[][..]);
        for (ty, first, lowest, highest, rooms, refusal) in [
            // the type, then each sheet, then the field
            (&[9][..], (&[9][..], &[][..]), &[9][..], &[9][..], (0, 0), (15, 0)),
            (&[], first, &[1, 40], &[1, 60], (9, 9), (15, 0)),
            (&[1], (&[0], &[]), &[1, 40], &[1, 60], (9, 9), (16, 0)),
            (&tank, (&[3, 1], &[0x0A]), &[1, 40], &[1, 60], (9, 9), (16, 0)),
            (&tank, (&[5, 1, 3, 2], &[0x0A]), &[1, 40], &[1, 60], (9, 9), (16, 0)),
            (&tank, (&[5, 2, 3, 1], &[0x0A]), &[1, 40], &[1, 60], (9, 9), (16, 0)),
            (&tank, (&[5, 1, 3, 1, 0], &[0x0A]), &[1, 40], &[1, 60], (9, 9), (16, 0)),
            (&tank, first, &[], &[1, 60], (9, 9), (16, 0)),
            (&tank, first, &[1, 40, 0], &[1, 60], (9, 9), (16, 0)),
            (&tank, first, &[1, 40], &[2, 1], (9, 9), (16, 0)),
            (&tank, first, &[1, 40], &[6, 1 << 32, 0], (9, 9), (16, 0)),
            (&[1], none, &[1, 40], &[9], (9, 9), (16, 0)),
            (&[1], none, &[1, 40], &[1, 60], (9, 9), (18, 0)),
            (&[7, 5, 1, 1], none, &[1, 40], &[1, 60], (9, 9), (18, 0)),
            (&[5, 0], none, &[1, 40], &[1, 60], (9, 9), (18, 0)),
            (&tank, (&[5, 2, 0, 0], &[]), &[0], &[0], (0, 0), (18, 0)),
            // the values in order, then the room
            (&tank, (&[5, 1, 1, 1], &[]), &[0], &[0], (0, 0), (11, 3)),
            (&tank, first, &[0], &[2, 0], (0, 0), (11, 1)),
            (&tank, first, &[1, 40], &[2, 0], (0, 0), (11, 1)),
            (&tank, first, &[1, 40], &[1, 60], (4, 0), (17, 5)),
            (&tank, first, &[1, 40], &[1, 60], (4, 9), (17, 5)),
            (&tank, first, &[1, 40], &[1, 60], (5, 5), (17, 6)),
            (&tank, first, &[1, 40], &[1, 60], (9, 0), (17, 6)),
            (&tank, first, &[1, 0], &[1, 1 << 40], (3, 10), (17, 4)),
            (&tank, first, &[1, 0], &[1, 1 << 40], (4, 4), (17, 11)),
            (&tank, first, &[1, 0], &[1, 1 << 40], (20, 10), (17, 11)),
        ] {
            let due = (refusal, 0, 0, vec![0xEE; rooms.0], vec![0xEE; rooms.1]);
            assert_eq!(spanned(ty, first, lowest, highest, rooms), due, "{ty:?} {first:?} {lowest:?} {highest:?} {rooms:?}");
        }
    }

    /// The ends of a beginning from this sheet into rooms of EE: refusal and detail, both lengths, both buffers.
    fn started(
        ty: &[u32],
        (words, pool): (&[u64], &[u8]),
        start: &[u8],
        (lower, upper): (usize, usize),
    ) -> ((u32, u64), u64, u64, Vec<u8>, Vec<u8>) {
        let (mut lower, mut upper) = (vec![0xEE; lower], vec![0xEE; upper]);
        let answer = starting_with(ty, &ValueSheet::of(words, pool), start, &mut lower, &mut upper);
        (answer.said(), answer.lower, answer.upper, lower, upper)
    }

    #[test]
    fn a_beginning_writes_the_beginnings_of_its_buffers() {
        let (named, first) = ([5, 2, 3, 2], (&[5, 1, 3, 1][..], &[0x0A][..]));
        let (lower, upper) = (vec![0x53, 0x0A, 0, 0x21, b'r', b'e'], vec![0x53, 0x0A, 0, 0x21, b'r', b'f']);
        assert_eq!(started(&named, first, b"re", (6, 6)), ((0, 0), 6, 6, lower.clone(), upper.clone()));
        let behind = |bytes: &[u8]| [bytes, &[0xEE; 2]].concat();
        assert_eq!(started(&named, first, b"re", (8, 8)), ((0, 0), 6, 6, behind(&lower), behind(&upper)));
        // the upper end may be much shorter, and needs no room for what it drops
        let (lower, upper) = (vec![0x53, 0x0A, 0, 0x21, 0xFF, 0xFF, 0xFF], vec![0x53, 0x0A, 0, 0x22]);
        assert_eq!(started(&named, first, b"\xFF\xFF\xFF", (7, 4)), ((0, 0), 7, 4, lower, upper));
        assert_eq!(started(&[5, 1, 2], (&[5, 0], &[]), &[0], (3, 2)), ((0, 0), 3, 2, vec![0x21, 0, 0xFF], vec![0x21, 1]));
    }

    #[test]
    fn a_refused_beginning_shows_no_lengths_and_writes_nothing() {
        let (named, first) = ([5, 2, 3, 2], (&[5, 1, 3, 1][..], &[0x0A][..]));
        let (name, none, number) = ([5, 1, 2], (&[5, 0][..], &[][..]), (&[5, 1, 1, 1][..], &[][..]));
        for (ty, first, start, rooms, refusal) in [
            // the type, then the sheet, then the field
            (&[7, 7, 2][..], (&[9][..], &[][..]), &b"re"[..], (0, 0), (15, 0)),
            (&[], first, b"re", (9, 9), (15, 0)),
            (&[1], (&[2, 0], &[]), b"re", (9, 9), (16, 0)),
            (&named, (&[3, 1], &[0x0A]), b"re", (9, 9), (16, 0)),
            (&named, (&[5, 1, 3, 2], &[0x0A]), b"re", (9, 9), (16, 0)),
            (&named, (&[5, 1, 3, 1, 0], &[0x0A]), b"re", (9, 9), (16, 0)),
            (&named, (&[5, 1, 2, 1], &[0xC3]), b"re", (9, 9), (16, 0)),
            (&[5, 1, 1], none, b"re", (9, 9), (18, 0)),
            (&[5, 1, 4, 7], none, b"re", (9, 9), (18, 0)),
            (&[5, 1, 5, 1, 2], none, b"re", (9, 9), (18, 0)),
            (&[5, 1, 6, 1, 2, 2], none, b"re", (9, 9), (18, 0)),
            (&[5, 1, 7, 1], none, b"re", (9, 9), (18, 0)),
            (&[5, 1, 7, 5, 1, 2], none, b"re", (9, 9), (18, 0)),
            (&[5, 0], none, b"re", (9, 9), (18, 0)),
            (&[2], none, b"re", (9, 9), (18, 0)),
            (&[7, 2], none, b"re", (9, 9), (18, 0)),
            (&[7, 5, 1, 2], none, b"re", (9, 9), (18, 0)),
            (&name, (&[5, 1, 2, 0], &[]), b"re", (9, 9), (18, 0)),
            (&[5, 2, 3, 1], number, b"re", (0, 0), (18, 0)),
            // the values, then the room
            (&named, number, b"re", (0, 0), (11, 3)),
            (&name, none, b"re", (2, 0), (17, 3)),
            (&name, none, b"re", (2, 9), (17, 3)),
            (&name, none, b"re", (3, 2), (17, 3)),
            (&name, none, &[0], (2, 1), (17, 3)),
            (&name, none, &[0], (3, 1), (17, 2)),
            (&name, none, b"", (0, 9), (17, 1)),
            (&named, first, b"\xFF\xFF\xFF", (6, 0), (17, 7)),
            (&named, first, b"\xFF\xFF\xFF", (9, 3), (17, 4)),
        ] {
            let due = (refusal, 0, 0, vec![0xEE; rooms.0], vec![0xEE; rooms.1]);
            assert_eq!(started(ty, first, start, rooms), due, "{ty:?} {first:?} {start:?} {rooms:?}");
        }
    }
}
