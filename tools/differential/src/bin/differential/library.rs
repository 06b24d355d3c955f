//! The library's calls, as include/tuple.h declares them.

/// bytes written, an end, a place or a used length
#[repr(C)]
#[derive(Clone, Copy)]
pub struct Length {
    pub refusal: u32,
    pub detail: u64,
    pub length: u64,
}

/// bytes written, and the zeros escaped in them
#[repr(C)]
#[derive(Clone, Copy)]
pub struct Encoded {
    pub refusal: u32,
    pub detail: u64,
    pub length: u64,
    pub zeros: u64,
}

#[repr(C)]
#[derive(Clone, Copy)]
pub struct Sheet {
    pub refusal: u32,
    pub detail: u64,
    pub begun: u64,
    pub words: u64,
    pub pool: u64,
}

#[repr(C)]
#[derive(Clone, Copy)]
pub struct Ends {
    pub refusal: u32,
    pub detail: u64,
    pub lower: u64,
    pub upper: u64,
}

#[repr(C)]
#[derive(Clone, Copy)]
pub struct Order {
    pub refusal: u32,
    pub detail: u64,
    pub order: i32,
}

#[repr(C)]
#[derive(Clone, Copy)]
pub struct Number {
    pub refusal: u32,
    pub detail: u64,
    pub value: u64,
    pub used: u64,
}

#[repr(C)]
#[derive(Clone, Copy)]
pub struct Part {
    pub refusal: u32,
    pub detail: u64,
    pub source: u32,
    pub at: u64,
    pub len: u64,
    pub used: u64,
}

#[cfg(feature = "cursors")]
#[repr(C)]
#[derive(Clone, Copy)]
pub struct Step {
    pub refusal: u32,
    pub detail: u64,
    pub value: u64,
    pub at: u64,
    pub depth: u64,
}

#[cfg(feature = "cursors")]
#[repr(C)]
#[derive(Clone, Copy)]
pub struct PartStep {
    pub refusal: u32,
    pub detail: u64,
    pub source: u32,
    pub part: u64,
    pub len: u64,
    pub at: u64,
    pub depth: u64,
}

#[cfg(feature = "chars")]
#[repr(C)]
#[derive(Clone, Copy)]
pub struct Char {
    pub refusal: u32,
    pub detail: u64,
    pub given: u32,
    pub code: u32,
    pub at: u64,
    pub done: bool,
}

// include/tuple.h asserts the same sizes
const _: () = assert!(
    size_of::<Length>() == 24
        && size_of::<Encoded>() == 32
        && size_of::<Sheet>() == 40
        && size_of::<Ends>() == 32
        && size_of::<Order>() == 24
        && size_of::<Number>() == 32
        && size_of::<Part>() == 48
);
#[cfg(feature = "cursors")]
const _: () = assert!(size_of::<Step>() == 40 && size_of::<PartStep>() == 56);
#[cfg(feature = "chars")]
const _: () = assert!(size_of::<Char>() == 40);

#[cfg(feature = "encode")]
#[rustfmt::skip]
unsafe extern "C" {
    pub fn tuple_encode_typed(ty: *const u32, ty_len: usize, words: *const u64, words_len: usize, pool: *const u8, pool_len: usize, out: *mut u8, out_len: usize) -> Encoded;
    pub fn tuple_encode_key(ty: *const u32, ty_len: usize, words: *const u64, words_len: usize, pool: *const u8, pool_len: usize, out: *mut u8, out_len: usize) -> Encoded;
}

#[cfg(feature = "decode")]
#[rustfmt::skip]
unsafe extern "C" {
    pub fn tuple_decode_typed(ty: *const u32, ty_len: usize, bytes: *const u8, bytes_len: usize, words: *mut u64, words_len: usize, pool: *mut u8, pool_len: usize) -> Sheet;
    pub fn tuple_decode_key(ty: *const u32, ty_len: usize, bytes: *const u8, bytes_len: usize, words: *mut u64, words_len: usize, pool: *mut u8, pool_len: usize) -> Sheet;
    pub fn tuple_check_key(ty: *const u32, ty_len: usize, bytes: *const u8, bytes_len: usize) -> Sheet;
}

#[cfg(feature = "skip")]
unsafe extern "C" {
    pub fn tuple_skip(bytes: *const u8, bytes_len: usize, start: usize, require_escape_null: bool) -> Length;
}

#[cfg(feature = "order")]
#[rustfmt::skip]
unsafe extern "C" {
    pub fn tuple_compare(words_a: *const u64, words_a_len: usize, pool_a: *const u8, pool_a_len: usize, words_b: *const u64, words_b_len: usize, pool_b: *const u8, pool_b_len: usize) -> Order;
    pub fn tuple_strinc(prefix: *const u8, prefix_len: usize, out: *mut u8, out_len: usize) -> Length;
    pub fn tuple_above_field(key: *const u8, key_len: usize, out: *mut u8, out_len: usize) -> Length;
}

#[cfg(feature = "keys")]
#[rustfmt::skip]
unsafe extern "C" {
    pub fn tuple_bounds(ty: *const u32, ty_len: usize, key: *const u8, key_len: usize, k: usize, lower: *mut u8, lower_len: usize, upper: *mut u8, upper_len: usize) -> Ends;
    pub fn tuple_span(ty: *const u32, ty_len: usize, words: *const u64, words_len: usize, pool: *const u8, pool_len: usize, lowest_words: *const u64, lowest_words_len: usize, lowest_pool: *const u8, lowest_pool_len: usize, highest_words: *const u64, highest_words_len: usize, highest_pool: *const u8, highest_pool_len: usize, lower: *mut u8, lower_len: usize, upper: *mut u8, upper_len: usize) -> Ends;
    pub fn tuple_starting_with(ty: *const u32, ty_len: usize, words: *const u64, words_len: usize, pool: *const u8, pool_len: usize, start: *const u8, start_len: usize, lower: *mut u8, lower_len: usize, upper: *mut u8, upper_len: usize) -> Ends;
    pub fn tuple_replace(ty: *const u32, ty_len: usize, buffer: *mut u8, buffer_len: usize, used: usize, field: usize, words: *const u64, words_len: usize, pool: *const u8, pool_len: usize) -> Length;
}

#[cfg(feature = "scalars")]
#[rustfmt::skip]
unsafe extern "C" {
    pub fn tuple_get_i64(bytes: *const u8, bytes_len: usize) -> Number;
    pub fn tuple_get_u64(bytes: *const u8, bytes_len: usize) -> Number;
    pub fn tuple_get_str(bytes: *const u8, bytes_len: usize, scratch: *mut u8, scratch_len: usize) -> Part;
    pub fn tuple_get_bytes(bytes: *const u8, bytes_len: usize, scratch: *mut u8, scratch_len: usize) -> Part;
    pub fn tuple_put_i64(out: *mut u8, out_len: usize, at: usize, word: u64) -> Length;
    pub fn tuple_put_u64(out: *mut u8, out_len: usize, at: usize, number: u64) -> Length;
    pub fn tuple_put_str(out: *mut u8, out_len: usize, at: usize, text: *const u8, text_len: usize) -> Length;
    pub fn tuple_put_bytes(out: *mut u8, out_len: usize, at: usize, payload: *const u8, payload_len: usize) -> Length;
    pub fn tuple_put_fact_id(out: *mut u8, out_len: usize, at: usize, raw: u64) -> Length;
}

#[cfg(feature = "cursors")]
#[rustfmt::skip]
unsafe extern "C" {
    pub fn tuple_take_null(bytes: *const u8, bytes_len: usize, at: usize, depth: usize) -> Step;
    pub fn tuple_take_i64(bytes: *const u8, bytes_len: usize, at: usize, depth: usize) -> Step;
    pub fn tuple_take_u64(bytes: *const u8, bytes_len: usize, at: usize, depth: usize) -> Step;
    pub fn tuple_take_fact_id(bytes: *const u8, bytes_len: usize, at: usize, depth: usize) -> Step;
    pub fn tuple_take_str(bytes: *const u8, bytes_len: usize, at: usize, depth: usize, scratch: *mut u8, scratch_len: usize) -> PartStep;
    pub fn tuple_take_bytes(bytes: *const u8, bytes_len: usize, at: usize, depth: usize, scratch: *mut u8, scratch_len: usize) -> PartStep;
    pub fn tuple_open_record(bytes: *const u8, bytes_len: usize, at: usize, depth: usize) -> Step;
    pub fn tuple_open_union(bytes: *const u8, bytes_len: usize, at: usize, depth: usize) -> Step;
    pub fn tuple_close(bytes: *const u8, bytes_len: usize, at: usize, depth: usize) -> Step;
    pub fn tuple_is_record_end(bytes: *const u8, bytes_len: usize, at: usize, depth: usize) -> Number;
    pub fn tuple_put_null(out: *mut u8, out_len: usize, at: usize, depth: usize) -> Step;
    pub fn tuple_put_record(out: *mut u8, out_len: usize, at: usize, depth: usize) -> Step;
    pub fn tuple_put_union(out: *mut u8, out_len: usize, at: usize, depth: usize, disc: u32) -> Step;
    pub fn tuple_put_end(out: *mut u8, out_len: usize, at: usize, depth: usize) -> Step;
}

#[cfg(feature = "chars")]
unsafe extern "C" {
    pub fn tuple_str_chars(bytes: *const u8, bytes_len: usize) -> Length;
    pub fn tuple_chars_next(bytes: *const u8, bytes_len: usize, at: usize, done: bool) -> Char;
}
