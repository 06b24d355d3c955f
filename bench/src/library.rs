//! The library's calls that are timed, as include/tuple.h declares them, on slices.

#[repr(C)]
pub struct Length {
    pub refusal: u32,
    pub detail: u64,
    pub length: u64,
}

#[repr(C)]
pub struct Encoded {
    pub refusal: u32,
    pub detail: u64,
    pub length: u64,
    pub zeros: u64,
}

#[repr(C)]
pub struct Sheet {
    pub refusal: u32,
    pub detail: u64,
    pub begun: u64,
    pub words: u64,
    pub pool: u64,
}

#[repr(C)]
pub struct Ends {
    pub refusal: u32,
    pub detail: u64,
    pub lower: u64,
    pub upper: u64,
}

#[repr(C)]
pub struct Order {
    pub refusal: u32,
    pub detail: u64,
    pub order: i32,
}

#[rustfmt::skip]
unsafe extern "C" {
    fn tuple_encode_key(ty: *const u32, ty_len: usize, words: *const u64, words_len: usize, pool: *const u8, pool_len: usize, out: *mut u8, out_len: usize) -> Encoded;
    fn tuple_decode_key(ty: *const u32, ty_len: usize, bytes: *const u8, bytes_len: usize, words: *mut u64, words_len: usize, pool: *mut u8, pool_len: usize) -> Sheet;
    fn tuple_encode_typed(ty: *const u32, ty_len: usize, words: *const u64, words_len: usize, pool: *const u8, pool_len: usize, out: *mut u8, out_len: usize) -> Encoded;
    fn tuple_decode_typed(ty: *const u32, ty_len: usize, bytes: *const u8, bytes_len: usize, words: *mut u64, words_len: usize, pool: *mut u8, pool_len: usize) -> Sheet;
    fn tuple_check_key(ty: *const u32, ty_len: usize, bytes: *const u8, bytes_len: usize) -> Sheet;
    fn tuple_skip(bytes: *const u8, bytes_len: usize, start: usize, require_escape_null: bool) -> Length;
    fn tuple_compare(words_a: *const u64, words_a_len: usize, pool_a: *const u8, pool_a_len: usize, words_b: *const u64, words_b_len: usize, pool_b: *const u8, pool_b_len: usize) -> Order;
    fn tuple_strinc(prefix: *const u8, prefix_len: usize, out: *mut u8, out_len: usize) -> Length;
    fn tuple_bounds(ty: *const u32, ty_len: usize, key: *const u8, key_len: usize, k: usize, lower: *mut u8, lower_len: usize, upper: *mut u8, upper_len: usize) -> Ends;
    fn tuple_span(ty: *const u32, ty_len: usize, words: *const u64, words_len: usize, pool: *const u8, pool_len: usize, lowest_words: *const u64, lowest_words_len: usize, lowest_pool: *const u8, lowest_pool_len: usize, highest_words: *const u64, highest_words_len: usize, highest_pool: *const u8, highest_pool_len: usize, lower: *mut u8, lower_len: usize, upper: *mut u8, upper_len: usize) -> Ends;
    fn tuple_starting_with(ty: *const u32, ty_len: usize, words: *const u64, words_len: usize, pool: *const u8, pool_len: usize, start: *const u8, start_len: usize, lower: *mut u8, lower_len: usize, upper: *mut u8, upper_len: usize) -> Ends;
    fn tuple_replace(ty: *const u32, ty_len: usize, buffer: *mut u8, buffer_len: usize, used: usize, field: usize, words: *const u64, words_len: usize, pool: *const u8, pool_len: usize) -> Length;
}

pub fn encode_key(ty: &[u32], words: &[u64], pool: &[u8], out: &mut [u8]) -> Encoded {
    unsafe { tuple_encode_key(ty.as_ptr(), ty.len(), words.as_ptr(), words.len(), pool.as_ptr(), pool.len(), out.as_mut_ptr(), out.len()) }
}

pub fn decode_key(ty: &[u32], key: &[u8], words: &mut [u64], pool: &mut [u8]) -> Sheet {
    unsafe {
        tuple_decode_key(ty.as_ptr(), ty.len(), key.as_ptr(), key.len(), words.as_mut_ptr(), words.len(), pool.as_mut_ptr(), pool.len())
    }
}

pub fn encode_typed(ty: &[u32], words: &[u64], pool: &[u8], out: &mut [u8]) -> Encoded {
    unsafe { tuple_encode_typed(ty.as_ptr(), ty.len(), words.as_ptr(), words.len(), pool.as_ptr(), pool.len(), out.as_mut_ptr(), out.len()) }
}

pub fn decode_typed(ty: &[u32], bytes: &[u8], words: &mut [u64], pool: &mut [u8]) -> Sheet {
    unsafe {
        tuple_decode_typed(ty.as_ptr(), ty.len(), bytes.as_ptr(), bytes.len(), words.as_mut_ptr(), words.len(), pool.as_mut_ptr(), pool.len())
    }
}

pub fn check_key(ty: &[u32], key: &[u8]) -> Sheet {
    unsafe { tuple_check_key(ty.as_ptr(), ty.len(), key.as_ptr(), key.len()) }
}

pub fn skip(bytes: &[u8], start: usize) -> Length {
    unsafe { tuple_skip(bytes.as_ptr(), bytes.len(), start, false) }
}

pub fn compare((words, pool): &(Vec<u64>, Vec<u8>), (others, other_pool): &(Vec<u64>, Vec<u8>)) -> Order {
    unsafe {
        let other = (others.as_ptr(), others.len(), other_pool.as_ptr(), other_pool.len());
        tuple_compare(words.as_ptr(), words.len(), pool.as_ptr(), pool.len(), other.0, other.1, other.2, other.3)
    }
}

pub fn strinc(prefix: &[u8], out: &mut [u8]) -> Length {
    unsafe { tuple_strinc(prefix.as_ptr(), prefix.len(), out.as_mut_ptr(), out.len()) }
}

pub fn bounds(ty: &[u32], key: &[u8], k: usize, lower: &mut [u8], upper: &mut [u8]) -> Ends {
    unsafe {
        tuple_bounds(ty.as_ptr(), ty.len(), key.as_ptr(), key.len(), k, lower.as_mut_ptr(), lower.len(), upper.as_mut_ptr(), upper.len())
    }
}

/// A value sheet: words and pool.
type Given = (Vec<u64>, Vec<u8>);

#[rustfmt::skip]
pub fn span(ty: &[u32], first: &Given, lowest: &Given, highest: &Given, lower: &mut [u8], upper: &mut [u8]) -> Ends {
    unsafe {
        tuple_span(
            ty.as_ptr(), ty.len(), first.0.as_ptr(), first.0.len(), first.1.as_ptr(), first.1.len(),
            lowest.0.as_ptr(), lowest.0.len(), lowest.1.as_ptr(), lowest.1.len(),
            highest.0.as_ptr(), highest.0.len(), highest.1.as_ptr(), highest.1.len(),
            lower.as_mut_ptr(), lower.len(), upper.as_mut_ptr(), upper.len(),
        )
    }
}

#[rustfmt::skip]
pub fn starting_with(ty: &[u32], first: &Given, start: &[u8], lower: &mut [u8], upper: &mut [u8]) -> Ends {
    unsafe {
        tuple_starting_with(
            ty.as_ptr(), ty.len(), first.0.as_ptr(), first.0.len(), first.1.as_ptr(), first.1.len(), start.as_ptr(), start.len(),
            lower.as_mut_ptr(), lower.len(), upper.as_mut_ptr(), upper.len(),
        )
    }
}

pub fn replace(ty: &[u32], buffer: &mut [u8], used: usize, field: usize, (words, pool): &(Vec<u64>, Vec<u8>)) -> Length {
    unsafe {
        let sheet = (words.as_ptr(), words.len(), pool.as_ptr(), pool.len());
        tuple_replace(ty.as_ptr(), ty.len(), buffer.as_mut_ptr(), buffer.len(), used, field, sheet.0, sheet.1, sheet.2, sheet.3)
    }
}
