//! Single fields.

use crate::ffi::{self, Answer, Part};
use crate::refusal::Refusal;
use crate::room::grown;
use crate::sheet::FactId;
use std::borrow::Cow;

/// The integer at the beginning of the bytes, and how many of them it took.
///
/// ```
/// assert_eq!(tuple::get_i64(&[0x47, 0xFE, 0x48]), Ok((-1, 2)));
/// assert_eq!(tuple::get_i64(&[0x4A, 0x00, 0x01]), Err(tuple::Refusal::BadInteger));
/// ```
pub fn get_i64(bytes: &[u8]) -> Result<(i64, usize), Refusal> {
    let answer = ffi::get_i64(bytes).accepted()?;
    Ok((answer.value as i64, answer.used as usize))
}

/// The unsigned integer at the beginning of the bytes, and how many of them it took; a discriminant is written so.
///
/// ```
/// assert_eq!(tuple::get_u64(&[0x50, 0x80, 0, 0, 0, 0, 0, 0, 0]), Ok((1 << 63, 9)));
/// assert_eq!(tuple::get_u64(&[0x47, 0xFE]), Err(tuple::Refusal::UnexpectedMark(0x47)));
/// ```
pub fn get_u64(bytes: &[u8]) -> Result<(u64, usize), Refusal> {
    let answer = ffi::get_u64(bytes).accepted()?;
    Ok((answer.value, answer.used as usize))
}

/// The payload of an answer that is a part of the bytes, or of a scratch buffer that is lent where it is needed.
fn part<'a>(bytes: &'a [u8], call: impl Fn(&[u8], &mut [u8]) -> Part) -> Result<(Cow<'a, [u8]>, usize), Refusal> {
    let mut scratch = Vec::new();
    let answer = loop {
        match call(bytes, &mut scratch).accepted() {
            Err(Refusal::NoRoom { needed }) if needed > scratch.len() => scratch.resize(needed, 0),
            answer => break answer?,
        }
    };
    let (at, len) = (answer.at as usize, answer.len as usize);
    let payload = if answer.source == 2 {
        scratch.truncate(len);
        Cow::Owned(scratch)
    } else {
        Cow::Borrowed(&bytes[at..at + len])
    };
    Ok((payload, answer.used as usize))
}

/// The text at the beginning of the bytes, and how many of them its field took. It is borrowed where it holds no zero.
///
/// ```
/// use std::borrow::Cow;
///
/// let (text, used) = tuple::get_str(b"\x21cyan\x00\x49\x07").unwrap();
/// assert_eq!((text.as_ref(), used), ("cyan", 6));
/// assert!(matches!(text, Cow::Borrowed(_)));
/// assert_eq!(tuple::get_str(&[0x21, 0x80, 0x00]), Err(tuple::Refusal::BadString));
/// ```
pub fn get_str(bytes: &[u8]) -> Result<(Cow<'_, str>, usize), Refusal> {
    let (payload, used) = part(bytes, ffi::get_str)?;
    let text = match payload {
        Cow::Borrowed(text) => std::str::from_utf8(text).ok().map(Cow::Borrowed),
        Cow::Owned(text) => String::from_utf8(text).ok().map(Cow::Owned),
    };
    Ok((text.expect("libtuple.a accepts UTF-8 alone"), used))
}

/// The bytes of the field at the beginning of the bytes, and how many of them the field took. They are borrowed where they hold no zero.
///
/// ```
/// // tank 0A 00
/// let (tag, used) = tuple::get_bytes(&[0x53, 0x0A, 0x00, 0xFF, 0x00, 0x49, 0x07]).unwrap();
/// assert_eq!((tag.as_ref(), used), (&[0x0A, 0x00][..], 5));
/// ```
pub fn get_bytes(bytes: &[u8]) -> Result<(Cow<'_, [u8]>, usize), Refusal> {
    part(bytes, ffi::get_bytes)
}

/// A call that puts a field behind `out`: the room is grown until it is enough, so that none of these has a refusal left.
fn put(out: &mut Vec<u8>, first: usize, call: impl Fn(&mut [u8], usize) -> ffi::Length) {
    let at = out.len();
    grown(out, first, |buffer| call(buffer, at)).expect("libtuple.a puts every field that has room");
}

/// Puts an integer behind the bytes.
///
/// ```
/// let mut out = vec![0x48];
/// tuple::put_i64(&mut out, -256);
/// assert_eq!(out, [0x48, 0x46, 0xFE, 0xFF]);
/// ```
pub fn put_i64(out: &mut Vec<u8>, val: i64) {
    put(out, 9, |buffer, at| ffi::put_i64(buffer, at, val as u64));
}

/// Puts an unsigned integer behind the bytes.
///
/// ```
/// let mut out = Vec::new();
/// tuple::put_u64(&mut out, 256);
/// assert_eq!(out, [0x4A, 0x01, 0x00]);
/// ```
pub fn put_u64(out: &mut Vec<u8>, val: u64) {
    put(out, 9, |buffer, at| ffi::put_u64(buffer, at, val));
}

/// Puts a text behind the bytes.
///
/// ```
/// let mut out = Vec::new();
/// tuple::put_str(&mut out, "\0");
/// assert_eq!(out, [0x21, 0x00, 0xFF, 0x00]);
/// ```
pub fn put_str(out: &mut Vec<u8>, s: &str) {
    put(out, s.len() + 2, |buffer, at| ffi::put_str(buffer, at, s.as_bytes()));
}

/// Puts a field of bytes behind the bytes.
///
/// ```
/// let mut out = Vec::new();
/// tuple::put_bytes(&mut out, &[0x0A, 0x00]);
/// assert_eq!(out, [0x53, 0x0A, 0x00, 0xFF, 0x00]);
/// ```
pub fn put_bytes(out: &mut Vec<u8>, bytes: &[u8]) {
    put(out, bytes.len() + 2, |buffer, at| ffi::put_bytes(buffer, at, bytes));
}

/// Puts a reference behind the bytes. Nothing of it is checked.
///
/// ```
/// use tuple::{FactId, PredicateId};
///
/// let mut out = Vec::new();
/// tuple::put_fact_id(&mut out, FactId::new(PredicateId(7), 1).unwrap());
/// assert_eq!(out, [0x51, 0, 0, 7, 0, 0, 0, 0, 1]);
/// ```
pub fn put_fact_id(out: &mut Vec<u8>, id: FactId) {
    put(out, 9, |buffer, at| ffi::put_fact_id(buffer, at, id.raw()));
}
