//! Single fields: the get and put calls.

use crate::faults::{Fault, has};
use crate::{Length, by_original, given, lent, no_room};
use fjord_encoding::tuple;
use fjord_schema::id::FactId;
use oracle::refusal::{BAD_INTEGER, BAD_STRING, NO_ROOM, Refusal};
use std::borrow::Cow;

#[repr(C)]
#[derive(Default)]
pub struct Number {
    pub refusal: u32,
    pub detail: u64,
    pub value: u64,
    pub used: u64,
}

#[repr(C)]
#[derive(Default)]
pub struct Part {
    refusal: u32,
    detail: u64,
    source: u32,
    at: u64,
    len: u64,
    used: u64,
}

fn number(result: Result<(u64, usize), Refusal>) -> Number {
    match result {
        Ok((value, used)) => Number { refusal: 0, detail: 0, value, used: used as u64 },
        Err((refusal, detail)) => Number { refusal, detail, value: 0, used: 0 },
    }
}

#[unsafe(no_mangle)]
pub unsafe extern "C" fn tuple_get_i64(bytes: *const u8, bytes_len: usize) -> Number {
    let bytes = unsafe { given(bytes, bytes_len) };
    let mut result = by_original(tuple::get_i64(bytes)).map(|(int, used)| (int as u64, used));
    if has(Fault::NoWidthTest) && result == Err((BAD_INTEGER, 0)) && bytes[0] == 0x4A {
        result = Ok((u64::from(bytes[2]), 3));
    }
    number(result)
}

#[unsafe(no_mangle)]
pub unsafe extern "C" fn tuple_get_u64(bytes: *const u8, bytes_len: usize) -> Number {
    number(by_original(tuple::get_u64(unsafe { given(bytes, bytes_len) })))
}

/// A payload and the bytes used, as a part of the bytes or of the scratch buffer.
pub fn place(payload: Cow<'_, [u8]>, scratch: &mut [u8]) -> Result<(u32, u64, u64), Refusal> {
    let len = payload.len();
    match payload {
        Cow::Borrowed(_) if !has(Fault::ScratchAlways) => Ok((1, 1, len as u64)),
        payload => {
            if len > scratch.len() {
                return Err(no_room(len, scratch.len()));
            }
            scratch[..len].copy_from_slice(&payload);
            Ok((2, 0, len as u64))
        }
    }
}

pub fn bytes_of(text: Cow<'_, str>) -> Cow<'_, [u8]> {
    match text {
        Cow::Borrowed(text) => Cow::Borrowed(text.as_bytes()),
        Cow::Owned(text) => Cow::Owned(text.into_bytes()),
    }
}

fn part(result: Result<(Cow<'_, [u8]>, usize), Refusal>, scratch: &mut [u8]) -> Part {
    match result.and_then(|(payload, used)| Ok((place(payload, scratch)?, used))) {
        Ok(((source, at, len), used)) => Part { refusal: 0, detail: 0, source, at, len, used: used as u64 },
        Err((refusal, detail)) => Part { refusal, detail, ..Part::default() },
    }
}

#[unsafe(no_mangle)]
pub unsafe extern "C" fn tuple_get_str(bytes: *const u8, bytes_len: usize, scratch: *mut u8, scratch_len: usize) -> Part {
    let (bytes, scratch) = unsafe { (given(bytes, bytes_len), lent(scratch, scratch_len)) };
    if has(Fault::Surrogates) {
        let mut judged = bytes.to_vec();
        for at in 1..judged.len() {
            if judged[at - 1] == 0xED && judged[at] >= 0xA0 && judged[at] <= 0xBF {
                judged[at] = 0x80;
            }
        }
        return part(by_original(tuple::get_str(&judged)).map(|(text, used)| (bytes_of(text), used)), scratch);
    }
    part(by_original(tuple::get_str(bytes)).map(|(text, used)| (bytes_of(text), used)), scratch)
}

#[unsafe(no_mangle)]
pub unsafe extern "C" fn tuple_get_bytes(bytes: *const u8, bytes_len: usize, scratch: *mut u8, scratch_len: usize) -> Part {
    let (bytes, scratch) = unsafe { (given(bytes, bytes_len), lent(scratch, scratch_len)) };
    part(by_original(tuple::get_bytes(bytes)), scratch)
}

/// Bytes at a place of a buffer: the place behind them.
pub fn put(out: &mut [u8], at: usize, bytes: &[u8]) -> Result<usize, Refusal> {
    if at > out.len() {
        return Err((NO_ROOM, if has(Fault::PlacePastBuffer) { at.saturating_add(bytes.len()) } else { at } as u64));
    }
    let end = at + bytes.len();
    if end > out.len() {
        return Err((NO_ROOM, end as u64));
    }
    out[at..end].copy_from_slice(bytes);
    Ok(end)
}

fn putting(out: *mut u8, out_len: usize, at: usize, write: impl FnOnce(&mut Vec<u8>)) -> Length {
    let mut bytes = Vec::new();
    write(&mut bytes);
    put(unsafe { lent(out, out_len) }, at, &bytes).into()
}

#[unsafe(no_mangle)]
pub unsafe extern "C" fn tuple_put_i64(out: *mut u8, out_len: usize, at: usize, word: u64) -> Length {
    let word = if has(Fault::LeastInteger) && word == 1 << 63 { word + 1 } else { word };
    putting(out, out_len, at, |bytes| tuple::put_i64(bytes, word as i64))
}

#[unsafe(no_mangle)]
pub unsafe extern "C" fn tuple_put_u64(out: *mut u8, out_len: usize, at: usize, number: u64) -> Length {
    putting(out, out_len, at, |bytes| tuple::put_u64(bytes, number))
}

#[unsafe(no_mangle)]
pub unsafe extern "C" fn tuple_put_str(out: *mut u8, out_len: usize, at: usize, text: *const u8, text_len: usize) -> Length {
    match std::str::from_utf8(unsafe { given(text, text_len) }) {
        Ok(text) => putting(out, out_len, at, |bytes| tuple::put_str(bytes, text)),
        Err(_) => Err((BAD_STRING, 0)).into(),
    }
}

#[unsafe(no_mangle)]
pub unsafe extern "C" fn tuple_put_bytes(out: *mut u8, out_len: usize, at: usize, payload: *const u8, payload_len: usize) -> Length {
    let payload = unsafe { given(payload, payload_len) };
    putting(out, out_len, at, |bytes| {
        tuple::put_bytes(bytes, payload);
        // a zero at the end of the first block goes unescaped
        if has(Fault::BlockZero) && payload.len() >= 240 && payload[239] == 0 {
            let escape = 1 + 240 + payload[..239].iter().filter(|byte| **byte == 0).count();
            bytes.remove(escape);
        }
    })
}

#[unsafe(no_mangle)]
pub unsafe extern "C" fn tuple_put_fact_id(out: *mut u8, out_len: usize, at: usize, raw: u64) -> Length {
    putting(out, out_len, at, |bytes| bytes.extend_from_slice(&tuple::fact_ref_bytes(FactId::from_raw(raw))))
}
