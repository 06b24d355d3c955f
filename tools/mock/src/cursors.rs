//! The cursors' steps and the string reader, as include/tuple.h declares them.

use crate::faults::{Fault, has};
use crate::fields::{Number, bytes_of, place, put};
use crate::{Length, by_original, cut_to_0, given, lent};
use fjord_encoding::tuple;
use oracle::refusal::{BAD_RECORD, RESERVED_FACT_ID, Refusal, UNEXPECTED_EOF, UNEXPECTED_MARK, UNEXPECTED_TERMINATOR};

const MAX_DEPTH: usize = 256;

#[repr(C)]
pub struct Step {
    refusal: u32,
    detail: u64,
    value: u64,
    at: u64,
    depth: u64,
}

#[repr(C)]
pub struct PartStep {
    refusal: u32,
    detail: u64,
    source: u32,
    part: u64,
    len: u64,
    at: u64,
    depth: u64,
}

#[repr(C)]
pub struct Char {
    refusal: u32,
    detail: u64,
    given: u32,
    code: u32,
    at: u64,
    done: bool,
}

fn read_depth(depth: usize) -> usize {
    if has(Fault::DeepCursor) { depth } else { depth.min(MAX_DEPTH) }
}

/// A value, how far it moved and the depth behind it.
fn step(at: usize, depth: usize, result: Result<(u64, usize, usize), Refusal>) -> Step {
    match result {
        Ok((value, moved, depth)) => Step { refusal: 0, detail: 0, value, at: (at + moved) as u64, depth: depth as u64 },
        Err((refusal, detail)) => Step { refusal, detail, value: 0, at: at as u64, depth: depth as u64 },
    }
}

fn reading(
    bytes: *const u8,
    len: usize,
    at: usize,
    depth: usize,
    take: impl FnOnce(&[u8], usize) -> Result<(u64, usize, usize), Refusal>,
) -> Step {
    let bytes = unsafe { given(bytes, len) };
    step(at, depth, take(bytes.get(at..).unwrap_or(&[]), read_depth(depth)))
}

fn first(rest: &[u8]) -> Result<u8, Refusal> {
    rest.first().copied().ok_or((UNEXPECTED_EOF, 0))
}

fn marked(rest: &[u8], mark: u8) -> Result<(), Refusal> {
    match first(rest)? {
        byte if byte == mark => Ok(()),
        byte => Err((UNEXPECTED_MARK, u64::from(byte))),
    }
}

#[unsafe(no_mangle)]
pub unsafe extern "C" fn tuple_take_null(bytes: *const u8, bytes_len: usize, at: usize, depth: usize) -> Step {
    reading(bytes, bytes_len, at, depth, |rest, depth| {
        marked(rest, 0)?;
        if depth == 0 || has(Fault::NullInGroup) {
            return Ok((0, 1, depth));
        }
        if rest.get(1) == Some(&0xFF) { Ok((0, 2, depth)) } else { Err((UNEXPECTED_TERMINATOR, 0)) }
    })
}

#[unsafe(no_mangle)]
pub unsafe extern "C" fn tuple_take_i64(bytes: *const u8, bytes_len: usize, at: usize, depth: usize) -> Step {
    reading(bytes, bytes_len, at, depth, |rest, depth| by_original(tuple::get_i64(rest)).map(|(int, used)| (int as u64, used, depth)))
}

#[unsafe(no_mangle)]
pub unsafe extern "C" fn tuple_take_u64(bytes: *const u8, bytes_len: usize, at: usize, depth: usize) -> Step {
    reading(bytes, bytes_len, at, depth, |rest, depth| by_original(tuple::get_u64(rest)).map(|(number, used)| (number, used, depth)))
}

#[unsafe(no_mangle)]
pub unsafe extern "C" fn tuple_take_fact_id(bytes: *const u8, bytes_len: usize, at: usize, depth: usize) -> Step {
    reading(bytes, bytes_len, at, depth, |rest, depth| {
        let id = by_original(tuple::TupleDecoder::new(rest).take_fact_id())?;
        if has(Fault::SequenceCut) && cut_to_0(id) {
            return Err((RESERVED_FACT_ID, 0));
        }
        Ok((id.raw(), 9, depth))
    })
}

type Payload<'a> = Result<(std::borrow::Cow<'a, [u8]>, usize), Refusal>;

fn payload(bytes: &[u8], at: usize, depth: usize, scratch: &mut [u8], get: fn(&[u8]) -> Payload<'_>) -> PartStep {
    let rest = bytes.get(at..).unwrap_or(&[]);
    match get(rest).and_then(|(payload, used)| Ok((place(payload, scratch)?, used))) {
        Ok(((source, part, len), used)) => PartStep {
            refusal: 0,
            detail: 0,
            source,
            part: if source == 1 { at as u64 + part } else { 0 },
            len,
            at: (at + used) as u64,
            depth: read_depth(depth) as u64,
        },
        Err((refusal, detail)) => PartStep { refusal, detail, source: 0, part: 0, len: 0, at: at as u64, depth: depth as u64 },
    }
}

#[unsafe(no_mangle)]
#[rustfmt::skip]
pub unsafe extern "C" fn tuple_take_str(bytes: *const u8, bytes_len: usize, at: usize, depth: usize, scratch: *mut u8, scratch_len: usize) -> PartStep {
    let (bytes, scratch) = unsafe { (given(bytes, bytes_len), lent(scratch, scratch_len)) };
    payload(bytes, at, depth, scratch, |rest| by_original(tuple::get_str(rest)).map(|(text, used)| (bytes_of(text), used)))
}

#[unsafe(no_mangle)]
#[rustfmt::skip]
pub unsafe extern "C" fn tuple_take_bytes(bytes: *const u8, bytes_len: usize, at: usize, depth: usize, scratch: *mut u8, scratch_len: usize) -> PartStep {
    let (bytes, scratch) = unsafe { (given(bytes, bytes_len), lent(scratch, scratch_len)) };
    payload(bytes, at, depth, scratch, |rest| by_original(tuple::get_bytes(rest)))
}

#[unsafe(no_mangle)]
pub unsafe extern "C" fn tuple_open_record(bytes: *const u8, bytes_len: usize, at: usize, depth: usize) -> Step {
    reading(bytes, bytes_len, at, depth, |rest, depth| {
        marked(rest, 0x22)?;
        if depth >= MAX_DEPTH { Err((BAD_RECORD, 0)) } else { Ok((0, 1, depth + 1)) }
    })
}

#[unsafe(no_mangle)]
pub unsafe extern "C" fn tuple_open_union(bytes: *const u8, bytes_len: usize, at: usize, depth: usize) -> Step {
    reading(bytes, bytes_len, at, depth, |rest, depth| {
        marked(rest, 0x52)?;
        let (disc, used) = by_original(tuple::get_u64(&rest[1..]))?;
        if depth >= MAX_DEPTH { Err((BAD_RECORD, 0)) } else { Ok((disc, 1 + used, depth + 1)) }
    })
}

fn ends(rest: &[u8]) -> bool {
    rest.first() == Some(&0) && rest.get(1) != Some(&0xFF)
}

#[unsafe(no_mangle)]
pub unsafe extern "C" fn tuple_close(bytes: *const u8, bytes_len: usize, at: usize, depth: usize) -> Step {
    reading(bytes, bytes_len, at, depth, |rest, depth| {
        if depth == 0 && !has(Fault::CloseAtTop) {
            return Err((BAD_RECORD, 0));
        }
        let byte = first(rest)?;
        if ends(rest) { Ok((0, 1, depth.saturating_sub(1))) } else { Err((UNEXPECTED_MARK, u64::from(byte))) }
    })
}

#[unsafe(no_mangle)]
pub unsafe extern "C" fn tuple_is_record_end(bytes: *const u8, bytes_len: usize, at: usize, depth: usize) -> Number {
    let rest = unsafe { given(bytes, bytes_len) }.get(at..).unwrap_or(&[]);
    if depth > 0 && rest.is_empty() {
        return Number { refusal: UNEXPECTED_EOF, ..Number::default() };
    }
    Number { value: u64::from(depth > 0 && ends(rest)), ..Number::default() }
}

fn writing(out: *mut u8, len: usize, at: usize, depth: usize, bytes: Result<(&[u8], usize), Refusal>) -> Step {
    let result = bytes.and_then(|(bytes, depth)| {
        put(unsafe { lent(out, len) }, at, bytes)?;
        Ok((0, bytes.len(), depth))
    });
    step(at, depth, result)
}

#[unsafe(no_mangle)]
pub unsafe extern "C" fn tuple_put_null(out: *mut u8, out_len: usize, at: usize, depth: usize) -> Step {
    let bytes: &[u8] = if depth == 0 || has(Fault::NullInGroup) { &[0] } else { &[0, 0xFF] };
    writing(out, out_len, at, depth, Ok((bytes, read_depth(depth))))
}

#[unsafe(no_mangle)]
pub unsafe extern "C" fn tuple_put_record(out: *mut u8, out_len: usize, at: usize, depth: usize) -> Step {
    let opens = depth < MAX_DEPTH;
    writing(out, out_len, at, depth, if opens { Ok((&[0x22], depth + 1)) } else { Err((BAD_RECORD, 0)) })
}

#[unsafe(no_mangle)]
pub unsafe extern "C" fn tuple_put_union(out: *mut u8, out_len: usize, at: usize, depth: usize, disc: u32) -> Step {
    let tag = tuple::UnionTag::new(disc);
    let opens = depth < MAX_DEPTH;
    writing(out, out_len, at, depth, if opens { Ok((tag.as_bytes(), depth + 1)) } else { Err((BAD_RECORD, 0)) })
}

#[unsafe(no_mangle)]
pub unsafe extern "C" fn tuple_put_end(out: *mut u8, out_len: usize, at: usize, depth: usize) -> Step {
    let closes = depth > 0 || has(Fault::CloseAtTop);
    let inner = read_depth(depth).saturating_sub(1);
    writing(out, out_len, at, depth, if closes { Ok((&[0], inner)) } else { Err((BAD_RECORD, 0)) })
}

#[unsafe(no_mangle)]
pub unsafe extern "C" fn tuple_str_chars(bytes: *const u8, bytes_len: usize) -> Length {
    let bytes = unsafe { given(bytes, bytes_len) };
    by_original(tuple::str_chars(bytes).map(|_| 0)).into()
}

#[unsafe(no_mangle)]
pub unsafe extern "C" fn tuple_chars_next(bytes: *const u8, bytes_len: usize, at: usize, done: bool) -> Char {
    let bytes = unsafe { given(bytes, bytes_len) };
    let finished = |refusal| {
        let refusal = if has(Fault::CharsSilent) { 0 } else { refusal };
        Char { refusal, detail: 0, given: 0, code: 0, at: at as u64, done: !(has(Fault::CharsRepeat) && refusal != 0) }
    };
    if done {
        return finished(0);
    }
    let rest = bytes.get(at..).unwrap_or(&[]);
    let gives = |code: u32, len: usize| Char { refusal: 0, detail: 0, given: 1, code, at: (at + len) as u64, done: false };
    let width = match rest {
        [] => return finished(UNEXPECTED_EOF),
        [0, 0xFF, ..] if has(Fault::CharsEscapes) => return gives(0, 1),
        [0xFF, ..] if has(Fault::CharsEscapes) && at > 0 && bytes[at - 1] == 0 => return gives(0xFF, 1),
        [byte @ 0x80..=0xFF, ..] if has(Fault::CharsBytes) => return gives(u32::from(*byte), 1),
        [0xC2, 0, 0xFF, 0x80..=0xBF, ..] if has(Fault::CharsJoined) => return gives(u32::from(rest[3]), 4),
        [0, 0xFF, ..] => return gives(0, 2),
        [0, ..] => return finished(0),
        [0xC0..=0xDF, ..] => 2,
        [0xE0..=0xEF, ..] => 3,
        [0xF0..=0xF7, ..] => 4,
        _ => 1,
    };
    let Some(sequence) = rest.get(..width) else { return finished(if has(Fault::CharsCut) { 4 } else { UNEXPECTED_EOF }) };
    match std::str::from_utf8(sequence) {
        Ok(text) => gives(text.chars().next().expect("one is there") as u32, width),
        Err(_) => finished(4),
    }
}
