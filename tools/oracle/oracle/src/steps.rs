//! Single steps of the original's two cursors and of its string reader, from any place and depth.
//!
//! The original's cursors keep place and depth to themselves. A cursor at depth d is had by opening d records (their marks put in
//! front of the bytes), and a place by leaving out what stands before it. A depth over 256 reads as 256 and a place past the end
//! as no bytes left, as document 01 has it.

use crate::refusal::{Refusal, refusal};
use fjord_encoding::error::StoreCodecError as Error;
use fjord_encoding::tuple::{self, MARK_RECORD, MARK_STRING, TupleDecoder, TupleEncoder};

pub const MAX_DEPTH: u64 = 256;

pub fn depth_read(depth: u64) -> u64 {
    depth.min(MAX_DEPTH)
}

pub fn rest(bytes: &[u8], at: u64) -> &[u8] {
    usize::try_from(at).ok().and_then(|at| bytes.get(at..)).unwrap_or(&[])
}

/// Leaves the groups that were opened to reach a depth.
enum Stop {
    Done,
    Error(Error),
}

impl From<Error> for Stop {
    fn from(error: Error) -> Stop {
        Stop::Error(error)
    }
}

/// The refusal that stopped a step; none where it was done.
fn stopped(stop: Stop) -> Result<(), Refusal> {
    match stop {
        Stop::Done => Ok(()),
        Stop::Error(error) => Err(refusal(&error)),
    }
}

// ---- reading

pub enum Payload {
    /// no escape: a part of the bytes
    Borrowed(usize),
    Owned(Vec<u8>),
}

/// A step's value and how far it moved.
pub type Moved<T> = Result<(T, u64), Refusal>;

type Reading<'s> = &'s mut dyn FnMut(&mut TupleDecoder<'_>);

fn at_depth(decoder: &mut TupleDecoder<'_>, depth: u64, step: Reading<'_>) -> Result<(), Stop> {
    if depth == 0 {
        step(decoder);
        return Err(Stop::Done);
    }
    decoder.record(|decoder| at_depth(decoder, depth - 1, step))
}

fn read<T>(bytes: &[u8], depth: u64, step: impl Fn(&mut TupleDecoder<'_>) -> Result<T, Refusal>) -> Moved<T> {
    let mut moved = None;
    let mut with_moved = |decoder: &mut TupleDecoder<'_>| {
        let before = decoder.position();
        let value = step(decoder);
        moved = Some(value.map(|value| (value, (decoder.position() - before) as u64)));
    };
    if depth == 0 {
        with_moved(&mut TupleDecoder::new(bytes));
    } else {
        let mut opened = vec![MARK_RECORD; depth as usize];
        opened.extend_from_slice(bytes);
        let _ = at_depth(&mut TupleDecoder::new(&opened), depth, &mut with_moved);
    }
    moved.expect("the step was reached")
}

fn by_original<T>(result: Result<T, Error>) -> Result<T, Refusal> {
    result.map_err(|error| refusal(&error))
}

pub fn take_null(bytes: &[u8], depth: u64) -> Moved<u64> {
    read(bytes, depth, |decoder| by_original(decoder.take_null()).map(|()| 0))
}

pub fn take_i64(bytes: &[u8], depth: u64) -> Moved<u64> {
    read(bytes, depth, |decoder| by_original(decoder.take_i64()).map(|int| int as u64))
}

pub fn take_u64(bytes: &[u8], depth: u64) -> Moved<u64> {
    read(bytes, depth, |decoder| by_original(decoder.take_u64()))
}

pub fn take_fact_id(bytes: &[u8], depth: u64) -> Moved<u64> {
    read(bytes, depth, |decoder| by_original(decoder.take_fact_id()).map(|id| id.raw()))
}

pub fn take_str(bytes: &[u8], depth: u64) -> Moved<Payload> {
    read(bytes, depth, |decoder| {
        by_original(decoder.take_str()).map(|text| match text {
            std::borrow::Cow::Borrowed(text) => Payload::Borrowed(text.len()),
            std::borrow::Cow::Owned(text) => Payload::Owned(text.into_bytes()),
        })
    })
}

pub fn take_bytes(bytes: &[u8], depth: u64) -> Moved<Payload> {
    read(bytes, depth, |decoder| {
        by_original(decoder.take_bytes()).map(|payload| match payload {
            std::borrow::Cow::Borrowed(payload) => Payload::Borrowed(payload.len()),
            std::borrow::Cow::Owned(payload) => Payload::Owned(payload),
        })
    })
}

/// How far inside the group the cursor stands once it is open: the step's own move is lost with the group.
fn opened(inside: Option<(u64, u64)>, result: Result<(), Stop>) -> Moved<u64> {
    match (inside, result) {
        (Some(moved), _) => Ok(moved),
        (None, Err(stop)) => Err(stopped(stop).expect_err("a group that did not open was refused")),
        (None, Ok(())) => unreachable!("a group that opened was seen from inside"),
    }
}

pub fn open_record(bytes: &[u8], depth: u64) -> Moved<u64> {
    read(bytes, depth, |decoder| {
        let before = decoder.position();
        let mut inside = None;
        let result = decoder.record(|decoder| {
            inside = Some((0, (decoder.position() - before) as u64));
            Err(Stop::Done)
        });
        opened(inside, result)
    })
    .map(|(inside, _)| inside)
}

pub fn open_union(bytes: &[u8], depth: u64) -> Moved<u64> {
    read(bytes, depth, |decoder| {
        let before = decoder.position();
        let mut inside = None;
        let result = decoder.union(|decoder, disc| {
            inside = Some((disc, (decoder.position() - before) as u64));
            Err(Stop::Done)
        });
        opened(inside, result)
    })
    .map(|(inside, _)| inside)
}

pub fn close(bytes: &[u8], depth: u64) -> Moved<u64> {
    read(bytes, depth, |decoder| by_original(decoder.expect_record_end()).map(|()| 0))
}

pub fn is_record_end(bytes: &[u8], depth: u64) -> Result<u64, Refusal> {
    read(bytes, depth, |decoder| by_original(decoder.is_record_end()).map(u64::from)).map(|(end, _)| end)
}

// ---- writing

type Writing<'s> = &'s mut dyn FnMut(&mut TupleEncoder<'_>) -> Result<(), Stop>;

fn write_at_depth(encoder: &mut TupleEncoder<'_>, depth: u64, step: Writing<'_>) -> Result<(), Stop> {
    if depth == 0 {
        return step(encoder);
    }
    encoder.record(|encoder| write_at_depth(encoder, depth - 1, step))
}

/// The bytes that a step writes, behind the marks of the groups that are open.
fn written(depth: u64, marks: u64, step: Writing<'_>) -> Result<Vec<u8>, Refusal> {
    let mut out = Vec::new();
    let result = write_at_depth(&mut TupleEncoder::new(&mut out), depth, step);
    if let Err(stop) = result {
        stopped(stop)?;
    }
    Ok(out.split_off(marks as usize))
}

pub fn put_null(depth: u64) -> Result<Vec<u8>, Refusal> {
    written(depth, depth, &mut |encoder| {
        encoder.put_null();
        Err(Stop::Done)
    })
}

pub fn put_record(depth: u64) -> Result<Vec<u8>, Refusal> {
    written(depth, depth, &mut |encoder| encoder.record(|_| Err(Stop::Done)))
}

pub fn put_union(depth: u64, disc: u32) -> Result<Vec<u8>, Refusal> {
    written(depth, depth, &mut |encoder| encoder.union(disc, |_| Err(Stop::Done)))
}

/// The end of a group; the original has no call that could close at depth 0, which document 01 makes BadRecord.
pub fn put_end(depth: u64) -> Result<Vec<u8>, Refusal> {
    if depth == 0 {
        return Err((crate::refusal::BAD_RECORD, 0));
    }
    written(depth - 1, depth, &mut |encoder| {
        encoder.record::<(), Stop>(|_| Ok(()))?;
        Err(Stop::Done)
    })
}

// ---- the string reader

pub enum Char {
    /// a character, and how many bytes it took
    Given(u32, u64),
    End,
    Refused(Refusal),
}

fn char_of(step: Option<Result<char, Error>>) -> Char {
    match step {
        Some(Ok('\0')) => Char::Given(0, 2),
        Some(Ok(char)) => Char::Given(char as u32, char.len_utf8() as u64),
        Some(Err(error)) => Char::Refused(refusal(&error)),
        None => Char::End,
    }
}

/// One step of a reader that is not finished, from a place of the bytes behind the mark.
pub fn char_at(bytes: &[u8], at: u64) -> Char {
    // A character is at most four bytes.
    let rest = rest(bytes, at);
    let mut marked = [MARK_STRING; 5];
    let len = rest.len().min(4);
    marked[1..=len].copy_from_slice(&rest[..len]);
    let mut reader = tuple::str_chars(&marked[..=len]).expect("the mark is there");
    char_of(reader.next())
}

/// All steps of a new reader to its end: the characters to `codes`; how it ended (0 or the refusal) and the place where.
pub fn chars(bytes: &[u8], codes: &mut Vec<u64>) -> Result<(Refusal, u64), Refusal> {
    let mut reader = tuple::str_chars(bytes).map_err(|error| refusal(&error))?;
    let mut at = 0;
    loop {
        let last = match char_of(reader.next()) {
            Char::Given(code, len) => {
                codes.push(u64::from(code));
                at += len;
                continue;
            }
            Char::End => (0, 0),
            Char::Refused(refusal) => refusal,
        };
        assert!(reader.next().is_none() && reader.next().is_none(), "a finished reader gives only the end");
        return Ok((last, at));
    }
}
