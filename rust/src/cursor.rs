//! Single fields and groups, step by step, and the characters of a text.

use crate::ffi::{self, Answer, PartStep, Step};
use crate::refusal::Refusal;
use crate::sheet::FactId;
use std::borrow::Cow;
use std::iter::FusedIterator;

/// Reads a key field by field. After a refusal it stands where it stood.
///
/// ```
/// use tuple::TupleDecoder;
///
/// // a tank's tag 0A 00, then a record of a batch number and a note
/// let key = [0x53, 0x0A, 0x00, 0xFF, 0x00, 0x22, 0x49, 0x07, 0x21, b'o', b'k', 0x00, 0x00];
/// let mut fields = TupleDecoder::new(&key);
/// assert_eq!(fields.take_bytes()?.as_ref(), [0x0A, 0x00]);
/// fields.open_record()?;
/// assert_eq!(fields.take_i64()?, 7);
/// assert!(!fields.is_record_end()?);
/// assert_eq!(fields.take_str()?, "ok");
/// fields.close()?;
/// assert_eq!((fields.position(), fields.remaining().len()), (13, 0));
/// # Ok::<(), tuple::Refusal>(())
/// ```
#[derive(Debug, Clone, Copy)]
pub struct TupleDecoder<'a> {
    bytes: &'a [u8],
    at: usize,
    depth: usize,
}

impl<'a> TupleDecoder<'a> {
    /// Stands at the key's beginning, in no group.
    #[must_use]
    pub fn new(bytes: &'a [u8]) -> TupleDecoder<'a> {
        TupleDecoder { bytes, at: 0, depth: 0 }
    }

    /// How many bytes were read.
    #[must_use]
    pub fn position(&self) -> usize {
        self.at
    }

    /// How many groups are open.
    #[must_use]
    pub fn depth(&self) -> usize {
        self.depth
    }

    /// What is left to read.
    #[must_use]
    pub fn remaining(&self) -> &'a [u8] {
        &self.bytes[self.at..]
    }

    fn step(&mut self, answer: Step) -> Result<u64, Refusal> {
        let answer = answer.accepted()?;
        (self.at, self.depth) = (answer.at as usize, answer.depth as usize);
        Ok(answer.value)
    }

    fn part(&mut self, call: impl Fn(&[u8], usize, usize, &mut [u8]) -> PartStep) -> Result<Cow<'a, [u8]>, Refusal> {
        let mut scratch = Vec::new();
        let answer = loop {
            match call(self.bytes, self.at, self.depth, &mut scratch).accepted() {
                Err(Refusal::NoRoom { needed }) if needed > scratch.len() => scratch.resize(needed, 0),
                answer => break answer?,
            }
        };
        let (part, len) = (answer.part as usize, answer.len as usize);
        (self.at, self.depth) = (answer.at as usize, answer.depth as usize);
        if answer.source == 2 {
            scratch.truncate(len);
            Ok(Cow::Owned(scratch))
        } else {
            Ok(Cow::Borrowed(&self.bytes[part..part + len]))
        }
    }

    /// Takes a null: 00 outside a group, 00 FF in one.
    pub fn take_null(&mut self) -> Result<(), Refusal> {
        self.step(ffi::take_null(self.bytes, self.at, self.depth)).map(|_| ())
    }

    /// Takes an integer.
    pub fn take_i64(&mut self) -> Result<i64, Refusal> {
        self.step(ffi::take_i64(self.bytes, self.at, self.depth)).map(|word| word as i64)
    }

    /// Takes an unsigned integer.
    pub fn take_u64(&mut self) -> Result<u64, Refusal> {
        self.step(ffi::take_u64(self.bytes, self.at, self.depth))
    }

    /// Takes a reference to any predicate; its sequence is not 0.
    pub fn take_fact_id(&mut self) -> Result<FactId, Refusal> {
        self.step(ffi::take_fact_id(self.bytes, self.at, self.depth)).map(FactId::from_raw)
    }

    /// Takes a text. It is borrowed where it holds no zero.
    pub fn take_str(&mut self) -> Result<Cow<'a, str>, Refusal> {
        let text = match self.part(ffi::take_str)? {
            Cow::Borrowed(text) => std::str::from_utf8(text).ok().map(Cow::Borrowed),
            Cow::Owned(text) => String::from_utf8(text).ok().map(Cow::Owned),
        };
        Ok(text.expect("libtuple.a accepts UTF-8 alone"))
    }

    /// Takes a field of bytes. They are borrowed where they hold no zero.
    pub fn take_bytes(&mut self) -> Result<Cow<'a, [u8]>, Refusal> {
        self.part(ffi::take_bytes)
    }

    /// Opens a record.
    pub fn open_record(&mut self) -> Result<(), Refusal> {
        self.step(ffi::open_record(self.bytes, self.at, self.depth)).map(|_| ())
    }

    /// Opens a union, and gives its discriminant.
    pub fn open_union(&mut self) -> Result<u64, Refusal> {
        self.step(ffi::open_union(self.bytes, self.at, self.depth))
    }

    /// Ends the group that is open.
    pub fn close(&mut self) -> Result<(), Refusal> {
        self.step(ffi::close(self.bytes, self.at, self.depth)).map(|_| ())
    }

    /// Does the open group end here? Where none is open, no.
    pub fn is_record_end(&self) -> Result<bool, Refusal> {
        Ok(ffi::is_record_end(self.bytes, self.at, self.depth).accepted()?.value == 1)
    }
}

/// Writes a key field by field into bytes of its own. After a refusal it is as it was.
///
/// ```
/// use tuple::{Refusal, TupleEncoder};
///
/// let mut key = TupleEncoder::new();
/// key.put_bytes(&[0x0A, 0x00]);
/// key.put_record()?;
/// key.put_null();
/// key.put_end()?;
/// assert_eq!(key.put_end(), Err(Refusal::BadRecord));
/// assert_eq!(key.finish(), [0x53, 0x0A, 0x00, 0xFF, 0x00, 0x22, 0x00, 0xFF, 0x00]);
/// # Ok::<(), tuple::Refusal>(())
/// ```
#[derive(Debug, Clone, Default)]
pub struct TupleEncoder {
    out: Vec<u8>,
    depth: usize,
}

impl TupleEncoder {
    /// Stands before any field, in no group.
    #[must_use]
    pub fn new() -> TupleEncoder {
        TupleEncoder::default()
    }

    /// How many groups are open.
    #[must_use]
    pub fn depth(&self) -> usize {
        self.depth
    }

    /// What was written.
    #[must_use]
    pub fn as_bytes(&self) -> &[u8] {
        &self.out
    }

    /// What was written, for keeping.
    #[must_use]
    pub fn finish(self) -> Vec<u8> {
        self.out
    }

    fn step(&mut self, first: usize, call: impl Fn(&mut [u8], usize, usize) -> Step) -> Result<(), Refusal> {
        let before = self.out.len();
        self.out.resize(before + first, 0);
        match call(&mut self.out, before, self.depth).accepted() {
            Ok(answer) => {
                self.out.truncate(answer.at as usize);
                self.depth = answer.depth as usize;
                Ok(())
            }
            Err(refusal) => {
                self.out.truncate(before);
                Err(refusal)
            }
        }
    }

    /// Puts a null: 00 outside a group, 00 FF in one.
    pub fn put_null(&mut self) {
        self.step(2, ffi::put_null).expect("a null has no refusal but room");
    }

    /// Puts an integer.
    pub fn put_i64(&mut self, val: i64) {
        crate::put_i64(&mut self.out, val);
    }

    /// Puts an unsigned integer.
    pub fn put_u64(&mut self, val: u64) {
        crate::put_u64(&mut self.out, val);
    }

    /// Puts a text.
    pub fn put_str(&mut self, s: &str) {
        crate::put_str(&mut self.out, s);
    }

    /// Puts a field of bytes.
    pub fn put_bytes(&mut self, bytes: &[u8]) {
        crate::put_bytes(&mut self.out, bytes);
    }

    /// Puts a reference. Nothing of it is checked.
    pub fn put_fact_id(&mut self, id: FactId) {
        crate::put_fact_id(&mut self.out, id);
    }

    /// Opens a record.
    pub fn put_record(&mut self) -> Result<(), Refusal> {
        self.step(1, ffi::put_record)
    }

    /// Opens a union with this discriminant.
    pub fn put_union(&mut self, disc: u32) -> Result<(), Refusal> {
        self.step(6, |out, at, depth| ffi::put_union(out, at, depth, disc))
    }

    /// Ends the group that is open.
    pub fn put_end(&mut self) -> Result<(), Refusal> {
        self.step(1, ffi::put_end)
    }
}

/// The characters of a text in a key, one a step. The end and a refusal finish it.
#[derive(Debug, Clone)]
pub struct StrChars<'a> {
    bytes: &'a [u8],
    at: usize,
    done: bool,
}

/// The characters of the text at the beginning of the bytes, without a look ahead.
///
/// What a new reader has given so far is the beginning of the text that [`get_str`](crate::get_str) decodes from the same bytes, and the end comes right after its last
/// character. Where `get_str` refuses, so does the reader, before any end; its refusal may be another. Either comes within as many steps as there are bytes behind the
/// first, and one (theorem `scrolls` of crate `tuple`).
///
/// ```
/// let chars: Result<String, _> = tuple::str_chars(b"\x21ink \x00\xFF\xC2\xB5\x00rest")?.collect();
/// assert_eq!(chars?, "ink \0µ");
/// let mut cut = tuple::str_chars(&[0x21, 0xE2, 0x00])?;
/// assert_eq!((cut.next(), cut.next()), (Some(Err(tuple::Refusal::UnexpectedEof)), None));
/// assert_eq!(tuple::get_str(&[0x21, 0xE2, 0x00]), Err(tuple::Refusal::BadString));
/// # Ok::<(), tuple::Refusal>(())
/// ```
pub fn str_chars(bytes: &[u8]) -> Result<StrChars<'_>, Refusal> {
    ffi::str_chars(bytes).accepted()?;
    Ok(StrChars { bytes: &bytes[1..], at: 0, done: false })
}

impl Iterator for StrChars<'_> {
    type Item = Result<char, Refusal>;

    fn next(&mut self) -> Option<Self::Item> {
        let answer = ffi::chars_next(self.bytes, self.at, self.done);
        (self.at, self.done) = (answer.at as usize, answer.done);
        match answer.accepted() {
            Ok(answer) if answer.given == 1 => Some(Ok(char::from_u32(answer.code).expect("libtuple.a gives code points of characters"))),
            Ok(_) => None,
            Err(refusal) => Some(Err(refusal)),
        }
    }
}

impl FusedIterator for StrChars<'_> {}
