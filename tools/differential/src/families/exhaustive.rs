//! Everything that is short.

use super::{DECODING, ENCODING, READERS, Work};
use crate::Sink;
use crate::tree::write_run;
use oracle::Kind;
use oracle::optional::admit_type;
use oracle::sheet::admit_value;

/// The empty string, then every string of up to 2 bytes with each byte behind it.
pub const BYTES3_INPUTS: u64 = 1 + 1 + 256 + 65_536;

/// What stands before the last byte, for a number from 0 on.
fn beginning(number: u64) -> Vec<u8> {
    match number {
        0 => vec![],
        1..=256 => vec![(number - 1) as u8],
        _ => ((number - 257) as u16).to_be_bytes().to_vec(),
    }
}

pub fn bytes3(work: &mut Work, input: u64, sink: &mut dyn Sink) {
    if input == 0 {
        return each_of_bytes3(work, &[], sink);
    }
    let mut string = beginning(input - 1);
    string.push(0);
    for last in 0..=255 {
        *string.last_mut().expect("it has one") = last;
        each_of_bytes3(work, &string, sink);
    }
}

fn each_of_bytes3(work: &mut Work, string: &[u8], sink: &mut dyn Sink) {
    work.set_bytes(string);
    work.send_all(&READERS, sink);
    for start in 0..=string.len() as u64 + 1 {
        work.skip_from(start, sink);
    }
    work.send_all(&[Kind::Strinc, Kind::AboveField, Kind::Chars, Kind::Names], sink);
    work.send_with(Kind::CharsNext, &[0, 0], sink);
    work.send_with(Kind::PutStr, &[0], sink);
    work.send_with(Kind::PutBytes, &[0], sink);
    for (mark, reader) in [(0x21, Kind::GetStr), (0x53, Kind::GetBytes)] {
        work.call.bytes.clear();
        work.call.bytes.push(mark);
        work.call.bytes.extend_from_slice(string);
        work.send(reader, sink);
        if mark == 0x21 {
            work.send_all(&[Kind::Chars, Kind::Names], sink);
        }
        work.send_with(Kind::Skip, &[0, 0], sink);
        work.call.bytes.push(0);
        work.send(reader, sink);
        if mark == 0x21 {
            work.send(Kind::Names, sink);
        }
    }
}

// ---- one telling place in a long run

const LONGEST_RUN: usize = 300;
pub const PLACES_INPUTS: u64 = LONGEST_RUN as u64 + 1;

/// What stands at one place of a payload that is plain otherwise.
const TELLING_PARTS: [&[u8]; 7] = [b"\0", b"\xFF", b"\0\0", "é".as_bytes(), "€".as_bytes(), "𐍈".as_bytes(), b"\xC2\0\xA9"];

/// A payload of a given length, with each of these at each place.
pub fn places(work: &mut Work, input: u64, sink: &mut dyn Sink) {
    let plain = vec![b'a'; input as usize];
    for part in TELLING_PARTS {
        for at in 0..=plain.len() {
            let payload = [&plain[..at], part, &plain[at..]].concat();
            work.set_bytes(&payload);
            work.send_with(Kind::PutStr, &[0], sink);
            work.send_with(Kind::PutBytes, &[0], sink);
            for (mark, reader) in [(0x21, Kind::GetStr), (0x53, Kind::GetBytes)] {
                work.call.bytes.clear();
                write_run(mark, &payload, &mut work.call.bytes);
                work.send(reader, sink);
                if mark == 0x21 {
                    work.send(Kind::Names, sink);
                }
                work.send_with(Kind::Skip, &[0, 0], sink);
                // the end missing
                work.call.bytes.pop();
                work.send(reader, sink);
                if mark == 0x21 {
                    work.send(Kind::Names, sink);
                }
            }
            work.call.ty = vec![3];
            work.call.words = vec![3, payload.len() as u64];
            work.call.pool.clone_from(&payload);
            work.send(Kind::EncodeTyped, sink);
            work.call.other_words.clone_from(&work.call.words);
            work.call.other_pool.clone_from(&payload);
            work.call.other_pool[at] ^= 1;
            work.send(Kind::Compare, sink);
        }
    }
}

// ---- whole keys

/// Four blocks of the 2,048 bytes that a copy of a whole key may go by, and some more.
pub const COPIES_INPUTS: u64 = 8_400;

/// A key of a given length. Its bytes change every hundred, so that a part at a wrong place differs.
pub fn copies(work: &mut Work, input: u64, sink: &mut dyn Sink) {
    let mut bytes: Vec<u8> = (0..input).map(|i| (i / 100 + 1) as u8).collect();
    work.set_bytes(&bytes);
    work.send(Kind::AboveField, sink);
    for _ in 0..3 {
        work.set_bytes(&bytes);
        work.send(Kind::Strinc, sink);
        bytes.push(0xFF);
    }
    work.call.bytes.clear();
    write_run(0x53, &bytes, &mut work.call.bytes);
    work.call.ty = vec![5, 2, 3, 1];
    work.call.bytes.push(0x48);
    for k in 0..=2 {
        work.send_with(Kind::Bounds, &[k], sink);
    }
}

// ---- small sheets

/// The words that small sheets are made of: 0 to 7.
const ALPHABET: u64 = 8;

pub(super) const fn sheets_up_to(words: u32) -> u64 {
    let (mut total, mut length) = (0, 0);
    while length <= words {
        total += ALPHABET.pow(length);
        length += 1;
    }
    total
}

/// The sheet of a number: the shorter ones first.
fn sheet(mut number: u64) -> Vec<u64> {
    let mut length = 0;
    while number >= ALPHABET.pow(length) {
        number -= ALPHABET.pow(length);
        length += 1;
    }
    (0..length).rev().map(|place| number / ALPHABET.pow(place) % ALPHABET).collect()
}

pub(super) fn type_sheet(number: u64) -> Vec<u32> {
    sheet(number).into_iter().map(|word| word as u32).collect()
}

const POOL_BYTES: [u8; 4] = [0x00, 0x61, 0xC3, 0xA9];
const POOLS: u64 = 1 + 4 + 16;

fn pool(number: u64) -> Vec<u8> {
    let byte = |number: u64| POOL_BYTES[number as usize % 4];
    match number {
        0 => vec![],
        1..=4 => vec![byte(number - 1)],
        _ => vec![byte((number - 5) / 4), byte(number - 5)],
    }
}

/// The bytes of keys that a small type meets.
const KEY_BYTES: [u8; 13] = [0x00, 0x01, 0x21, 0x22, 0x47, 0x48, 0x49, 0x4A, 0x51, 0x52, 0x53, 0x80, 0xFF];

pub struct Small {
    keys: Vec<Vec<u8>>,
    types: Vec<Vec<u32>>,
    values: Vec<(Vec<u64>, Vec<u8>)>,
}

impl Small {
    fn new() -> Small {
        let mut keys = vec![vec![]];
        let mut longest = keys.clone();
        for _ in 0..4 {
            longest = longest.iter().flat_map(|key| KEY_BYTES.map(|byte| [key.as_slice(), &[byte]].concat())).collect();
            keys.extend_from_slice(&longest);
        }
        let types = (0..sheets_up_to(4)).map(type_sheet).filter(|words| admit_type(words).is_some()).collect();
        let values = (0..SHEETS4_INPUTS)
            .map(|number| (sheet(number / POOLS), pool(number % POOLS)))
            .filter(|(words, pool)| admit_value(words, pool).is_some())
            .collect();
        Small { keys, types, values }
    }
}

fn with_small(work: &mut Work, f: impl FnOnce(&mut Work, &Small)) {
    let small = work.small.take().unwrap_or_else(Small::new);
    f(work, &small);
    work.small = Some(small);
}

pub const TYPES5_INPUTS: u64 = sheets_up_to(5);

pub fn types5(work: &mut Work, input: u64, sink: &mut dyn Sink) {
    work.call.ty = type_sheet(input);
    let admitted = admit_type(&work.call.ty).is_some();
    with_small(work, |work, small| {
        // a sheet that is not admitted is refused whatever the key
        let keys = if admitted { &small.keys[..] } else { &small.keys[..4] };
        for key in keys {
            work.set_bytes(key);
            work.send_all(&DECODING, sink);
            if key.len() <= 2 {
                for k in 0..3 {
                    work.send_with(Kind::Bounds, &[k], sink);
                }
            }
        }
    });
}

pub const SHEETS4_INPUTS: u64 = sheets_up_to(4) * POOLS;

pub fn sheets4(work: &mut Work, input: u64, sink: &mut dyn Sink) {
    work.call.words = sheet(input / POOLS);
    work.call.pool = pool(input % POOLS);
    let admitted = admit_value(&work.call.words, &work.call.pool).is_some();
    with_small(work, |work, small| {
        let (types, values) = if admitted { (&small.types[..], &small.values[..]) } else { (&small.types[..2], &small.values[..2]) };
        for ty in types {
            work.call.ty.clone_from(ty);
            work.send_all(&ENCODING, sink);
        }
        for (words, pool) in values {
            work.call.other_words.clone_from(words);
            work.call.other_pool.clone_from(pool);
            work.send(Kind::Compare, sink);
        }
        // under a type that is not admitted, and as the second sheet
        work.call.ty.clear();
        work.send_all(&ENCODING, sink);
        work.call.other_words = std::mem::take(&mut work.call.words);
        work.call.other_pool = std::mem::take(&mut work.call.pool);
        work.call.words.push(0);
        work.send(Kind::Compare, sink);
    });
}
