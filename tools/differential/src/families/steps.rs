//! The cursors' single steps and the string reader.

use super::Work;
use crate::Sink;
use crate::generate;
use oracle::Kind;

const READING: [Kind; 10] = [
    Kind::TakeNull,
    Kind::TakeI64,
    Kind::TakeU64,
    Kind::TakeFactId,
    Kind::TakeStr,
    Kind::TakeBytes,
    Kind::OpenRecord,
    Kind::OpenUnion,
    Kind::Close,
    Kind::IsRecordEnd,
];

const WRITING: [Kind; 4] = [Kind::PutNull, Kind::PutRecord, Kind::PutUnion, Kind::PutEnd];

const DEPTHS: [u64; 8] = [0, 1, 2, 255, 256, 257, 300, u64::MAX];

/// The empty string, one for each single byte and one for each first byte of two; then the writing steps.
pub const STEPS2_INPUTS: u64 = 1 + 256 + 256 + DEPTHS.len() as u64;

pub fn steps2(work: &mut Work, input: u64, sink: &mut dyn Sink) {
    if !sink.takes(Kind::TakeNull) {
        return;
    }
    match input {
        0 => at_all_places(work, &[], sink),
        1..=256 => at_all_places(work, &[(input - 1) as u8], sink),
        257..=512 => {
            for last in 0..=255 {
                at_all_places(work, &[(input - 257) as u8, last], sink);
            }
        }
        _ => writing(work, DEPTHS[(input - 513) as usize], sink),
    }
}

fn at_all_places(work: &mut Work, bytes: &[u8], sink: &mut dyn Sink) {
    work.set_bytes(bytes);
    for at in 0..=bytes.len() as u64 + 1 {
        for kind in READING {
            for depth in DEPTHS {
                work.send_with(kind, &[at, depth], sink);
            }
        }
    }
}

fn writing(work: &mut Work, depth: u64, sink: &mut dyn Sink) {
    for at in [0, 1, 2, 3, 7, u64::MAX - 6, u64::MAX - 1, u64::MAX] {
        for kind in WRITING {
            for disc in [0, 1, 255, 256, 65_535, 65_536, (1 << 24) - 1, 1 << 24, u64::from(u32::MAX)] {
                work.send_with(kind, &[at, depth, disc], sink);
                if kind != Kind::PutUnion {
                    break;
                }
            }
        }
    }
}

pub fn cursors(work: &mut Work, _input: u64, sink: &mut dyn Sink) {
    if !sink.takes(Kind::TakeNull) && !sink.takes(Kind::Chars) {
        return;
    }
    let nodes = work.random.pick(&[1, 3, 6]);
    let ty = generate::ty(&mut work.random, nodes);
    let val = generate::fitting(&mut work.random, &ty);
    let mut key = Vec::new();
    val.write_bytes(&mut key);
    if work.random.one_in(2) {
        generate::damage(&mut work.random, &mut key);
    }
    work.set_bytes(&key);
    for at in 0..=key.len().min(24) as u64 + 1 {
        let depth = match work.random.below(6) {
            0..=2 => work.random.below(3) as u64,
            3 => work.random.pick(&DEPTHS),
            _ => work.random.below(20) as u64,
        };
        for kind in READING {
            work.send_with(kind, &[at, depth], sink);
        }
        for kind in WRITING {
            let disc = u64::from(generate::disc(&mut work.random));
            work.send_with(kind, &[at, depth, disc], sink);
        }
        work.send_with(Kind::CharsNext, &[at, 0], sink);
        work.send_with(Kind::CharsNext, &[at, 1], sink);
    }
    for (at, _) in key.iter().enumerate().filter(|(_, byte)| **byte == 0x21) {
        work.set_bytes(&key[at..]);
        work.send_all(&[Kind::Chars, Kind::Names], sink);
    }
    let len = generate::length(&mut work.random);
    let mut text = generate::text(&mut work.random, len);
    if work.random.one_in(2) {
        generate::damage(&mut work.random, &mut text);
    }
    text.insert(0, 0x21);
    work.set_bytes(&text);
    work.send_all(&[Kind::Chars, Kind::Names], sink);
    text.push(0);
    work.set_bytes(&text);
    work.send_all(&[Kind::Chars, Kind::Names], sink);
}
