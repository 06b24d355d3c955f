//! Types with word 7: the families of random types, keys and lists once more, and short keys exhaustively.

use super::{DECODING, ENCODING, Work, boundary, keys};
use crate::Sink;
use crate::tree::Val;
use oracle::Kind;
use oracle::optional::{OPTIONAL, admit_type};
use oracle::sheet::admit_value;

/// The family's own body, with word 7 in its types.
fn with_sevens(work: &mut Work, input: u64, sink: &mut dyn Sink, family: fn(&mut Work, u64, &mut dyn Sink)) {
    work.optional = true;
    family(work, input, sink);
    work.optional = false;
    held_to_the_original(work);
    // once more with a 7 doubled, or one added to a discriminant or a predicate of 7
    if let Some(at) = work.call.ty.iter().position(|word| *word == OPTIONAL) {
        work.call.ty.insert(at, OPTIONAL);
        work.send_all(&ENCODING, sink);
        work.send_all(&DECODING, sink);
    }
}

pub fn typed(work: &mut Work, input: u64, sink: &mut dyn Sink) {
    with_sevens(work, input, sink, super::typed::typed);
}

pub fn damaged(work: &mut Work, input: u64, sink: &mut dyn Sink) {
    with_sevens(work, input, sink, super::typed::damaged);
}

pub fn book(work: &mut Work, input: u64, sink: &mut dyn Sink) {
    with_sevens(work, input, sink, keys::book);
}

pub fn depths(work: &mut Work, input: u64, sink: &mut dyn Sink) {
    with_sevens(work, input, sink, boundary::depths);
}

/// The last type without its words 7, its groups composed, gives what the original gives.
fn held_to_the_original(work: &Work) {
    let Some(ty) = admit_type(&work.call.ty) else { return };
    let value = admit_value(&work.call.words, &work.call.pool);
    ty.plain().hold_composition(&work.call.bytes, value.as_ref());
}

// ---- short keys

/// Word 7 at the top, as a field, as an alternative, behind a 7 that is a tag or a predicate, and inside one another with a group between.
const TYPES: [&[u32]; 16] = [
    &[7, 1],
    &[7, 2],
    &[7, 3],
    &[7, 4, 7],
    &[7, 5, 0],
    &[7, 5, 1, 1],
    &[7, 5, 1, 7, 1],
    &[7, 6, 1, 1, 7, 1],
    &[5, 1, 7, 1],
    &[5, 2, 7, 1, 1],
    &[5, 2, 7, 3, 7, 1],
    &[5, 3, 7, 1, 7, 2, 7, 3],
    &[5, 2, 7, 5, 1, 7, 1, 1],
    &[5, 1, 5, 2, 7, 1, 7, 2],
    &[6, 2, 1, 7, 1, 7, 7, 3],
    &[5, 2, 6, 1, 1, 7, 1, 7, 1],
];

const BYTES: [u8; 9] = [0x00, 0x01, 0x21, 0x22, 0x48, 0x49, 0x52, 0x53, 0xFF];
const LONGEST: u32 = 5;

/// A type and the first byte of its keys.
pub const OPTIONAL5_INPUTS: u64 = TYPES.len() as u64 * BYTES.len() as u64;

pub fn optional5(work: &mut Work, input: u64, sink: &mut dyn Sink) {
    let ty = TYPES[input as usize / BYTES.len()];
    let first = BYTES[input as usize % BYTES.len()];
    work.call.ty = ty.to_vec();
    let fields = if ty[0] == 5 { u64::from(ty[1]) } else { 0 };
    if first == BYTES[0] {
        on_key(work, fields, &[], sink);
    }
    for length in 0..LONGEST {
        for number in 0..BYTES.len().pow(length) {
            let mut key = vec![first];
            key.extend((0..length).map(|place| BYTES[number / BYTES.len().pow(place) % BYTES.len()]));
            on_key(work, fields, &key, sink);
        }
    }
}

fn on_key(work: &mut Work, fields: u64, key: &[u8], sink: &mut dyn Sink) {
    work.set_bytes(key);
    work.send_all(&DECODING, sink);
    for k in 0..=fields {
        work.send_with(Kind::Bounds, &[k], sink);
    }
    // each field blank, and an Int
    work.call.bytes.extend([0xEE; 3]);
    for field in 0..fields {
        for new in [Val::Null, Val::Int(1)] {
            work.set_value(&new);
            work.send_with(Kind::Replace, &[key.len() as u64, field], sink);
        }
    }
}
