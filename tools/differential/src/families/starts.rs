//! What begins with some bytes: short ones exhaustively, random ones round every boundary, and names in and out by their values.

use super::Work;
use super::boundary::some_payload;
use super::exhaustive::{sheets_up_to, type_sheet};
use super::spans::{
    FIRSTS, deep_field, fields_of_some, first_of, held_by, key_of_some, long_run, record_of_some, set_fields, some_of, val_of, wide_count,
};
use crate::Sink;
use crate::generate;
use crate::random::Random;
use crate::tree::{Ty, Val};
use oracle::line::write_call;
use oracle::optional::admit_type;
use oracle::{Call, Kind};

// ---- short ones

/// Types of more words: a Str or Bytes behind fields of each kind, optional, and inside a group, where it is none.
const TYPES: [&[u32]; 16] = [
    &[5, 3, 3, 1, 2],
    &[5, 3, 1, 1, 3],
    &[5, 3, 1, 2, 3],
    &[5, 2, 7, 3, 2],
    &[5, 2, 7, 3, 7, 2],
    &[5, 3, 7, 1, 7, 2, 7, 3],
    &[5, 4, 7, 1, 7, 2, 7, 3, 3],
    &[5, 2, 4, 7, 2],
    &[5, 2, 5, 0, 3],
    &[5, 2, 5, 1, 1, 3],
    &[5, 2, 5, 1, 7, 1, 2],
    &[5, 2, 6, 1, 1, 1, 3],
    &[5, 2, 3, 5, 1, 2],
    &[5, 1, 7, 5, 1, 2],
    &[5, 1, 6, 1, 1, 2],
    &[7, 5, 2, 3, 2],
];

/// The bytes that short beginnings are made of: zeros, the last ones, and such as are no text or the first half of a character.
const ALPHABET: [u8; 8] = [0x00, 0x01, 0x0A, 0x7F, 0x80, 0xC3, 0xFE, 0xFF];

/// Every string of up to so many of them.
fn strings_up_to(bytes: usize) -> Vec<Vec<u8>> {
    let mut all = vec![vec![]];
    for len in 1..=bytes {
        let shorter: Vec<Vec<u8>> = all.iter().filter(|string| string.len() + 1 == len).cloned().collect();
        all.extend(shorter.iter().flat_map(|string| ALPHABET.map(|byte| [&string[..], &[byte]].concat())));
    }
    all
}

const SHORT_TYPES: u64 = sheets_up_to(5);
pub const STARTS5_INPUTS: u64 = TYPES.len() as u64 + SHORT_TYPES;

pub fn starts5(work: &mut Work, input: u64, sink: &mut dyn Sink) {
    work.call.ty = match input.checked_sub(TYPES.len() as u64) {
        None => TYPES[input as usize].to_vec(),
        Some(number) => type_sheet(number),
    };
    // a sheet that is not admitted is refused whatever the others are
    let firsts = if admit_type(&work.call.ty).is_some() { &FIRSTS[..] } else { &FIRSTS[7..10] };
    for (words, pool) in firsts {
        (work.call.words, work.call.pool) = (words.to_vec(), pool.to_vec());
        work.call.kind = Kind::StartingWith;
        work.oracle.run(&work.call);
        // what is refused is so whatever s is
        let bytes = if work.oracle.outcome.answer.refusal == 0 { 3 } else { 1 };
        for start in strings_up_to(bytes) {
            send(work, &start, sink);
        }
    }
}

fn send(work: &mut Work, start: &[u8], sink: &mut dyn Sink) {
    work.set_bytes(start);
    work.send(Kind::StartingWith, sink);
}

// ---- random ones

pub fn starts(work: &mut Work, _input: u64, sink: &mut dyn Sink) {
    match work.random.below(160) {
        0..=3 => deep(work, sink),
        4 => long(work, sink),
        5 => wide(work, sink),
        _ => some(work, sink),
    }
}

/// A Str or Bytes, now and then optional.
fn run_ty(random: &mut Random) -> Ty {
    let run = if random.one_in(2) { Ty::Str } else { Ty::Bytes };
    if random.one_in(3) { run.optional() } else { run }
}

/// The bytes that a filled Str or Bytes has.
fn payload_of(val: &Val) -> Option<&[u8]> {
    match val {
        Val::Str(payload) | Val::Bytes(payload) => Some(payload),
        _ => None,
    }
}

/// What a name may begin with: its own bytes, cut anywhere, or any others; often with an end that the upper end goes by.
fn some_start(random: &mut Random, name: &[u8]) -> Vec<u8> {
    let mut start = if random.one_in(3) { some_payload(random) } else { name[..random.below(name.len() + 1)].to_vec() };
    if random.one_in(2) {
        start.extend((0..random.below(5)).map(|_| random.pick(&[0x00, 0xFF, 0xFF, 0xFE, 0x01, 0xC3])));
    }
    start
}

fn some(work: &mut Work, sink: &mut dyn Sink) {
    let types = fields_of_some(&mut work.random);
    for k in 0..=types.len() + 1 {
        let mut types = types.clone();
        if k < types.len() && !work.random.one_in(5) {
            types[k] = run_ty(&mut work.random);
        }
        let Val::Record(fields) = generate::fitting(&mut work.random, &Ty::Record(types.clone())) else { unreachable!("a record") };
        held_to_span(work, &types, &fields, k);
        set_fields(work, &types);
        at_count(work, &fields, k, sink);
    }
}

/// Behind k first fields: good, or with values that do not fit, or with a sheet that is not admitted; then with s damaged.
fn at_count(work: &mut Work, fields: &[Val], k: usize, sink: &mut dyn Sink) {
    let random = &mut work.random;
    let start = some_start(random, fields.get(k).and_then(payload_of).unwrap_or(b"red"));
    let mut first = first_of(random, fields, k);
    match random.below(24) {
        0..=2 => generate::unfit(random, &mut first),
        3 => first = generate::value(random, 3),
        _ => {}
    }
    work.set_value(&first);
    if work.random.one_in(24) {
        generate::spoil_sheet(&mut work.random, &mut work.call.words, &mut work.call.pool);
    }
    send(work, &start, sink);
    let mut other = start;
    generate::damage(&mut work.random, &mut other);
    send(work, &other, sink);
}

/// A whole name as s: its end behind the lower end makes the lower end of the span from that name, which the original wrote by itself.
fn held_to_span(work: &mut Work, types: &[Ty], fields: &[Val], k: usize) {
    let Some(name) = fields.get(k).and_then(payload_of) else { return };
    work.set_type(&Ty::Record(types.to_vec()));
    work.set_value(&Val::Record(fields[..k].to_vec()));
    work.set_other(&fields[k]);
    work.set_third(&fields[k]);
    work.call.kind = Kind::Span;
    work.oracle.run(&work.call);
    let (refusal, lower) = (work.oracle.outcome.answer.refusal, work.oracle.outcome.bytes.clone());
    work.set_bytes(name);
    work.call.kind = Kind::StartingWith;
    work.oracle.run(&work.call);
    let outcome = &work.oracle.outcome;
    let ended = if refusal == 0 { [&outcome.bytes[..], &[0x00]].concat() } else { vec![] };
    if outcome.answer.refusal != refusal || ended != lower {
        let mut text = String::new();
        write_call(&mut text, &work.call);
        panic!("what begins with a name and the span from it part: {text}");
    }
    for words in [&mut work.call.other_words, &mut work.call.third_words] {
        words.clear();
    }
    for pool in [&mut work.call.other_pool, &mut work.call.third_pool] {
        pool.clear();
    }
}

/// Deep among the first fields; as the next one, where it is none to begin with, a Str at its bottom or not.
fn deep(work: &mut Work, sink: &mut dyn Sink) {
    let random = &mut work.random;
    let (ty, val) = deep_field(random);
    let near = generate::near(random, &ty, &val);
    let run = run_ty(random);
    let start = some_start(random, b"red");
    work.set_type(&Ty::Record(vec![ty.clone(), run.clone(), ty.clone()]));
    for first in [vec![val.clone()], vec![near], vec![Val::Null], vec![], vec![val.clone(), Val::Str(vec![])]] {
        work.set_value(&Val::Record(first));
        send(work, &start, sink);
    }
    work.set_type(&Ty::Record(vec![Ty::Int, ty.clone().optional(), run]));
    for next in [Val::Null, val] {
        work.set_value(&Val::Record(vec![Val::Int(0), next]));
        send(work, &start, sink);
    }
}

/// Long ends, by the first fields or by s, of which a part or all falls away from the upper end.
fn long(work: &mut Work, sink: &mut dyn Sink) {
    let (run, mut payload) = long_run(&mut work.random);
    let next = run_ty(&mut work.random);
    let start = some_start(&mut work.random, b"red");
    work.set_type(&Ty::Record(vec![run.clone(), next]));
    work.set_value(&Val::Record(vec![val_of(&run, payload.clone())]));
    send(work, &start, sink);
    work.set_type(&Ty::Record(vec![Ty::Int, run.optional(), Ty::Bytes]));
    work.set_value(&Val::Record(vec![Val::Int(500)]));
    send(work, &payload, sink);
    let from = work.random.below(payload.len());
    for byte in [0xFF, 0x00] {
        payload[from..].fill(byte);
        send(work, &payload, sink);
    }
    payload[from + 1..].fill(0xFF);
    send(work, &payload, sink);
}

/// Records of many fields, with the name as one of the last.
fn wide(work: &mut Work, sink: &mut dyn Sink) {
    let random = &mut work.random;
    let count = wide_count(random);
    let fewer = random.below(count);
    let run = run_ty(random);
    let val = generate::fitting(random, &run);
    let start = some_start(random, payload_of(&val).unwrap_or(b"red"));
    work.set_type(&Ty::Record(vec![run; count]));
    for k in [fewer, count - 1, count, count + 1] {
        work.set_value(&Val::Record(vec![val.clone(); k]));
        send(work, &start, sink);
    }
}

// ---- names in and out

/// How many beginnings an input has, and behind how many choices of the first fields each is asked for.
const STARTS: usize = 4;
const CHOICES: usize = 3;

/// Names round the edge of what they begin with, behind first fields that they share more often than not. Which keys begin so is said by the
/// values alone.
pub fn begun(work: &mut Work, _input: u64, sink: &mut dyn Sink) {
    if !sink.takes(Kind::StartingWith) || !sink.takes(Kind::EncodeKey) {
        return;
    }
    let mut types = fields_of_some(&mut work.random);
    let k = work.random.below(types.len().max(1));
    let run = run_ty(&mut work.random);
    types.resize(types.len().max(1), Ty::Int);
    types[k] = run.clone();
    let mut pools: Vec<Vec<Val>> = Vec::new();
    for ty in &types {
        let more = work.random.below(3);
        pools.push(some_of(&mut work.random, ty, more));
    }
    let starts = starts_near(&mut work.random, &pools[k]);
    let mut names = pools[k].clone();
    names.extend(starts.iter().flat_map(|start| edge(&run, start)));
    work.set_type(&Ty::Record(types));
    let mut keys = Vec::new();
    for name in names {
        pools[k] = vec![name];
        keys.extend(key_of_some(work, &pools));
    }
    let spans = spans_of(work, &keys, &pools[..k], &starts);
    sink.members(&keys, &spans);
}

/// Nothing, a name's bytes or a part of them, or others.
fn starts_near(random: &mut Random, names: &[Val]) -> Vec<Vec<u8>> {
    let mut starts = vec![vec![]];
    while starts.len() < STARTS {
        let name = payload_of(&names[random.below(names.len())]).unwrap_or(b"red");
        starts.push(some_start(random, name));
    }
    starts
}

/// Each beginning behind some choices of the first fields, and which keys begin so.
fn spans_of(work: &mut Work, keys: &[Call], first: &[Vec<Val>], starts: &[Vec<u8>]) -> Vec<(Call, Vec<bool>)> {
    let mut spans = Vec::new();
    for start in starts {
        for _ in 0..CHOICES {
            let first = record_of_some(&mut work.random, first);
            work.set_value(&first);
            work.set_bytes(start);
            work.call.kind = Kind::StartingWith;
            spans.extend(held_by(work, keys));
        }
    }
    spans
}

/// The name s itself, s with more behind it, without its last byte, with another last one, and the blank, as far as they are of the type.
fn edge(run: &Ty, start: &[u8]) -> Vec<Val> {
    let behind: [&[u8]; 10] = [b"", b"\0", b"\x01", b"\xFF", b"\0\0", b"\0\xFF", b"\xFF\xFF", b"a", b"\x80", b"\xBF\xBF"];
    let mut names: Vec<Vec<u8>> = behind.map(|more| [start, more].concat()).into();
    if let Some((last, before)) = start.split_last() {
        let others: [&[u8]; 5] =
            [&[], &[last.wrapping_add(1)], &[last.wrapping_sub(1)], &[last.wrapping_sub(1), 0xFF], &[last.wrapping_add(1), 0]];
        names.extend(others.map(|other| [before, other].concat()));
    }
    // the first bytes above all that begin with s
    if let Some(at) = start.iter().rposition(|byte| *byte != 0xFF) {
        names.push([&start[..at], &[start[at] + 1]].concat());
    }
    match run {
        Ty::Optional(behind) => [edge(behind, start), vec![Val::Null]].concat(),
        Ty::Str => names.into_iter().filter(|name| std::str::from_utf8(name).is_ok()).map(Val::Str).collect(),
        _ => names.into_iter().map(Val::Bytes).collect(),
    }
}
