//! Random inputs crowded round one boundary each.

use super::{DECODING, ENCODING, READERS, Work};
use crate::Sink;
use crate::generate::{self, ILL_FORMED, TELLING};
use crate::random::Random;
use crate::tree::{Ty, Val, write_int, write_run, write_uint};
use fjord_schema::id::SEQUENCE_BITS;
use oracle::Kind;

// ---- integers, discriminants, references

pub fn integers(work: &mut Work, _input: u64, sink: &mut dyn Sink) {
    let word = generate::int(&mut work.random);
    let at = random_place(&mut work.random);
    work.send_with(Kind::PutI64, &[at, word], sink);
    work.send_with(Kind::PutU64, &[at, word], sink);
    work.send_with(Kind::PutFactId, &[at, word], sink);

    let mut bytes = Vec::new();
    let random = &mut work.random;
    match random.below(4) {
        0 => write_uint(word, &mut bytes),
        1 => write_int(word, &mut bytes),
        2 => any_width(random, word, &mut bytes),
        _ => {
            write_int(word, &mut bytes);
            generate::damage(random, &mut bytes);
        }
    }
    if random.one_in(3) {
        bytes.push(random.pick(&TELLING));
    }
    work.set_bytes(&bytes);
    work.send_all(&READERS, sink);
    work.skip_from(0, sink);
    for kind in [Kind::TakeI64, Kind::TakeU64, Kind::TakeFactId] {
        work.send_with(kind, &[0, 1], sink);
    }

    work.set_type(&Ty::Int);
    work.send_all(&DECODING, sink);
    work.set_value(&Val::Int(word));
    work.send_all(&ENCODING, sink);
    let other = generate::int(&mut work.random);
    work.set_other(&Val::Int(other));
    work.send(Kind::Compare, sink);

    references(work, word, sink);
    tags(work, sink);
}

/// A place of the writing calls, now and then past every buffer.
fn random_place(random: &mut Random) -> u64 {
    match random.below(8) {
        0..=4 => 0,
        5 | 6 => random.below(12) as u64,
        _ => random.pick(&[u64::MAX, u64::MAX - 1, u64::MAX - 9, 1 << 32, 1 << 63]),
    }
}

/// The low bytes of a word behind the mark of any width and sign, so that the shortest form is met or missed.
fn any_width(random: &mut Random, word: u64, out: &mut Vec<u8>) {
    let width = random.below(9);
    let word = word >> (8 * random.below(8));
    let (mark, word) = if random.one_in(2) { (0x48 + width as u8, word) } else { (0x48 - width as u8, !word) };
    out.push(mark);
    out.extend(&word.to_be_bytes()[8 - width..]);
}

fn references(work: &mut Work, word: u64, sink: &mut dyn Sink) {
    let predicate = generate::predicate(&mut work.random);
    let mut val = Val::Reference(generate::reference(&mut work.random, predicate));
    match work.random.below(4) {
        0 => generate::unfit(&mut work.random, &mut val),
        1 => val = Val::Reference(word),
        _ => {}
    }
    work.set_type(&Ty::Reference(predicate));
    work.set_value(&val);
    work.send_all(&ENCODING, sink);
    let mut bytes = Vec::new();
    val.write_bytes(&mut bytes);
    if work.random.one_in(4) {
        generate::damage(&mut work.random, &mut bytes);
    }
    work.set_bytes(&bytes);
    work.send_all(&DECODING, sink);
    work.send_with(Kind::TakeFactId, &[0, 0], sink);
    let raw = work.random.next() >> work.random.below(64);
    work.set_other(&Val::Reference(raw));
    work.send(Kind::Compare, sink);
}

/// A union's tag: any 64-bit number under a type with some of its neighbours.
fn tags(work: &mut Work, sink: &mut dyn Sink) {
    let random = &mut work.random;
    let disc = generate::disc(random);
    let known = [disc, disc.wrapping_add(1), generate::disc(random)];
    let first = random.below(3);
    let count = random.below(4 - first);
    let ty = Ty::Union(known[first..first + count].iter().map(|disc| (*disc, Ty::Int)).collect());
    let mut bytes = vec![0x52];
    match random.below(4) {
        0 => any_width(random, u64::from(disc), &mut bytes),
        1 => write_uint(u64::from(disc) | (1 << (32 + random.below(32))), &mut bytes),
        _ => write_uint(u64::from(disc), &mut bytes),
    }
    bytes.extend(&[0x48, 0x00][..random.between(0, 2)]);
    work.set_type(&ty);
    work.set_bytes(&bytes);
    work.send_all(&DECODING, sink);
    work.skip_from(0, sink);
    work.send_with(Kind::OpenUnion, &[0, 0], sink);
    work.set_value(&Val::Union(u64::from(disc), Box::new(Val::Int(0))));
    work.send_all(&ENCODING, sink);
    work.send_with(Kind::PutUnion, &[0, 0, u64::from(disc)], sink);
}

// ---- runs

const BLOCK_LENGTHS: [usize; 12] = [0, 8, 16, 32, 48, 64, 96, 128, 240, 256, 480, 512];

pub fn runs(work: &mut Work, _input: u64, sink: &mut dyn Sink) {
    let random = &mut work.random;
    let payload = some_payload(random);
    let mark = random.pick(&[0x21, 0x53]);
    let mut bytes = Vec::new();
    write_run(mark, &payload, &mut bytes);
    match random.below(6) {
        0 => generate::damage(random, &mut bytes),
        1 => bytes.push(random.pick(&[0x00, 0xFF, 0x48])),
        2 => {
            bytes.pop();
        }
        3 => bytes.truncate(random.between(bytes.len().saturating_sub(4), bytes.len())),
        _ => {}
    }

    work.set_bytes(&payload);
    let at = random_place(&mut work.random);
    work.send_with(Kind::PutStr, &[at], sink);
    work.send_with(Kind::PutBytes, &[at], sink);
    work.send_all(&[Kind::Strinc, Kind::AboveField], sink);
    let place = work.random.below(payload.len() + 2) as u64;
    work.send_with(Kind::CharsNext, &[place, 0], sink);

    work.set_bytes(&bytes);
    work.send_all(&[Kind::GetStr, Kind::GetBytes, Kind::Chars, Kind::Names], sink);
    work.skip_from(0, sink);
    work.send_with(Kind::TakeStr, &[0, 1], sink);
    work.send_with(Kind::TakeBytes, &[0, 1], sink);
    let (ty, val) = if mark == 0x21 { (Ty::Str, Val::Str(payload)) } else { (Ty::Bytes, Val::Bytes(payload)) };
    work.set_type(&ty);
    work.send_all(&DECODING, sink);
    work.set_value(&val);
    work.send_all(&ENCODING, sink);

    let mut other = val;
    if let Val::Str(payload) | Val::Bytes(payload) = &mut other {
        generate::damage(&mut work.random, payload);
    }
    work.set_other(&other);
    work.send(Kind::Compare, sink);
}

/// Short, or round the length of some blocks, or long.
pub(super) fn some_payload(random: &mut Random) -> Vec<u8> {
    let len = match random.below(8) {
        0..=2 => random.below(10),
        7 => random.below(1_500),
        _ => (random.pick(&BLOCK_LENGTHS) + random.below(5)).saturating_sub(2),
    };
    run_payload(random, len)
}

fn run_payload(random: &mut Random, len: usize) -> Vec<u8> {
    let mut payload = match random.below(6) {
        0 => vec![random.pick(&TELLING); len],
        1 => (0..len).map(|_| random.pick(&[0x00, 0xFF])).collect(),
        2 => generate::payload(random, len),
        3 => generate::text(random, len.div_ceil(2)),
        4 => "é€𐍈a".repeat(len / 8).into_bytes(),
        _ => vec![b'a'; len],
    };
    for _ in 0..random.below(4) {
        let at = random.below(payload.len() + 1);
        match random.below(4) {
            0 => payload.insert(at, 0),
            1 if at < payload.len() => payload[at] = 0,
            2 if random.one_in(3) => {
                payload.splice(at..at, random.pick(&ILL_FORMED).iter().copied());
            }
            _ => {
                let char = generate::text(random, 1);
                payload.splice(at..at, char);
            }
        }
    }
    payload
}

// ---- depths

pub fn depths(work: &mut Work, _input: u64, sink: &mut dyn Sink) {
    let random = &mut work.random;
    let groups = match random.below(8) {
        0..=3 => random.between(254, 258),
        4 | 5 => random.between(318, 322),
        _ => random.below(325),
    };
    let (mut ty, mut val) = match random.below(6) {
        0 => (Ty::Record(vec![]), Val::Record(vec![])),
        1 => (Ty::Union(vec![(4, Ty::Int)]), Val::Union(random.between(4, 5) as u64, Box::new(Val::Int(0)))),
        2 => (Ty::Int, Val::Null),
        3 => (Ty::Bytes, Val::Bytes(vec![0, 1])),
        _ => (Ty::Int, Val::Int(generate::int(random))),
    };
    let chain = random.pick(&[Chain::Records, Chain::Unions, Chain::Turns, Chain::Mixed, Chain::Wide]);
    for group in 0..groups {
        if work.optional && random.one_in(3) {
            ty = ty.optional();
            if group == 0 && random.one_in(2) || random.one_in(400) {
                val = Val::Null;
            }
        }
        (ty, val) = wrapped(random, chain, group, ty, val);
    }
    work.set_type(&ty);
    work.set_value(&val);
    work.send_all(&ENCODING, sink);

    let mut bytes = Vec::new();
    if work.random.one_in(2) {
        bytes = work.key_of(&val);
    } else {
        val.write_bytes(&mut bytes)
    };
    if work.random.one_in(3) {
        // at the bottom, where the depth tells
        let at = (bytes.len() / 2).saturating_sub(work.random.below(6));
        if at < bytes.len() {
            bytes[at] = work.random.pick(&TELLING);
        }
    }
    work.set_bytes(&bytes);
    work.send_all(&DECODING, sink);
    work.skip_from(0, sink);
    let start = work.random.below(6) as u64;
    work.skip_from(start, sink);

    let nodes = val.nodes();
    match val.node_mut(nodes - 1) {
        Val::Int(word) => *word ^= 1,
        node => *node = Val::Int(1),
    }
    work.set_other(&val);
    work.send(Kind::Compare, sink);
    work.call.other_words.clone_from(&work.call.words);
    work.call.other_pool.clone_from(&work.call.pool);
    work.send(Kind::Compare, sink);
}

/// How the groups of a chain follow one another.
#[derive(Clone, Copy)]
pub(super) enum Chain {
    Records,
    Unions,
    Turns,
    Mixed,
    /// with further fields and alternatives beside
    Wide,
}

/// A type and its value inside one more group.
pub(super) fn wrapped(random: &mut Random, chain: Chain, group: usize, ty: Ty, val: Val) -> (Ty, Val) {
    let union = match chain {
        Chain::Records => false,
        Chain::Unions => true,
        Chain::Turns => group % 2 == 0,
        Chain::Mixed | Chain::Wide => random.one_in(2),
    };
    if !union {
        return match random.below(if matches!(chain, Chain::Wide) { 6 } else { 1 }) {
            1 => (Ty::Record(vec![Ty::Int, ty]), Val::Record(vec![Val::Int(0), val])),
            2 => (Ty::Record(vec![ty, Ty::Int]), Val::Record(vec![val, Val::Int(0)])),
            _ => (Ty::Record(vec![ty]), Val::Record(vec![val])),
        };
    }
    let disc = if matches!(chain, Chain::Mixed | Chain::Wide) { random.below(3) as u32 } else { 3 };
    let mut alternatives = vec![(disc, ty)];
    if matches!(chain, Chain::Wide) && random.one_in(8) {
        alternatives.insert(0, (disc + 1, Ty::Record(vec![])));
    }
    (Ty::Union(alternatives), Val::Union(u64::from(disc), Box::new(val)))
}

// ---- counts

const COUNTS: [usize; 20] = [0, 1, 2, 3, 7, 8, 15, 16, 17, 63, 64, 65, 90, 255, 256, 257, 1_000, 2_046, 4_093, 4_094];

pub fn counts(work: &mut Work, _input: u64, sink: &mut dyn Sink) {
    let random = &mut work.random;
    let sizes = if random.one_in(8) { 20 } else { 16 };
    let count = random.pick(&COUNTS[..sizes]);
    let (ty, val) = if random.one_in(2) { wide_record(random, count) } else { wide_union(random, count) };
    let (ty, val) =
        if random.one_in(2) && count < 1_000 { (Ty::Record(vec![Ty::Int, ty]), Val::Record(vec![Val::Int(1), val])) } else { (ty, val) };
    work.set_type(&ty);
    work.set_value(&val);
    if work.random.one_in(6) {
        // a count that the sheet does not keep
        let at = work.random.below(work.call.words.len());
        work.call.words[at] = work.random.pick(&[count as u64 + 1, u64::MAX, 1 << 32, 1 << 40, 0]);
    }
    if work.random.one_in(12) {
        let at = work.random.below(work.call.ty.len());
        work.call.ty[at] = work.random.pick(&[count as u32 + 1, u32::MAX, 1 << 31, 0]);
    }
    work.send_all(&ENCODING, sink);
    let mut bytes = Vec::new();
    if work.random.one_in(2) {
        val.write_key(&mut bytes)
    } else {
        val.write_bytes(&mut bytes)
    };
    if work.random.one_in(3) {
        generate::damage(&mut work.random, &mut bytes);
    }
    work.set_bytes(&bytes);
    work.send_all(&DECODING, sink);
    work.skip_from(0, sink);
    let fields = ty.field_count();
    for k in [0, work.random.below(fields + 1), fields, fields + 1] {
        work.send_with(Kind::Bounds, &[k as u64], sink);
    }
    let mut other = val;
    generate::unfit(&mut work.random, &mut other);
    work.set_other(&other);
    work.send(Kind::Compare, sink);
}

fn wide_record(random: &mut Random, count: usize) -> (Ty, Val) {
    let ty = match random.below(4) {
        0 => Ty::Bytes,
        1 => Ty::Str,
        _ => Ty::Int,
    };
    let mut fields: Vec<Val> = (0..count).map(|i| if i % 7 == 0 { generate::fitting(random, &ty) } else { small_of(&ty) }).collect();
    match random.below(5) {
        0 => fields.push(Val::Int(0)),
        1 => {
            fields.pop();
        }
        _ => {}
    }
    (Ty::Record(vec![ty; count]), Val::Record(fields))
}

fn small_of(ty: &Ty) -> Val {
    match ty {
        Ty::Str => Val::Str(vec![]),
        Ty::Bytes => Val::Bytes(vec![0]),
        _ => Val::Int(7),
    }
}

fn wide_union(random: &mut Random, count: usize) -> (Ty, Val) {
    let count = count.min(1_364);
    let alternatives: Vec<(u32, Ty)> = (0..count)
        .map(|i| {
            let disc = if random.one_in(50) { random.below(count) } else { i };
            (disc as u32, if i % 3 == 0 { Ty::Record(vec![]) } else { Ty::Int })
        })
        .collect();
    let any = random.below(count + 1);
    let disc = random.pick(&[0, count.saturating_sub(1), count, any]);
    let payload = if disc % 3 == 0 { Val::Record(vec![]) } else { Val::Int(generate::int(random)) };
    (Ty::Union(alternatives), Val::Union(disc as u64, Box::new(payload)))
}

// ---- lengths

pub fn lengths(work: &mut Work, _input: u64, sink: &mut dyn Sink) {
    let random = &mut work.random;
    let length = match random.below(6) {
        0 => random.between(65_000, 72_000),
        _ => random.between(65_529, 65_534),
    };
    let (ty, val) = long_key(random, length);
    work.set_type(&ty);
    work.set_value(&val);
    work.send_all(&ENCODING, sink);
    let mut key = Vec::new();
    val.write_key(&mut key);
    work.set_bytes(&key);
    work.send_all(&DECODING, sink);
    work.skip_from(0, sink);
    work.send(Kind::AboveField, sink);
    work.send(Kind::Strinc, sink);
    let fields = ty.field_count();
    for k in 0..=fields + 1 {
        work.send_with(Kind::Bounds, &[k as u64], sink);
    }
    long_replacements(work, &ty, &key, sink);
}

/// A type and a value whose key has this length.
fn long_key(random: &mut Random, length: usize) -> (Ty, Val) {
    let shape = random.below(5);
    let beside = match shape {
        0 | 1 => 2,
        2 => 2 + 2,
        3 => 2 + 3 + 2,
        _ => 2 + 7,
    };
    let run = length - beside;
    let zeros = match random.below(4) {
        0 => 0,
        1 => 1,
        2 => random.below(run / 2),
        _ => run / 2,
    };
    // bytes and the escapes of its zeros make up the run
    let mut payload = vec![random.pick(&[0x01, 0x61, 0x7F]); run - zeros];
    if zeros == run / 2 {
        payload[..zeros].fill(0);
    } else {
        let mut placed = 0;
        while placed < zeros {
            let at = random.below(payload.len());
            if payload[at] != 0 {
                payload[at] = 0;
                placed += 1;
            }
        }
    }
    match shape {
        0 => (Ty::Bytes, Val::Bytes(payload)),
        1 => (Ty::Str, Val::Str(payload)),
        2 => (Ty::Record(vec![Ty::Bytes, Ty::Int]), Val::Record(vec![Val::Bytes(payload), Val::Int(7)])),
        3 => (Ty::Record(vec![Ty::Int, Ty::Str, Ty::Bytes]), Val::Record(vec![Val::Int(500), Val::Str(payload), Val::Bytes(vec![])])),
        _ => (
            Ty::Record(vec![Ty::Record(vec![Ty::Bytes, Ty::Union(vec![(1, Ty::Int)])])]),
            Val::Record(vec![Val::Record(vec![Val::Bytes(payload), Val::Union(1, Box::new(Val::Int(0)))])]),
        ),
    }
}

fn long_replacements(work: &mut Work, ty: &Ty, key: &[u8], sink: &mut dyn Sink) {
    let Ty::Record(fields) = ty else { return };
    for _ in 0..2 {
        let random = &mut work.random;
        let field = random.below(fields.len());
        let new = match &fields[field] {
            Ty::Bytes | Ty::Str => {
                let len = match random.below(3) {
                    0 => random.below(20),
                    _ => random.between(65_515, 65_532),
                };
                let payload = vec![b'a'; len];
                if matches!(fields[field], Ty::Str) { Val::Str(payload) } else { Val::Bytes(payload) }
            }
            other => generate::fitting(random, other),
        };
        let room = key.len() + random.pick(&[0, 1, 2, 10, 5_000]);
        work.set_bytes(key);
        work.call.bytes.resize(room, 0xEE);
        work.set_value(&new);
        work.send_with(Kind::Replace, &[key.len() as u64, field as u64], sink);
    }
}

// ---- limits

pub fn limits(work: &mut Work, input: u64, sink: &mut dyn Sink) {
    match input % 3 {
        0 => long_values(work, sink),
        1 => large_pools(work, sink),
        _ => large_replacement(work, sink),
    }
}

pub fn long_types(work: &mut Work, _input: u64, sink: &mut dyn Sink) {
    let words = work.random.between(4_094, 4_098);
    let (ty, val) = match work.random.below(3) {
        0 => (Ty::Record(vec![Ty::Int; words - 2]), Val::Record(vec![Val::Int(0); words - 2])),
        1 => {
            // pairs of a discriminant and a type behind two words, or with a reference's predicate one more
            let mut alternatives: Vec<(u32, Ty)> = (0..(words - 2) / 2).map(|disc| (disc as u32, Ty::Int)).collect();
            if words % 2 == 1 {
                alternatives[0].1 = Ty::Reference(1);
            }
            let last = alternatives.len() as u64 - 1;
            (Ty::Union(alternatives), Val::Union(last, Box::new(Val::Int(5))))
        }
        _ => {
            let mut fields = vec![Ty::Reference(7); (words - 2) / 2];
            if words % 2 == 1 {
                fields.push(Ty::Int);
            }
            let vals = fields
                .iter()
                .map(|ty| if matches!(ty, Ty::Int) { Val::Int(0) } else { Val::Reference((7 << SEQUENCE_BITS) | 1) })
                .collect();
            (Ty::Record(fields), Val::Record(vals))
        }
    };
    work.set_type(&ty);
    work.set_value(&val);
    work.send_all(&ENCODING, sink);
    let mut bytes = Vec::new();
    val.write_key(&mut bytes);
    work.set_bytes(&bytes);
    work.send_all(&DECODING, sink);
    let fields = ty.field_count() as u64;
    work.send_with(Kind::Bounds, &[fields], sink);
    work.set_value(&Val::Int(300));
    work.call.bytes.resize(bytes.len() + 9, 0xEE);
    work.send_with(Kind::Replace, &[bytes.len() as u64, fields.saturating_sub(1)], sink);
}

const LIMIT: usize = 1_048_576;

fn near_limit(random: &mut Random) -> usize {
    random.between(LIMIT - 1, LIMIT + 1)
}

fn long_values(work: &mut Work, sink: &mut dyn Sink) {
    let words = near_limit(&mut work.random);
    work.call.words = vec![5, words as u64 - 2];
    work.call.words.resize(words, 0);
    work.call.pool.clear();
    let ty = work.random.pick(&[0, 1]);
    work.set_type(&[Ty::Int, Ty::Record(vec![Ty::Int])][ty]);
    work.send_all(&ENCODING, sink);
    work.call.other_words.clone_from(&work.call.words);
    work.call.other_pool.clear();
    if work.random.one_in(2) {
        work.call.other_words.pop();
        work.call.other_words[1] -= 1;
    }
    work.send(Kind::Compare, sink);

    // as the first values before a name
    work.call.ty = vec![5, 1, 2];
    work.call.bytes.clear();
    work.send(Kind::StartingWith, sink);

    // as each sheet of a span
    work.call.ty = vec![5, 1, 1];
    work.set_third(&Val::Int(0));
    work.send(Kind::Span, sink);
    work.set_value(&Val::Record(vec![]));
    work.send(Kind::Span, sink);
    work.call.third_words = std::mem::take(&mut work.call.other_words);
    work.set_other(&Val::Int(0));
    work.send(Kind::Span, sink);
    work.call.third_words.clear();
}

fn large_pools(work: &mut Work, sink: &mut dyn Sink) {
    let len = near_limit(&mut work.random);
    let byte = work.random.pick(&[0x00, 0x61]);
    let (ty, val) = match work.random.below(2) {
        0 => (Ty::Bytes, Val::Bytes(vec![byte; len])),
        _ => (Ty::Str, Val::Str(vec![byte; len])),
    };
    work.set_type(&ty);
    work.set_value(&val);
    work.send_all(&ENCODING, sink);
    let mut bytes = Vec::new();
    val.write_bytes(&mut bytes);
    work.set_bytes(&bytes);
    work.send_all(&DECODING, sink);
    work.send_all(&[Kind::GetStr, Kind::GetBytes], sink);
    work.skip_from(0, sink);
    work.call.other_words.clone_from(&work.call.words);
    work.call.other_pool.clone_from(&work.call.pool);
    work.send(Kind::Compare, sink);

    // as all three sheets of a span, each of which has the limit for itself, and as one
    let [int, kind] = [1, work.call.ty[0]];
    work.call.third_words.clone_from(&work.call.words);
    work.call.third_pool.clone_from(&work.call.pool);
    work.call.words = vec![5, 1, u64::from(kind), len as u64];
    work.call.ty = vec![5, 2, kind, kind];
    work.send(Kind::Span, sink);
    work.set_other(&Val::Int(0));
    work.set_third(&Val::Int(0));
    work.call.ty = vec![5, 2, kind, int];
    work.send(Kind::Span, sink);

    // as what a name begins with, which has no limit, and as the first value before it
    work.call.bytes.clone_from(&work.call.pool);
    work.call.ty = vec![5, 2, kind, kind];
    work.send(Kind::StartingWith, sink);
    work.call.bytes.push(0xFF);
    work.set_value(&Val::Record(vec![]));
    work.send(Kind::StartingWith, sink);
}

/// The changed record is no sheet: it may pass the limits through the new value.
fn large_replacement(work: &mut Work, sink: &mut dyn Sink) {
    let words = near_limit(&mut work.random);
    work.set_type(&Ty::Record(vec![Ty::Int, Ty::Bytes]));
    work.set_bytes(&[0x48, 0x53, 0x0A, 0x00, 0xEE, 0xEE]);
    work.call.pool.clear();
    work.call.words = vec![5, words as u64 - 2];
    work.call.words.resize(words, 0);
    let field = work.random.below(3) as u64;
    work.send_with(Kind::Replace, &[4, field], sink);
    let len = near_limit(&mut work.random);
    work.set_value(&Val::Bytes(vec![0x01; len]));
    work.send_with(Kind::Replace, &[4, field], sink);
}
