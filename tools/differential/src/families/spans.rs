//! Spans on the next field: short sheets exhaustively, random ones round every boundary, and keys in and out of spans by their values.

use super::Work;
use super::boundary::{Chain, wrapped};
use super::exhaustive::{sheets_up_to, type_sheet};
use crate::Sink;
use crate::generate;
use crate::random::Random;
use crate::tree::{Ty, Val};
use fjord_schema::id::SEQUENCE_BITS;
use oracle::line::write_call;
use oracle::members::holds;
use oracle::optional::admit_type;
use oracle::{Call, Kind};

// ---- short sheets

/// Types of more words: with a group, a union or an optional part as the next field, and with fields before and behind it.
const TYPES: [&[u32]; 14] = [
    &[5, 3, 1, 2, 3],
    &[5, 3, 3, 1, 1],
    &[5, 1, 5, 1, 1],
    &[5, 1, 5, 1, 7, 1],
    &[5, 2, 5, 0, 1],
    &[5, 2, 3, 5, 1, 1],
    &[5, 2, 3, 4, 7],
    &[5, 1, 6, 1, 1, 1],
    &[5, 1, 6, 2, 1, 1, 2, 2],
    &[5, 2, 3, 6, 1, 1, 7, 1],
    &[5, 2, 3, 7, 1],
    &[5, 2, 7, 3, 1],
    &[5, 3, 7, 1, 7, 2, 7, 3],
    &[7, 5, 2, 3, 1],
];

/// A sheet's words and pool.
pub(super) type Short = (&'static [u64], &'static [u8]);

const REFERENCE: u64 = (7 << SEQUENCE_BITS) + 1;

/// Not admitted; of another kind; records of 0, 1, 2 and 3 fields.
pub(super) const FIRSTS: [Short; 25] = [
    (&[], &[]),
    (&[9], &[]),
    (&[5, 1], &[]),
    (&[5, 1, 3, 1], &[]),
    (&[0], &[]),
    (&[1, 0], &[]),
    (&[3, 1], &[0x0A]),
    (&[6, 1, 0], &[]),
    (&[5, 0], &[]),
    (&[5, 1, 0], &[]),
    (&[5, 1, 1, 0], &[]),
    (&[5, 1, 2, 1], b"a"),
    (&[5, 1, 3, 1], &[0x0A]),
    (&[5, 1, 3, 2], &[0x0A, 0x00]),
    (&[5, 1, 4, REFERENCE], &[]),
    (&[5, 1, 4, 0], &[]),
    (&[5, 1, 5, 0], &[]),
    (&[5, 1, 5, 1, 1, 0], &[]),
    (&[5, 1, 6, 1, 0], &[]),
    (&[5, 1, 6, 1, 1, 0], &[]),
    (&[5, 2, 0, 0], &[]),
    (&[5, 2, 1, 0, 1, 0], &[]),
    (&[5, 2, 1, 0, 2, 0], &[]),
    (&[5, 2, 3, 1, 1, 7], &[0x0A]),
    (&[5, 3, 0, 0, 0], &[]),
];

/// The lowest and the highest: not admitted, and two or more of each kind.
const VALUES: [Short; 18] = [
    (&[9], &[]),
    (&[2, 1], &[0x80]),
    (&[0], &[]),
    (&[1, 0], &[]),
    (&[1, u64::MAX], &[]),
    (&[2, 0], &[]),
    (&[2, 1], b"a"),
    (&[3, 1], &[0x0A]),
    (&[3, 2], &[0x0A, 0x00]),
    (&[4, 0], &[]),
    (&[4, REFERENCE], &[]),
    (&[5, 0], &[]),
    (&[5, 1, 0], &[]),
    (&[5, 1, 1, 0], &[]),
    (&[6, 1, 0], &[]),
    (&[6, 1, 1, 0], &[]),
    (&[6, 2, 2, 0], &[]),
    (&[6, 3, 1, 0], &[]),
];

const SHORT_TYPES: u64 = sheets_up_to(5);
pub const SPANS5_INPUTS: u64 = TYPES.len() as u64 + SHORT_TYPES;

pub fn spans5(work: &mut Work, input: u64, sink: &mut dyn Sink) {
    work.call.ty = match input.checked_sub(TYPES.len() as u64) {
        None => TYPES[input as usize].to_vec(),
        Some(number) => type_sheet(number),
    };
    // a sheet that is not admitted is refused whatever the others are
    let admitted = admit_type(&work.call.ty).is_some();
    let (firsts, values) = if admitted { (&FIRSTS[..], &VALUES[..]) } else { (&FIRSTS[7..10], &VALUES[1..4]) };
    for (words, pool) in firsts {
        (work.call.words, work.call.pool) = (words.to_vec(), pool.to_vec());
        for (words, pool) in values {
            (work.call.other_words, work.call.other_pool) = (words.to_vec(), pool.to_vec());
            for (words, pool) in values {
                (work.call.third_words, work.call.third_pool) = (words.to_vec(), pool.to_vec());
                work.send(Kind::Span, sink);
            }
        }
    }
}

// ---- random sheets

pub fn spans(work: &mut Work, _input: u64, sink: &mut dyn Sink) {
    match work.random.below(160) {
        0..=3 => deep(work, sink),
        4 => long(work, sink),
        5 => wide(work, sink),
        _ => some(work, sink),
    }
}

fn send(work: &mut Work, first: Val, lowest: &Val, highest: &Val, sink: &mut dyn Sink) {
    work.set_value(&first);
    work.set_other(lowest);
    work.set_third(highest);
    work.send(Kind::Span, sink);
}

/// A record type, with word 7 in half of them.
pub(super) fn fields_of_some(random: &mut Random) -> Vec<Ty> {
    let nodes = random.pick(&[2, 6, 12]);
    let Ty::Record(mut types) = generate::record_ty(random, nodes) else { unreachable!("a record type") };
    if random.one_in(2) {
        types = types.into_iter().map(|ty| generate::with_optional(random, ty)).collect();
    }
    types
}

fn some(work: &mut Work, sink: &mut dyn Sink) {
    let types = fields_of_some(&mut work.random);
    let Val::Record(fields) = generate::fitting(&mut work.random, &Ty::Record(types.clone())) else { unreachable!("a record") };
    held_to_bounds(work, &types, &fields);
    for k in 0..=types.len() + 1 {
        set_fields(work, &types);
        at_count(work, &types, &fields, k, sink);
    }
}

/// The record type of these fields; now and then optional, ill-formed, or another type.
pub(super) fn set_fields(work: &mut Work, types: &[Ty]) {
    work.set_type(&Ty::Record(types.to_vec()));
    match work.random.below(24) {
        0 => work.call.ty.insert(0, 7),
        1 => generate::spoil_type(&mut work.random, &mut work.call.ty),
        2 => {
            let other = generate::ty(&mut work.random, 6);
            work.set_type(&other);
        }
        _ => {}
    }
}

/// The first k values, one more than there are too.
pub(super) fn first_of(random: &mut Random, fields: &[Val], k: usize) -> Val {
    let mut first = fields[..k.min(fields.len())].to_vec();
    if k > fields.len() {
        first.push(generate::value(random, 3));
    }
    Val::Record(first)
}

/// A span of k first fields: good, or with values that do not fit, or with a sheet that is not admitted; also the other way round.
fn at_count(work: &mut Work, types: &[Ty], fields: &[Val], k: usize, sink: &mut dyn Sink) {
    let random = &mut work.random;
    let mut first = first_of(random, fields, k);
    let (mut lowest, mut highest) = match types.get(k) {
        Some(next) => {
            let lowest = if random.one_in(2) { fields[k].clone() } else { generate::fitting(random, next) };
            let highest = match random.below(4) {
                0 => lowest.clone(),
                1 => generate::near(random, next, &lowest),
                _ => generate::fitting(random, next),
            };
            (lowest, highest)
        }
        None => (generate::value(random, 3), generate::value(random, 3)),
    };
    let unfit = random.below(16);
    for (bit, val) in [(1, &mut first), (2, &mut lowest), (4, &mut highest)] {
        if unfit < 8 && unfit & bit != 0 {
            generate::unfit(random, val);
        }
    }
    if random.one_in(24) {
        first = generate::value(random, 3);
    }
    work.set_value(&first);
    work.set_other(&lowest);
    work.set_third(&highest);
    let call = &mut work.call;
    match work.random.below(24) {
        0 => generate::spoil_sheet(&mut work.random, &mut call.words, &mut call.pool),
        1 => generate::spoil_sheet(&mut work.random, &mut call.other_words, &mut call.other_pool),
        2 => generate::spoil_sheet(&mut work.random, &mut call.third_words, &mut call.third_pool),
        _ => {}
    }
    work.send(Kind::Span, sink);
    std::mem::swap(&mut work.call.other_words, &mut work.call.third_words);
    std::mem::swap(&mut work.call.other_pool, &mut work.call.third_pool);
    work.send(Kind::Span, sink);
}

/// From a value to itself the ends are the bounds of one field more, by the original's calls alone.
fn held_to_bounds(work: &mut Work, types: &[Ty], fields: &[Val]) {
    work.set_type(&Ty::Record(types.to_vec()));
    work.set_value(&Val::Record(fields.to_vec()));
    work.call.kind = Kind::EncodeKey;
    work.oracle.run(&work.call);
    if work.oracle.outcome.answer.refusal != 0 {
        return;
    }
    work.call.bytes.clone_from(&work.oracle.outcome.bytes);
    for (k, field) in fields.iter().enumerate() {
        work.call.kind = Kind::Bounds;
        work.call.numbers = [k as u64 + 1, 0, 0];
        work.oracle.run(&work.call);
        let (lower, upper) = (work.oracle.outcome.bytes.clone(), work.oracle.outcome.pool.clone());
        work.set_value(&Val::Record(fields[..k].to_vec()));
        work.set_other(field);
        work.set_third(field);
        work.call.kind = Kind::Span;
        work.oracle.run(&work.call);
        let outcome = &work.oracle.outcome;
        if outcome.answer.refusal != 0 || outcome.bytes != lower || outcome.pool != upper {
            let mut text = String::new();
            write_call(&mut text, &work.call);
            panic!("a span of one value and the bounds part: {text}");
        }
    }
}

/// A chain of 254 to 258 groups, or round the 320 that a sheet may have, and its value.
pub(super) fn deep_field(random: &mut Random) -> (Ty, Val) {
    let groups = if random.one_in(4) { random.between(316, 321) } else { random.between(254, 258) };
    let chain = random.pick(&[Chain::Records, Chain::Unions, Chain::Turns, Chain::Mixed, Chain::Wide]);
    let (mut ty, mut val) = (Ty::Int, Val::Int(generate::int(random)));
    if random.one_in(3) {
        (ty, val) = (ty.optional(), random.pick(&[Some(0), None]).map_or(Val::Null, Val::Int));
    }
    for group in 0..groups {
        (ty, val) = wrapped(random, chain, group, ty, val);
    }
    (ty, val)
}

/// Deep as the lowest, as the highest, as both, and among the first fields.
fn deep(work: &mut Work, sink: &mut dyn Sink) {
    let random = &mut work.random;
    let (ty, val) = deep_field(random);
    let near = generate::near(random, &ty, &val);
    let empty = || Val::Record(vec![]);
    work.set_type(&Ty::Record(vec![ty.clone(), Ty::Int]));
    send(work, empty(), &val, &near, sink);
    send(work, empty(), &Val::Null, &val, sink);
    send(work, Val::Record(vec![val.clone()]), &Val::Int(0), &Val::Int(1), sink);
    send(work, Val::Record(vec![near]), &Val::Int(0), &Val::Null, sink);
    // one end alone is deep
    work.set_type(&Ty::Record(vec![Ty::Int, ty.clone().optional()]));
    send(work, Val::Record(vec![Val::Int(0)]), &Val::Null, &val, sink);
    send(work, Val::Record(vec![Val::Int(0)]), &val, &Val::Null, sink);
    send(work, Val::Record(vec![Val::Int(0)]), &val, &Val::Str(vec![]), sink);
    work.set_type(&Ty::Record(vec![Ty::Union(vec![(1, Ty::Int), (2, ty)])]));
    let (shallow, deeper) = (Val::Union(1, Box::new(Val::Int(0))), Val::Union(2, Box::new(val)));
    send(work, empty(), &shallow, &deeper, sink);
    send(work, empty(), &deeper, &shallow, sink);
}

/// A Str or Bytes round the longest key's 65,531 bytes and past a length of 16 bits.
pub(super) fn long_run(random: &mut Random) -> (Ty, Vec<u8>) {
    let len = match random.below(4) {
        0 => random.between(60_000, 71_000),
        _ => random.between(65_520, 65_540),
    };
    let mut payload = vec![random.pick(&[0x01, 0x61, 0x7F]); len];
    if random.one_in(3) {
        let at = random.below(len / 2);
        payload.truncate(len - at);
        payload[..at].fill(0);
    }
    (if random.one_in(2) { Ty::Bytes } else { Ty::Str }, payload)
}

/// The Str or Bytes with this payload.
pub(super) fn val_of(run: &Ty, payload: Vec<u8>) -> Val {
    if matches!(run, Ty::Str) { Val::Str(payload) } else { Val::Bytes(payload) }
}

/// Long ends, by the first fields or by the lowest and the highest.
fn long(work: &mut Work, sink: &mut dyn Sink) {
    let random = &mut work.random;
    let (run, payload) = long_run(random);
    let other = val_of(&run, payload);
    let small = generate::fitting(random, &run);
    let number = || Val::Record(vec![Val::Int(500)]);
    let [low, high] = [generate::int(random), generate::int(random)].map(Val::Int);
    work.set_type(&Ty::Record(vec![run.clone(), Ty::Int]));
    send(work, Val::Record(vec![other.clone()]), &low, &high, sink);
    send(work, Val::Record(vec![other.clone()]), &low, &Val::Null, sink);
    work.set_type(&Ty::Record(vec![Ty::Int, run.clone(), Ty::Bytes]));
    send(work, number(), &small, &other, sink);
    send(work, number(), &other, &small, sink);
    send(work, number(), &other, &other, sink);
}

/// Many fields; as types of up to 4,098 words too.
pub(super) fn wide_count(random: &mut Random) -> usize {
    match random.below(3) {
        0 => random.between(60, 70),
        1 => random.between(250, 260),
        _ => random.between(4_091, 4_096),
    }
}

/// Records of many fields, with the span on one of the last.
fn wide(work: &mut Work, sink: &mut dyn Sink) {
    let random = &mut work.random;
    let count = wide_count(random);
    let ty = random.pick(&[0, 1]);
    let (ty, val) = [(Ty::Int, Val::Int(7)), (Ty::Bytes, Val::Bytes(vec![0]))][ty].clone();
    let near = generate::near(random, &ty, &val);
    let fewer = random.below(count);
    work.set_type(&Ty::Record(vec![ty; count]));
    for k in [fewer, count - 1, count, count + 1] {
        send(work, Val::Record(vec![val.clone(); k]), &val, &near, sink);
    }
}

// ---- keys in and out of spans

/// How many keys an input has, and how many spans on them.
const KEYS: usize = 24;
const SPANS: usize = 12;

/// Keys that share their first k fields more often than not, with the next field from few values that are near one another; spans between
/// those values. Which keys a span holds is said by the original's order of values alone.
pub fn members(work: &mut Work, _input: u64, sink: &mut dyn Sink) {
    if !sink.takes(Kind::Span) || !sink.takes(Kind::EncodeKey) {
        return;
    }
    let types = fields_of_some(&mut work.random);
    if types.is_empty() {
        return;
    }
    let k = work.random.below(types.len());
    let pools: Vec<Vec<Val>> = (0..types.len())
        .map(|i| {
            let more = if i == k { 6 } else { work.random.below(3) };
            some_of(&mut work.random, &types[i], more)
        })
        .collect();
    work.set_type(&Ty::Record(types));
    let keys: Vec<Call> = (0..KEYS).filter_map(|_| key_of_some(work, &pools)).collect();
    if keys.is_empty() {
        return;
    }
    let mut spans = Vec::new();
    for _ in 0..SPANS {
        let lowest = &pools[k][work.random.below(pools[k].len())];
        let highest = &pools[k][work.random.below(pools[k].len())];
        let first = record_of_some(&mut work.random, &pools[..k]);
        work.set_value(&first);
        work.set_other(lowest);
        work.set_third(highest);
        work.call.kind = Kind::Span;
        spans.extend(held_by(work, &keys));
    }
    sink.members(&keys, &spans);
}

/// The span at hand where the original accepts it, and which of the keys it holds by their values.
pub(super) fn held_by(work: &mut Work, keys: &[Call]) -> Option<(Call, Vec<bool>)> {
    work.oracle.run(&work.call);
    let held = || keys.iter().map(|key| holds(&work.call, key)).collect();
    (work.oracle.outcome.answer.refusal == 0).then(|| (work.call.clone(), held()))
}

/// A value of a type, and so many more that are near it or one another.
pub(super) fn some_of(random: &mut Random, ty: &Ty, more: usize) -> Vec<Val> {
    let mut vals = vec![generate::fitting(random, ty)];
    for _ in 0..more {
        let of = random.below(vals.len());
        let val = if random.one_in(4) { generate::fitting(random, ty) } else { generate::near(random, ty, &vals[of]) };
        vals.push(val);
    }
    vals
}

/// A record with each field from its values.
pub(super) fn record_of_some(random: &mut Random, pools: &[Vec<Val>]) -> Val {
    Val::Record(pools.iter().map(|pool| pool[random.below(pool.len())].clone()).collect())
}

/// Such a record as a call of encode_key that the original accepts.
pub(super) fn key_of_some(work: &mut Work, pools: &[Vec<Val>]) -> Option<Call> {
    let val = record_of_some(&mut work.random, pools);
    work.set_value(&val);
    let key = Call { ty: work.call.ty.clone(), words: work.call.words.clone(), pool: work.call.pool.clone(), ..Call::new(Kind::EncodeKey) };
    work.oracle.run(&key);
    (work.oracle.outcome.answer.refusal == 0).then_some(key)
}
