//! Random types with their values and keys, good, nearly good, damaged; and arguments of any sort.

use super::{DECODING, ENCODING, READERS, Work};
use crate::Sink;
use crate::generate::{self, TELLING};
use crate::random::Random;
use crate::tree::{Ty, Val};
use oracle::Kind;

fn some_type(work: &mut Work) -> Ty {
    let random = &mut work.random;
    let nodes = random.pick(&[1, 3, 6, 12, 24]);
    let ty = if random.one_in(2) { generate::record_ty(random, nodes) } else { generate::ty(random, nodes) };
    work.wanted(ty)
}

pub fn typed(work: &mut Work, _input: u64, sink: &mut dyn Sink) {
    let ty = some_type(work);
    let good = generate::fitting(&mut work.random, &ty);
    let mut val = good.clone();
    let sort = work.random.below(10);
    if sort < 4 {
        generate::unfit(&mut work.random, &mut val);
    }
    work.set_type(&ty);
    work.set_value(&val);
    match sort {
        4 => generate::spoil_sheet(&mut work.random, &mut work.call.words, &mut work.call.pool),
        5 if work.random.one_in(2) => generate::spoil_type(&mut work.random, &mut work.call.ty),
        _ => {}
    }
    work.send_all(&ENCODING, sink);

    let mut other = if work.random.one_in(3) { generate::value(&mut work.random, 6) } else { good.clone() };
    if work.random.one_in(2) {
        generate::unfit(&mut work.random, &mut other);
    }
    work.set_other(&other);
    work.send(Kind::Compare, sink);
    std::mem::swap(&mut work.call.words, &mut work.call.other_words);
    std::mem::swap(&mut work.call.pool, &mut work.call.other_pool);
    work.send(Kind::Compare, sink);

    // a key of the good value, or of the near one
    let keyed = if work.random.one_in(4) { &val } else { &good };
    let key = typed_or_key(work, keyed, 4);
    on_key(work, &ty, &key, sink);
}

/// The same good key damaged three times, and with one field ill-formed.
pub fn damaged(work: &mut Work, _input: u64, sink: &mut dyn Sink) {
    let ty = some_type(work);
    let val = generate::fitting(&mut work.random, &ty);
    let good = typed_or_key(work, &val, 3);
    work.set_type(&ty);
    for _ in 0..3 {
        let mut key = good.clone();
        for _ in 0..work.random.pick(&[1, 1, 1, 2, 2, 3]) {
            generate::damage(&mut work.random, &mut key);
        }
        on_key(work, &ty, &key, sink);
    }
    let mut ill = val;
    generate::ill_form(&mut work.random, &mut ill);
    let key = typed_or_key(work, &ill, 3);
    on_key(work, &ty, &key, sink);
}

/// A value's bytes, one in so many as a whole, the others as a key.
fn typed_or_key(work: &mut Work, val: &Val, one_in: usize) -> Vec<u8> {
    if work.random.one_in(one_in) {
        let mut bytes = Vec::new();
        val.write_bytes(&mut bytes);
        return bytes;
    }
    work.key_of(val)
}

/// Every call that takes a key.
fn on_key(work: &mut Work, ty: &Ty, key: &[u8], sink: &mut dyn Sink) {
    work.set_bytes(key);
    work.send_all(&DECODING, sink);
    work.send_all(&[Kind::Strinc, Kind::AboveField, Kind::Chars, Kind::Names], sink);
    work.send_all(&READERS, sink);
    let last = key.len().min(40) as u64 + 1;
    for start in 0..=last {
        work.skip_from(start, sink);
    }
    let fields = ty.field_count() as u64;
    let k = work.random.below(fields as usize + 2) as u64;
    for k in [0, k, fields, fields + 1] {
        work.send_with(Kind::Bounds, &[k], sink);
    }
    let field = work.random.below(fields as usize + 1) as u64;
    let new = match ty {
        Ty::Record(types) if (field as usize) < types.len() => generate::fitting(&mut work.random, &types[field as usize]),
        _ => generate::value(&mut work.random, 3),
    };
    work.set_value(&new);
    let room = key.len() + work.random.below(12);
    work.call.bytes.resize(room, work.random.pick(&[0xEE, 0x00, 0x48]));
    let used = match work.random.below(8) {
        0 => work.random.below(room + 3),
        _ => key.len(),
    };
    work.send_with(Kind::Replace, &[used as u64, field], sink);
    // back to the key
    work.call.bytes.truncate(key.len());
    if let Some(start) = key.iter().position(|byte| matches!(byte, 0x21 | 0x53)) {
        work.set_bytes(&key[start..]);
        work.send_all(&[Kind::GetStr, Kind::GetBytes, Kind::Chars, Kind::Names], sink);
    }
}

// ---- anything

fn any_number(random: &mut Random) -> u64 {
    match random.below(5) {
        0..=2 => random.below(10) as u64,
        3 => random.next() >> random.below(64),
        _ => u64::MAX - random.below(3) as u64,
    }
}

fn any_words(random: &mut Random) -> Vec<u64> {
    (0..random.below(12)).map(|_| if random.one_in(12) { any_number(random) } else { random.below(7) as u64 }).collect()
}

fn any_bytes(random: &mut Random) -> Vec<u8> {
    let telling = random.below(4);
    (0..random.below(16)).map(|_| if random.below(4) < telling { random.pick(&TELLING) } else { random.byte() }).collect()
}

pub fn wild(work: &mut Work, _input: u64, sink: &mut dyn Sink) {
    let good_type = work.random.one_in(2);
    let ty = some_type(work);
    let random = &mut work.random;
    let call = &mut work.call;
    call.ty = any_words(random).into_iter().map(|word| word as u32).collect();
    call.words = any_words(random);
    call.pool = any_bytes(random);
    call.other_words = any_words(random);
    call.other_pool = any_bytes(random);
    if random.one_in(2) {
        call.pool.truncate(random.below(3));
        call.other_pool.clear();
    }
    call.bytes = any_bytes(random);
    let numbers = [any_number(random), any_number(random), any_number(random)];
    if good_type {
        work.set_type(&ty);
    }
    work.send_all(&ENCODING, sink);
    work.send_all(&DECODING, sink);
    work.send_all(&[Kind::Compare, Kind::StartingWith], sink);
    work.send_all(&READERS, sink);
    work.send_all(&[Kind::Strinc, Kind::AboveField, Kind::Chars, Kind::Names], sink);
    for kind in [
        Kind::Skip,
        Kind::Bounds,
        Kind::Replace,
        Kind::PutI64,
        Kind::PutU64,
        Kind::PutStr,
        Kind::PutBytes,
        Kind::PutFactId,
        Kind::TakeNull,
        Kind::TakeI64,
        Kind::TakeU64,
        Kind::TakeFactId,
        Kind::TakeStr,
        Kind::TakeBytes,
        Kind::OpenRecord,
        Kind::OpenUnion,
        Kind::Close,
        Kind::IsRecordEnd,
        Kind::PutNull,
        Kind::PutRecord,
        Kind::PutUnion,
        Kind::PutEnd,
        Kind::CharsNext,
    ] {
        let mut given = numbers;
        match kind {
            Kind::Skip => given[1] &= 1,
            Kind::CharsNext => given[1] &= 1,
            Kind::PutUnion => given[2] &= 0xFFFF_FFFF,
            _ => {}
        }
        work.send_with(kind, &given, sink);
    }
    // the value under the random type, spoiled or not
    let val = generate::fitting(&mut work.random, &ty);
    work.set_type(&ty);
    work.set_value(&val);
    generate::spoil_sheet(&mut work.random, &mut work.call.words, &mut work.call.pool);
    if work.random.one_in(3) {
        generate::spoil_type(&mut work.random, &mut work.call.ty);
    }
    work.send_all(&ENCODING, sink);
    let key = work.key_of(&val);
    work.set_bytes(&key);
    work.send_all(&DECODING, sink);
    work.set_other(&Val::Null);
    work.send(Kind::Compare, sink);
}
