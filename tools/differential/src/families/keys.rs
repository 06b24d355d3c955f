//! Lists of replacements on one buffer, and bounds after each, against the plain book.

use super::Work;
use crate::Sink;
use crate::generate;
use crate::random::Random;
use crate::tree::{Ty, Val};
use oracle::Kind;
use oracle::book::Book;
use oracle::line::{whole_after, write_call};
use oracle::room::answer_in_room;

pub fn book(work: &mut Work, _input: u64, sink: &mut dyn Sink) {
    if !sink.takes(Kind::Replace) {
        return;
    }
    let nodes = work.random.pick(&[2, 6, 12]);
    let mut ty = generate::record_ty(&mut work.random, nodes);
    if let Ty::Record(fields) = &mut ty {
        fields.iter_mut().for_each(|field| *field = work.wanted(field.clone()));
    }
    let Ty::Record(types) = &ty else { unreachable!("a record type") };
    let val = generate::fitting(&mut work.random, &ty);
    work.set_type(&ty);
    work.set_value(&val);
    let key = work.key_of(&val);
    let room = key.len() + work.random.pick(&[0, 0, 1, 2, 5, 20, 80, 600]);
    let buffer = (0..room).map(|_| work.random.byte()).collect();
    let Some(mut book) = Book::begin(&work.call.ty, &work.call.words, &work.call.pool, buffer) else { return };

    for _ in 0..work.random.between(1, 12) {
        let field = field_number(&mut work.random, types.len());
        let new = new_value(&mut work.random, types, field);
        work.set_value(&new);
        if work.random.one_in(10) {
            generate::spoil_sheet(&mut work.random, &mut work.call.words, &mut work.call.pool);
        }
        replacement(work, &mut book, field, sink);
        bounds_of(work, &book, types.len(), sink);
    }
}

fn field_number(random: &mut Random, count: usize) -> u64 {
    match random.below(10) {
        0 => random.between(count, count + 2) as u64,
        1 if random.one_in(4) => random.pick(&[u64::MAX, 1 << 32, 1 << 63]),
        _ => random.below(count.max(1)) as u64,
    }
}

fn new_value(random: &mut Random, types: &[Ty], field: u64) -> Val {
    let Some(ty) = usize::try_from(field).ok().and_then(|field| types.get(field)) else {
        return generate::value(random, 3);
    };
    let mut val = generate::fitting(random, ty);
    if random.one_in(6) {
        generate::unfit(random, &mut val);
    }
    val
}

/// One call of the list: by the original composed, and by the book, which must agree.
fn replacement(work: &mut Work, book: &mut Book, field: u64, sink: &mut dyn Sink) {
    let used = book.used;
    work.call.kind = Kind::Replace;
    work.call.bytes.clone_from(&book.buffer);
    work.call.numbers = [used as u64, field, 0];
    let call = &mut work.call;
    sink.call(call);

    work.oracle.run(call);
    let composed = answer_in_room(call, &work.oracle.outcome);
    let after = whole_after(call, &composed, &work.oracle.outcome);
    let answer = book.enter(field, &call.words, &call.pool);
    if answer != composed || after != book.buffer {
        let mut text = String::new();
        write_call(&mut text, call);
        panic!("the plain book and the original composed part: {text}\n book: {answer:?}\n composed: {composed:?}");
    }

    // a used length that is not the key's
    if work.random.one_in(4) {
        let wrong = work.random.pick(&[used as u64 + 1, (used as u64).saturating_sub(1), call.bytes.len() as u64 + 1, u64::MAX]);
        work.call.numbers[0] = wrong;
        sink.call(&mut work.call);
    }
}

fn bounds_of(work: &mut Work, book: &Book, count: usize, sink: &mut dyn Sink) {
    work.set_bytes(&book.buffer[..book.used]);
    let k = work.random.below(count + 2) as u64;
    work.send_with(Kind::Bounds, &[k], sink);
    if work.random.one_in(8) {
        for k in 0..=count as u64 + 1 {
            work.send_with(Kind::Bounds, &[k], sink);
        }
    }
}
