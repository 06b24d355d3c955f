//! Buffers that grow: where a call answers NoRoom, it is given the units needed and called again.

use crate::ffi::{Answer, Encoded, Ends, Length, Sheet};
use crate::refusal::Refusal;
use crate::sheet::Value;
use std::ops::Range;

/// Lends the bytes of `out` with `first` more behind them to a call, whose answer is the new length. A refused call leaves `out` as it was.
pub(crate) fn grown(out: &mut Vec<u8>, first: usize, mut call: impl FnMut(&mut [u8]) -> Length) -> Result<(), Refusal> {
    let before = out.len();
    let mut room = before + first;
    loop {
        out.resize(room, 0);
        match call(out).accepted() {
            Ok(answer) => {
                out.truncate(answer.length as usize);
                return Ok(());
            }
            Err(Refusal::NoRoom { needed }) if needed > room => room = needed,
            Err(refusal) => {
                out.truncate(before);
                return Err(refusal);
            }
        }
    }
}

/// What a call writes into a buffer of its own.
pub(crate) fn filled(first: usize, call: impl FnMut(&mut [u8]) -> Length) -> Result<Vec<u8>, Refusal> {
    let mut out = Vec::new();
    grown(&mut out, first, call)?;
    Ok(out)
}

/// The same of an encoding call, with the number of zeros escaped.
pub(crate) fn counted(first: usize, mut call: impl FnMut(&mut [u8]) -> Encoded) -> Result<(Vec<u8>, u64), Refusal> {
    let mut zeros = 0;
    let out = filled(first, |out| {
        let answer = call(out);
        zeros = answer.zeros;
        answer.written()
    })?;
    Ok((out, zeros))
}

/// The two ends that a call writes into rooms which are enough for them.
pub(crate) fn ends(lower: usize, upper: usize, call: impl FnOnce(&mut [u8], &mut [u8]) -> Ends) -> Result<Range<Vec<u8>>, Refusal> {
    let (mut lower, mut upper) = (vec![0; lower], vec![0; upper]);
    let answer = call(&mut lower, &mut upper).accepted()?;
    lower.truncate(answer.lower as usize);
    upper.truncate(answer.upper as usize);
    Ok(lower..upper)
}

/// What a decoding call answers with rooms for words and pool, and the values begun.
pub(crate) fn decoded(words: usize, pool: usize, mut call: impl FnMut(&mut [u64], &mut [u8]) -> Sheet) -> (Result<Value, Refusal>, u64) {
    let (mut words, mut pool) = (vec![0; words], vec![0; pool]);
    loop {
        let answer = call(&mut words, &mut pool);
        let begun = answer.begun;
        match answer.accepted() {
            Ok(answer) => {
                let value = Value::read(&words[..answer.words as usize], &pool[..answer.pool as usize]);
                return (Ok(value.expect("libtuple.a writes one value")), begun);
            }
            // The units are words if those are short, else pool bytes.
            Err(Refusal::NoRoom { needed }) if needed > words.len() => words.resize(needed, 0),
            Err(Refusal::NoRoom { needed }) if needed > pool.len() => pool.resize(needed, 0),
            Err(refusal) => return (Err(refusal), begun),
        }
    }
}

#[cfg(test)]
mod tests {
    use super::*;
    use crate::{Type, ffi};

    fn line() -> (Type, Value) {
        let ty = Type::record([Type::Bytes, Type::Int, Type::Str]);
        (ty, Value::record([Value::from(b"\x0A\x00\x00"), Value::Int(-256), Value::from("a text longer than the sheet has words")]))
    }

    #[test]
    fn no_room_at_first_is_room_enough() {
        let (ty, value) = line();
        let key = crate::encode_key(&ty, &value).unwrap();
        for first in 0..=key.len() + 1 {
            let mut calls = 0;
            let found = counted(first, |out| {
                calls += 1;
                ffi::encode_key(&ty.sheet(), &value.sheet(), out)
            });
            assert_eq!(found, Ok((key.clone(), 2)));
            assert_eq!(calls, if first < key.len() { 2 } else { 1 });
        }
        for words in [0, 1, 7, 8, 20] {
            for pool in [0, 1, 30, 60] {
                let (found, begun) = decoded(words, pool, |words, pool| ffi::decode_key(&ty.sheet(), &key, words, pool));
                assert_eq!((found, begun), (Ok(value.clone()), 3));
            }
        }
    }

    #[test]
    fn a_refused_call_leaves_the_bytes() {
        let (ty, value) = line();
        let mut key = crate::encode_key(&ty, &value).unwrap();
        let before = key.clone();
        let refused = grown(&mut key, 40, |buffer| ffi::replace(&ty.sheet(), buffer, before.len(), 1, &Value::Null.sheet()));
        assert_eq!(refused.map_err(|refusal| refusal.number()), Err(11));
        assert_eq!(key, before);
    }
}
