//! A small generator of types and values, seeded, so that every run sees the same; and what several files of tests read and write.

// each file of tests uses a part of it
#![allow(dead_code)]

use std::ops::Range;
use tuple::{FactId, PredicateId, Refusal, Type, Value};

pub struct Random(u64);

impl Random {
    pub fn new(seed: u64) -> Random {
        Random(seed)
    }

    /// splitmix64
    pub fn next(&mut self) -> u64 {
        self.0 = self.0.wrapping_add(0x9E37_79B9_7F4A_7C15);
        let mut z = self.0;
        z = (z ^ (z >> 30)).wrapping_mul(0xBF58_476D_1CE4_E5B9);
        z = (z ^ (z >> 27)).wrapping_mul(0x94D0_49BB_1331_11EB);
        z ^ (z >> 31)
    }

    pub fn below(&mut self, n: usize) -> usize {
        (self.next() % n as u64) as usize
    }

    pub fn pick<T: Copy>(&mut self, from: &[T]) -> T {
        from[self.below(from.len())]
    }

    /// Bytes that meet often: few of them, most of them zeros, tags and ends.
    pub fn bytes(&mut self) -> Vec<u8> {
        let length = self.pick(&[0, 1, 1, 2, 2, 3, 5, 40]);
        (0..length).map(|_| self.pick(&[0x00, 0x00, 0x01, 0x0A, 0x0A, 0x80, 0xFF])).collect()
    }

    fn text(&mut self) -> String {
        let length = self.pick(&[0, 1, 1, 2, 3, 20]);
        (0..length).map(|_| self.pick(&['\0', '\0', '\u{1}', 'a', 'é', '€', '\u{FFFF}', '\u{10000}'])).collect()
    }

    /// Integers at the changes of width, and any.
    pub fn int(&mut self) -> i64 {
        let near = self.pick(&[-1, 0, 1]);
        match self.below(4) {
            0 => self.next() as i64,
            1 => self.pick(&[i64::MIN, i64::MIN + 1, -1, 0, 1, i64::MAX]),
            2 => (1_i64 << (8 * self.below(8))).wrapping_add(near),
            _ => (-1_i64 << (8 * self.below(8))).wrapping_add(near),
        }
    }

    fn id(&mut self, predicate: PredicateId) -> FactId {
        let sequence = self.pick(&[1, 2, 255, 256, 0xFFFF_FFFF, 0x1_0000_0000, 0xFF_FFFF_FFFF]);
        FactId::new(predicate, sequence).unwrap()
    }

    /// A type, one in four optional, and so are its parts.
    pub fn ty(&mut self, depth: usize) -> Type {
        let ty = self.plain_ty(depth);
        if self.below(4) == 0 { Type::optional(ty) } else { ty }
    }

    pub fn plain_ty(&mut self, depth: usize) -> Type {
        match self.below(if depth == 0 { 4 } else { 7 }) {
            0 => Type::Int,
            1 => Type::Str,
            2 => Type::Bytes,
            3 => Type::Fact(PredicateId(self.pick(&[0, 7, 0xFF_FFFF]))),
            4 | 5 => self.record(depth),
            _ => {
                let count = 1 + self.below(3);
                let discs = self.pick(&[[0, 1, 2], [300, 0, 7], [u32::MAX, 5, 255]]);
                Type::union((0..count).map(|i| (discs[i], self.ty(depth - 1))))
            }
        }
    }

    pub fn record(&mut self, depth: usize) -> Type {
        let count = self.pick(&[0, 1, 2, 2, 3, 4]);
        Type::record((0..count).map(|_| self.ty(depth - 1)))
    }

    /// A value that fits the type.
    pub fn value(&mut self, ty: &Type) -> Value {
        match ty {
            Type::Int => Value::Int(self.int()),
            Type::Str => Value::from(self.text()),
            Type::Bytes => Value::from(self.bytes()),
            Type::Fact(predicate) => Value::from(self.id(*predicate)),
            Type::Record(fields) => Value::record(fields.iter().map(|field| self.value(field))),
            Type::Union(alternatives) => {
                let alternative = &alternatives[self.below(alternatives.len())];
                Value::union(alternative.disc, self.value(&alternative.ty))
            }
            Type::Optional(behind) => {
                if self.below(3) == 0 {
                    return Value::Null;
                }
                self.value(behind)
            }
        }
    }

    /// A value that fits the type and may share much with the given one.
    pub fn near(&mut self, ty: &Type, value: &Value) -> Value {
        if self.below(3) == 0 {
            return self.value(ty);
        }
        match (ty, value) {
            (_, Value::Null) => Value::Null,
            (Type::Optional(behind), filled) => self.near(behind, filled),
            (Type::Record(types), Value::Record(fields)) => Value::record(types.iter().zip(fields).map(|(ty, field)| self.near(ty, field))),
            (Type::Union(alternatives), Value::Union { disc, value }) => {
                let ty = &alternatives.iter().find(|alternative| alternative.disc == *disc).unwrap().ty;
                Value::union(*disc, self.near(ty, value))
            }
            (_, Value::Bytes(bytes)) if self.below(2) == 0 => Value::from([bytes, &self.pick(&[[0], [1], [0xFF]])[..]].concat()),
            (_, Value::Str(text)) if self.below(2) == 0 => Value::from(format!("{text}\0")),
            _ => value.clone(),
        }
    }
}

/// The values that a decoder begins: all, but for a bare record at the top.
pub fn count(value: &Value) -> u64 {
    1 + match value {
        Value::Record(fields) => fields.iter().map(count).sum(),
        Value::Union { value, .. } => count(value),
        _ => 0,
    }
}

/// The zero bytes in all texts and bytes of a value.
pub fn zeros(value: &Value) -> u64 {
    let of = |bytes: &[u8]| bytes.iter().filter(|byte| **byte == 0).count() as u64;
    match value {
        Value::Str(text) => of(text.as_bytes()),
        Value::Bytes(bytes) => of(bytes),
        Value::Record(fields) => fields.iter().map(zeros).sum(),
        Value::Union { value, .. } => zeros(value),
        _ => 0,
    }
}

/// The bytes of a text, or the bytes.
pub fn run(value: &Value) -> Option<&[u8]> {
    match value {
        Value::Str(text) => Some(text.as_bytes()),
        Value::Bytes(bytes) => Some(bytes),
        _ => None,
    }
}

/// A value within so many records of one field each, and its type.
pub fn nested(depth: usize, ty: Type, value: Value) -> (Type, Value) {
    (0..depth).fold((ty, value), |(ty, value), _| (Type::record([ty]), Value::record([value])))
}

/// Bytes from hexadecimal.
pub fn hex(text: &str) -> Vec<u8> {
    text.split_whitespace().map(|pair| u8::from_str_radix(pair, 16).unwrap()).collect()
}

/// Two ends from hexadecimal.
pub fn ends(lower: &str, upper: &str) -> Result<Range<Vec<u8>>, Refusal> {
    Ok(hex(lower)..hex(upper))
}

/// Every string of up to `most` of these bytes.
pub fn strings(bytes: &[u8], most: usize) -> Vec<Vec<u8>> {
    let mut all = vec![vec![]];
    let mut from = 0;
    for _ in 0..most {
        let last = from..all.len();
        from = all.len();
        for at in last {
            let longer = bytes.iter().map(|byte| [all[at].as_slice(), &[*byte]].concat());
            all.extend(longer.collect::<Vec<_>>());
        }
    }
    all
}
