//! Type and value sheets: admission (15, 16) to the original's types and values, and a value as its sheet.

use fjord_encoding::tuple::Value;
use fjord_schema::id::FactId;
use fjord_schema::schema::{Alternative, NAME, PredicateId, PredicateTy, Spur};
use std::sync::Arc;

/// Groups inside one another, the empty ones included.
pub const MAX_GROUPS: usize = 320;
pub const MAX_TYPE_WORDS: usize = 4_096;
pub const MAX_VALUE_WORDS: usize = 1_048_576;
pub const MAX_POOL_BYTES: usize = 1_048_576;

pub const NULL: u64 = 0;
pub const INT: u64 = 1;
pub const STR: u64 = 2;
pub const BYTES: u64 = 3;
pub const REFERENCE: u64 = 4;
pub const RECORD: u64 = 5;
pub const UNION: u64 = 6;

/// The type of an admitted sheet.
pub fn admit_type(words: &[u32]) -> Option<PredicateTy> {
    if words.len() > MAX_TYPE_WORDS {
        return None;
    }
    let mut reader = TypeReader { words, at: 0 };
    let ty = reader.ty(MAX_GROUPS)?;
    (reader.at == words.len()).then_some(ty)
}

struct TypeReader<'a> {
    words: &'a [u32],
    at: usize,
}

impl TypeReader<'_> {
    fn word(&mut self) -> Option<u32> {
        let word = *self.words.get(self.at)?;
        self.at += 1;
        Some(word)
    }

    /// `groups`: how many may still open.
    fn ty(&mut self, groups: usize) -> Option<PredicateTy> {
        match u64::from(self.word()?) {
            INT => Some(PredicateTy::Int),
            STR => Some(PredicateTy::Str),
            BYTES => Some(PredicateTy::Bytes),
            REFERENCE => Some(PredicateTy::Fact(PredicateId(self.word()?))),
            RECORD => {
                let groups = groups.checked_sub(1)?;
                let count = self.word()?;
                let mut fields = Vec::new();
                for i in 0..count {
                    fields.push((Spur(i), self.ty(groups)?));
                }
                Some(PredicateTy::Record(Arc::from(fields)))
            }
            UNION => {
                let groups = groups.checked_sub(1)?;
                let count = self.word()?;
                let mut alternatives = Vec::new();
                for i in 0..count {
                    let disc = self.word()?;
                    alternatives.push(Alternative { name: Spur(i), disc, ty: self.ty(groups)? });
                }
                Some(PredicateTy::Union(Arc::from(alternatives)))
            }
            _ => None,
        }
    }
}

/// The value of an admitted sheet.
pub fn admit_value(words: &[u64], pool: &[u8]) -> Option<Value> {
    if words.len() > MAX_VALUE_WORDS || pool.len() > MAX_POOL_BYTES {
        return None;
    }
    let mut reader = ValueReader { words, at: 0, pool, used: 0 };
    let value = reader.value(MAX_GROUPS)?;
    (reader.at == words.len() && reader.used == pool.len()).then_some(value)
}

struct ValueReader<'a> {
    words: &'a [u64],
    at: usize,
    pool: &'a [u8],
    used: usize,
}

impl ValueReader<'_> {
    fn word(&mut self) -> Option<u64> {
        let word = *self.words.get(self.at)?;
        self.at += 1;
        Some(word)
    }

    fn payload(&mut self) -> Option<Vec<u8>> {
        let len = usize::try_from(self.word()?).ok()?;
        let end = self.used.checked_add(len)?;
        let payload = self.pool.get(self.used..end)?.to_vec();
        self.used = end;
        Some(payload)
    }

    /// `groups`: how many may still open.
    fn value(&mut self, groups: usize) -> Option<Value> {
        match self.word()? {
            NULL => Some(Value::Null),
            INT => Some(Value::Int(self.word()? as i64)),
            STR => Some(Value::Str(String::from_utf8(self.payload()?).ok()?)),
            BYTES => Some(Value::Bytes(self.payload()?)),
            REFERENCE => Some(Value::FactRef(FactId::from_raw(self.word()?))),
            RECORD => {
                let groups = groups.checked_sub(1)?;
                let count = self.word()?;
                let mut fields = Vec::new();
                for _ in 0..count {
                    fields.push((NAME.to_owned(), self.value(groups)?));
                }
                Some(Value::Record(fields.into_boxed_slice()))
            }
            UNION => {
                let groups = groups.checked_sub(1)?;
                let disc = u32::try_from(self.word()?).ok()?;
                let value = Box::new(self.value(groups)?);
                Some(Value::Union { disc, alt: NAME.to_owned(), value })
            }
            _ => None,
        }
    }
}

/// Adds a value's sheet to words and pool.
pub fn write_sheet(value: &Value, words: &mut Vec<u64>, pool: &mut Vec<u8>) {
    match value {
        Value::Null => words.push(NULL),
        Value::Int(int) => words.extend([INT, *int as u64]),
        Value::Str(text) => {
            words.extend([STR, text.len() as u64]);
            pool.extend_from_slice(text.as_bytes());
        }
        Value::Bytes(payload) => {
            words.extend([BYTES, payload.len() as u64]);
            pool.extend_from_slice(payload);
        }
        Value::FactRef(id) => words.extend([REFERENCE, id.raw()]),
        Value::Record(fields) => {
            words.extend([RECORD, fields.len() as u64]);
            for (_, field) in fields.iter() {
                write_sheet(field, words, pool);
            }
        }
        Value::Union { disc, value, .. } => {
            words.extend([UNION, u64::from(*disc)]);
            write_sheet(value, words, pool);
        }
    }
}
