//! The register's five tables: the type of each one's keys, and where they stand in the store.

use std::ops::Range;
use tuple::{FactId, PredicateId, Refusal, Type, Value, bounds, decode_key, encode_key, span, strinc};

/// A table: its predicate's number and the type of its keys. A stored key is the number in four bytes, high byte first, and the key behind it.
pub struct Table {
    pub name: &'static str,
    pub predicate: PredicateId,
    pub ty: Type,
}

pub struct Tables {
    /// tag
    pub tanks: Table,
    /// tank's tag, number
    pub batches: Table,
    /// recipe, line, (tank's tag, grams)
    pub lines: Table,
    /// batch, recipe, what was dosed: 1 grams by the scale, 2 a note by hand
    pub doses: Table,
    /// the supplier's lot, if there is one, recipe, line
    pub lots: Table,
}

impl Tables {
    pub fn new() -> Tables {
        let table =
            |name, number, fields: &[Type]| Table { name, predicate: PredicateId(number), ty: Type::record(fields.iter().cloned()) };
        Tables {
            tanks: table("tanks", 1, &[Type::Bytes]),
            batches: table("batches", 2, &[Type::Bytes, Type::Int]),
            lines: table("recipe lines", 3, &[Type::Str, Type::Int, Type::record([Type::Bytes, Type::Int])]),
            doses: table("doses", 4, &[Type::Fact(PredicateId(2)), Type::Str, Type::union([(1, Type::Int), (2, Type::Str)])]),
            lots: table("lots", 5, &[Type::optional(Type::Str), Type::Str, Type::Int]),
        }
    }

    pub fn all(&self) -> [&Table; 5] {
        [&self.tanks, &self.batches, &self.lines, &self.doses, &self.lots]
    }
}

impl Table {
    /// Bytes behind the predicate's number.
    pub fn behind(&self, bytes: Vec<u8>) -> Vec<u8> {
        [&self.predicate.0.to_be_bytes()[..], &bytes].concat()
    }

    /// The stored key of a value.
    pub fn stored(&self, value: &Value) -> Result<Vec<u8>, Refusal> {
        Ok(self.behind(encode_key(&self.ty, value)?))
    }

    /// The value of a stored key.
    pub fn value(&self, stored: &[u8]) -> Result<Value, Refusal> {
        decode_key(&self.ty, &stored[4..])
    }

    /// Puts a new value into a field of a stored key.
    pub fn replace(&self, stored: &mut Vec<u8>, field: usize, new: &Value) -> Result<(), Refusal> {
        let mut key = stored.split_off(4);
        let answer = tuple::replace(&self.ty, &mut key, field, new);
        stored.append(&mut key);
        answer
    }

    /// Where the keys stand that have the same first k fields as this value: the bounds call.
    pub fn range(&self, value: &Value, k: usize) -> Result<Range<Vec<u8>>, Refusal> {
        let ends = bounds(&self.ty, &encode_key(&self.ty, value)?, k)?;
        Ok(self.behind(ends.start)..self.behind(ends.end))
    }

    /// The same with the next string after the prefix as its end, which is wrong.
    pub fn range_by_strinc(&self, value: &Value, k: usize) -> Result<Range<Vec<u8>>, Refusal> {
        let start = self.range(value, k)?.start;
        let end = strinc(&start)?;
        Ok(start..end)
    }

    /// Where the keys stand that have these first fields and the next from the lowest to the highest: the span call.
    pub fn span(&self, first: &[Value], lowest: &Value, highest: &Value) -> Result<Range<Vec<u8>>, Refusal> {
        let ends = span(&self.ty, first, lowest, highest)?;
        Ok(self.behind(ends.start)..self.behind(ends.end))
    }

    /// The same with the next string after the highest as its end, which takes in more where that is a tag.
    pub fn span_by_strinc(&self, first: &[Value], lowest: &Value, highest: &Value) -> Result<Range<Vec<u8>>, Refusal> {
        let start = self.span(first, lowest, highest)?.start;
        let end = strinc(&self.span(first, highest, highest)?.start)?;
        Ok(start..end)
    }

    /// Where all keys of the table stand.
    pub fn whole(&self) -> Range<Vec<u8>> {
        self.behind(vec![])..self.behind(vec![0xFF])
    }
}

pub fn batch(tag: &[u8], number: i64) -> Value {
    Value::record([Value::from(tag), Value::Int(number)])
}

pub fn line(recipe: &str, line: i64, tag: &[u8], grams: i64) -> Value {
    Value::record([Value::from(recipe), Value::Int(line), Value::record([Value::from(tag), Value::Int(grams)])])
}

pub fn dose(batch: FactId, recipe: &str, what: Value) -> Value {
    Value::record([Value::from(batch), Value::from(recipe), what])
}

/// A recipe line under its supplier's lot; blank where there is none.
pub fn lot(lot: Option<&str>, recipe: &str, line: i64) -> Value {
    Value::record([lot.map_or(Value::Null, Value::from), Value::from(recipe), Value::Int(line)])
}

/// The fields of a record.
pub fn fields(value: &Value) -> &[Value] {
    let Value::Record(fields) = value else { panic!("{value:?} is no record") };
    fields
}

/// A field of a record.
pub fn field(value: &Value, place: usize) -> &Value {
    &fields(value)[place]
}

/// Bytes as pairs of hexadecimal digits.
pub fn hex(bytes: &[u8]) -> String {
    bytes.iter().map(|byte| format!("{byte:02X}")).collect::<Vec<_>>().join(" ")
}

/// A value as a person reads it.
pub fn shown(value: &Value) -> String {
    match value {
        // as operators type it
        Value::Null => "-".to_owned(),
        Value::Str(text) if text.is_empty() => "\"\"".to_owned(),
        Value::Int(number) => number.to_string(),
        Value::Str(text) if text.len() > 40 => format!("a text of {} bytes", text.len()),
        Value::Str(text) => text.clone(),
        Value::Bytes(bytes) => hex(bytes),
        Value::FactRef(id) => format!("reference {}:{}", id.predicate().0, id.sequence()),
        Value::Record(fields) => format!("({})", fields.iter().map(shown).collect::<Vec<_>>().join(", ")),
        Value::Union { disc: 1, value } => format!("{} g", shown(value)),
        Value::Union { disc: 2, value } => format!("note: {}", shown(value)),
        Value::Union { disc, value } => format!("alternative {disc}: {}", shown(value)),
    }
}
