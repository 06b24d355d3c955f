//! Which keys a span holds, by their values: the original's order of values, the bytes of a Str or of Bytes, and no key's bytes.

use crate::call::{Call, Kind};
use crate::sheet::admit_value;
use fjord_encoding::tuple::Value;

/// Whether the first k fields of a key's value are the span's, and the next is one that it asks for. The sheets are admitted, and the key has
/// a field behind the first k.
pub fn holds(span: &Call, key: &Call) -> bool {
    let (Value::Record(first), Value::Record(fields)) = (value(&span.words, &span.pool), value(&key.words, &key.pool)) else {
        panic!("records")
    };
    let next = &fields[first.len()].1;
    first.iter().zip(&fields).all(|((_, a), (_, b))| a.cmp(b).is_eq())
        && match span.kind {
            Kind::Span => between(span, next),
            Kind::StartingWith => begins_with(next, &span.bytes),
            other => panic!("{} gives no span by values", other.shape().name),
        }
}

fn value(words: &[u64], pool: &[u8]) -> Value {
    admit_value(words, pool).expect("an admitted sheet")
}

/// From the lowest to the highest, both included.
fn between(span: &Call, next: &Value) -> bool {
    let (lowest, highest) = (value(&span.other_words, &span.other_pool), value(&span.third_words, &span.third_pool));
    lowest.cmp(next).is_le() && next.cmp(&highest).is_le()
}

/// By bytes and not by characters; a blank never does.
fn begins_with(next: &Value, start: &[u8]) -> bool {
    match next {
        Value::Str(text) => text.as_bytes().starts_with(start),
        Value::Bytes(payload) => payload.starts_with(start),
        _ => false,
    }
}
