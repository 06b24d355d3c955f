//! Order-preserving tuple keys: byte keys whose plain byte order is the order of the values. The calls are those of libtuple.a, whose answers are proved;
//! this crate turns [`Type`] and [`Value`] into the sheets that the library takes, lends it buffers that grow, and names its refusals.
//!
//! A tank key is a tag, which is raw bytes and may end in a zero, and a number. The range that [`bounds`] gives for a tank holds its own keys and no other's:
//!
//! ```
//! use std::collections::BTreeMap;
//! use tuple::{Type, Value, bounds, decode_key, encode_key, strinc};
//!
//! let tank = Type::record([Type::Bytes, Type::Int]);
//! let key = |tag: &[u8], number| encode_key(&tank, &Value::record([Value::from(tag), Value::Int(number)]));
//!
//! let mut store = BTreeMap::new();
//! store.insert(key(&[0x0A], 7)?, "yellow");
//! store.insert(key(&[0x0A, 0x00], 7)?, "cyan");
//!
//! // the keys with the same first field as this one
//! let range = bounds(&tank, &key(&[0x0A], 7)?, 1)?;
//! assert_eq!(range, vec![0x53, 0x0A, 0x00]..vec![0x53, 0x0A, 0x00, 0xFF]);
//! assert_eq!(store.range(range.clone()).map(|(_, ink)| *ink).collect::<Vec<_>>(), ["yellow"]);
//!
//! // the next string after the prefix is the wrong end: tank 0A 00 is below it too
//! let wrong = range.start.clone()..strinc(&range.start)?;
//! assert_eq!(store.range(wrong).count(), 2);
//!
//! let (first, _) = store.first_key_value().unwrap();
//! assert_eq!(decode_key(&tank, first)?, Value::record([Value::from(b"\x0A"), Value::Int(7)]));
//! # Ok::<(), tuple::Refusal>(())
//! ```
//!
//! A reference is a [`FactId`], made from a predicate below 2^24 and a sequence from 1 to 2^40 − 1; its raw number is predicate · 2^40 + sequence.
//!
//! Every call is total: it answers, or refuses with a [`Refusal`] that has a number, a name and a detail. None answers `NoRoom`: where the library does, the
//! buffer is grown by what is needed and the call made again. The library uses at most 160 KB of the caller's stack, on the deepest types and values.

#![deny(missing_docs)]
#![deny(unsafe_code)]
#![deny(clippy::undocumented_unsafe_blocks)]

/// The example of README.md, run with the others.
#[cfg(doctest)]
#[doc = include_str!("../README.md")]
struct Readme;

mod cursor;
mod deep;
#[allow(unsafe_code)]
mod ffi;
mod field;
mod refusal;
mod room;
mod sheet;

#[cfg(test)]
mod header;

pub use cursor::{StrChars, TupleDecoder, TupleEncoder, str_chars};
pub use field::{get_bytes, get_i64, get_str, get_u64, put_bytes, put_fact_id, put_i64, put_str, put_u64};
pub use refusal::Refusal;
pub use sheet::{Alternative, FactId, Kind, PredicateId, Type, Value, ValueSheet};

use ffi::Answer;
use std::cmp::Ordering;
use std::ops::Range;

/// The most bytes that a key of [`encode_key`] has.
pub const MAX_KEY_BYTES: usize = 65_531;

/// Room that is enough for most sheets: nine bytes for two words, and the pool; zeros in the pool may want more.
fn first_room(value: &ValueSheet) -> usize {
    value.words().len() / 2 * 9 + value.pool().len() + 1
}

/// Room that is enough for every sheet: a byte more for each zero in the pool. A number, a reference and a union's tag with its end have at most nine bytes, a
/// blank, which is one word, at most two.
fn whole_room(value: &ValueSheet) -> usize {
    first_room(value) + zeros(value.pool())
}

/// How many of the bytes are zeros, each of which is written as two.
fn zeros(bytes: &[u8]) -> usize {
    bytes.iter().filter(|byte| **byte == 0).count()
}

/// Encodes a value under its type. A record at the top is a group, as it is within a record.
///
/// Refusals: 6, 8, 9, 10, 11, 12, 15, 16.
///
/// ```
/// use tuple::{Type, Value, encode_typed};
///
/// let ty = Type::record([Type::Int]);
/// assert_eq!(encode_typed(&ty, &Value::record([Value::Int(0)])).unwrap(), [0x22, 0x48, 0x00]);
/// ```
pub fn encode_typed(ty: &Type, value: &Value) -> Result<Vec<u8>, Refusal> {
    encode_typed_counted(ty, value).map(|(bytes, _)| bytes)
}

/// Encodes a key: the fields of a record stand bare, and other types go as in [`encode_typed`]. A key has at most [`MAX_KEY_BYTES`].
///
/// Refusals: 6, 7, 8, 9, 10, 11, 12, 15, 16.
///
/// ```
/// use tuple::{Refusal, Type, Value, encode_key};
///
/// let tank = Type::record([Type::Bytes, Type::Int]);
/// let key = encode_key(&tank, &Value::record([Value::from(b"\x0A\x00"), Value::Int(7)])).unwrap();
/// assert_eq!(key, [0x53, 0x0A, 0x00, 0xFF, 0x00, 0x49, 0x07]);
///
/// assert_eq!(encode_key(&Type::Bytes, &Value::Bytes(vec![1; 65_530])), Err(Refusal::KeyTooLong { len: 65_532 }));
/// ```
pub fn encode_key(ty: &Type, value: &Value) -> Result<Vec<u8>, Refusal> {
    encode_key_counted(ty, value).map(|(key, _)| key)
}

/// [`encode_typed`] with the number of zeros escaped, as in [`encode_key_counted`].
pub fn encode_typed_counted(ty: &Type, value: &Value) -> Result<(Vec<u8>, u64), Refusal> {
    let (ty, value) = (ty.sheet(), value.sheet());
    room::counted(first_room(&value), |out| ffi::encode_typed(&ty, &value, out))
}

/// [`encode_key`] with the number of zeros escaped: the zero bytes of all `Str` and `Bytes` in the value (theorem `zeros_escaped` of crate `format`). Each
/// makes the key a byte longer. No other zero counts: of a number, a reference, a blank or an end.
///
/// ```
/// use tuple::{Type, Value, encode_key_counted};
///
/// let tank = Type::record([Type::Bytes, Type::Int]);
/// let counted = |tag: &[u8]| encode_key_counted(&tank, &Value::record([Value::from(tag), Value::Int(256)])).unwrap();
/// assert_eq!(counted(b"\x0A\x00\x00"), (vec![0x53, 0x0A, 0x00, 0xFF, 0x00, 0xFF, 0x00, 0x4A, 0x01, 0x00], 2));
/// assert_eq!(counted(b"\x0A\x01\x02"), (vec![0x53, 0x0A, 0x01, 0x02, 0x00, 0x4A, 0x01, 0x00], 0)); // the tag to buy
/// ```
pub fn encode_key_counted(ty: &Type, value: &Value) -> Result<(Vec<u8>, u64), Refusal> {
    let (ty, value) = (ty.sheet(), value.sheet());
    room::counted(first_room(&value).min(MAX_KEY_BYTES), |out| ffi::encode_key(&ty, &value, out))
}

/// The value that these bytes of [`encode_typed`] encode.
///
/// Refusals: 1, 2, 4, 5, 6, 8, 9, 10, 13, 14, 15.
///
/// ```
/// use tuple::{Type, Value, decode_typed};
///
/// let ty = Type::union([(1, Type::Int)]);
/// assert_eq!(decode_typed(&ty, &[0x52, 0x49, 0x01, 0x48, 0x00]), Ok(Value::union(1, Value::Int(0))));
/// ```
pub fn decode_typed(ty: &Type, bytes: &[u8]) -> Result<Value, Refusal> {
    decode_typed_counted(ty, bytes).0
}

/// The value of a key.
///
/// Refusals: 1, 2, 4, 5, 6, 8, 9, 10, 13, 14, 15.
///
/// ```
/// use tuple::{Refusal, Type, Value, decode_key};
///
/// let tank = Type::record([Type::Bytes, Type::Int]);
/// assert_eq!(decode_key(&tank, &[0x53, 0x0A, 0x00, 0x49, 0x07]), Ok(Value::record([Value::from(b"\x0A"), Value::Int(7)])));
/// assert_eq!(decode_key(&tank, &[0x53, 0x0A, 0x00]), Err(Refusal::UnexpectedEof));
/// ```
pub fn decode_key(ty: &Type, bytes: &[u8]) -> Result<Value, Refusal> {
    decode_key_counted(ty, bytes).0
}

/// [`decode_typed`] with the number of values begun, a refusing one included.
pub fn decode_typed_counted(ty: &Type, bytes: &[u8]) -> (Result<Value, Refusal>, u64) {
    // A value of a type has at most twice the type's words, and a pool no longer than its bytes.
    let ty = ty.sheet();
    room::decoded(2 * ty.len(), bytes.len(), |words, pool| ffi::decode_typed(&ty, bytes, words, pool))
}

/// [`decode_key`] with the number of values begun, a refusing one included; a record at the top counts none.
///
/// ```
/// use tuple::{Refusal, Type, decode_key_counted};
///
/// let tank = Type::record([Type::Bytes, Type::Int]);
/// assert_eq!(decode_key_counted(&tank, &[0x53, 0x0A, 0x00, 0x4A, 0x00, 0x01]), (Err(Refusal::BadInteger), 2));
/// ```
pub fn decode_key_counted(ty: &Type, bytes: &[u8]) -> (Result<Value, Refusal>, u64) {
    let ty = ty.sheet();
    room::decoded(2 * ty.len(), bytes.len(), |words, pool| ffi::decode_key(&ty, bytes, words, pool))
}

/// Whether [`decode_key`] accepts these bytes; no value is kept.
///
/// ```
/// use tuple::{Refusal, Type, check_key};
///
/// assert_eq!(check_key(&Type::Int, &[0x48]), Ok(()));
/// assert_eq!(check_key(&Type::Int, &[0x48, 0x48]), Err(Refusal::UnexpectedMark(0x48)));
/// ```
pub fn check_key(ty: &Type, bytes: &[u8]) -> Result<(), Refusal> {
    check_key_counted(ty, bytes).0
}

/// [`check_key`] with the number of values begun, a refusing one included.
///
/// ```
/// use tuple::{Refusal, Type, check_key_counted};
///
/// let tank = Type::record([Type::Bytes, Type::Int]);
/// assert_eq!(check_key_counted(&tank, &[0x53, 0x0A]), (Err(Refusal::UnexpectedEof), 1));
/// ```
pub fn check_key_counted(ty: &Type, bytes: &[u8]) -> (Result<(), Refusal>, u64) {
    let answer = ffi::check_key(&ty.sheet(), bytes);
    let begun = answer.begun;
    (answer.accepted().map(|_| ()), begun)
}

/// The place behind the field that starts at `start`, found by its marks alone. A null outside of groups is 00, or 00 FF where that is required.
///
/// Refusals: 1, 2, 3, 5, 6.
///
/// ```
/// let key = [0x53, 0x0A, 0x00, 0xFF, 0x00, 0x49, 0x07];
/// assert_eq!(tuple::skip(&key, 0, false), Ok(5));
/// assert_eq!(tuple::skip(&key, 5, false), Ok(7));
/// assert_eq!(tuple::skip(&[0x00], 0, true), Err(tuple::Refusal::UnexpectedTerminator));
/// ```
pub fn skip(bytes: &[u8], start: usize, require_escape_null: bool) -> Result<usize, Refusal> {
    ffi::skip(bytes, start, require_escape_null).accepted().map(|answer| answer.length as usize)
}

/// How two values compare: where they are of one type, as their keys do. Refusal: 16.
///
/// ```
/// use std::cmp::Ordering;
/// use tuple::{Value, compare};
///
/// assert_eq!(compare(&Value::from(b"\x0A"), &Value::from(b"\x0A\x00")), Ok(Ordering::Less));
/// ```
pub fn compare(a: &Value, b: &Value) -> Result<Ordering, Refusal> {
    ffi::compare(&a.sheet(), &b.sheet()).accepted().map(|answer| answer.order.cmp(&0))
}

/// Of all byte strings above every byte string that begins with the prefix, the least (theorem `strinc_tight` of crate `format`): no other end of a search
/// for the prefix reads fewer rows. It is no end for the keys of a field: see [`above_field`]. Refusal: 19, where there is none.
///
/// ```
/// use tuple::{Refusal, strinc};
///
/// assert_eq!(strinc(&[0x0A, 0xFF]), Ok(vec![0x0B])); // and not 0B 00, which is above them too
/// assert_eq!(strinc(&[0x0A, 0x0B]), Ok(vec![0x0A, 0x0C]));
/// assert_eq!(strinc(&[0xFF]), Err(Refusal::NoBound));
/// ```
pub fn strinc(prefix: &[u8]) -> Result<Vec<u8>, Refusal> {
    room::filled(prefix.len(), |out| ffi::strinc(prefix, out))
}

/// The key through a field with FF behind: above every key with the same fields up to there, and not above any key whose fields up to there are greater.
///
/// ```
/// assert_eq!(tuple::above_field(&[0x53, 0x0A, 0x00]), [0x53, 0x0A, 0x00, 0xFF]);
/// ```
#[must_use]
pub fn above_field(key_through_field: &[u8]) -> Vec<u8> {
    let room = key_through_field.len() + 1;
    room::filled(room, |out| ffi::above_field(key_through_field, out)).expect("libtuple.a adds a byte to every key")
}

/// The range that holds, of the keys of a record type, exactly those with the same first `k` fields as this one. With `k` 0 it holds every key.
///
/// Refusals: 15, 18, those of [`decode_key`].
///
/// ```
/// use tuple::{Refusal, Type, bounds};
///
/// let tank = Type::record([Type::Bytes, Type::Int]);
/// let key = [0x53, 0x0A, 0x00, 0x49, 0x07];
/// let range = bounds(&tank, &key, 1).unwrap();
/// assert!(range.contains(&key.to_vec()));
/// assert!(!range.contains(&vec![0x53, 0x0A, 0x00, 0xFF, 0x00, 0x49, 0x07]));
/// assert_eq!(bounds(&tank, &key, 3), Err(Refusal::NoField));
/// ```
pub fn bounds(ty: &Type, key: &[u8], k: usize) -> Result<Range<Vec<u8>>, Refusal> {
    // The ends are a part of the key, and that with one byte more.
    room::ends(key.len(), key.len() + 1, |lower, upper| ffi::bounds(&ty.sheet(), key, k, lower, upper))
}

/// The range of a span on the field behind the first `k`, `k` being how many are given. Of the keys of a record type it holds exactly those whose first `k`
/// fields are these and whose next lies from the lowest to the highest, both included (theorem `spans` of crate `format`). The field may be of any kind; where
/// it is optional, [`Value::Null`] is below every other value.
///
/// Where the lowest is above the highest, no key lies between the two ends. The range is then empty and starts behind its end, on which [`BTreeMap::range`]
/// panics.
///
/// Refusals: 15, 16, 18 where there is no field behind the first `k`, then those of [`encode_typed`] for each value. There is no 7: an end may be longer than
/// a key.
///
/// ```
/// use tuple::{Refusal, Type, Value, encode_key, span};
///
/// // the batches 40 to 60 of tank 0A
/// let tank = Type::record([Type::Bytes, Type::Int]);
/// let range = span(&tank, &[Value::from(b"\x0A")], &Value::Int(40), &Value::Int(60)).unwrap();
/// assert_eq!(range, vec![0x53, 0x0A, 0x00, 0x49, 40]..vec![0x53, 0x0A, 0x00, 0x49, 60, 0xFF]);
///
/// let batch = |tag: &[u8], number| encode_key(&tank, &Value::record([Value::from(tag), Value::Int(number)])).unwrap();
/// assert!(range.contains(&batch(b"\x0A", 40)) && range.contains(&batch(b"\x0A", 60)));
/// assert!(!range.contains(&batch(b"\x0A", 61)) && !range.contains(&batch(b"\x0A\x00", 50)));
///
/// // there is no field behind the number
/// let both = [Value::from(b"\x0A"), Value::Int(40)];
/// assert_eq!(span(&tank, &both, &Value::Int(40), &Value::Int(60)), Err(Refusal::NoField));
/// ```
///
/// [`BTreeMap::range`]: std::collections::BTreeMap::range
pub fn span(ty: &Type, first: &[Value], lowest: &Value, highest: &Value) -> Result<Range<Vec<u8>>, Refusal> {
    let (first, lowest, highest) = (ValueSheet::record(first), lowest.sheet(), highest.sheet());
    // The first fields stand bare, so that the room for their record's two words is the FF's.
    let room = |next| whole_room(&first) + whole_room(next);
    room::ends(room(&lowest), room(&highest), |lower, upper| ffi::span(&ty.sheet(), &first, &lowest, &highest, lower, upper))
}

/// The range of the names that begin with these bytes, as an operator types the start of a colour name. The name is the field behind the first `k`, `k` being
/// how many are given: a Str or a Bytes, optional or not. Of the keys of a record type the range holds exactly those whose first `k` fields are these and whose
/// next begins with the bytes of `start` (theorem `prefixes` of crate `format`). Every name begins with the empty start; [`Value::Null`] never does.
///
/// The start is bytes: it may end within a character or in a zero byte, and has no limit of length. The upper end is [`strinc`] of the lower, which always is
/// one, so that [`BTreeMap::range`] takes every range.
///
/// Refusals: 15, 16, 18 where the field behind the first `k` is of another kind or there is none, then those of [`encode_typed`] for each of the first `k`.
/// There is no 7, since an end may be longer than a key, and no 19.
///
/// ```
/// use std::collections::BTreeMap;
/// use tuple::{Refusal, Type, Value, encode_key, starting_with};
///
/// // the colour names of tank 0A, one of them a blank
/// let (names, tank) = (Type::record([Type::Bytes, Type::optional(Type::Str)]), Value::from(b"\x0A"));
/// let mut store = BTreeMap::new();
/// for name in [Value::Null, Value::from("cyan"), Value::from("cyan blue"), Value::from("écru")] {
///     store.insert(encode_key(&names, &Value::record([tank.clone(), name.clone()]))?, name);
/// }
/// let found = |start: &[u8]| -> Result<Vec<Value>, Refusal> {
///     Ok(store.range(starting_with(&names, &[tank.clone()], start)?).map(|(_, name)| name.clone()).collect())
/// };
/// assert_eq!(found(b"cyan")?, ["cyan", "cyan blue"].map(Value::from));
/// assert_eq!(found(b"\xC3")?, ["écru"].map(Value::from)); // half a character
/// assert_eq!(found(b"")?.len(), 3); // every name, and no blank
///
/// let range = starting_with(&names, &[tank.clone()], b"cy")?;
/// assert_eq!(range, vec![0x53, 0x0A, 0x00, 0x21, b'c', b'y']..vec![0x53, 0x0A, 0x00, 0x21, b'c', b'z']);
///
/// // a number begins with nothing
/// assert_eq!(starting_with(&Type::record([Type::Int]), &[], b""), Err(Refusal::NoField));
/// # Ok::<(), Refusal>(())
/// ```
///
/// [`BTreeMap::range`]: std::collections::BTreeMap::range
pub fn starting_with(ty: &Type, first: &[Value], start: &[u8]) -> Result<Range<Vec<u8>>, Refusal> {
    let first = ValueSheet::record(first);
    // The first fields stand bare, so that the room for their record's two words is the mark's.
    let room = whole_room(&first) + start.len() + zeros(start);
    room::ends(room, room, |lower, upper| ffi::starting_with(&ty.sheet(), &first, start, lower, upper))
}

/// Puts a new value into a field of a record's key, counted from 0. The key is then the one that [`encode_key`] writes for the changed record. A refused
/// replacement leaves it as it was.
///
/// Refusals: 15, 18, those of [`decode_key`], 16, those of [`encode_key`] for the changed record.
///
/// ```
/// use tuple::{Refusal, Type, Value, replace};
///
/// let tank = Type::record([Type::Bytes, Type::Int]);
/// let mut key = vec![0x53, 0x0A, 0x00, 0x49, 0x07];
/// replace(&tank, &mut key, 0, &Value::from(b"\x0A\x00")).unwrap();
/// assert_eq!(key, [0x53, 0x0A, 0x00, 0xFF, 0x00, 0x49, 0x07]);
///
/// assert_eq!(replace(&tank, &mut key, 2, &Value::Int(8)), Err(Refusal::NoField));
/// assert_eq!(key, [0x53, 0x0A, 0x00, 0xFF, 0x00, 0x49, 0x07]);
/// ```
pub fn replace(ty: &Type, key: &mut Vec<u8>, field: usize, value: &Value) -> Result<(), Refusal> {
    let (ty, value, used) = (ty.sheet(), value.sheet(), key.len());
    room::grown(key, first_room(&value), |buffer| ffi::replace(&ty, buffer, used, field, &value))
}
