//! A span on the field behind the first k: its two ends, and the keys between them. What it refuses is in refusals.rs and order_of_checks.rs; sheets and rooms
//! that no `Value` brings about are in src/ffi.rs; what holds for every value is in laws.rs.

mod common;

use common::nested;
use std::collections::BTreeMap;
use std::ops::Range;
use std::slice;
use tuple::{FactId, PredicateId, Refusal, Type, Value, bounds, encode_key, span};

/// Bytes from hexadecimal.
fn hex(text: &str) -> Vec<u8> {
    text.split_whitespace().map(|pair| u8::from_str_radix(pair, 16).unwrap()).collect()
}

/// Two ends from hexadecimal.
fn ends(lower: &str, upper: &str) -> Result<Range<Vec<u8>>, Refusal> {
    Ok(hex(lower)..hex(upper))
}

/// A tag and a number.
fn tank() -> Type {
    Type::record([Type::Bytes, Type::Int])
}

fn batch(tag: &[u8], number: i64) -> Vec<u8> {
    encode_key(&tank(), &Value::record([Value::from(tag), Value::Int(number)])).unwrap()
}

/// The batches of a tank from a number to another.
fn batches(tag: &[u8], from: i64, to: i64) -> Result<Range<Vec<u8>>, Refusal> {
    span(&tank(), &[Value::from(tag)], &Value::Int(from), &Value::Int(to))
}

const TAGS: [&[u8]; 8] = [b"", b"\x09", b"\x0A", b"\x0A\x00", b"\x0A\x00\x00", b"\x0A\x01", b"\x0A\xFF", b"\x0B"];
const NUMBERS: [i64; 14] = [i64::MIN, -256, -60, -1, 0, 39, 40, 41, 59, 60, 61, 255, 256, i64::MAX];

#[test]
fn batches_40_to_60_of_a_tank() {
    assert_eq!(batches(b"\x0A", 40, 60), ends("53 0A 00 49 28", "53 0A 00 49 3C FF"));
    assert_eq!(batches(b"\x0A\x00", 40, 60), ends("53 0A 00 FF 00 49 28", "53 0A 00 FF 00 49 3C FF"));
    let mut store = BTreeMap::new();
    for tag in TAGS {
        store.extend(NUMBERS.map(|number| (batch(tag, number), (tag, number))));
    }
    for tag in TAGS {
        for (from, to) in [(40, 60), (41, 59), (42, 58), (-1, 0), (i64::MIN, 40), (60, i64::MAX), (i64::MIN, i64::MAX)] {
            let found: Vec<(&[u8], i64)> = store.range(batches(tag, from, to).unwrap()).map(|(_, batch)| *batch).collect();
            let due: Vec<(&[u8], i64)> = NUMBERS.into_iter().filter(|n| from <= *n && *n <= to).map(|n| (tag, n)).collect();
            assert_eq!(found, due);
        }
    }
}

#[test]
fn fields_behind_the_span_are_not_looked_at() {
    let dose = Type::record([Type::Bytes, Type::Int, Type::Bytes]);
    let key =
        |number, last: &[u8]| encode_key(&dose, &Value::record([Value::from(b"\x0A"), Value::Int(number), Value::from(last)])).unwrap();
    let range = span(&dose, &[Value::from(b"\x0A")], &Value::Int(40), &Value::Int(60)).unwrap();
    assert_eq!(Ok(range.clone()), ends("53 0A 00 49 28", "53 0A 00 49 3C FF"));
    for last in [&b""[..], b"\x00", b"\xFF", b"\xFF\xFF\xFF"] {
        assert!(range.contains(&key(40, last)) && range.contains(&key(60, last)));
        assert!(!range.contains(&key(39, last)) && !range.contains(&key(61, last)));
    }
}

#[test]
fn with_no_field_before_it() {
    assert_eq!(span(&Type::record([Type::Int]), &[], &Value::Int(-1), &Value::Int(0)), ends("47 FE", "48 FF"));
    // tags from 0A to 0A: the batches of that tank, and none of tank 0A 00
    let range = span(&tank(), &[], &Value::from(b"\x0A"), &Value::from(b"\x0A")).unwrap();
    assert_eq!(Ok(range.clone()), ends("53 0A 00", "53 0A 00 FF"));
    assert!(range.contains(&batch(b"\x0A", i64::MAX)) && !range.contains(&batch(b"\x0A\x00", i64::MIN)));
}

#[test]
fn a_lowest_above_the_highest_has_no_key_between() {
    let range = batches(b"\x0A", 60, 40).unwrap();
    assert_eq!(Ok(range.clone()), ends("53 0A 00 49 3C", "53 0A 00 49 28 FF"));
    assert!(range.is_empty());
    for tag in TAGS {
        assert!(NUMBERS.iter().all(|number| !range.contains(&batch(tag, *number))));
    }
    // the upper end may be the beginning of the lower
    let range = span(&tank(), &[], &Value::from(b"\x0A\x00"), &Value::from(b"\x0A")).unwrap();
    assert_eq!(Ok(range.clone()), ends("53 0A 00 FF 00", "53 0A 00 FF"));
    assert!(range.is_empty());
}

#[test]
fn a_lowest_that_is_the_highest_gives_the_bounds_of_one_field_more() {
    assert_eq!(batches(b"\x0A", 40, 40), ends("53 0A 00 49 28", "53 0A 00 49 28 FF"));
    assert_eq!(batches(b"\x0A", 40, 40), bounds(&tank(), &batch(b"\x0A", 40), 2));
    assert_eq!(span(&tank(), &[], &Value::from(b"\x0A"), &Value::from(b"\x0A")), bounds(&tank(), &batch(b"\x0A", 40), 1));
}

#[test]
fn fields_of_every_kind() {
    let id = |sequence| Value::from(FactId::new(PredicateId(7), sequence).unwrap());
    let one = |number| Value::record([Value::Int(number)]);
    for (next, lowest, highest, lower, upper) in [
        (Type::Str, Value::from(""), Value::from("\0"), "21 00", "21 00 FF 00 FF"),
        (Type::Bytes, Value::from(b""), Value::from(b"\xFF"), "53 00", "53 FF 00 FF"),
        (Type::Fact(PredicateId(7)), id(1), id(256), "51 00 00 07 00 00 00 00 01", "51 00 00 07 00 00 00 01 00 FF"),
        (Type::record([Type::Int]), one(0), one(1), "22 48 00", "22 49 01 00 FF"),
        (
            Type::union([(1, Type::Int), (2, Type::Str)]),
            Value::union(1, Value::Int(0)),
            Value::union(2, Value::from("")),
            "52 49 01 48 00",
            "52 49 02 21 00 00 FF",
        ),
        (Type::optional(Type::Int), Value::Null, Value::Int(60), "00", "49 3C FF"),
        (Type::optional(Type::record([Type::Int])), Value::Null, one(0), "00", "22 48 00 FF"),
        (Type::record([Type::optional(Type::Int)]), Value::record([Value::Null]), one(0), "22 00 FF 00", "22 48 00 FF"),
    ] {
        let ty = Type::record([next]);
        assert_eq!(span(&ty, &[], &lowest, &highest), ends(lower, upper));
        // the same behind a field and before another
        let Type::Record(fields) = &ty else { unreachable!() };
        let behind = Type::record([Type::Bytes, fields[0].clone(), Type::Int]);
        let found = span(&behind, &[Value::from(b"\x0A")], &lowest, &highest);
        assert_eq!(found, ends(&format!("53 0A 00 {lower}"), &format!("53 0A 00 {upper}")));
    }
}

#[test]
fn from_a_blank_and_to_a_blank() {
    let tank = Type::record([Type::Bytes, Type::optional(Type::Int)]);
    let first = [Value::from(b"\x0A")];
    let spanned = |lowest: &Value, highest: &Value| span(&tank, &first, lowest, highest);
    let key = |tag: &[u8], number: &Value| encode_key(&tank, &Value::record([Value::from(tag), number.clone()])).unwrap();
    assert_eq!(spanned(&Value::Null, &Value::Int(60)), ends("53 0A 00 00", "53 0A 00 49 3C FF"));
    assert_eq!(spanned(&Value::Null, &Value::Null), ends("53 0A 00 00", "53 0A 00 00 FF"));
    assert_eq!(spanned(&Value::Int(40), &Value::Null), ends("53 0A 00 49 28", "53 0A 00 00 FF"));

    let numbers = [Value::Null, Value::Int(i64::MIN), Value::Int(-1), Value::Int(40), Value::Int(60), Value::Int(61)];
    for lowest in &numbers {
        for highest in &numbers {
            let range = spanned(lowest, highest).unwrap();
            for number in &numbers {
                assert_eq!(range.contains(&key(b"\x0A", number)), lowest <= number && number <= highest);
                assert!(!range.contains(&key(b"\x0A\x00", number)));
            }
        }
    }
}

#[test]
fn values_are_judged_as_fields_of_a_key() {
    // 256 groups, as in a field that stands bare
    let (ty, deep) = nested(256, Type::Int, Value::Int(0));
    let group = [vec![0x22; 256], vec![0x48], vec![0x00; 256]].concat();
    let above = [&group[..], &[0xFF]].concat();
    assert_eq!(span(&Type::record([ty.clone()]), &[], &deep, &deep), Ok(group.clone()..above));
    let pair = Type::record([ty, Type::Int]);
    let found = span(&pair, slice::from_ref(&deep), &Value::Int(0), &Value::Int(1));
    assert_eq!(found, Ok([&group[..], &[0x48]].concat()..[&group[..], &[0x49, 1, 0xFF]].concat()));

    // more are admitted, and refused by the encoder
    for groups in [257, 319] {
        let (ty, deep) = nested(groups, Type::Int, Value::Int(0));
        assert_eq!(span(&Type::record([ty.clone()]), &[], &deep, &deep), Err(Refusal::BadRecord));
        let pair = Type::record([ty, Type::Int]);
        assert_eq!(span(&pair, slice::from_ref(&deep), &Value::Int(0), &Value::Int(1)), Err(Refusal::BadRecord));
    }
    let (_, deepest) = nested(320, Type::Int, Value::Int(0));
    let one = Type::record([Type::Int]);
    assert_eq!(span(&one, &[], &deepest, &Value::Int(0)).map_err(|refusal| refusal.number()), Err(11));
    // the record of the first fields is a group of its sheet
    assert_eq!(span(&tank(), &[deepest], &Value::Int(0), &Value::Int(1)), Err(Refusal::BadValue));
}

#[test]
fn an_end_may_be_longer_than_a_key() {
    let tag = Value::Bytes(vec![1; 65_530]);
    let long = Value::record([tag.clone(), Value::Int(256)]);
    assert_eq!(encode_key(&tank(), &long), Err(Refusal::KeyTooLong { len: 65_535 }));
    let range = span(&tank(), slice::from_ref(&tag), &Value::Int(256), &Value::Int(256)).unwrap();
    assert_eq!((range.start.len(), range.end.len()), (65_535, 65_536));
    assert!(range.start.starts_with(&[0x53, 0x01]) && range.start.ends_with(&[0x01, 0x00, 0x4A, 0x01, 0x00]));
    assert_eq!(range.end, [&range.start[..], &[0xFF]].concat());
}

#[test]
fn the_longest_bytes_for_their_sheets_have_room() {
    let blanks = |n| Value::Record(vec![Value::Null; n]);
    let tagged = |value| Value::union(u32::MAX, value);
    let union = |ty| Type::union([(u32::MAX, ty)]);
    let blank = Type::optional(Type::Int);
    for (ty, value, length) in [
        (Type::Int, Value::Int(i64::MIN), 9),
        (Type::Str, Value::from("\0".repeat(1000)), 2002),
        (Type::Bytes, Value::from(vec![0; 1000]), 2002),
        (union(blank.clone()), tagged(Value::Null), 9),
        (union(union(blank.clone())), tagged(tagged(Value::Null)), 16),
        (Type::record([]), Value::record([]), 2),
        (Type::record([blank.clone()]), blanks(1), 4),
        (Type::Record(vec![blank.clone(); 7]), blanks(7), 16),
        (Type::record([Type::record([blank.clone()])]), Value::record([blanks(1)]), 6),
        (blank, Value::Null, 1),
    ] {
        for k in [0, 1, 2, 9] {
            let (all, first) = (Type::Record(vec![ty.clone(); k + 1]), vec![value.clone(); k]);
            let range = span(&all, &first, &value, &value).unwrap();
            assert_eq!((range.start.len(), range.end.len()), ((k + 1) * length, (k + 1) * length + 1));
        }
    }
}

#[test]
fn each_sheet_has_its_own_limit() {
    let pair = Type::record([Type::Bytes, Type::Bytes]);
    let (most, over) = (Value::Bytes(vec![0; 1_048_576]), Value::Bytes(vec![0; 1_048_577]));
    let range = span(&pair, slice::from_ref(&most), &most, &most).unwrap();
    assert_eq!((range.start.len(), range.end.len()), (4_194_308, 4_194_309));
    assert_eq!(span(&pair, slice::from_ref(&over), &most, &most), Err(Refusal::BadValue));
    assert_eq!(span(&pair, slice::from_ref(&most), &over, &most), Err(Refusal::BadValue));
    assert_eq!(span(&pair, slice::from_ref(&most), &most, &over), Err(Refusal::BadValue));
}
