//! Document 01's specimens.

mod common;

use common::nested;
use std::cmp::Ordering;
use tuple::{
    FactId, PredicateId, Refusal, Type, Value, above_field, bounds, compare, decode_key, decode_typed, encode_key, encode_typed, replace,
    span, starting_with, strinc,
};

/// A specimen's bytes, from hexadecimal.
fn hex(text: &str) -> Vec<u8> {
    text.split_whitespace().map(|pair| u8::from_str_radix(pair, 16).unwrap()).collect()
}

#[test]
fn values_and_their_bytes() {
    let seven = FactId::new(PredicateId(7), 1).unwrap();
    let specimens = [
        (Type::Int, Value::Int(0), "48"),
        (Type::Int, Value::Int(255), "49 FF"),
        (Type::Int, Value::Int(256), "4A 01 00"),
        (Type::Int, Value::Int(-1), "47 FE"),
        (Type::Int, Value::Int(-255), "47 00"),
        (Type::Int, Value::Int(-256), "46 FE FF"),
        (Type::Int, Value::Int(i64::MAX), "50 7F FF FF FF FF FF FF FF"),
        (Type::Int, Value::Int(i64::MIN), "40 7F FF FF FF FF FF FF FF"),
        (Type::Str, Value::from("\0"), "21 00 FF 00"),
        (Type::record([]), Value::record([]), "22 00"),
        (Type::union([(1, Type::Int)]), Value::union(1, Value::Int(0)), "52 49 01 48 00"),
        (Type::Fact(PredicateId(7)), Value::from(seven), "51 00 00 07 00 00 00 00 01"),
    ];
    for (ty, value, bytes) in specimens {
        assert_eq!(encode_typed(&ty, &value), Ok(hex(bytes)), "{value:?}");
        assert_eq!(decode_typed(&ty, &hex(bytes)), Ok(value));
    }
}

#[test]
fn an_empty_record_is_an_empty_key() {
    let (ty, value) = (Type::record([]), Value::record([]));
    assert_eq!(encode_key(&ty, &value), Ok(vec![]));
    assert_eq!(decode_key(&ty, &[]), Ok(value));
}

#[test]
fn records_256_deep_pass_and_257_are_6() {
    let (ty, value) = nested(256, Type::Int, Value::Int(0));
    let bytes = encode_typed(&ty, &value).unwrap();
    assert_eq!(bytes, [vec![0x22; 256], vec![0x48], vec![0; 256]].concat());
    assert_eq!(decode_typed(&ty, &bytes), Ok(value));

    let (ty, value) = nested(257, Type::Int, Value::Int(0));
    assert_eq!(encode_typed(&ty, &value), Err(Refusal::BadRecord));
    let key = encode_key(&ty, &value).unwrap(); // the top record of a key stands bare
    assert_eq!(key, bytes);
    assert_eq!(decode_key(&ty, &key), Ok(value));
}

#[test]
fn a_thread_with_256_kb_of_stack_is_enough_for_the_deepest() {
    let calls = || {
        let (ty, value) = nested(257, Type::Int, Value::Int(0));
        let mut key = encode_key(&ty, &value).unwrap();
        let found = decode_key(&ty, &key).unwrap();
        assert_eq!(compare(&found, &value), Ok(Ordering::Equal));
        assert_eq!(bounds(&ty, &key, 1).unwrap().start, key);
        let (_, field) = nested(256, Type::Int, Value::Int(1));
        replace(&ty, &mut key, 0, &field).unwrap();
        assert_eq!(span(&ty, &[], &field, &field).unwrap().start, key);
        let (ty, value) = nested(320, Type::Int, Value::Int(0));
        assert_eq!(encode_key(&ty, &value), Err(Refusal::BadRecord));
        assert_eq!(compare(&value, &value), Ok(Ordering::Equal));
    };
    std::thread::Builder::new().stack_size(256 << 10).spawn(calls).unwrap().join().unwrap();
}

#[test]
fn a_thread_with_256_kb_of_stack_is_enough_for_the_deepest_before_a_name() {
    let calls = || {
        let (ty, value) = nested(257, Type::Int, Value::Int(1));
        let (Type::Record(types), Value::Record(values)) = (&ty, &value) else { unreachable!() };
        let named = Type::record([types[0].clone(), Type::Str]);
        let key = encode_key(&ty, &value).unwrap();
        assert_eq!(starting_with(&named, values, b"").unwrap().start, [&key[..], &[0x21]].concat());
    };
    std::thread::Builder::new().stack_size(256 << 10).spawn(calls).unwrap().join().unwrap();
}

#[test]
fn the_longest_key() {
    let key = encode_key(&Type::Bytes, &Value::Bytes(vec![1; 65_529])).unwrap();
    assert_eq!(key.len(), tuple::MAX_KEY_BYTES);
    assert_eq!(decode_key(&Type::Bytes, &key), Ok(Value::Bytes(vec![1; 65_529])));
    assert_eq!(encode_typed(&Type::Bytes, &Value::Bytes(vec![1; 65_530])).map(|bytes| bytes.len()), Ok(65_532));
}

#[test]
fn a_tank_key_of_zeros_alone_grows_its_buffer() {
    let key = encode_key(&Type::Bytes, &Value::Bytes(vec![0; 32_764])).unwrap();
    assert_eq!(key.len(), 65_530);
    assert_eq!(decode_key(&Type::Bytes, &key), Ok(Value::Bytes(vec![0; 32_764])));
}

#[test]
fn tank_0a_and_tank_0a_00() {
    let tank = Type::record([Type::Bytes, Type::Int]);
    let key = |tag: &[u8], number| encode_key(&tank, &Value::record([Value::from(tag), Value::Int(number)])).unwrap();
    let (own, other) = (key(b"\x0A", 7), key(b"\x0A\x00", 7));
    assert_eq!((own.clone(), other.clone()), (hex("53 0A 00 49 07"), hex("53 0A 00 FF 00 49 07")));

    let range = bounds(&tank, &own, 1).unwrap();
    assert_eq!(range, hex("53 0A 00")..hex("53 0A 00 FF"));
    assert_eq!(range.end, above_field(&range.start));
    assert!(range.contains(&own) && !range.contains(&other));

    let wrong = range.start.clone()..strinc(&range.start).unwrap();
    assert_eq!(wrong.end, hex("53 0A 01"));
    assert!(wrong.contains(&own) && wrong.contains(&other));

    assert_eq!(bounds(&tank, &own, 0), Ok(vec![]..vec![0xFF]));
    assert_eq!(bounds(&tank, &own, 2), Ok(own.clone()..above_field(&own)));
}

#[test]
fn replacements_that_grow_and_shrink_a_key() {
    let tank = Type::record([Type::Bytes, Type::Int]);
    let mut key = hex("53 0A 0B 00 49 07");
    for (field, value, due) in [
        (0, Value::from(b"\x0C"), "53 0C 00 49 07"),
        (1, Value::Int(256), "53 0C 00 4A 01 00"),
        (0, Value::from(b"\x0A\x00"), "53 0A 00 FF 00 4A 01 00"),
        (1, Value::Int(0), "53 0A 00 FF 00 48"),
        (0, Value::from(b""), "53 00 48"),
    ] {
        assert_eq!(replace(&tank, &mut key, field, &value), Ok(()));
        assert_eq!(key, hex(due));
    }
    replace(&tank, &mut key, 0, &Value::Bytes(vec![0; 32_764])).unwrap(); // far more than was lent at first
    assert_eq!(key.len(), 65_531);
}

#[test]
fn where_strinc_drops_bytes() {
    assert_eq!(strinc(&hex("0A FF FF")), Ok(hex("0B")));
    assert_eq!(strinc(&hex("00 FF FF")), Ok(hex("01")));
    assert_eq!(strinc(&hex("41")), Ok(hex("42")));
    assert_eq!(strinc(&hex("0A 0B")), Ok(hex("0A 0C")));
    assert_eq!(strinc(&hex("53 0A 00")), Ok(hex("53 0A 01")));
    assert_eq!(strinc(&[]), Err(Refusal::NoBound));
}
