//! How many zeros were escaped: those of texts and bytes, at any depth, and no other zero of the key.

use tuple::{FactId, Kind, PredicateId, Refusal, Type, Value, encode_key_counted, encode_typed_counted};

/// Both calls, for values whose bytes are the same by either.
fn both(ty: &Type, value: &Value) -> (Vec<u8>, u64) {
    let counted = encode_key_counted(ty, value).unwrap();
    assert_eq!(encode_typed_counted(ty, value), Ok(counted.clone()));
    counted
}

#[test]
fn every_zero_of_a_text_or_of_bytes_counts_and_no_end_does() {
    assert_eq!(both(&Type::Bytes, &Value::from(b"\0a\0")), (vec![0x53, 0x00, 0xFF, 0x61, 0x00, 0xFF, 0x00], 2));
    assert_eq!(both(&Type::Str, &Value::from("\0")), (vec![0x21, 0x00, 0xFF, 0x00], 1));
    assert_eq!(both(&Type::optional(Type::Bytes), &Value::from(b"\0\0")).1, 2);
    assert_eq!(both(&Type::Bytes, &Value::from(b"\xFF\xFF")), (vec![0x53, 0xFF, 0xFF, 0x00], 0));
}

#[test]
fn no_other_zero_counts() {
    assert_eq!(both(&Type::Int, &Value::Int(256)), (vec![0x4A, 0x01, 0x00], 0));
    let batch = FactId::new(PredicateId(7), 1).unwrap();
    assert_eq!(both(&Type::Fact(PredicateId(7)), &Value::from(batch)), (vec![0x51, 0, 0, 7, 0, 0, 0, 0, 1], 0));
    let dose = Type::union([(256, Type::Bytes)]);
    assert_eq!(both(&dose, &Value::union(256, Value::from(b""))), (vec![0x52, 0x4A, 0x01, 0x00, 0x53, 0x00, 0x00], 0));
    let (lot, blank) = (Type::record([Type::optional(Type::Bytes)]), Value::record([Value::Null]));
    assert_eq!(encode_typed_counted(&lot, &blank), Ok((vec![0x22, 0x00, 0xFF, 0x00], 0)));
    assert_eq!(encode_key_counted(&lot, &blank), Ok((vec![0x00], 0)));
    let (group, empty) = (Type::record([Type::record([])]), Value::record([Value::record([])]));
    assert_eq!(encode_typed_counted(&group, &empty), Ok((vec![0x22, 0x22, 0x00, 0x00], 0)));
}

#[test]
fn groups_pass_the_sum_upward() {
    let ty = Type::record([Type::Bytes, Type::record([Type::Str]), Type::union([(1, Type::Bytes)])]);
    let value = Value::record([Value::from(b"\0"), Value::record([Value::from("\0\0")]), Value::union(1, Value::from(b"\0"))]);
    let key = [&[0x53, 0, 0xFF, 0][..], &[0x22, 0x21, 0, 0xFF, 0, 0xFF, 0, 0], &[0x52, 0x49, 1, 0x53, 0, 0xFF, 0, 0]].concat();
    assert_eq!(encode_key_counted(&ty, &value), Ok((key.clone(), 4)));
    assert_eq!(encode_typed_counted(&ty, &value), Ok(([&[0x22], &key[..], &[0]].concat(), 4)));
}

// That a refused answer shows 0, and refusal 17, are in src/ffi.rs: here a refusal has no number beside it.
#[test]
fn a_value_with_zeros_is_refused_as_before() {
    let tank = Type::record([Type::Bytes, Type::Int]);
    let blank = Value::record([Value::from(b"\0"), Value::Null]);
    assert_eq!(encode_key_counted(&tank, &blank), Err(Refusal::TypeMismatch { declared: Kind::Int }));
    assert_eq!(encode_typed_counted(&tank, &blank), Err(Refusal::TypeMismatch { declared: Kind::Int }));

    let long = Value::Bytes(vec![0; 40_000]);
    assert_eq!(encode_key_counted(&Type::Bytes, &long), Err(Refusal::KeyTooLong { len: 80_002 }));
    let (bytes, zeros) = encode_typed_counted(&Type::Bytes, &long).unwrap();
    assert_eq!((bytes.len(), zeros), (80_002, 40_000));
}

#[test]
fn the_empty_key_has_none() {
    assert_eq!(encode_key_counted(&Type::record([]), &Value::record([])), Ok((vec![], 0)));
    assert_eq!(encode_typed_counted(&Type::record([]), &Value::record([])), Ok((vec![0x22, 0x00], 0)));
}
