//! Optional types: blanks by their bytes, their order, in bounds and replacement, and what refuses them.

use tuple::{
    FactId, Kind, PredicateId, Refusal, Type, Value, bounds, check_key, compare, decode_key, decode_typed, encode_key, encode_typed,
    replace, skip,
};

/// A recipe line: the supplier's lot, if it has one, and grams.
fn line() -> Type {
    Type::record([Type::optional(Type::Bytes), Type::Int])
}

fn row(lot: Value, grams: i64) -> Value {
    Value::record([lot, Value::Int(grams)])
}

#[test]
fn a_blank_is_00_in_a_key_and_00_ff_in_a_group() {
    let blank = row(Value::Null, 7);
    assert_eq!(encode_key(&line(), &blank).unwrap(), [0x00, 0x49, 0x07]);
    assert_eq!(encode_typed(&line(), &blank).unwrap(), [0x22, 0x00, 0xFF, 0x49, 0x07, 0x00]);
    let dose = Type::union([(1, Type::optional(Type::Int))]);
    assert_eq!(encode_key(&dose, &Value::union(1, Value::Null)).unwrap(), [0x52, 0x49, 0x01, 0x00, 0xFF, 0x00]);
    // by the groups that are open, not by the type's nesting
    let nested = Type::record([Type::record([Type::optional(Type::Int), Type::optional(Type::Str)])]);
    let blanks = Value::record([Value::record([Value::Null, Value::Null])]);
    assert_eq!(encode_key(&nested, &blanks).unwrap(), [0x22, 0x00, 0xFF, 0x00, 0xFF, 0x00]);
    assert_eq!(decode_key(&nested, &[0x22, 0x00, 0xFF, 0x00, 0xFF, 0x00]), Ok(blanks));
}

#[test]
fn every_type_made_optional_takes_its_values_and_a_blank() {
    let id = FactId::new(PredicateId(7), 1).unwrap();
    let kinds = [
        (Type::Int, Value::Int(-1)),
        (Type::Str, Value::from("")),
        (Type::Bytes, Value::from(b"\0")),
        (Type::Fact(PredicateId(7)), Value::from(id)),
        (Type::record([]), Value::record([])),
        (Type::record([Type::optional(Type::Int)]), Value::record([Value::Null])),
        (Type::union([(7, Type::optional(Type::Int))]), Value::union(7, Value::Null)),
    ];
    for (plain, value) in kinds {
        let ty = Type::optional(plain.clone());
        assert_eq!(ty.kind(), plain.kind());
        assert_eq!(encode_key(&ty, &Value::Null).unwrap(), [0x00]);
        assert_eq!((decode_key(&ty, &[0x00]), decode_typed(&ty, &[0x00])), (Ok(Value::Null), Ok(Value::Null)));
        // a record among them is no record type, so its key is the group
        let key = encode_key(&ty, &value).unwrap();
        assert_eq!(key, encode_typed(&plain, &value).unwrap());
        assert_eq!(decode_key(&ty, &key), Ok(value.clone()));
        assert_eq!(compare(&Value::Null, &value), Ok(std::cmp::Ordering::Less));
        assert!(key.as_slice() > [0x00].as_slice());
        assert_eq!(encode_key(&plain, &Value::Null), Err(Refusal::TypeMismatch { declared: plain.kind() }));
        assert_eq!(bounds(&ty, &key, 0), Err(Refusal::NoField));
        assert_eq!(replace(&ty, &mut key.clone(), 0, &Value::Null), Err(Refusal::NoField));
        assert_eq!(encode_key(&Type::optional(ty), &Value::Null), Err(Refusal::BadType));
    }
}

#[test]
fn what_is_no_null_is_the_type_behind() {
    let ty = Type::optional(Type::Int);
    assert_eq!(check_key(&ty, &[]), Err(Refusal::UnexpectedEof));
    assert_eq!(check_key(&ty, &[0x21, 0x00]), Err(Refusal::UnexpectedMark(0x21)));
    assert_eq!(check_key(&ty, &[0x4A, 0x00, 0x01]), Err(Refusal::BadInteger));
    assert_eq!(check_key(&ty, &[0x00, 0xFF]), Err(Refusal::UnexpectedMark(0xFF)));
    let dose = Type::union([(1, ty.clone())]);
    assert_eq!(decode_typed(&dose, &[0x52, 0x49, 0x01, 0x00, 0x00]), Err(Refusal::UnexpectedMark(0x00)));
    let group = Type::record([ty.clone()]);
    assert_eq!(decode_typed(&group, &[0x22, 0x00]), Err(Refusal::BadRecord));
    assert_eq!(decode_typed(&group, &[0x22, 0x00, 0xFF, 0x00]), Ok(Value::record([Value::Null])));
    assert_eq!(encode_key(&ty, &Value::from("")), Err(Refusal::TypeMismatch { declared: Kind::Int }));
    assert_eq!(encode_key(&dose, &Value::union(1, Value::from(""))), Err(Refusal::BadUnion { tag: 1 }));
}

#[test]
fn keys_with_blanks_stand_in_the_order_of_their_values() {
    let lots = [Value::Null, Value::from(b""), Value::from(b"\0"), Value::from(b"\0\0"), Value::from(b"\xFF")];
    let values: Vec<Value> = lots.iter().flat_map(|lot| [-1, 0, 7].map(|grams| row(lot.clone(), grams))).collect();
    let keys: Vec<Vec<u8>> = values.iter().map(|value| encode_key(&line(), value).unwrap()).collect();
    assert!(keys.is_sorted() && values.is_sorted());
    // the ends of the first k fields cut out exactly the keys with the same
    for (value, key) in values.iter().zip(&keys) {
        for k in 0..=2 {
            let ends = bounds(&line(), key, k).unwrap();
            for (other, at) in values.iter().zip(&keys) {
                let (Value::Record(fields), Value::Record(others)) = (value, other) else { unreachable!() };
                assert_eq!(ends.contains(at), fields[..k] == others[..k], "{value:?} {other:?} {k}");
            }
        }
    }
}

#[test]
fn a_lot_is_struck_out_and_written_again() {
    let mut key = encode_key(&line(), &row(Value::from(b"\x0A"), 7)).unwrap();
    replace(&line(), &mut key, 0, &Value::Null).unwrap();
    assert_eq!(key, [0x00, 0x49, 0x07]);
    assert_eq!(replace(&line(), &mut key, 1, &Value::Null), Err(Refusal::TypeMismatch { declared: Kind::Int }));
    replace(&line(), &mut key, 0, &Value::from(b"\x0A")).unwrap();
    assert_eq!(key, [0x53, 0x0A, 0x00, 0x49, 0x07]);
    // a key's blank is passed where no escape is required
    assert_eq!(skip(&[0x00, 0x49, 0x07], 0, false), Ok(1));
    assert_eq!(skip(&[0x00, 0x49, 0x07], 0, true), Err(Refusal::UnexpectedTerminator));
}

#[test]
fn at_depth_256_a_blank_stands_where_a_record_may_not() {
    let around = |inner: Type| (0..256).fold(inner, |ty, _| Type::record([ty]));
    let filled = |inner: Value| (0..256).fold(inner, |value, _| Value::record([value]));
    let ty = around(Type::optional(Type::record([])));
    let key = encode_typed(&ty, &filled(Value::Null)).unwrap();
    assert_eq!(key, [[0x22; 256].as_slice(), &[0x00, 0xFF], &[0x00; 256]].concat());
    assert_eq!(decode_typed(&ty, &key), Ok(filled(Value::Null)));
    assert_eq!(encode_typed(&ty, &filled(Value::record([]))), Err(Refusal::BadRecord));
}
