//! The table of refusals, row by row: number, name and detail of each example. NoRoom is never seen; BadLine is of the program `keylist` alone; the two
//! sheets that no `Type` or `Value` has are in src/ffi.rs.

mod common;

use common::nested;
use tuple::{
    FactId, PredicateId, Refusal, Type, Value, bounds, check_key, check_key_counted, compare, decode_key, decode_key_counted, decode_typed,
    encode_key, encode_typed, get_bytes, get_i64, get_str, get_u64, replace, skip, span, starting_with, strinc,
};

fn row<T: std::fmt::Debug>(answer: Result<T, Refusal>, number: u32, name: &str, detail: u64) {
    let refusal = answer.unwrap_err();
    assert_eq!((refusal.number(), refusal.name(), refusal.detail()), (number, name, detail));
    let _: &dyn std::error::Error = &refusal;
}

fn reference(predicate: u32) -> Value {
    Value::from(FactId::new(PredicateId(predicate), 1).unwrap())
}

/// A reference with sequence 0.
fn reserved(predicate: u32) -> Value {
    Value::from(FactId::from_raw(FactId::new(PredicateId(predicate), 1).unwrap().raw() - 1))
}

#[test]
fn the_table() {
    let one = Type::record([Type::Int]);
    let known = Type::union([(1, Type::Int)]);
    let eight = [vec![0x51], vec![0; 8]].concat();
    row(decode_key(&Type::Int, &[]), 1, "UnexpectedEof", 0);
    row(decode_key(&Type::Int, &[0x21, 0x00]), 2, "UnexpectedMark", 0x21);
    row(skip(&[0x00], 0, true), 3, "UnexpectedTerminator", 0);
    row(decode_key(&Type::Str, &[0x21, 0x80, 0x00]), 4, "BadString", 0);
    row(decode_key(&Type::Int, &[0x4A, 0x00, 0x01]), 5, "BadInteger", 0);
    row(encode_key(&one, &Value::record([])), 6, "BadRecord", 0);
    row(encode_key(&Type::Bytes, &Value::Bytes(vec![1; 65_530])), 7, "KeyTooLong", 65_532);
    row(encode_key(&Type::Fact(PredicateId(7)), &reference(8)), 8, "FactRefPredicate", 8);
    row(decode_key(&Type::Fact(PredicateId(7)), &eight), 9, "ReservedFactId", 0);
    row(decode_key(&known, &[0x52, 0x49, 0x02, 0x48, 0x00]), 10, "UnknownDiscriminant", 2);
    row(encode_key(&Type::Int, &Value::Null), 11, "TypeMismatch", 1);
    row(encode_key(&known, &Value::union(1, Value::Null)), 12, "BadUnion", 1);
    row(decode_key(&Type::Int, &[0x50, 0x80, 0, 0, 0, 0, 0, 0, 0]), 13, "Overflow", 0);
    row(decode_key(&Type::Int, &[0x40, 0x7F, 0xFF, 0xFF, 0xFF, 0xFF, 0xFF, 0xFF, 0xFE]), 14, "Underflow", 0);
    row(strinc(&[0xFF]), 19, "NoBound", 0);
}

#[test]
fn types_and_values_that_are_not_admitted() {
    let (deep, value) = nested(321, Type::Int, Value::Int(0));
    row(encode_key(&deep, &Value::Int(0)), 15, "BadType", 0);
    row(encode_typed(&deep, &value), 15, "BadType", 0);
    row(decode_key(&deep, &[]), 15, "BadType", 0);
    row(decode_typed(&deep, &[]), 15, "BadType", 0);
    row(check_key(&deep, &[]), 15, "BadType", 0);
    row(bounds(&deep, &[], 9), 15, "BadType", 0);
    row(replace(&deep, &mut vec![], 9, &Value::Int(0)), 15, "BadType", 0);
    row(span(&deep, &[], &Value::Int(0), &Value::Int(0)), 15, "BadType", 0);
    row(encode_key(&Type::Int, &value), 16, "BadValue", 0);
    row(encode_typed(&Type::Int, &value), 16, "BadValue", 0);
    row(compare(&Value::Int(0), &value), 16, "BadValue", 0);
    row(replace(&Type::record([Type::Int]), &mut vec![0x48], 0, &value), 16, "BadValue", 0);
    let pair = Type::record([Type::Int, Type::Int]);
    row(span(&pair, std::slice::from_ref(&value), &Value::Int(0), &Value::Int(0)), 16, "BadValue", 0);
    row(span(&pair, &[Value::Int(0)], &value, &Value::Int(0)), 16, "BadValue", 0);
    row(span(&pair, &[Value::Int(0)], &Value::Int(0), &value), 16, "BadValue", 0);

    let (deep, value) = nested(320, Type::Int, Value::Int(0));
    row(encode_key(&deep, &value), 6, "BadRecord", 0); // admitted, and too deep to encode

    let wide = |fields| Type::record(vec![Type::Int; fields]);
    row(check_key(&wide(4_095), &[]), 15, "BadType", 0);
    row(check_key(&wide(4_094), &[]), 1, "UnexpectedEof", 0);
    row(encode_key(&Type::Bytes, &Value::Bytes(vec![0; 1_048_577])), 16, "BadValue", 0);
    row(encode_key(&Type::Bytes, &Value::Bytes(vec![0; 1_048_576])), 7, "KeyTooLong", 2_097_154);
    row(encode_key(&wide(1), &Value::Record(vec![Value::Null; 1_048_575])), 16, "BadValue", 0);
    row(encode_key(&wide(1), &Value::Record(vec![Value::Null; 1_048_574])), 6, "BadRecord", 0);
}

#[test]
fn no_such_field() {
    let tank = Type::record([Type::Bytes, Type::Int]);
    let key = vec![0x53, 0x0A, 0x00, 0x49, 0x07];
    row(replace(&tank, &mut key.clone(), 2, &Value::Int(0)), 18, "NoField", 0);
    row(replace(&tank, &mut key.clone(), usize::MAX, &Value::Int(0)), 18, "NoField", 0);
    row(replace(&Type::Int, &mut vec![0x48], 0, &Value::Int(0)), 18, "NoField", 0);
    row(bounds(&tank, &key, 3), 18, "NoField", 0);
    row(bounds(&Type::Int, &[0x48], 0), 18, "NoField", 0);
    row(bounds(&tank, &[], 3), 18, "NoField", 0); // before the key is decoded

    let spanned = |ty: &Type, first: &[Value]| span(ty, first, &Value::Int(40), &Value::Int(60));
    row(spanned(&tank, &[Value::from(b"\x0A"), Value::Int(7)]), 18, "NoField", 0); // none behind the last
    row(spanned(&tank, &[Value::from(b"\x0A"), Value::Int(7), Value::Int(8)]), 18, "NoField", 0);
    row(spanned(&Type::record([]), &[]), 18, "NoField", 0);
    row(spanned(&Type::Int, &[]), 18, "NoField", 0);
    row(spanned(&Type::union([(1, Type::Int)]), &[]), 18, "NoField", 0);
    row(spanned(&Type::optional(Type::record([Type::Int])), &[]), 18, "NoField", 0);
}

#[test]
fn no_field_that_begins_with_bytes() {
    let (int, text, fact) = (Type::Int, Type::Str, Type::Fact(PredicateId(7)));
    let (record, union) = (Type::record([Type::Str]), Type::union([(1, Type::Str)]));
    for next in [&int, &fact, &record, &union] {
        for next in [next.clone(), Type::optional(next.clone())] {
            row(starting_with(&Type::record([next.clone()]), &[], b""), 18, "NoField", 0);
            row(starting_with(&Type::record([text.clone(), next, text.clone()]), &[Value::from("")], b""), 18, "NoField", 0);
        }
    }
    // none behind the last, and no record
    let name = Type::record([text.clone()]);
    row(starting_with(&name, &[Value::from("")], b""), 18, "NoField", 0);
    row(starting_with(&name, &[Value::from(""), Value::from("")], b""), 18, "NoField", 0);
    row(starting_with(&Type::record([]), &[], b""), 18, "NoField", 0);
    for ty in [text.clone(), Type::Bytes, union, Type::optional(text), Type::optional(name)] {
        row(starting_with(&ty, &[], b""), 18, "NoField", 0);
    }
}

#[test]
fn a_beginning_refuses_types_and_values_that_are_not_admitted() {
    let (deep, value) = nested(321, Type::Int, Value::Int(0));
    row(starting_with(&deep, &[], b""), 15, "BadType", 0);
    row(starting_with(&Type::record([Type::Int, Type::Int]), std::slice::from_ref(&value), b""), 16, "BadValue", 0);
}

#[test]
fn a_beginning_has_the_encoders_refusals_of_each_value_before_it() {
    for (ty, good, bad, number, name, detail) in [
        (Type::record([Type::Int]), Value::record([Value::Int(0)]), Value::record([]), 6, "BadRecord", 0),
        (Type::Fact(PredicateId(7)), reference(7), reference(8), 8, "FactRefPredicate", 8),
        (Type::Fact(PredicateId(7)), reference(7), reserved(7), 9, "ReservedFactId", 0),
        (Type::union([(1, Type::Int)]), Value::union(1, Value::Int(0)), Value::union(2, Value::Int(0)), 10, "UnknownDiscriminant", 2),
        (Type::Int, Value::Int(0), Value::Null, 11, "TypeMismatch", 1),
        (Type::optional(Type::Int), Value::Null, Value::from(""), 11, "TypeMismatch", 1),
        (Type::union([(1, Type::Int)]), Value::union(1, Value::Int(0)), Value::union(1, Value::Null), 12, "BadUnion", 1),
    ] {
        let named = Type::record([ty.clone(), ty, Type::Str]);
        assert!(starting_with(&named, &[good.clone(), good.clone()], b"re").is_ok());
        row(starting_with(&named, &[bad.clone(), good.clone()], b"re"), number, name, detail);
        row(starting_with(&named, &[good, bad], b"re"), number, name, detail);
    }
}

#[test]
fn a_span_has_the_encoders_refusals_of_each_value() {
    for (ty, good, bad, number, name, detail) in [
        (Type::record([Type::Int]), Value::record([Value::Int(0)]), Value::record([]), 6, "BadRecord", 0),
        (Type::Fact(PredicateId(7)), reference(7), reference(8), 8, "FactRefPredicate", 8),
        (Type::Fact(PredicateId(7)), reference(7), reserved(7), 9, "ReservedFactId", 0),
        (Type::union([(1, Type::Int)]), Value::union(1, Value::Int(0)), Value::union(2, Value::Int(0)), 10, "UnknownDiscriminant", 2),
        (Type::Int, Value::Int(0), Value::Null, 11, "TypeMismatch", 1),
        (Type::optional(Type::Int), Value::Null, Value::from(""), 11, "TypeMismatch", 1),
        (Type::union([(1, Type::Int)]), Value::union(1, Value::Int(0)), Value::union(1, Value::Null), 12, "BadUnion", 1),
    ] {
        let all = Type::Record(vec![ty; 3]);
        assert!(span(&all, &[good.clone(), good.clone()], &good, &good).is_ok());
        row(span(&all, &[bad.clone(), good.clone()], &good, &good), number, name, detail);
        row(span(&all, &[good.clone(), bad.clone()], &good, &good), number, name, detail);
        row(span(&all, &[good.clone(), good.clone()], &bad, &good), number, name, detail);
        row(span(&all, &[good.clone(), good.clone()], &good, &bad), number, name, detail);
    }
}

#[test]
fn a_refused_replacement_changes_nothing() {
    let ty = Type::record([Type::Bytes, Type::Int, Type::Fact(PredicateId(7)), Type::union([(1, Type::Int)])]);
    let value = Value::record([Value::from(b"\x0A\x00"), Value::Int(7), reference(7), Value::union(1, Value::Int(0))]);
    let key = encode_key(&ty, &value).unwrap();
    for (field, value, number, detail) in [
        (4, Value::Int(0), 18, 0),
        (1, Value::Null, 11, 1),
        (0, Value::from("0A"), 11, 3),
        (2, reserved(7), 9, 0),
        (2, reference(8), 8, 8),
        (3, Value::union(2, Value::Int(0)), 10, 2),
        (3, Value::union(1, Value::Null), 12, 1),
        (0, Value::Bytes(vec![1; 65_529]), 7, 65_547),
        (0, Value::Bytes(vec![0; 1_048_577]), 16, 0),
    ] {
        let mut changed = key.clone();
        let refusal = replace(&ty, &mut changed, field, &value).unwrap_err();
        assert_eq!((refusal.number(), refusal.detail()), (number, detail));
        assert_eq!(changed, key);
    }
    let mut cut = key[..key.len() - 1].to_vec();
    row(replace(&ty, &mut cut, 0, &Value::Null), 1, "UnexpectedEof", 0); // the key's refusal before the value's
    assert_eq!(cut, key[..key.len() - 1]);
}

#[test]
fn single_fields_that_are_refused() {
    row(get_i64(&[]), 1, "UnexpectedEof", 0);
    row(get_i64(&[0x53, 0x00]), 2, "UnexpectedMark", 0x53);
    row(get_i64(&[0x4A, 0x00, 0x01]), 5, "BadInteger", 0);
    row(get_i64(&[0x50, 0x80, 0, 0, 0, 0, 0, 0, 0]), 13, "Overflow", 0);
    row(get_i64(&[0x40, 0, 0, 0, 0, 0, 0, 0, 0]), 14, "Underflow", 0);
    row(get_u64(&[0x49]), 1, "UnexpectedEof", 0);
    row(get_u64(&[0x47, 0xFE]), 2, "UnexpectedMark", 0x47);
    row(get_u64(&[0x49, 0x00]), 5, "BadInteger", 0);
    row(get_str(&[0x21]), 1, "UnexpectedEof", 0);
    row(get_str(&[0x53, 0x00]), 2, "UnexpectedMark", 0x53);
    row(get_str(&[0x21, 0xED, 0xA0, 0x80, 0x00]), 4, "BadString", 0);
    row(get_str(&[0x21, 0x80, 0x00, 0xFF, 0x00]), 4, "BadString", 0);
    row(get_bytes(&[0x53, 0x00, 0xFF]), 1, "UnexpectedEof", 0);
    row(get_bytes(&[0x21, 0x00]), 2, "UnexpectedMark", 0x21);
    row(skip(&[0x48], 1, false), 1, "UnexpectedEof", 0);
    row(skip(&[0x48], usize::MAX, false), 1, "UnexpectedEof", 0);
    row(skip(&[0x54], 0, false), 2, "UnexpectedMark", 0x54);
    row(skip(&[0x52, 0x49, 0x00, 0x48, 0x00], 0, false), 5, "BadInteger", 0);
    row(skip(&[0x22; 257], 0, false), 6, "BadRecord", 0);
}

#[test]
fn values_begun() {
    let tank = Type::record([Type::Bytes, Type::Int]);
    for (key, number, begun) in [
        (&[0x53, 0x0A, 0x00, 0x49, 0x07][..], 0, 2),
        (&[0x53, 0x0A, 0x00, 0xFF, 0x00, 0x49, 0x07], 0, 2),
        (&[0x53, 0x0A], 1, 1),
        (&[0x53, 0x0A, 0x00], 1, 2),
        (&[0x53, 0x0A, 0x00, 0x48, 0x48], 2, 2),
    ] {
        let (answer, found) = check_key_counted(&tank, key);
        assert_eq!((answer.map_or_else(|refusal| refusal.number(), |()| 0), found), (number, begun));
        let (answer, found) = decode_key_counted(&tank, key);
        assert_eq!((answer.map_or_else(|refusal| refusal.number(), |_| 0), found), (number, begun));
    }
}
