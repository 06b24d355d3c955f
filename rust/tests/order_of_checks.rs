//! Where two refusals are due, the one that comes; the values begun where a group ends early; payloads of every length.

mod common;

use common::nested;
use tuple::{
    FactId, PredicateId, Type, Value, bounds, decode_typed_counted, encode_key, encode_typed, get_bytes, get_str, put_bytes, put_str, span,
    starting_with,
};

/// A refusal as number and detail, or (0, 0).
fn said<T>(answer: Result<T, tuple::Refusal>) -> (u32, u64) {
    answer.map_or_else(|refusal| (refusal.number(), refusal.detail()), |_| (0, 0))
}

#[test]
fn encoding() {
    let fact = Type::Fact(PredicateId(7));
    let pair = Type::record([Type::Int, fact.clone()]);
    let reserved = Value::from(FactId::from_raw(FactId::new(PredicateId(8), 1).unwrap().raw() - 1));
    assert_eq!(said(encode_key(&fact, &reserved)), (9, 0)); // the sequence before the predicate
    assert_eq!(said(encode_key(&pair, &Value::record([Value::Null, reserved.clone()]))), (11, 1)); // fields in order
    assert_eq!(said(encode_key(&pair, &Value::record([reserved]))), (6, 0)); // the count before the fields
    assert_eq!(said(encode_key(&pair, &Value::Int(0))), (11, 5));
    let tank = Type::record([Type::Bytes, Type::Int]);
    assert_eq!(said(encode_key(&tank, &Value::record([Value::Bytes(vec![1; 65_530]), Value::Null]))), (11, 1)); // before the key's length
}

#[test]
fn unions() {
    let inner = Type::union([(9, Type::Int)]);
    let outer = Type::union([(5, Type::record([inner.clone()]))]);
    let value = |disc, payload| Value::union(5, Value::record([Value::union(disc, payload)]));
    assert_eq!(said(encode_typed(&outer, &value(9, Value::Null))), (12, 9)); // the innermost tag
    assert_eq!(said(encode_typed(&outer, &value(8, Value::Null))), (10, 8));
    assert_eq!(said(encode_typed(&outer, &Value::union(5, Value::record([])))), (12, 5));
    assert_eq!(said(encode_typed(&Type::union([]), &Value::union(3, Value::Int(0)))), (10, 3));
    let twice = Type::union([(1, Type::Int), (1, Type::Str)]);
    assert_eq!(said(encode_typed(&twice, &Value::union(1, Value::from("")))), (12, 1)); // the first match counts

    let (ty, value) = nested(256, Type::union([(1, Type::Int)]), Value::union(1, Value::Int(0)));
    assert_eq!(said(encode_typed(&ty, &value)), (12, 1)); // its own depth too
    let (ty, value) = nested(256, Type::union([(1, Type::Int)]), Value::union(2, Value::Int(0)));
    assert_eq!(said(encode_typed(&ty, &value)), (10, 2));
}

#[test]
fn decoding_and_the_values_begun() {
    let (int, one, union) = (Type::Int, Type::record([Type::Int]), Type::union([(1, Type::Int)]));
    for (ty, bytes, due, begun) in [
        (&int, &[][..], (1, 0), 1),
        (&int, &[0x48, 0x48], (2, 0x48), 1),
        (&one, &[0x22], (1, 0), 1),
        (&one, &[0x22, 0x00], (6, 0), 1),
        (&one, &[0x22, 0x00, 0xFF, 0x00], (2, 0), 2),
        (&one, &[0x22, 0x48, 0x48, 0x00], (6, 0), 2),
        (&one, &[0x22, 0x48, 0x00, 0xFF], (6, 0), 2),
        (&one, &[0x22, 0x48, 0x00], (0, 0), 2),
        (&union, &[0x52, 0x49, 0x01], (1, 0), 2),
        (&union, &[0x52, 0x49, 0x01, 0x48], (1, 0), 2),
        (&union, &[0x52, 0x49, 0x01, 0x48, 0x00, 0xFF], (2, 0), 2),
        (&union, &[0x52, 0x49, 0x01, 0x48, 0x48], (2, 0x48), 2),
        (&union, &[0x52, 0x4D, 0x01, 0, 0, 0, 0x01, 0x48, 0x00], (10, (1 << 32) + 1), 1), // a tag is not cut
        (&union, &[0x52, 0x50, 0xFF, 0xFF, 0xFF, 0xFF, 0xFF, 0xFF, 0xFF, 0xFF], (10, u64::MAX), 1),
    ] {
        let (answer, found) = decode_typed_counted(ty, bytes);
        assert_eq!((said(answer), found), (due, begun), "{bytes:02X?}");
    }
    let records = vec![0x22; 256];
    let (ty, _) = nested(256, union, Value::Null);
    let (answer, begun) = decode_typed_counted(&ty, &[&records[..], &[0x52, 0x49, 0x02]].concat());
    assert_eq!((said(answer), begun), ((6, 0), 257)); // the depth before the alternative
    let (answer, begun) = decode_typed_counted(&ty, &[&records[..], &[0x52, 0x21]].concat());
    assert_eq!((said(answer), begun), ((2, 0x21), 257)); // the discriminant before the depth
    assert_eq!(said(tuple::skip(&[&records[..], &[0x52, 0x21]].concat(), 0, false)), (6, 0)); // skip has them the other way
}

#[test]
fn skipping() {
    assert_eq!(tuple::skip(&[[0x22; 256], [0x00; 256]].concat(), 0, false), Ok(512));
    for (bytes, required, due) in [
        (&[0x00][..], false, Ok(1)),
        (&[0x00, 0xFF], false, Ok(1)),
        (&[0x00, 0xFF], true, Ok(2)),
        (&[0x22, 0x00], true, Ok(2)),
        (&[0x22, 0x00, 0xFF, 0x00], false, Ok(4)),
        (&[0x4A, 0x00, 0x01], false, Ok(3)),             // no width
        (&[0x21, 0x80, 0x00], false, Ok(3)),             // no UTF-8
        (&[0x51, 0, 0, 0, 0, 0, 0, 0, 0], false, Ok(9)), // no reference
        (&[0x52, 0x48, 0x48, 0x48, 0x00], false, Ok(5)),
        (&[0x52, 0x4A, 0x01, 0x00, 0x48, 0x00], false, Ok(6)), // a 00 within a discriminant is no end
    ] {
        assert_eq!(tuple::skip(bytes, 0, required), due, "{bytes:02X?}");
    }
}

#[test]
fn replacing_and_bounding() {
    let (one, tank) = (Type::record([Type::Int]), Type::record([Type::Bytes, Type::Int]));
    let (_, deep) = nested(321, Type::Int, Value::Int(0));
    let replaced = |ty: &Type, key: &[u8], field, value: &Value| {
        let mut changed = key.to_vec();
        let answer = said(tuple::replace(ty, &mut changed, field, value));
        assert!(answer.0 == 0 || changed == key);
        answer
    };
    assert_eq!(replaced(&tank, &[0x53, 0x0A], 2, &deep), (18, 0)); // the field, then the key, then the value
    assert_eq!(replaced(&tank, &[0x53, 0x0A], 1, &deep), (1, 0));
    assert_eq!(replaced(&tank, &[0x53, 0x0A, 0x00, 0x48], 1, &deep), (16, 0));
    assert_eq!(replaced(&one, &[0x48], 0, &Value::Record(vec![Value::Null; 1_048_574])), (11, 1)); // no sheet limit on the changed record

    let long = [vec![0x53], vec![0x01; 70_000], vec![0x00, 0x49, 0x07]].concat(); // decodes, though no key of encode_key
    assert_eq!(replaced(&tank, &long, 1, &Value::Int(8)), (7, 70_004));
    assert_eq!(replaced(&tank, &long, 0, &Value::from(b"\x0A")), (0, 0));
    assert_eq!(bounds(&tank, &long, 1).unwrap().end.len(), 70_003);
    assert_eq!(said(bounds(&tank, &[0x53, 0x0A, 0x00, 0x48, 0x48], 0)), (2, 0x48)); // the key is decoded with k 0 too
    assert_eq!(bounds(&Type::record([]), &[], 0), Ok(vec![]..vec![0xFF]));
}

#[test]
fn spanning() {
    let tank = Type::record([Type::Bytes, Type::Int]);
    let (deeper, deep) = nested(321, Type::Int, Value::Int(0));
    let (tag, zero, text) = (Value::from(b"\x0A"), Value::Int(0), Value::from(""));
    let spanned = |ty: &Type, first: &[&Value], lowest: &Value, highest: &Value| {
        let first: Vec<Value> = first.iter().map(|value| (*value).clone()).collect();
        said(span(ty, &first, lowest, highest))
    };
    assert_eq!(spanned(&deeper, &[&deep], &deep, &deep), (15, 0)); // the type, then the values' sheets, then the field
    assert_eq!(spanned(&Type::Int, &[&deep], &zero, &zero), (16, 0));
    assert_eq!(spanned(&Type::Int, &[], &deep, &zero), (16, 0));
    assert_eq!(spanned(&Type::Int, &[], &zero, &deep), (16, 0));
    assert_eq!(spanned(&Type::Int, &[], &zero, &zero), (18, 0));
    assert_eq!(spanned(&tank, &[&Value::Null], &zero, &deep), (16, 0)); // every sheet before any value is judged
    assert_eq!(spanned(&tank, &[&Value::Null, &Value::Null], &Value::Null, &Value::Null), (18, 0)); // and the field
    assert_eq!(spanned(&tank, &[&Value::Int(1)], &Value::Null, &Value::Null), (11, 3)); // the first fields, the lowest, the highest
    assert_eq!(spanned(&tank, &[&tag], &Value::Null, &text), (11, 1));
    assert_eq!(spanned(&tank, &[&tag], &zero, &text), (11, 1));

    let fact = Type::Fact(PredicateId(7));
    let row = Type::record([Type::Int, fact.clone(), fact]);
    let [seven, eight, nine] = [7, 8, 9].map(|predicate| Value::from(FactId::new(PredicateId(predicate), 1).unwrap()));
    assert_eq!(spanned(&row, &[&text, &eight], &nine, &text), (11, 1));
    assert_eq!(spanned(&row, &[&zero, &eight], &nine, &text), (8, 8));
    assert_eq!(spanned(&row, &[&zero, &seven], &nine, &text), (8, 9));
    assert_eq!(spanned(&row, &[&zero, &seven], &seven, &text), (11, 4));
    assert_eq!(spanned(&row, &[&zero, &seven], &seven, &eight), (8, 8));
    assert_eq!(spanned(&row, &[&zero, &seven], &seven, &seven), (0, 0));
}

#[test]
fn beginning() {
    let (tank, named) = (Type::record([Type::Bytes, Type::Int]), Type::record([Type::Bytes, Type::Str]));
    let (deeper, deep) = nested(321, Type::Int, Value::Int(0));
    assert_eq!(said(starting_with(&deeper, std::slice::from_ref(&deep), b"re")), (15, 0)); // the type, then the values' sheet, then the field
    assert_eq!(said(starting_with(&Type::optional(Type::optional(Type::Str)), std::slice::from_ref(&deep), b"re")), (15, 0));
    assert_eq!(said(starting_with(&Type::Int, std::slice::from_ref(&deep), b"re")), (16, 0));
    assert_eq!(said(starting_with(&tank, &[deep], b"re")), (16, 0));
    assert_eq!(said(starting_with(&Type::Int, &[Value::Int(1)], b"re")), (18, 0));
    assert_eq!(said(starting_with(&tank, &[Value::Int(1)], b"re")), (18, 0)); // the field's kind before the values
    assert_eq!(said(starting_with(&named, &[Value::Int(1)], b"re")), (11, 3));
    assert_eq!(said(starting_with(&named, &[Value::Int(1), Value::Int(1)], b"re")), (18, 0));

    let fact = Type::Fact(PredicateId(7));
    let row = Type::record([Type::Int, fact.clone(), fact, Type::optional(Type::Bytes)]);
    let [seven, eight, nine] = [7, 8, 9].map(|predicate| Value::from(FactId::new(PredicateId(predicate), 1).unwrap()));
    let started = |first: [&Value; 3]| said(starting_with(&row, &first.map(Clone::clone), b"re"));
    assert_eq!(started([&Value::Null, &eight, &nine]), (11, 1)); // the values in order
    assert_eq!(started([&Value::Int(0), &eight, &nine]), (8, 8));
    assert_eq!(started([&Value::Int(0), &seven, &nine]), (8, 9));
    assert_eq!(started([&Value::Int(0), &seven, &seven]), (0, 0));
}

#[test]
fn a_zero_at_every_place_of_a_payload() {
    for length in [1, 2, 7, 8, 9, 15, 16, 17, 31, 32, 33, 63, 64, 65, 127, 128, 129, 239, 240, 241, 255, 256, 257, 300] {
        for place in 0..length {
            let mut payload = vec![b'a'; length];
            payload[place] = 0;
            let escaped = [&payload[..=place], &[0xFF], &payload[place + 1..], &[0x00]].concat();

            let mut out = Vec::new();
            put_bytes(&mut out, &payload);
            assert_eq!(out, [&[0x53][..], &escaped].concat());
            assert_eq!(get_bytes(&out).map(|(found, used)| (found.into_owned(), used)), Ok((payload.clone(), length + 3)));
            assert_eq!(encode_key(&Type::Bytes, &Value::from(&payload[..])), Ok(out));

            let text = String::from_utf8(payload).unwrap();
            let mut out = Vec::new();
            put_str(&mut out, &text);
            assert_eq!(out, [&[0x21][..], &escaped].concat());
            assert_eq!(get_str(&out).map(|(found, used)| (found.into_owned(), used)), Ok((text.clone(), length + 3)));
            assert_eq!(encode_key(&Type::Str, &Value::from(text)), Ok(out));
        }
    }
}
