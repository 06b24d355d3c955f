//! What holds for every value, on values of a seeded generator.

mod common;

use common::{Random, count, run, zeros};
use std::borrow::Cow;
use tuple::{
    Kind, Refusal, Type, Value, above_field, bounds, check_key, check_key_counted, compare, decode_key, decode_key_counted, decode_typed,
    decode_typed_counted, encode_key, encode_key_counted, encode_typed, encode_typed_counted, get_bytes, get_i64, get_str, get_u64,
    put_bytes, put_fact_id, put_i64, put_str, put_u64, replace, skip, span, starting_with, strinc,
};

const CASES: usize = 20_000;

fn fields(value: &Value) -> &[Value] {
    let Value::Record(fields) = value else { panic!("{value:?} is no record") };
    fields
}

#[test]
fn a_value_comes_back_from_its_bytes() {
    let mut random = Random::new(1);
    for _ in 0..CASES {
        let ty = random.ty(3);
        let value = random.value(&ty);
        let bytes = encode_typed(&ty, &value).unwrap();
        assert_eq!(decode_typed_counted(&ty, &bytes), (Ok(value.clone()), count(&value)));
        assert_eq!(skip(&bytes, 0, false), Ok(bytes.len()));

        let key = encode_key(&ty, &value).unwrap();
        let begun = count(&value) - u64::from(matches!(ty, Type::Record(_)));
        assert_eq!(decode_key_counted(&ty, &key), (Ok(value), begun));
        assert_eq!(check_key_counted(&ty, &key), (Ok(()), begun));
    }
}

#[test]
fn the_zeros_escaped_are_those_of_texts_and_bytes() {
    let mut random = Random::new(10);
    let (mut some, mut none) = (0, 0);
    for _ in 0..CASES {
        let ty = random.ty(3);
        let value = random.value(&ty);
        let due = zeros(&value);
        let ((_, typed), (_, key)) = (encode_typed_counted(&ty, &value).unwrap(), encode_key_counted(&ty, &value).unwrap());
        assert_eq!((typed, key), (due, due), "{value:?}");
        *(if due > 0 { &mut some } else { &mut none }) += 1;
    }
    assert!(some > CASES / 4 && none > CASES / 4, "{some} {none}");
}

#[test]
fn keys_are_in_the_order_of_their_values() {
    let mut random = Random::new(2);
    let mut seen = [0; 3];
    for _ in 0..CASES {
        let ty = random.ty(3);
        let a = random.value(&ty);
        let b = random.near(&ty, &a);
        let order = a.cmp(&b);
        assert_eq!(compare(&a, &b), Ok(order));
        assert_eq!(encode_key(&ty, &a).unwrap().cmp(&encode_key(&ty, &b).unwrap()), order, "{a:?} {b:?}");
        assert_eq!(encode_typed(&ty, &a).unwrap().cmp(&encode_typed(&ty, &b).unwrap()), order);
        seen[(order as i8 + 1) as usize] += 1;
    }
    assert!(seen.iter().all(|n| *n > CASES / 10), "{seen:?}");
}

#[test]
fn values_of_any_two_kinds_compare_as_the_library_says() {
    let mut random = Random::new(3);
    for _ in 0..CASES {
        let [ty, other] = [random.ty(2), random.ty(2)];
        let [a, b] = [random.value(&ty), random.value(&other)];
        assert_eq!(compare(&a, &b), Ok(a.cmp(&b)));
        assert_eq!(compare(&Value::Null, &a), Ok(Value::Null.cmp(&a)));
    }
}

#[test]
fn bounds_hold_the_keys_with_the_same_first_fields_alone() {
    let mut random = Random::new(4);
    let (mut within, mut without) = (0, 0);
    for _ in 0..CASES {
        let ty = random.record(3);
        let Type::Record(types) = &ty else { unreachable!() };
        let a = random.value(&ty);
        let b = random.near(&ty, &a);
        let (key, other) = (encode_key(&ty, &a).unwrap(), encode_key(&ty, &b).unwrap());
        for k in 0..=types.len() {
            let range = bounds(&ty, &key, k).unwrap();
            let first = encode_key(&Type::Record(types[..k].to_vec()), &Value::Record(fields(&a)[..k].to_vec())).unwrap();
            assert_eq!(range, first.clone()..above_field(&first));
            assert!(range.contains(&key));
            let same = fields(&a)[..k] == fields(&b)[..k];
            assert_eq!(range.contains(&other), same, "{a:?} {b:?} {k}");
            *(if same { &mut within } else { &mut without }) += 1;
        }
        assert_eq!(bounds(&ty, &key, types.len() + 1), Err(Refusal::NoField));
    }
    assert!(within > CASES && without > CASES / 2, "{within} {without}");
}

#[test]
fn a_span_holds_the_keys_with_the_same_first_fields_and_the_next_within_it_alone() {
    let mut random = Random::new(11);
    // keys within and without, by what the next field is: a record, a union, another; optional or not
    let mut seen = [[0; 2]; 6];
    let (mut upward, mut downward) = (0, 0);
    for _ in 0..CASES / 5 {
        let ty = random.record(3);
        let Type::Record(types) = &ty else { unreachable!() };
        let a = random.value(&ty);
        let values: Vec<Value> = (0..8).map(|_| random.near(&ty, &a)).chain([a.clone()]).collect();
        let keys: Vec<Vec<u8>> = values.iter().map(|value| encode_key(&ty, value).unwrap()).collect();
        for (k, next) in types.iter().enumerate() {
            let first = &fields(&a)[..k];
            let [lowest, highest] = [(); 2].map(|()| random.near(next, &fields(&a)[k]));
            let range = span(&ty, first, &lowest, &highest).unwrap();
            let before = encode_key(&Type::Record(types[..k].to_vec()), &Value::Record(first.to_vec())).unwrap();
            let [low, high] = [&lowest, &highest].map(|value| [&before[..], &encode_typed(next, value).unwrap()].concat());
            assert_eq!(range, low..above_field(&high));

            let kind = match next.kind() {
                Kind::Record => 0,
                Kind::Union => 2,
                _ => 4,
            } + usize::from(matches!(next, Type::Optional(_)));
            for (value, key) in values.iter().zip(&keys) {
                let field = &fields(value)[k];
                let held = compare(&lowest, field).unwrap().is_le() && compare(field, &highest).unwrap().is_le();
                let within = fields(value)[..k] == *first && held;
                assert_eq!(range.contains(key), within, "{value:?} {first:?} {lowest:?} {highest:?}");
                seen[kind][usize::from(within)] += 1;
            }
            let none = compare(&lowest, &highest).unwrap().is_gt();
            assert_eq!(range.start > range.end, none);
            *(if none { &mut downward } else { &mut upward }) += 1;

            let same = &fields(&a)[k];
            assert_eq!(span(&ty, first, same, same), bounds(&ty, keys.last().unwrap(), k + 1));
        }
        assert_eq!(span(&ty, fields(&a), &Value::Null, &Value::Null), Err(Refusal::NoField));
    }
    assert!(
        seen.as_flattened().iter().all(|n| *n > CASES / 50) && upward > downward && downward > CASES / 50,
        "{seen:?} {upward} {downward}"
    );
}

/// The key of the first fields alone.
fn key_of_first(types: &[Type], first: &[Value]) -> Vec<u8> {
    encode_key(&Type::Record(types.to_vec()), &Value::Record(first.to_vec())).unwrap()
}

/// A record type, a value of it, and values near it with their keys, itself the last.
fn neighbours(random: &mut Random) -> (Type, Value, Vec<(Value, Vec<u8>)>) {
    let ty = random.record(3);
    let value = random.value(&ty);
    let near: Vec<Value> = (0..8).map(|_| random.near(&ty, &value)).chain([value.clone()]).collect();
    let keyed = near.into_iter().map(|value| (value.clone(), encode_key(&ty, &value).unwrap())).collect();
    (ty, value, keyed)
}

#[test]
fn a_beginning_holds_the_keys_with_the_same_first_fields_and_the_next_that_begins_so_alone() {
    let mut random = Random::new(12);
    // keys within and without, by what the next field is: a Str, a Bytes; optional or not
    let mut seen = [[0; 2]; 4];
    let mut refused = 0;
    for _ in 0..CASES / 5 {
        let (ty, a, near) = neighbours(&mut random);
        let Type::Record(types) = &ty else { unreachable!() };
        for (k, next) in types.iter().enumerate() {
            let first = &fields(&a)[..k];
            let own = run(&fields(&a)[k]).unwrap_or_default();
            let more = random.pick(&[&[][..], &[], &[0x00], &[0xC3], &[0xFF]]);
            let start = [&own[..random.below(own.len() + 1)], more].concat();
            let (kind, mark) = match next.kind() {
                Kind::Str => (0, 0x21),
                Kind::Bytes => (2, 0x53),
                _ => {
                    assert_eq!(starting_with(&ty, first, &start), Err(Refusal::NoField));
                    refused += 1;
                    continue;
                }
            };
            let range = starting_with(&ty, first, &start).unwrap();
            let mut low = key_of_first(&types[..k], first);
            let place = low.len();
            put_bytes(&mut low, &start);
            low[place] = mark;
            low.pop(); // the run's end
            assert_eq!(range, low.clone()..strinc(&low).unwrap());

            for (value, key) in &near {
                let begins = run(&fields(value)[k]).is_some_and(|run| run.starts_with(&start));
                let within = fields(value)[..k] == *first && begins;
                assert_eq!(range.contains(key), within, "{value:?} {first:?} {start:?}");
                seen[kind + usize::from(matches!(next, Type::Optional(_)))][usize::from(within)] += 1;
            }
        }
        assert_eq!(starting_with(&ty, fields(&a), b""), Err(Refusal::NoField));
    }
    assert!(seen.as_flattened().iter().all(|n| *n > CASES / 100) && refused > CASES / 50, "{seen:?} {refused}");
}

#[test]
fn skip_goes_from_field_to_field() {
    let mut random = Random::new(5);
    for _ in 0..CASES {
        let ty = random.record(3);
        let value = random.value(&ty);
        let key = encode_key(&ty, &value).unwrap();
        let mut place = 0;
        for (k, field) in fields(&value).iter().enumerate() {
            // a blank's 00 is passed where no escape is required; all else alike
            let required = skip(&key, place, true);
            place = skip(&key, place, false).unwrap();
            assert_eq!(required, if *field == Value::Null { Err(Refusal::UnexpectedTerminator) } else { Ok(place) });
            assert_eq!(key[..place], bounds(&ty, &key, k + 1).unwrap().start);
        }
        assert_eq!(place, key.len());
    }
}

#[test]
fn a_replacement_is_decode_change_encode() {
    let mut random = Random::new(6);
    let (mut accepted, mut refused) = (0, 0);
    for _ in 0..CASES / 4 {
        let ty = random.record(3);
        let Type::Record(types) = &ty else { unreachable!() };
        let mut key = encode_key(&ty, &random.value(&ty)).unwrap();
        for _ in 0..8 {
            let field = random.below(types.len() + 1);
            let other = random.ty(2);
            let kind = types.get(field).filter(|_| random.below(4) > 0).unwrap_or(&other);
            let new = random.value(kind);

            let mut changed = fields(&decode_key(&ty, &key).unwrap()).to_vec();
            let due = match changed.get_mut(field) {
                None => Err(Refusal::NoField),
                Some(place) => {
                    *place = new.clone();
                    encode_key(&ty, &Value::Record(changed))
                }
            };
            let before = key.clone();
            match replace(&ty, &mut key, field, &new) {
                Ok(()) => {
                    assert_eq!(Ok(&key), due.as_ref());
                    accepted += 1;
                }
                Err(refusal) => {
                    assert_eq!(Err(refusal), due);
                    assert_eq!(key, before);
                    refused += 1;
                }
            }
        }
    }
    assert!(accepted > CASES / 4 && refused > CASES / 4, "{accepted} {refused}");
}

#[test]
fn single_fields_are_those_of_the_encoder() {
    let mut random = Random::new(7);
    for _ in 0..CASES {
        let ty = random.plain_ty(0);
        let value = random.value(&ty);
        let before = random.bytes();
        let mut out = before.clone();
        match &value {
            Value::Int(number) => put_i64(&mut out, *number),
            Value::Str(text) => put_str(&mut out, text),
            Value::Bytes(bytes) => put_bytes(&mut out, bytes),
            Value::FactRef(id) => put_fact_id(&mut out, *id),
            _ => unreachable!(),
        }
        assert_eq!(out[..before.len()], before);
        let field = &out[before.len()..];
        assert_eq!(field, encode_typed(&ty, &value).unwrap());

        let followed = [field, &[0x48]].concat();
        match &value {
            Value::Int(number) => assert_eq!(get_i64(&followed), Ok((*number, field.len()))),
            Value::Str(text) => {
                let (found, used) = get_str(&followed).unwrap();
                assert_eq!((found.as_ref(), used), (text.as_str(), field.len()));
                assert_eq!(matches!(found, Cow::Owned(_)), text.contains('\0'));
            }
            Value::Bytes(bytes) => {
                let (found, used) = get_bytes(&followed).unwrap();
                assert_eq!((found.as_ref(), used), (bytes.as_slice(), field.len()));
                assert_eq!(matches!(found, Cow::Owned(_)), bytes.contains(&0));
            }
            _ => {}
        }

        let number = random.int() as u64;
        let mut out = before.clone();
        put_u64(&mut out, number);
        assert_eq!(get_u64(&out[before.len()..]), Ok((number, out.len() - before.len())));
    }
}

/// Every string of up to `most` of these bytes.
fn strings(bytes: &[u8], most: usize) -> Vec<Vec<u8>> {
    let mut all = vec![vec![]];
    let mut from = 0;
    for _ in 0..most {
        let last = from..all.len();
        from = all.len();
        for at in last {
            let longer = bytes.iter().map(|byte| [all[at].as_slice(), &[*byte]].concat());
            all.extend(longer.collect::<Vec<_>>());
        }
    }
    all
}

#[test]
fn strinc_is_the_least_end_above_a_prefix() {
    let ends = strings(&[0x00, 0x01, 0x02, 0x41, 0x42, 0xFE, 0xFF], 4);
    for prefix in strings(&[0x00, 0x01, 0x41, 0xFE, 0xFF], 3) {
        // as many FF behind the prefix as the end has bytes, and one more: no string with the prefix comes closer to it
        let above = |end: &&Vec<u8>| [prefix.as_slice(), &vec![0xFF; end.len() + 1]].concat() < **end;
        assert_eq!(strinc(&prefix).as_ref().ok(), ends.iter().filter(above).min(), "{prefix:?}");
    }
}

#[test]
fn strinc_is_above_every_string_with_the_prefix() {
    let mut random = Random::new(8);
    for _ in 0..CASES {
        let prefix = random.bytes();
        let longer = [prefix.clone(), random.bytes()].concat();
        match strinc(&prefix) {
            Ok(end) => {
                assert!(end > longer);
                let last = end.len() - 1;
                assert!(end[..last] == prefix[..last] && end[last] == prefix[last] + 1 && prefix[last + 1..].iter().all(|b| *b == 0xFF));
            }
            Err(refusal) => {
                assert_eq!(refusal, Refusal::NoBound);
                assert!(prefix.iter().all(|byte| *byte == 0xFF));
            }
        }
    }
}

#[test]
fn bytes_of_any_sort_get_an_answer_and_accepted_ones_are_the_key() {
    let mut random = Random::new(9);
    let (mut accepted, mut refused) = (0, 0);
    for _ in 0..CASES {
        let ty = random.ty(3);
        let mut key = encode_key(&ty, &random.value(&ty)).unwrap();
        for _ in 0..random.below(3) {
            let place = random.below(key.len() + 1);
            let byte = random.pick(&[0x00, 0x01, 0x21, 0x22, 0x47, 0x48, 0x49, 0x4A, 0x51, 0x52, 0x53, 0x80, 0xFF]);
            match random.below(3) {
                0 => key.insert(place, byte),
                1 => key.truncate(place),
                _ => {
                    if let Some(met) = key.get_mut(place) {
                        *met = byte;
                    }
                }
            }
        }
        let (value, begun) = decode_key_counted(&ty, &key);
        assert!(begun <= key.len() as u64 + 1);
        assert_eq!(check_key_counted(&ty, &key), (value.as_ref().map(|_| ()).map_err(|refusal| *refusal), begun));
        assert_eq!(check_key(&ty, &key).is_ok(), value.is_ok());
        match value {
            Ok(value) => {
                assert_eq!(encode_key(&ty, &value), Ok(key.clone()));
                accepted += 1;
            }
            Err(refusal) => {
                assert!([1, 2, 4, 5, 6, 8, 9, 10, 13, 14].contains(&refusal.number()), "{refusal}");
                refused += 1;
            }
        }
        let _ = decode_typed(&ty, &key).map(|value| assert_eq!(encode_typed(&ty, &value), Ok(key.clone())));
        for start in 0..=key.len() {
            if let Ok(end) = skip(&key, start, random.below(2) == 0) {
                assert!(start < end && end <= key.len());
            }
        }
    }
    assert!(accepted > CASES / 4 && refused > CASES / 4, "{accepted} {refused}");
}
