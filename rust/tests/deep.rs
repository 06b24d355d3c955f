//! Types and values a million groups deep, on a thread with 256 KB of stack: they are made, dropped, cloned, compared, hashed and shown, and the calls refuse
//! them. Each group also holds something beside the next, so that a walk has something to come back to.

use std::cmp::Ordering;
use std::hash::{DefaultHasher, Hash, Hasher};
use std::slice;
use std::thread;
use tuple::{
    Refusal, Type, Value, bounds, check_key, compare, decode_key, decode_typed, encode_key, encode_typed, replace, span, starting_with,
};

const DEEP: usize = 1_000_000;

/// The most groups that a sheet may nest.
const ADMITTED: usize = 320;

fn nested<T>(depth: usize, inner: T, group: impl Fn(T) -> T) -> T {
    (0..depth).fold(inner, |inner, _| group(inner))
}

fn hashed(what: &impl Hash) -> u64 {
    let mut state = DefaultHasher::new();
    what.hash(&mut state);
    state.finish()
}

fn on_a_small_stack(test: impl FnOnce() + Send + 'static) {
    thread::Builder::new().stack_size(256 * 1024).spawn(test).unwrap().join().unwrap();
}

/// The groups tried, and how a group around the text of another is shown.
type Groups<T, const N: usize> = [(fn(T) -> T, &'static str, &'static str); N];

const TYPES: Groups<Type, 5> = [
    (|ty| Type::record([ty]), "Record([", "])"),
    (|ty| Type::record([Type::Str, ty, Type::Int]), "Record([Str, ", ", Int])"),
    (|ty| Type::union([(1, ty)]), "Union([Alternative { disc: 1, ty: ", " }])"),
    (|ty| Type::union([(1, ty), (2, Type::Bytes)]), "Union([Alternative { disc: 1, ty: ", " }, Alternative { disc: 2, ty: Bytes }])"),
    (|ty| Type::optional(Type::record([ty])), "Optional(Record([", "]))"),
];

const VALUES: Groups<Value, 4> = [
    (|value| Value::record([value]), "Record([", "])"),
    (|value| Value::record([Value::from("a"), value, Value::Int(7)]), "Record([Str(\"a\"), ", ", Int(7)])"),
    (|value| Value::union(1, value), "Union { disc: 1, value: ", " }"),
    (|value| Value::union(1, Value::record([value, Value::Null])), "Union { disc: 1, value: Record([", ", Null]) }"),
];

fn shown_as(shown: &str, before: &str, inner: &str, after: &str) {
    assert_eq!(shown.len(), DEEP * (before.len() + after.len()) + inner.len());
    assert!(shown.starts_with(&before.repeat(2)) && shown.ends_with(&after.repeat(2)));
    assert!(shown[DEEP * before.len()..].starts_with(inner));
}

#[test]
fn types() {
    for (group, before, after) in TYPES {
        on_a_small_stack(move || {
            let ty = nested(DEEP, Type::Int, group);
            let copy = ty.clone();
            assert!(copy == ty && hashed(&copy) == hashed(&ty));
            assert!(nested(DEEP, Type::Str, group) != ty && nested(DEEP - 1, Type::Int, group) != ty);
            shown_as(&format!("{ty:?}"), before, "Int", after);
            assert_eq!(encode_key(&ty, &Value::Null), Err(Refusal::BadType));
            refused(&nested(ADMITTED + 1, Type::Int, group));
        });
    }
}

/// 15 of every call that takes a type.
fn refused(ty: &Type) {
    let mut key = vec![0x48];
    assert_eq!(encode_typed(ty, &Value::Null), Err(Refusal::BadType));
    assert_eq!(encode_key(ty, &Value::Null), Err(Refusal::BadType));
    assert_eq!(decode_typed(ty, &key), Err(Refusal::BadType));
    assert_eq!(decode_key(ty, &key), Err(Refusal::BadType));
    assert_eq!(check_key(ty, &key), Err(Refusal::BadType));
    assert_eq!(bounds(ty, &key, 0), Err(Refusal::BadType));
    assert_eq!(span(ty, &[], &Value::Null, &Value::Null), Err(Refusal::BadType));
    assert_eq!(replace(ty, &mut key, 0, &Value::Null), Err(Refusal::BadType));
}

#[test]
fn values() {
    for (group, before, after) in VALUES {
        on_a_small_stack(move || {
            let value = nested(DEEP, Value::Int(0), group);
            let copy = value.clone();
            assert!(copy == value && copy.cmp(&value) == Ordering::Equal && hashed(&copy) == hashed(&value));
            assert_eq!(nested(DEEP, Value::Int(1), group).cmp(&value), Ordering::Greater);
            assert!(nested(DEEP - 1, Value::Int(0), group) != value);
            shown_as(&format!("{value:?}"), before, "Int(0)", after);
            assert_eq!(compare(&Value::Null, &value), Err(Refusal::BadValue));
            refused_span(&value);
            refused_value(&nested(ADMITTED + 1, Value::Int(0), group));
        });
    }
}

/// 16 of every call that takes a value, the type being admitted.
fn refused_value(value: &Value) {
    let tank = Type::record([Type::Bytes, Type::Int]);
    let mut key = vec![0x53, 0x0A, 0x00, 0x49, 0x07];
    assert_eq!(encode_typed(&tank, value), Err(Refusal::BadValue));
    assert_eq!(encode_key(&tank, value), Err(Refusal::BadValue));
    assert_eq!(replace(&tank, &mut key, 1, value), Err(Refusal::BadValue));
    assert_eq!(compare(value, &Value::Null), Err(Refusal::BadValue));
    assert_eq!(compare(&Value::Null, value), Err(Refusal::BadValue));
    assert_eq!(key, [0x53, 0x0A, 0x00, 0x49, 0x07]);
    refused_span(value);
}

/// 16 of a span, whichever of its values it is.
fn refused_span(value: &Value) {
    let (tank, first) = (Type::record([Type::Bytes, Type::Int]), [Value::from(b"\x0A")]);
    assert_eq!(span(&tank, slice::from_ref(value), &Value::Int(40), &Value::Int(60)), Err(Refusal::BadValue));
    assert_eq!(span(&tank, &first, value, &Value::Int(60)), Err(Refusal::BadValue));
    assert_eq!(span(&tank, &first, &Value::Int(40), value), Err(Refusal::BadValue));
}

#[test]
fn a_beginning_refuses_them() {
    for (group, ..) in TYPES {
        on_a_small_stack(move || {
            assert_eq!(starting_with(&nested(ADMITTED + 1, Type::Int, group), &[], b""), Err(Refusal::BadType));
        });
    }
    for (group, ..) in VALUES {
        on_a_small_stack(move || {
            let tank = Type::record([Type::Bytes, Type::Int]);
            for depth in [DEEP, ADMITTED + 1] {
                let value = nested(depth, Value::Int(0), group);
                assert_eq!(starting_with(&tank, slice::from_ref(&value), b""), Err(Refusal::BadValue));
            }
        });
    }
}

#[test]
fn a_wide_tree_of_deep_ones() {
    on_a_small_stack(|| {
        let ty =
            Type::record((0..100).map(|i| nested(10_000, Type::Fact(tuple::PredicateId(i)), |ty| Type::union([(i, ty), (i, Type::Int)]))));
        let value = Value::record((0..100).map(|i| nested(10_000, Value::Int(i), |value| Value::record([Value::Null, value]))));
        assert!(ty.clone() == ty && value.clone() == value);
        assert_eq!((encode_key(&ty, &Value::Null), encode_key(&Type::Int, &value)), (Err(Refusal::BadType), Err(Refusal::BadValue)));
    });
}
