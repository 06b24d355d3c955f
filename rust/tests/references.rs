//! References: a predicate in the high 24 bits and a sequence in the low 40, and what refuses one.

use tuple::{
    FactId, PredicateId, Refusal, Type, Value, check_key, decode_key, decode_typed_counted, encode_key, encode_typed, put_fact_id, replace,
};

fn declared(predicate: u32) -> Type {
    Type::Fact(PredicateId(predicate))
}

fn raw(number: u64) -> Value {
    Value::from(FactId::from_raw(number))
}

/// 51 and the three bytes of a predicate and the five of a sequence.
fn bytes(predicate: [u8; 3], sequence: [u8; 5]) -> Vec<u8> {
    [vec![0x51], predicate.to_vec(), sequence.to_vec()].concat()
}

const SEVEN_ONE: u64 = 7_696_581_394_433; // 7 * 2^40 + 1

#[test]
fn the_specimen_there_and_back() {
    let seven = FactId::new(PredicateId(7), 1).unwrap();
    assert_eq!(seven.raw(), SEVEN_ONE);
    let specimen = bytes([0, 0, 7], [0, 0, 0, 0, 1]);
    assert_eq!(encode_typed(&declared(7), &Value::from(seven)), Ok(specimen.clone()));
    assert_eq!(decode_typed_counted(&declared(7), &specimen), (Ok(raw(SEVEN_ONE)), 1));
    let mut put = Vec::new();
    put_fact_id(&mut put, seven);
    assert_eq!(put, specimen);
}

#[test]
fn a_key_of_the_split_before_names_another_predicate() {
    let before = bytes([0, 0, 0], [7, 0, 0, 0, 1]);
    assert_eq!(decode_typed_counted(&declared(7), &before), (Err(Refusal::FactRefPredicate { found: 0 }), 1));
    assert_eq!(decode_key(&declared(0), &before), Ok(raw((7 << 32) + 1)));
    assert_eq!(encode_typed(&declared(7), &raw((7 << 32) + 1)), Err(Refusal::FactRefPredicate { found: 0 }));
}

#[test]
fn the_sequence_is_judged_before_the_predicate() {
    assert_eq!(encode_typed(&declared(7), &raw(7 << 40)), Err(Refusal::ReservedFactId));
    assert_eq!(encode_typed(&declared(7), &raw(8 << 40)), Err(Refusal::ReservedFactId));
    assert_eq!(decode_typed_counted(&declared(7), &bytes([0, 0, 8], [0; 5])), (Err(Refusal::ReservedFactId), 1));
    assert_eq!(encode_typed(&declared(7), &raw((8 << 40) + 1)), Err(Refusal::FactRefPredicate { found: 8 }));
}

#[test]
fn a_declared_predicate_of_2_24_or_more_never_matches() {
    for predicate in [1 << 24, (1 << 24) + 7, u32::MAX] {
        let ty = declared(predicate);
        assert_eq!(encode_typed(&ty, &raw(1)), Err(Refusal::FactRefPredicate { found: 0 }));
        assert_eq!(encode_typed(&ty, &raw(u64::MAX)), Err(Refusal::FactRefPredicate { found: 0xFF_FFFF }));
        assert_eq!(encode_typed(&ty, &raw(SEVEN_ONE)), Err(Refusal::FactRefPredicate { found: 7 })); // not by its low 24 bits
        assert_eq!(encode_typed(&ty, &raw(0)), Err(Refusal::ReservedFactId));
        assert_eq!(check_key(&ty, &bytes([0xFF; 3], [0xFF; 5])), Err(Refusal::FactRefPredicate { found: 0xFF_FFFF }));
        assert_eq!(check_key(&ty, &bytes([0xFF; 3], [0; 5])), Err(Refusal::ReservedFactId));
    }
    assert_eq!(encode_typed(&declared(0xFF_FFFF), &raw(u64::MAX)), Ok(bytes([0xFF; 3], [0xFF; 5])));
}

#[test]
fn a_sequence_past_2_32() {
    let ty = Type::record([Type::Bytes, declared(7)]);
    let late = raw((7 << 40) + (1 << 32));
    assert_eq!(encode_typed(&declared(7), &late), Ok(bytes([0, 0, 7], [1, 0, 0, 0, 0])));
    let mut key = encode_key(&ty, &Value::record([Value::from(b"\x0A"), raw(SEVEN_ONE)])).unwrap();
    replace(&ty, &mut key, 1, &late).unwrap();
    assert_eq!(decode_key(&ty, &key), Ok(Value::record([Value::from(b"\x0A"), late])));
    let stays = key.clone();
    assert_eq!(replace(&ty, &mut key, 1, &raw((7 << 32) + 1)), Err(Refusal::FactRefPredicate { found: 0 }));
    assert_eq!(key, stays);
}

#[test]
fn within_a_union_it_stays_8() {
    let ty = Type::union([(1, declared(7))]);
    assert_eq!(encode_typed(&ty, &Value::union(1, raw(1))), Err(Refusal::FactRefPredicate { found: 0 }));
}

#[test]
fn the_longest_key_stays() {
    assert_eq!(encode_key(&Type::Bytes, &Value::Bytes(vec![1; 65_529])).unwrap().len(), tuple::MAX_KEY_BYTES);
    assert_eq!(encode_key(&Type::Bytes, &Value::Bytes(vec![1; 65_530])), Err(Refusal::KeyTooLong { len: 65_532 }));
}
