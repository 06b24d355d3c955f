//! The cursors and the string reader: step by step they write and read what the whole calls do, and a refused step leaves them where they stood.

mod common;

use common::Random;
use tuple::{FactId, Refusal, TupleDecoder, TupleEncoder, Value, encode_typed, get_str, put_str, str_chars};

fn put(out: &mut TupleEncoder, value: &Value) -> Result<(), Refusal> {
    match value {
        Value::Null => out.put_null(),
        Value::Str(text) => out.put_str(text),
        Value::Int(int) => out.put_i64(*int),
        Value::FactRef(id) => out.put_fact_id(*id),
        Value::Bytes(bytes) => out.put_bytes(bytes),
        Value::Record(fields) => {
            out.put_record()?;
            for field in fields {
                put(out, field)?;
            }
            out.put_end()?;
        }
        Value::Union { disc, value } => {
            out.put_union(*disc)?;
            put(out, value)?;
            out.put_end()?;
        }
    }
    Ok(())
}

fn take(from: &mut TupleDecoder<'_>, like: &Value) -> Result<Value, Refusal> {
    Ok(match like {
        Value::Null => {
            from.take_null()?;
            Value::Null
        }
        Value::Str(_) => Value::Str(from.take_str()?.into_owned()),
        Value::Int(_) => Value::Int(from.take_i64()?),
        Value::FactRef(_) => Value::FactRef(from.take_fact_id()?),
        Value::Bytes(_) => Value::Bytes(from.take_bytes()?.into_owned()),
        Value::Record(fields) => {
            from.open_record()?;
            let mut found = Vec::new();
            for field in fields {
                assert_eq!(from.is_record_end(), Ok(false));
                found.push(take(from, field)?);
            }
            assert_eq!(from.is_record_end(), Ok(true));
            from.close()?;
            Value::Record(found)
        }
        Value::Union { value, .. } => {
            let disc = u32::try_from(from.open_union()?).unwrap();
            let value = Box::new(take(from, value)?);
            from.close()?;
            Value::Union { disc, value }
        }
    })
}

#[test]
fn steps_write_and_read_what_the_whole_calls_do() {
    let mut random = Random::new(11);
    for _ in 0..5_000 {
        let ty = random.ty(3);
        let value = random.value(&ty);
        let mut out = TupleEncoder::new();
        put(&mut out, &value).unwrap();
        assert_eq!(out.depth(), 0);
        let bytes = out.finish();
        assert_eq!(encode_typed(&ty, &value).as_deref(), Ok(&bytes[..]));
        let mut from = TupleDecoder::new(&bytes);
        assert_eq!(take(&mut from, &value).as_ref(), Ok(&value));
        assert_eq!((from.position(), from.depth(), from.remaining().len()), (bytes.len(), 0, 0));
    }
}

#[test]
fn a_null_in_a_group_is_escaped() {
    let mut out = TupleEncoder::new();
    put(&mut out, &Value::record([Value::Null, Value::Int(0)])).unwrap();
    out.put_null();
    assert_eq!(out.as_bytes(), [0x22, 0x00, 0xFF, 0x48, 0x00, 0x00]);
    let mut from = TupleDecoder::new(out.as_bytes());
    assert_eq!(take(&mut from, &Value::record([Value::Null, Value::Int(0)])), Ok(Value::record([Value::Null, Value::Int(0)])));
    assert_eq!(from.take_null(), Ok(()));
    assert_eq!(from.take_null(), Err(Refusal::UnexpectedEof));
}

#[test]
fn a_refused_step_leaves_the_cursor() {
    let mut from = TupleDecoder::new(&[0x22, 0x49, 0x07, 0x00]);
    assert_eq!(from.take_i64(), Err(Refusal::UnexpectedMark(0x22)));
    assert_eq!(from.close(), Err(Refusal::BadRecord));
    from.open_record().unwrap();
    assert_eq!(from.close(), Err(Refusal::UnexpectedMark(0x49)));
    assert_eq!((from.position(), from.depth()), (1, 1));
    assert_eq!(from.take_i64(), Ok(7));
    from.close().unwrap();
    let mut out = TupleEncoder::new();
    for _ in 0..256 {
        out.put_record().unwrap();
    }
    assert_eq!(out.put_record(), Err(Refusal::BadRecord));
    assert_eq!(out.put_union(1), Err(Refusal::BadRecord));
    assert_eq!((out.depth(), out.as_bytes().len()), (256, 256));
    let mut reserved = TupleEncoder::new();
    reserved.put_fact_id(FactId::from_raw(0));
    assert_eq!(TupleDecoder::new(reserved.as_bytes()).take_fact_id(), Err(Refusal::ReservedFactId));
}

#[test]
fn a_text_character_by_character() {
    for text in ["", "ink", "\0", "a\0µ本\u{10FFFF}\0\0z"] {
        let mut out = Vec::new();
        put_str(&mut out, text);
        out.extend([0x80, 0x80]);
        assert_eq!(str_chars(&out).unwrap().collect::<Result<String, _>>().as_deref(), Ok(text));
    }
    let mut bad = str_chars(&[0x21, b'a', 0x80, 0x42]).unwrap();
    assert_eq!(bad.next(), Some(Ok('a')));
    assert_eq!(bad.next(), Some(Err(Refusal::BadString)));
    assert_eq!((bad.next(), bad.next()), (None, None));
    assert_eq!(str_chars(&[0x53]).map(|_| ()), Err(Refusal::UnexpectedMark(0x53)));
    assert_eq!(str_chars(&[]).map(|_| ()), Err(Refusal::UnexpectedEof));
}

/// The reader on bytes behind the mark 21: what it gives at every number of steps, beside the name.
fn name_beside_reader(bytes: &[u8]) {
    let mut steps: Vec<_> = str_chars(bytes).unwrap().take(bytes.len() + 2).collect();
    match get_str(bytes) {
        Ok((name, _)) => assert_eq!(steps, name.chars().map(Ok).collect::<Vec<_>>(), "{bytes:02X?}"),
        Err(_) => {
            assert!(matches!(steps.pop(), Some(Err(_))), "{bytes:02X?}");
            assert!(steps.iter().all(Result::is_ok), "{bytes:02X?}");
        }
    }
    assert!(steps.len() < bytes.len(), "{bytes:02X?}");
}

#[test]
fn a_name_is_what_the_reader_gives() {
    const TELLING: [u8; 12] = [0x00, 0x41, 0x7F, 0x80, 0xA9, 0xBF, 0xC2, 0xE2, 0xED, 0xF0, 0xF5, 0xFF];
    for len in 0..=5 {
        for number in 0..12_usize.pow(len) {
            let digits = (0..len).map(|place| TELLING[number / 12_usize.pow(place) % 12]);
            name_beside_reader(&[0x21].into_iter().chain(digits).collect::<Vec<u8>>());
        }
    }
    for name in ["ultramarine blue", "Grün 5 µm", "20 € 🎨", "\0", "a\0µ本\u{10FFFF}\0\0z"] {
        let mut out = Vec::new();
        put_str(&mut out, name);
        out.extend([0x80, 0x00]);
        name_beside_reader(&out);
        for cut in 1..out.len() {
            name_beside_reader(&out[..cut]);
        }
    }
    for other in [&[0x22, 0x00][..], &[0x53, 0x41, 0x00], &[]] {
        assert_eq!(str_chars(other).err(), get_str(other).err());
        assert!(str_chars(other).is_err());
    }
}
