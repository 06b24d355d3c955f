//! The library's boundary over the original. What the port adds is done another way than in the oracle: bounds and replacement by
//! skip and by moving bytes, a span by each value alone, the names that begin with some bytes by a walk over those, the zeros escaped by a
//! walk over the value.

mod cursors;
mod faults;
mod fields;
mod keys;

use faults::{Fault, has};
use fjord_encoding::tuple::{self, Value};
use fjord_schema::id::FactId;
use fjord_schema::schema::PredicateTy;
use oracle::optional::{Type, admit_type};
use oracle::refusal::{
    BAD_RECORD, BAD_TYPE, BAD_UNION, BAD_VALUE, FACT_REF_PREDICATE, KEY_TOO_LONG, NO_BOUND, NO_ROOM, RESERVED_FACT_ID, Refusal,
    TYPE_MISMATCH, UNEXPECTED_MARK, UNEXPECTED_TERMINATOR, UNKNOWN_DISCRIMINANT, refusal,
};
use oracle::sheet::{admit_value, write_sheet};

#[repr(C)]
#[derive(Default)]
pub struct Length {
    refusal: u32,
    detail: u64,
    length: u64,
}

#[repr(C)]
pub struct Encoded {
    refusal: u32,
    detail: u64,
    length: u64,
    zeros: u64,
}

#[repr(C)]
#[derive(Default)]
pub struct Sheet {
    refusal: u32,
    detail: u64,
    begun: u64,
    words: u64,
    pool: u64,
}

#[repr(C)]
#[derive(Default)]
pub struct Order {
    refusal: u32,
    detail: u64,
    order: i32,
}

/// A slice given by pointer and length.
///
/// # Safety
/// The pointer has that many elements, if any.
unsafe fn given<'a, T>(pointer: *const T, len: usize) -> &'a [T] {
    // SAFETY: as the caller says.
    if len == 0 { &[] } else { unsafe { std::slice::from_raw_parts(pointer, len) } }
}

/// A lent buffer likewise.
unsafe fn lent<'a, T>(pointer: *mut T, len: usize) -> &'a mut [T] {
    // SAFETY: as the caller says.
    if len == 0 { &mut [] } else { unsafe { std::slice::from_raw_parts_mut(pointer, len) } }
}

impl From<Result<usize, Refusal>> for Length {
    fn from(result: Result<usize, Refusal>) -> Length {
        match result {
            Ok(length) => Length { refusal: 0, detail: 0, length: length as u64 },
            Err((refusal, detail)) => Length { refusal, detail, length: 0 },
        }
    }
}

fn by_original<T>(result: Result<T, fjord_encoding::error::StoreCodecError>) -> Result<T, Refusal> {
    result.map_err(|error| refusal(&error))
}

fn no_room(needed: usize, room: usize) -> Refusal {
    (NO_ROOM, if has(Fault::RoomMissing) { needed - room } else { needed } as u64)
}

/// Bytes over a buffer's beginning.
fn write(bytes: &[u8], out: &mut [u8]) -> Result<usize, Refusal> {
    if bytes.len() > out.len() {
        return Err(no_room(bytes.len(), out.len()));
    }
    out[..bytes.len()].copy_from_slice(bytes);
    if has(Fault::OneByteMore) && bytes.len() < out.len() {
        out[bytes.len()] = 0;
    }
    Ok(bytes.len())
}

// ---- sheets

/// With the fault, a group fewer: the innermost is taken off before the sheet is judged.
fn the_type(words: &[u32]) -> Result<Type, Refusal> {
    if has(Fault::SevenTwice) && words.starts_with(&[7, 7]) {
        return admit_type(&words[1..]).ok_or((BAD_TYPE, 0));
    }
    if has(Fault::TypeWords) && words.len() == 4_097 && words[0] == 5 && words[1] > 0 {
        let mut shorter = words[..4_096].to_vec();
        shorter[1] -= 1;
        return admit_type(&shorter).ok_or((BAD_TYPE, 0));
    }
    if has(Fault::Groups321) && nested_records(words) == 321 {
        return admit_type(&words[2..]).ok_or((BAD_TYPE, 0));
    }
    admit_type(words).map(searched).ok_or((BAD_TYPE, 0))
}

/// With the faults, the last alternative with a discriminant counts, or only the first 64 are looked at, in a union at the top.
fn searched(ty: Type) -> Type {
    let Type::Plain(PredicateTy::Union(alternatives)) = &ty else { return ty };
    if has(Fault::LastMatch) {
        return Type::Plain(PredicateTy::Union(alternatives.iter().rev().cloned().collect()));
    }
    if has(Fault::SearchOf64) {
        return Type::Plain(PredicateTy::Union(alternatives.iter().take(64).cloned().collect()));
    }
    ty
}

fn nested_records(words: &[u32]) -> usize {
    words.chunks(2).take_while(|pair| *pair == [5, 1]).count()
}

fn the_value(words: &[u64], pool: &[u8]) -> Result<Value, Refusal> {
    if has(Fault::PoolBytes) && pool.len() == 1_048_577 && words.len() == 2 {
        return Ok(Value::Null);
    }
    admit_value(words, pool).ok_or((BAD_VALUE, 0))
}

// ---- encoding

/// A reference at the top under its declared predicate, with the faults of judging one.
fn judged(id: FactId, declared: u32, encoded: Result<Vec<u8>, Refusal>) -> Result<Vec<u8>, Refusal> {
    let (found, declared) = (u64::from(id.predicate().0), u64::from(declared));
    match encoded {
        Err((RESERVED_FACT_ID, _)) if has(Fault::PredicateFirst) && found != declared => Err((FACT_REF_PREDICATE, found)),
        Err((FACT_REF_PREDICATE, _)) if has(Fault::PredicateDeclared) => Err((FACT_REF_PREDICATE, declared)),
        Err((FACT_REF_PREDICATE, _)) if has(Fault::PredicateCut) && found == declared & 0xFF_FFFF => Ok(tuple::fact_ref_bytes(id).to_vec()),
        _ if has(Fault::SequenceCut) && cut_to_0(id) => Err((RESERVED_FACT_ID, 0)),
        encoded => encoded,
    }
}

/// Is the sequence 0 once it is cut to 32 bits?
pub(crate) fn cut_to_0(id: FactId) -> bool {
    id.raw() & 0xFFFF_FFFF == 0
}

/// The faults of encoding blanks and optional types.
fn with_blanks(words: &[u32], ty: &Type, value: &Value, key: bool, encoded: Result<Vec<u8>, Refusal>) -> Result<Vec<u8>, Refusal> {
    let first_blank = matches!(value, Value::Record(fields) if matches!(fields.first(), Some((_, Value::Null))));
    match (encoded, ty) {
        (Err((TYPE_MISMATCH, _)), _) if has(Fault::NullAny) && matches!(value, Value::Null) => Ok(vec![0x00]),
        (Err((TYPE_MISMATCH, _)), Type::Optional(_)) if has(Fault::KindSeven) => Err((TYPE_MISMATCH, 7)),
        (Ok(_), Type::Optional(behind)) if has(Fault::OptionalBare) && key && !matches!(value, Value::Null) => behind.encode_key(value),
        (Ok(mut bytes), Type::Record(_)) if has(Fault::BlankEscaped) && key && first_blank => {
            bytes.insert(1, 0xFF);
            Ok(bytes)
        }
        (Ok(mut bytes), Type::Record(_)) if has(Fault::BlankBare) && !key && first_blank => {
            bytes.remove(2);
            Ok(bytes)
        }
        (Ok(_), _) if has(Fault::BlankDeep) && !key && nested_records(words) == 256 => Err((BAD_RECORD, 0)),
        (encoded, _) => encoded,
    }
}

fn zeros_of(bytes: &[u8]) -> u64 {
    bytes.iter().filter(|byte| **byte == 0).count() as u64
}

/// The zeros that each run of a value escapes. `inside`: in a group.
fn runs_of(value: &Value, inside: bool, runs: &mut Vec<u64>) {
    let end = u64::from(has(Fault::ZerosTerminator));
    match value {
        Value::Str(_) if has(Fault::ZerosStrings) => {}
        Value::Str(text) => runs.push(zeros_of(text.as_bytes()) + end),
        Value::Bytes(payload) => runs.push(zeros_of(payload) + end),
        Value::Null if has(Fault::ZerosBlanks) && inside => runs.push(1),
        Value::Record(fields) => fields.iter().for_each(|(_, field)| runs_of(field, true, runs)),
        Value::Union { value, .. } => runs_of(value, true, runs),
        _ => {}
    }
}

fn zeros_escaped(value: &Value, bare: bool, bytes: &[u8]) -> u64 {
    let mut runs = Vec::new();
    match value {
        Value::Record(fields) if bare => fields.iter().for_each(|(_, field)| runs_of(field, false, &mut runs)),
        value => runs_of(value, false, &mut runs),
    }
    match value {
        Value::Record(_) if has(Fault::ZerosRecords) => 0,
        _ if has(Fault::ZerosOfKey) => zeros_of(bytes),
        _ if has(Fault::ZerosLast) => runs.last().copied().unwrap_or(0),
        _ => runs.iter().sum(),
    }
}

fn encode(words: &[u32], values: &[u64], pool: &[u8], out: &mut [u8], key: bool) -> Result<(usize, u64), Refusal> {
    let ty = the_type(words)?;
    if has(Fault::RoomFirst) && out.is_empty() {
        return Err((NO_ROOM, 1));
    }
    let value = the_value(values, pool)?;
    let mut encoded = if key { ty.encode_key(&value) } else { ty.encode_typed(&value) };
    encoded = with_blanks(words, &ty, &value, key, encoded);
    if has(Fault::EncodeDepth) && nested_records(words) == 256 && !key {
        encoded = Err((BAD_RECORD, 0));
    }
    if has(Fault::OuterTag)
        && let Err((BAD_UNION, tag)) = &mut encoded
        && let Value::Union { disc, .. } = &value
    {
        *tag = u64::from(*disc);
    }
    if let (Value::FactRef(id), Type::Plain(PredicateTy::Fact(predicate))) = (&value, &ty) {
        encoded = judged(*id, predicate.0, encoded);
    }
    if has(Fault::KeyLimit) && matches!(encoded, Err((KEY_TOO_LONG, 65_532))) {
        encoded = ty.encode_typed(&value);
    }
    let bytes = encoded?;
    let bare = key && ty.fields().is_some();
    Ok((write(&bytes, out)?, zeros_escaped(&value, bare, &bytes)))
}

fn encode_call(words: &[u32], values: &[u64], pool: &[u8], out: &mut [u8], key: bool) -> Encoded {
    match encode(words, values, pool, out, key) {
        Ok((length, zeros)) => Encoded { refusal: 0, detail: 0, length: length as u64, zeros },
        Err((refusal, detail)) => {
            let shown = has(Fault::ZerosRefused) && matches!(refusal, KEY_TOO_LONG | TYPE_MISMATCH | NO_ROOM);
            Encoded { refusal, detail, length: 0, zeros: if shown { zeros_of(pool) } else { 0 } }
        }
    }
}

#[unsafe(no_mangle)]
#[rustfmt::skip]
pub unsafe extern "C" fn tuple_encode_typed(ty: *const u32, ty_len: usize, words: *const u64, words_len: usize, pool: *const u8, pool_len: usize, out: *mut u8, out_len: usize) -> Encoded {
    unsafe { encode_call(given(ty, ty_len), given(words, words_len), given(pool, pool_len), lent(out, out_len), false) }
}

#[unsafe(no_mangle)]
#[rustfmt::skip]
pub unsafe extern "C" fn tuple_encode_key(ty: *const u32, ty_len: usize, words: *const u64, words_len: usize, pool: *const u8, pool_len: usize, out: *mut u8, out_len: usize) -> Encoded {
    unsafe { encode_call(given(ty, ty_len), given(words, words_len), given(pool, pool_len), lent(out, out_len), true) }
}

// ---- decoding

fn decode_value(ty: &Type, bytes: &[u8], key: bool) -> (Result<Value, Refusal>, u64) {
    let interner = oracle::compute::interner();
    let (mut result, mut begun) = if key { ty.decode_key(&interner, bytes) } else { ty.decode_typed(&interner, bytes) };
    match (&result, ty) {
        (Ok(Value::Null), _) if has(Fault::BlankBegun) => begun += 1,
        (Ok(value), Type::Optional(_)) if has(Fault::FilledBegun) && !matches!(value, Value::Null) => begun += 1,
        (Err((UNEXPECTED_MARK, 0)), Type::Union(_)) if has(Fault::BareInUnion) => result = Err((UNEXPECTED_TERMINATOR, 0)),
        _ => {}
    }
    (result, begun)
}

fn decode(words: &[u32], bytes: &[u8], key: bool, into: Option<(&mut [u64], &mut [u8])>) -> Sheet {
    let refused = |(refusal, detail): Refusal, begun| Sheet { refusal, detail, begun, words: 0, pool: 0 };
    let ty = match the_type(words) {
        Ok(ty) => ty,
        Err(bad) => return refused(bad, 0),
    };
    let (result, mut begun) = decode_value(&ty, bytes, key);
    let value = match result {
        Ok(value) => value,
        Err((number, mut detail)) => {
            if has(Fault::TagCut) && number == UNKNOWN_DISCRIMINANT {
                detail &= 0xFFFF_FFFF;
            }
            if has(Fault::BegunOnEnd) && number == BAD_RECORD && bytes.ends_with(&[0]) {
                begun += 1;
            }
            return refused((number, detail), begun);
        }
    };
    let Some((out_words, out_pool)) = into else { return Sheet { begun, ..Sheet::default() } };
    let (mut sheet, mut pool) = (Vec::new(), Vec::new());
    write_sheet(&value, &mut sheet, &mut pool);
    if has(Fault::BlankWords) && matches!(value, Value::Null) {
        sheet.push(0);
    }
    if has(Fault::DecodeDepth) && nested_records(words) == 256 {
        return refused((BAD_RECORD, 0), begun);
    }
    if sheet.len() > out_words.len() {
        return refused(no_room(sheet.len(), out_words.len()), if has(Fault::BegunOnRoom) { 0 } else { begun });
    }
    if has(Fault::WritesThenRefuses) {
        out_words[..sheet.len()].copy_from_slice(&sheet);
    }
    if pool.len() > out_pool.len() {
        return refused(no_room(pool.len(), out_pool.len()), begun);
    }
    out_words[..sheet.len()].copy_from_slice(&sheet);
    out_pool[..pool.len()].copy_from_slice(&pool);
    Sheet { refusal: 0, detail: 0, begun, words: sheet.len() as u64, pool: pool.len() as u64 }
}

#[unsafe(no_mangle)]
#[rustfmt::skip]
pub unsafe extern "C" fn tuple_decode_typed(ty: *const u32, ty_len: usize, bytes: *const u8, bytes_len: usize, words: *mut u64, words_len: usize, pool: *mut u8, pool_len: usize) -> Sheet {
    unsafe { decode(given(ty, ty_len), given(bytes, bytes_len), false, Some((lent(words, words_len), lent(pool, pool_len)))) }
}

#[unsafe(no_mangle)]
#[rustfmt::skip]
pub unsafe extern "C" fn tuple_decode_key(ty: *const u32, ty_len: usize, bytes: *const u8, bytes_len: usize, words: *mut u64, words_len: usize, pool: *mut u8, pool_len: usize) -> Sheet {
    unsafe { decode(given(ty, ty_len), given(bytes, bytes_len), true, Some((lent(words, words_len), lent(pool, pool_len)))) }
}

#[unsafe(no_mangle)]
pub unsafe extern "C" fn tuple_check_key(ty: *const u32, ty_len: usize, bytes: *const u8, bytes_len: usize) -> Sheet {
    unsafe { decode(given(ty, ty_len), given(bytes, bytes_len), true, None) }
}

// ---- skip, order

#[unsafe(no_mangle)]
pub unsafe extern "C" fn tuple_skip(bytes: *const u8, bytes_len: usize, start: usize, require_escape_null: bool) -> Length {
    let bytes = unsafe { given(bytes, bytes_len) };
    let mut end = by_original(tuple::skip(bytes, start, require_escape_null));
    if has(Fault::SkipRelative) {
        end = end.map(|end| end - start);
    }
    if has(Fault::SkipEof) && end == Err((3, 0)) {
        end = Err((1, 0));
    }
    if has(Fault::SkipDepth) && bytes.len() > 256 && bytes[..256].iter().all(|byte| *byte == 0x22) && start == 0 {
        end = Err((BAD_RECORD, 0));
    }
    end.into()
}

#[unsafe(no_mangle)]
#[rustfmt::skip]
pub unsafe extern "C" fn tuple_compare(words_a: *const u64, words_a_len: usize, pool_a: *const u8, pool_a_len: usize, words_b: *const u64, words_b_len: usize, pool_b: *const u8, pool_b_len: usize) -> Order {
    let (a, b) = unsafe { (the_value(given(words_a, words_a_len), given(pool_a, pool_a_len)), the_value(given(words_b, words_b_len), given(pool_b, pool_b_len))) };
    match a.and_then(|a| b.map(|b| (a, b))) {
        Ok((Value::Union { .. }, Value::Bytes(_))) if has(Fault::CompareBytes) => Order { refusal: 0, detail: 0, order: 1 },
        Ok((Value::Bytes(a), Value::Bytes(b))) if has(Fault::CompareShorter) => Order { refusal: 0, detail: 0, order: a.len().cmp(&b.len()).then(a.cmp(&b)) as i32 },
        Ok((a, b)) => Order { refusal: 0, detail: 0, order: a.cmp(&b) as i32 },
        Err((refusal, detail)) => Order { refusal, detail, order: 0 },
    }
}

#[unsafe(no_mangle)]
pub unsafe extern "C" fn tuple_strinc(prefix: *const u8, prefix_len: usize, out: *mut u8, out_len: usize) -> Length {
    let (prefix, out) = unsafe { (given(prefix, prefix_len), lent(out, out_len)) };
    if has(Fault::StrincEmpty) && prefix.is_empty() {
        return write(&[0xFF], out).into();
    }
    // Both ends are above every string with the prefix, and not the least.
    let end = tuple::strinc(prefix).map(|mut end| {
        if has(Fault::StrincLonger) && prefix.ends_with(&[0xFF]) {
            end.push(0);
        }
        if has(Fault::StrincFirst) && end.len() > 1 && prefix[0] < 0xFF {
            end = vec![prefix[0] + 1];
        }
        end
    });
    end.ok_or((NO_BOUND, 0)).and_then(|above| write(&above, out)).into()
}

#[unsafe(no_mangle)]
pub unsafe extern "C" fn tuple_above_field(key: *const u8, key_len: usize, out: *mut u8, out_len: usize) -> Length {
    unsafe { write(&tuple::above_field(given(key, key_len)), lent(out, out_len)) }.into()
}
