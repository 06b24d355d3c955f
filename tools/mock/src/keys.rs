//! Bounds and replacement by skip: the field's bytes are found in the key, and the bytes behind them moved. A span by its values,
//! each encoded alone, or by its first values and a walk over the bytes that the next begins with.

use crate::faults::{Fault, has};
use crate::{Length, decode_value, given, lent, the_type, the_value};
use fjord_encoding::tuple::{self, Value};
use fjord_schema::schema::PredicateTy;
use oracle::optional::Type;
use oracle::refusal::{BAD_STRING, BAD_VALUE, KEY_TOO_LONG, NO_BOUND, NO_FIELD, NO_ROOM, Refusal, TYPE_MISMATCH};

#[repr(C)]
#[derive(Default)]
pub struct Ends {
    refusal: u32,
    detail: u64,
    lower: u64,
    upper: u64,
}

fn place_of(key: &[u8], field: usize) -> usize {
    (0..field).fold(0, |at, _| tuple::skip(key, at, false).expect("a decoded key is skipped"))
}

fn bounds(ty: &[u32], key: &[u8], k: usize, lower: &mut [u8], upper: &mut [u8]) -> Result<(usize, usize), Refusal> {
    let ty = the_type(ty)?;
    let fields = ty.fields().ok_or((NO_FIELD, 0))?;
    if k > fields.len() || (has(Fault::BoundsCount) && k == fields.len() && k > 0) {
        return Err((NO_FIELD, 0));
    }
    decode_value(&ty, key, true).0?;
    let mut first = &key[..place_of(key, k)];
    if has(Fault::BlankBounds) && first == [0x00] {
        first = &[];
    }
    let mut above = tuple::above_field(first);
    if has(Fault::StrincEnd)
        && let Some(end) = tuple::strinc(first)
    {
        above = end;
    }
    write_ends(first, &above, lower, upper, Fault::BoundsHalf)
}

/// Both ends, where both have room. `half`: the fault of writing the lower one before the other is known to have it.
fn write_ends(low: &[u8], high: &[u8], lower: &mut [u8], upper: &mut [u8], half: Fault) -> Result<(usize, usize), Refusal> {
    if low.len() > lower.len() {
        return Err((NO_ROOM, low.len() as u64));
    }
    if has(half) {
        lower[..low.len()].copy_from_slice(low);
    }
    if high.len() > upper.len() {
        return Err((NO_ROOM, high.len() as u64));
    }
    lower[..low.len()].copy_from_slice(low);
    upper[..high.len()].copy_from_slice(high);
    Ok((low.len(), high.len()))
}

impl From<Result<(usize, usize), Refusal>> for Ends {
    fn from(result: Result<(usize, usize), Refusal>) -> Ends {
        match result {
            Ok((lower, upper)) => Ends { refusal: 0, detail: 0, lower: lower as u64, upper: upper as u64 },
            Err((refusal, detail)) => Ends { refusal, detail, lower: 0, upper: 0 },
        }
    }
}

#[unsafe(no_mangle)]
#[rustfmt::skip]
pub unsafe extern "C" fn tuple_bounds(ty: *const u32, ty_len: usize, key: *const u8, key_len: usize, k: usize, lower: *mut u8, lower_len: usize, upper: *mut u8, upper_len: usize) -> Ends {
    unsafe { bounds(given(ty, ty_len), given(key, key_len), k, lent(lower, lower_len), lent(upper, upper_len)) }.into()
}

/// A value sheet: words and pool.
type Given<'a> = (&'a [u64], &'a [u8]);

/// A field of an end by itself, at depth 0.
fn alone(ty: &Type, value: &Value) -> Result<Vec<u8>, Refusal> {
    if has(Fault::SpanDepth) {
        Type::record(vec![ty.clone()]).encode_typed(&Value::Record([(String::new(), value.clone())].into()))?;
    }
    let mut bytes = ty.encode_typed(value)?;
    if has(Fault::SpanBlank) && matches!(value, Value::Null) {
        bytes.push(0xFF);
    }
    Ok(bytes)
}

/// The first values one behind the other.
fn each_alone(types: &[Type], first: &[(String, Value)]) -> Result<Vec<u8>, Refusal> {
    let mut bytes = Vec::new();
    for (ty, (_, value)) in types.iter().zip(first) {
        bytes.extend(alone(ty, value)?);
    }
    Ok(bytes)
}

/// Both ends, given room enough: the fields one behind the other, and the lowest's bytes cut off for the highest's.
fn span_ends(ty: &[u32], first: Given<'_>, lowest: Given<'_>, highest: Given<'_>) -> Result<(Vec<u8>, Vec<u8>), Refusal> {
    let types = the_type(ty)?.fields();
    if has(Fault::SpanFieldFirst) && types.is_none() {
        return Err((NO_FIELD, 0));
    }
    if has(Fault::SpanJoined) && first.1.len() + lowest.1.len() + highest.1.len() > 1_048_576 {
        return Err((BAD_VALUE, 0));
    }
    let first = match the_value(first.0, first.1)? {
        Value::Record(first) => first,
        _ if has(Fault::SpanKind) => return Err((TYPE_MISMATCH, 5)),
        _ => return Err((BAD_VALUE, 0)),
    };
    let (lowest, highest) = (the_value(lowest.0, lowest.1)?, the_value(highest.0, highest.1)?);
    let types = types.ok_or((NO_FIELD, 0))?;
    let counted = has(Fault::SpanCount) && first.len() == types.len();
    if first.len() >= types.len() && !counted {
        return Err((NO_FIELD, 0));
    }
    let mut lower = each_alone(&types, &first)?;
    let shared = lower.len();
    if counted {
        return Ok((lower.clone(), tuple::above_field(&lower)));
    }
    let next = &types[if has(Fault::SpanTypeFirst) { 0 } else { first.len() }];
    if has(Fault::SpanHighestFirst) {
        alone(next, &highest)?;
    }
    if has(Fault::SpanRefused) && lowest > highest {
        return Err((NO_BOUND, 0));
    }
    let (lowest, highest) = if has(Fault::SpanSwapped) && lowest > highest { (highest, lowest) } else { (lowest, highest) };
    lower.extend(alone(next, &lowest)?);
    let mut upper = lower.clone();
    if !has(Fault::SpanLowest) {
        upper.truncate(if has(Fault::SpanNoFirst) { 0 } else { shared });
        upper.extend(alone(next, &highest)?);
    }
    match tuple::strinc(&upper) {
        Some(end) if has(Fault::SpanStrinc) => upper = end,
        _ if has(Fault::SpanNoFf) => {}
        _ => upper.push(0xFF),
    }
    Ok((lower, upper))
}

fn span(ty: &[u32], sheets: [Given<'_>; 3], lower: &mut [u8], upper: &mut [u8]) -> Result<(usize, usize), Refusal> {
    let [first, lowest, highest] = sheets;
    let (low, high) = span_ends(ty, first, lowest, highest)?;
    if has(Fault::SpanLimit) && low.len() > tuple::MAX_KEY_BYTES {
        return Err((KEY_TOO_LONG, low.len() as u64));
    }
    if has(Fault::SpanRoomUpper) && high.len() > upper.len() {
        return Err((NO_ROOM, high.len() as u64));
    }
    write_ends(&low, &high, lower, upper, Fault::SpanHalf)
}

#[unsafe(no_mangle)]
#[rustfmt::skip]
pub unsafe extern "C" fn tuple_span(ty: *const u32, ty_len: usize, words: *const u64, words_len: usize, pool: *const u8, pool_len: usize, lowest_words: *const u64, lowest_words_len: usize, lowest_pool: *const u8, lowest_pool_len: usize, highest_words: *const u64, highest_words_len: usize, highest_pool: *const u8, highest_pool_len: usize, lower: *mut u8, lower_len: usize, upper: *mut u8, upper_len: usize) -> Ends {
    unsafe {
        let first = (given(words, words_len), given(pool, pool_len));
        let lowest = (given(lowest_words, lowest_words_len), given(lowest_pool, lowest_pool_len));
        let highest = (given(highest_words, highest_words_len), given(highest_pool, highest_pool_len));
        span(given(ty, ty_len), [first, lowest, highest], lent(lower, lower_len), lent(upper, upper_len)).into()
    }
}

/// The mark of what a field of the type begins with, if it is one that can.
fn start_mark(ty: &Type) -> Option<u8> {
    match ty {
        Type::Plain(PredicateTy::Str) => Some(0x21),
        Type::Plain(PredicateTy::Bytes) => Some(if has(Fault::StartMark) { 0x21 } else { 0x53 }),
        Type::Plain(PredicateTy::Int) if has(Fault::StartInt) => Some(0x21),
        Type::Optional(behind) if !has(Fault::StartOptional) => start_mark(behind),
        _ if has(Fault::StartInside) => start_mark(ty.fields()?.first()?),
        _ => None,
    }
}

/// What begins with the bytes, behind the fields before it: every zero with FF behind it, and no end.
fn begin(mut end: Vec<u8>, mark: u8, start: &[u8]) -> Vec<u8> {
    end.push(mark);
    for (i, byte) in start.iter().enumerate() {
        end.push(*byte);
        let last = has(Fault::StartLastZero) && i + 1 == start.len();
        if *byte == 0 && !has(Fault::StartUnescaped) && !last {
            end.push(0xFF);
        }
    }
    if has(Fault::StartEnd) {
        end.push(0x00);
    }
    end
}

/// Above all that begins with the lower end: its last byte that can be raised is, and those behind go.
fn raised(mut end: Vec<u8>) -> Vec<u8> {
    if has(Fault::StartAbove) {
        return tuple::above_field(&end);
    }
    while end.ends_with(&[0xFF]) {
        end.pop();
        if has(Fault::StartRaised) && end.ends_with(&[0x00]) {
            // the escape's FF kept, and the next byte for it
            end.extend([0xFF, 0xFF]);
            return end;
        }
    }
    *end.last_mut().expect("a mark is below FF") += 1;
    if has(Fault::StartTwice) { tuple::strinc(&end).unwrap_or(end) } else { end }
}

/// The faults take s for a sheet, whose pool has this limit.
const MOST_START: usize = 1_048_576;

/// What begins with some bytes: both ends, given room enough.
fn start_ends(ty: &[u32], first: Given<'_>, start: &[u8]) -> Result<(Vec<u8>, Vec<u8>), Refusal> {
    let types = the_type(ty)?.fields();
    if has(Fault::StartFieldFirst) && types.is_none() {
        return Err((NO_FIELD, 0));
    }
    let Value::Record(first) = the_value(first.0, first.1)? else { return Err((BAD_VALUE, 0)) };
    let types = types.ok_or((NO_FIELD, 0))?;
    if has(Fault::StartValuesFirst) {
        each_alone(&types, &first)?;
    }
    let next = types.get(first.len()).ok_or((NO_FIELD, 0))?;
    let mark = start_mark(if has(Fault::StartKindFirst) { &types[0] } else { next }).ok_or((NO_FIELD, 0))?;
    let text = std::str::from_utf8(start).is_ok() || mark == 0x53;
    if has(Fault::StartText) && !text {
        return Err((BAD_STRING, 0));
    }
    if has(Fault::StartSheet) && !text || has(Fault::StartLong) && start.len() > MOST_START {
        return Err((BAD_VALUE, 0));
    }
    if has(Fault::StartEmpty) && start.is_empty() {
        return Err((NO_BOUND, 0));
    }
    let start = if has(Fault::StartCut) { &start[..start.len().min(MOST_START)] } else { start };
    let before = each_alone(&types, &first)?;
    let shared = before.len();
    let mut lower = begin(before, mark, start);
    let upper = raised(lower.clone());
    if has(Fault::StartBlanks) && matches!(next, Type::Optional(_)) && start.is_empty() {
        lower.truncate(shared);
    }
    Ok((lower, upper))
}

fn starting_with(ty: &[u32], first: Given<'_>, start: &[u8], lower: &mut [u8], upper: &mut [u8]) -> Result<(usize, usize), Refusal> {
    let (low, high) = start_ends(ty, first, start)?;
    if has(Fault::StartLimit) && low.len() > tuple::MAX_KEY_BYTES {
        return Err((KEY_TOO_LONG, low.len() as u64));
    }
    if has(Fault::StartRoomUpper) && high.len() > upper.len() {
        return Err((NO_ROOM, high.len() as u64));
    }
    // without the trailing FF of s, but with that of the zero before them
    let measured = match start.iter().rposition(|byte| *byte != 0xFF) {
        Some(at) if has(Fault::StartZeroFf) && start[at] == 0 && at + 1 < start.len() => high.len() + 1,
        _ if has(Fault::StartRoomLower) => low.len(),
        _ => high.len(),
    };
    if low.len() <= lower.len() && measured > high.len() && measured > upper.len() {
        return Err((NO_ROOM, measured as u64));
    }
    write_ends(&low, &high, lower, upper, Fault::StartHalf)
}

#[unsafe(no_mangle)]
#[rustfmt::skip]
pub unsafe extern "C" fn tuple_starting_with(ty: *const u32, ty_len: usize, words: *const u64, words_len: usize, pool: *const u8, pool_len: usize, start: *const u8, start_len: usize, lower: *mut u8, lower_len: usize, upper: *mut u8, upper_len: usize) -> Ends {
    unsafe {
        let first = (given(words, words_len), given(pool, pool_len));
        starting_with(given(ty, ty_len), first, given(start, start_len), lent(lower, lower_len), lent(upper, upper_len)).into()
    }
}

fn replace(ty: &[u32], buffer: &mut [u8], used: usize, field: usize, words: &[u64], pool: &[u8]) -> Result<usize, Refusal> {
    let ty = the_type(ty)?;
    let fields = ty.fields().ok_or((NO_FIELD, 0))?;
    let field_type = fields.get(field).ok_or((NO_FIELD, 0))?;
    if has(Fault::ReplaceOrder) {
        the_value(words, pool)?;
    }
    if used > buffer.len() && !has(Fault::ReplaceUsed) {
        return Err((NO_ROOM, used as u64));
    }
    let used = used.min(buffer.len());
    decode_value(&ty, &buffer[..used], true).0?;
    let new = the_value(words, pool)?;
    if has(Fault::ReplaceJoined) && words.len() > 1_048_570 {
        return Err((BAD_VALUE, 0));
    }
    let bytes = field_type.encode_typed(&new)?;
    let start = place_of(&buffer[..used], field);
    let end = tuple::skip(&buffer[..used], start, false).expect("a decoded key is skipped");
    let length = used - (end - start) + bytes.len();
    if length > tuple::MAX_KEY_BYTES && !has(Fault::ReplaceNoLimit) {
        return Err((KEY_TOO_LONG, length as u64));
    }
    if length > buffer.len() {
        return Err((NO_ROOM, length as u64));
    }
    buffer.copy_within(end..used, start + bytes.len());
    buffer[start..start + bytes.len()].copy_from_slice(&bytes);
    if has(Fault::ReplaceClears) && length < used {
        buffer[length..used].fill(0);
    }
    Ok(length)
}

#[unsafe(no_mangle)]
#[rustfmt::skip]
pub unsafe extern "C" fn tuple_replace(ty: *const u32, ty_len: usize, buffer: *mut u8, buffer_len: usize, used: usize, field: usize, words: *const u64, words_len: usize, pool: *const u8, pool_len: usize) -> Length {
    unsafe { replace(given(ty, ty_len), lent(buffer, buffer_len), used, field, given(words, words_len), given(pool, pool_len)) }.into()
}
