//! A call's outcome given room enough: the original's result, in the order of document 01's checks.

use crate::call::{Call, Kind};
use crate::optional::{Type, admit_type};
use crate::refusal::*;
use crate::sheet::{admit_value, write_sheet};
use crate::steps::{self, Char, Moved, Payload};
use fjord_encoding::tuple::{self, MARK_STRING, Value};
use fjord_schema::id::FactId;
use fjord_schema::schema::{LocalInterner, NAME, SchemaInterner};
use std::borrow::Cow;
use std::cmp::Ordering;

/// Refusal (0 if none), detail, and the numbers that the kind's shape names. A refused answer's numbers are 0, but for the
/// values begun and for a cursor, which is the one given.
#[derive(Debug, Clone, Copy, PartialEq, Eq, Default)]
pub struct Answer {
    pub refusal: u32,
    pub detail: u64,
    pub numbers: [u64; 5],
}

/// What a call answers and writes, given room enough.
#[derive(Debug, Default)]
pub struct Outcome {
    pub answer: Answer,
    /// to the first lent buffer of bytes, from this place on
    pub at: usize,
    pub bytes: Vec<u8>,
    /// to the lent buffer of words
    pub words: Vec<u64>,
    /// to the second lent buffer of bytes
    pub pool: Vec<u8>,
}

/// Where a payload lies: in the bytes given, or in the scratch buffer.
pub const IN_KEY: u64 = 1;
pub const IN_SCRATCH: u64 = 2;

/// An order as a number: less 0, equal 1, greater 2.
pub fn order_number(order: Ordering) -> u64 {
    (order as i8 + 1) as u64
}

pub struct Oracle {
    interner: LocalInterner,
    /// the last type sheet and its type: many calls in a row have the same
    last_type: Option<(Vec<u32>, Option<Type>)>,
    pub outcome: Outcome,
}

impl Default for Oracle {
    fn default() -> Oracle {
        Oracle { interner: interner(), last_type: None, outcome: Outcome::default() }
    }
}

pub fn interner() -> LocalInterner {
    LocalInterner::new(SchemaInterner::new(()))
}

fn by_original<T>(result: Result<T, fjord_encoding::error::StoreCodecError>) -> Result<T, Refusal> {
    result.map_err(|error| refusal(&error))
}

/// The fields of a record type; another type is NoField.
fn field_types(ty: &Type) -> Result<usize, Refusal> {
    ty.fields().map(|fields| fields.len()).ok_or((NO_FIELD, 0))
}

/// The fields of a record.
type Fields = Box<[(String, Value)]>;

fn fields_of(value: Value) -> Fields {
    match value {
        Value::Record(fields) => fields,
        _ => unreachable!("a record type decodes to a record"),
    }
}

fn answered(numbers: &[u64]) -> Answer {
    let mut answer = Answer::default();
    answer.numbers[..numbers.len()].copy_from_slice(numbers);
    answer
}

/// A refused call: the cursor is the one given, no other number is answered.
pub fn refused_answer(call: &Call, (refusal, detail): Refusal) -> Answer {
    use Kind::*;
    let [at, depth, _] = call.numbers;
    let numbers = match call.kind {
        TakeNull | TakeI64 | TakeU64 | TakeFactId | OpenRecord | OpenUnion | Close | PutNull | PutRecord | PutUnion | PutEnd => {
            [0, at, depth, 0, 0]
        }
        TakeStr | TakeBytes => [0, 0, 0, at, depth],
        _ => [0; 5],
    };
    Answer { refusal, detail, numbers }
}

impl Oracle {
    fn ty(&mut self, words: &[u32]) -> Result<Type, Refusal> {
        if self.last_type.as_ref().is_none_or(|(last, _)| last != words) {
            self.last_type = Some((words.to_vec(), admit_type(words)));
        }
        self.last_type.as_ref().and_then(|(_, ty)| ty.clone()).ok_or((BAD_TYPE, 0))
    }

    /// Is it an admitted type with word 7 in it?
    pub fn is_optional(&mut self, words: &[u32]) -> bool {
        self.ty(words).is_ok_and(|ty| !matches!(ty, Type::Plain(_)))
    }

    /// The call's outcome, left in `outcome`.
    pub fn run(&mut self, call: &Call) {
        self.outcome.at = 0;
        self.outcome.bytes.clear();
        self.outcome.words.clear();
        self.outcome.pool.clear();
        self.outcome.answer = match self.compute(call) {
            Ok(answer) => answer,
            Err(refused) => refused_answer(call, refused),
        };
    }

    fn compute(&mut self, call: &Call) -> Result<Answer, Refusal> {
        use Kind::*;
        let [first, second, third] = call.numbers;
        match call.kind {
            EncodeTyped => self.encode(call, Type::encode_typed),
            EncodeKey => self.encode(call, Type::encode_key),
            DecodeTyped => Ok(self.decode(call, Type::decode_typed, true)),
            DecodeKey => Ok(self.decode(call, Type::decode_key, true)),
            CheckKey => Ok(self.decode(call, Type::decode_key, false)),
            Skip => {
                let start = usize::try_from(first).unwrap_or(usize::MAX);
                by_original(tuple::skip(&call.bytes, start, second != 0)).map(|end| answered(&[end as u64]))
            }
            Compare => {
                let value = admit_value(&call.words, &call.pool).ok_or((BAD_VALUE, 0))?;
                let other = admit_value(&call.other_words, &call.other_pool).ok_or((BAD_VALUE, 0))?;
                Ok(answered(&[order_number(value.cmp(&other))]))
            }
            Strinc => self.writes(tuple::strinc(&call.bytes).ok_or((NO_BOUND, 0))),
            AboveField => self.writes(Ok(tuple::above_field(&call.bytes))),
            Bounds => self.bounds(call),
            Span => self.span(call),
            StartingWith => self.starting_with(call),
            Replace => self.replace(call),
            GetI64 => by_original(tuple::get_i64(&call.bytes)).map(|(int, used)| answered(&[int as u64, used as u64])),
            GetU64 => by_original(tuple::get_u64(&call.bytes)).map(|(number, used)| answered(&[number, used as u64])),
            GetStr => by_original(tuple::get_str(&call.bytes)).map(|(text, used)| match text {
                Cow::Borrowed(text) => answered(&[IN_KEY, 1, text.len() as u64, used as u64]),
                Cow::Owned(text) => self.in_scratch(text.into_bytes(), used),
            }),
            GetBytes => by_original(tuple::get_bytes(&call.bytes)).map(|(payload, used)| match payload {
                Cow::Borrowed(payload) => answered(&[IN_KEY, 1, payload.len() as u64, used as u64]),
                Cow::Owned(payload) => self.in_scratch(payload, used),
            }),
            PutI64 => self.puts(call, |out| tuple::put_i64(out, second as i64)),
            PutU64 => self.puts(call, |out| tuple::put_u64(out, second)),
            PutStr => {
                let text = std::str::from_utf8(&call.bytes).map_err(|_| (BAD_STRING, 0))?;
                self.puts(call, |out| tuple::put_str(out, text))
            }
            PutBytes => self.puts(call, |out| tuple::put_bytes(out, &call.bytes)),
            PutFactId => self.puts(call, |out| out.extend_from_slice(&tuple::fact_ref_bytes(FactId::from_raw(second)))),
            TakeNull => self.takes(call, steps::take_null, 0),
            TakeI64 => self.takes(call, steps::take_i64, 0),
            TakeU64 => self.takes(call, steps::take_u64, 0),
            TakeFactId => self.takes(call, steps::take_fact_id, 0),
            TakeStr => self.takes_payload(call, steps::take_str),
            TakeBytes => self.takes_payload(call, steps::take_bytes),
            OpenRecord => self.takes(call, steps::open_record, 1),
            OpenUnion => self.takes(call, steps::open_union, 1),
            Close => self.takes(call, steps::close, -1),
            IsRecordEnd => {
                let end = steps::is_record_end(steps::rest(&call.bytes, first), steps::depth_read(second))?;
                Ok(answered(&[end, 0]))
            }
            PutNull => self.puts_step(call, steps::put_null(steps::depth_read(second)), 0),
            PutRecord => self.puts_step(call, steps::put_record(steps::depth_read(second)), 1),
            PutUnion => self.puts_step(call, steps::put_union(steps::depth_read(second), third as u32), 1),
            PutEnd => self.puts_step(call, steps::put_end(steps::depth_read(second)), -1),
            CharsNext => Ok(next_char(call)),
            Chars => {
                let ((last, _), at) = steps::chars(&call.bytes, &mut self.outcome.words)?;
                Ok(answered(&[u64::from(last), at]))
            }
            // what a new reader must show: the name that get_str decodes and the end, else a refusal
            Names => match tuple::get_str(&call.bytes) {
                Ok((name, _)) => {
                    self.outcome.words.extend(name.chars().map(u64::from));
                    Ok(answered(&[1]))
                }
                Err(_) if call.bytes.first() == Some(&MARK_STRING) => Ok(answered(&[0])),
                Err(error) => Err(refusal(&error)),
            },
        }
    }

    fn writes(&mut self, result: Result<Vec<u8>, Refusal>) -> Result<Answer, Refusal> {
        self.outcome.bytes = result?;
        Ok(answered(&[self.outcome.bytes.len() as u64]))
    }

    fn encode(&mut self, call: &Call, encode: fn(&Type, &Value) -> Result<Vec<u8>, Refusal>) -> Result<Answer, Refusal> {
        let ty = self.ty(&call.ty)?;
        let value = admit_value(&call.words, &call.pool).ok_or((BAD_VALUE, 0))?;
        self.outcome.bytes = encode(&ty, &value)?;
        // an admitted sheet's pool is the payloads of the value, of which every zero is escaped
        let zeros = call.pool.iter().filter(|byte| **byte == 0).count();
        Ok(answered(&[self.outcome.bytes.len() as u64, zeros as u64]))
    }

    fn decode(&mut self, call: &Call, decode: fn(&Type, &LocalInterner, &[u8]) -> (Result<Value, Refusal>, u64), keep: bool) -> Answer {
        let ty = match self.ty(&call.ty) {
            Ok(ty) => ty,
            Err(refused) => return refused_answer(call, refused),
        };
        let (result, begun) = decode(&ty, &self.interner, &call.bytes);
        match result {
            Ok(value) => {
                if keep {
                    write_sheet(&value, &mut self.outcome.words, &mut self.outcome.pool);
                }
                answered(&[begun, self.outcome.words.len() as u64, self.outcome.pool.len() as u64])
            }
            Err((refusal, detail)) => Answer { refusal, detail, numbers: [begun, 0, 0, 0, 0] },
        }
    }

    fn bounds(&mut self, call: &Call) -> Result<Answer, Refusal> {
        let ty = self.ty(&call.ty)?;
        let k = call.numbers[0];
        if k > field_types(&ty)? as u64 {
            return Err((NO_FIELD, 0));
        }
        let fields = fields_of(ty.decode_key(&self.interner, &call.bytes).0?);
        let lower = ty.first_fields(&fields, k as usize).expect("a decoded field encodes");
        let upper = tuple::above_field(&lower);
        Ok(self.writes_ends(lower, upper))
    }

    fn writes_ends(&mut self, lower: Vec<u8>, upper: Vec<u8>) -> Answer {
        (self.outcome.bytes, self.outcome.pool) = (lower, upper);
        answered(&[self.outcome.bytes.len() as u64, self.outcome.pool.len() as u64])
    }

    /// The type, and the first values of a span, which are a Record's.
    fn first_values(&mut self, call: &Call) -> Result<(Type, Fields), Refusal> {
        let ty = self.ty(&call.ty)?;
        match admit_value(&call.words, &call.pool) {
            Some(Value::Record(first)) => Ok((ty, first)),
            _ => Err((BAD_VALUE, 0)),
        }
    }

    /// The first values and one more behind them, bare at depth 0: the lowest, and the highest with FF. An end is no key, and has no limit.
    fn span(&mut self, call: &Call) -> Result<Answer, Refusal> {
        let (ty, first) = self.first_values(call)?;
        let lowest = admit_value(&call.other_words, &call.other_pool).ok_or((BAD_VALUE, 0))?;
        let highest = admit_value(&call.third_words, &call.third_pool).ok_or((BAD_VALUE, 0))?;
        if first.len() >= field_types(&ty)? {
            return Err((NO_FIELD, 0));
        }
        let mut fields = first.into_vec();
        let k = fields.len();
        fields.push((NAME.to_owned(), lowest));
        let lower = ty.first_fields(&fields, k + 1)?;
        fields[k].1 = highest;
        let upper = tuple::above_field(&ty.first_fields(&fields, k + 1)?);
        Ok(self.writes_ends(lower, upper))
    }

    /// The first values bare at depth 0, then the run that the original makes of any bytes, behind the mark of the next field and without its
    /// end; and the original's strinc of that, which the mark always leaves a byte to raise.
    fn starting_with(&mut self, call: &Call) -> Result<Answer, Refusal> {
        let (ty, first) = self.first_values(call)?;
        let next = ty.fields().and_then(|types| types.get(first.len()).cloned());
        let mark = next.and_then(|next| next.run_mark()).ok_or((NO_FIELD, 0))?;
        let mut lower = ty.first_fields(&first, first.len())?;
        let at = lower.len();
        tuple::put_bytes(&mut lower, &call.bytes);
        lower[at] = mark;
        lower.pop();
        let upper = tuple::strinc(&lower).expect("the mark is below FF");
        Ok(self.writes_ends(lower, upper))
    }

    /// The original composed: decode, change, encode. The changed record is never judged as a sheet.
    fn replace(&mut self, call: &Call) -> Result<Answer, Refusal> {
        let ty = self.ty(&call.ty)?;
        let [used, field, _] = call.numbers;
        if field >= field_types(&ty)? as u64 {
            return Err((NO_FIELD, 0));
        }
        if used > call.bytes.len() as u64 {
            return Err((NO_ROOM, used));
        }
        let mut fields = fields_of(ty.decode_key(&self.interner, &call.bytes[..used as usize]).0?);
        fields[field as usize].1 = admit_value(&call.words, &call.pool).ok_or((BAD_VALUE, 0))?;
        self.writes(ty.encode_key(&Value::Record(fields)))
    }

    fn in_scratch(&mut self, payload: Vec<u8>, used: usize) -> Answer {
        self.outcome.bytes = payload;
        answered(&[IN_SCRATCH, 0, self.outcome.bytes.len() as u64, used as u64])
    }

    /// A field put at a place; the answer is the place behind it.
    fn puts(&mut self, call: &Call, put: impl FnOnce(&mut Vec<u8>)) -> Result<Answer, Refusal> {
        put(&mut self.outcome.bytes);
        let at = call.numbers[0];
        self.outcome.at = usize::try_from(at).unwrap_or(usize::MAX);
        Ok(answered(&[at.saturating_add(self.outcome.bytes.len() as u64)]))
    }

    fn takes(&mut self, call: &Call, take: fn(&[u8], u64) -> Moved<u64>, deeper: i64) -> Result<Answer, Refusal> {
        let [at, depth, _] = call.numbers;
        let depth = steps::depth_read(depth);
        let (value, moved) = take(steps::rest(&call.bytes, at), depth)?;
        Ok(answered(&[value, at + moved, depth.wrapping_add_signed(deeper)]))
    }

    fn takes_payload(&mut self, call: &Call, take: fn(&[u8], u64) -> Moved<Payload>) -> Result<Answer, Refusal> {
        let [at, depth, _] = call.numbers;
        let depth = steps::depth_read(depth);
        let (payload, moved) = take(steps::rest(&call.bytes, at), depth)?;
        Ok(match payload {
            Payload::Borrowed(len) => answered(&[IN_KEY, at + 1, len as u64, at + moved, depth]),
            Payload::Owned(payload) => {
                self.outcome.bytes = payload;
                answered(&[IN_SCRATCH, 0, self.outcome.bytes.len() as u64, at + moved, depth])
            }
        })
    }

    fn puts_step(&mut self, call: &Call, written: Result<Vec<u8>, Refusal>, deeper: i64) -> Result<Answer, Refusal> {
        self.outcome.bytes = written?;
        let [at, depth, _] = call.numbers;
        self.outcome.at = usize::try_from(at).unwrap_or(usize::MAX);
        let depth = steps::depth_read(depth).wrapping_add_signed(deeper);
        Ok(answered(&[0, at.saturating_add(self.outcome.bytes.len() as u64), depth]))
    }
}

/// One step of the string reader. A refusal and the end finish it and leave its place.
fn next_char(call: &Call) -> Answer {
    let [at, done, _] = call.numbers;
    if done != 0 {
        return answered(&[0, 0, at, 1]);
    }
    match steps::char_at(&call.bytes, at) {
        Char::Given(code, len) => answered(&[1, u64::from(code), at + len, 0]),
        Char::End => answered(&[0, 0, at, 1]),
        Char::Refused((refusal, detail)) => Answer { refusal, detail, numbers: [0, 0, at, 1, 0] },
    }
}
