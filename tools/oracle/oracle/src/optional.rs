//! Types with word 7 in them, which the original does not have, composed of its own steps: what a null is, its `take_null` and
//! `put_null` decide, and every part without word 7 goes by its `encode_typed_at` and `decode_typed_at`. A type without word 7 goes
//! by the original's calls alone.

use crate::refusal::{Refusal, refusal};
use crate::sheet::{self, BYTES, INT, MAX_GROUPS, MAX_TYPE_WORDS, RECORD, REFERENCE, STR, UNION};
use fjord_encoding::error::StoreCodecError as Error;
use fjord_encoding::tuple::{self, MARK_BYTES, MARK_STRING, TupleDecoder, TupleEncoder, Value};
use fjord_schema::schema::{Alternative, LocalInterner, NAME, PredicateId, PredicateTy, Spur};
use std::cell::Cell;
use std::sync::Arc;

/// The type of a sheet.
#[derive(Debug, Clone)]
pub enum Type {
    /// without word 7: one of the original's
    Plain(PredicateTy),
    Record(Arc<[Type]>),
    Union(Arc<[(u32, Type)]>),
    /// never of another optional type
    Optional(Arc<Type>),
}

/// The word before a type that makes it optional.
pub const OPTIONAL: u32 = 7;

/// The type of an admitted sheet: without word 7 as the original has it.
pub fn admit_type(words: &[u32]) -> Option<Type> {
    if let Some(ty) = sheet::admit_type(words) {
        return Some(Type::Plain(ty));
    }
    if words.len() > MAX_TYPE_WORDS {
        return None;
    }
    let mut rest = words;
    let ty = Type::read(&mut rest, MAX_GROUPS)?;
    rest.is_empty().then_some(ty)
}

fn word(rest: &mut &[u32]) -> Option<u32> {
    let (word, behind) = rest.split_first()?;
    *rest = behind;
    Some(*word)
}

fn by_original<T>(result: Result<T, Error>) -> Result<T, Refusal> {
    result.map_err(|error| refusal(&error))
}

/// Decodes, and counts the values that it begins itself; those of plain parts the original counts.
struct Decoder<'i> {
    interner: &'i LocalInterner,
    begun: Cell<u64>,
}

impl Type {
    /// `groups`: how many may still open. Word 7 opens none, and does not stand straight behind another.
    fn read(rest: &mut &[u32], groups: usize) -> Option<Type> {
        match u64::from(word(rest)?) {
            INT => Some(Type::Plain(PredicateTy::Int)),
            STR => Some(Type::Plain(PredicateTy::Str)),
            BYTES => Some(Type::Plain(PredicateTy::Bytes)),
            REFERENCE => Some(Type::Plain(PredicateTy::Fact(PredicateId(word(rest)?)))),
            RECORD => {
                let groups = groups.checked_sub(1)?;
                let count = word(rest)?;
                (0..count).map(|_| Type::read(rest, groups)).collect::<Option<_>>().map(Type::record)
            }
            UNION => {
                let groups = groups.checked_sub(1)?;
                let count = word(rest)?;
                (0..count).map(|_| Some((word(rest)?, Type::read(rest, groups)?))).collect::<Option<_>>().map(Type::union)
            }
            kind if kind == u64::from(OPTIONAL) => match Type::read(rest, groups)? {
                Type::Optional(_) => None,
                behind => Some(Type::Optional(Arc::new(behind))),
            },
            _ => None,
        }
    }

    pub fn record(fields: Vec<Type>) -> Type {
        if !fields.iter().all(|field| matches!(field, Type::Plain(_))) {
            return Type::Record(Arc::from(fields));
        }
        let plain = fields.into_iter().enumerate().map(|(i, field)| (Spur(i as u32), field.into_plain()));
        Type::Plain(PredicateTy::Record(plain.collect()))
    }

    pub fn union(alternatives: Vec<(u32, Type)>) -> Type {
        if !alternatives.iter().all(|(_, ty)| matches!(ty, Type::Plain(_))) {
            return Type::Union(Arc::from(alternatives));
        }
        let plain = alternatives.into_iter().enumerate();
        Type::Plain(PredicateTy::Union(
            plain.map(|(i, (disc, ty))| Alternative { name: Spur(i as u32), disc, ty: ty.into_plain() }).collect(),
        ))
    }

    fn into_plain(self) -> PredicateTy {
        let Type::Plain(ty) = self else { unreachable!("a plain type") };
        ty
    }

    /// The type without its words 7.
    pub fn plain(&self) -> Type {
        match self {
            Type::Record(fields) => Type::record(fields.iter().map(Type::plain).collect()),
            Type::Union(alternatives) => Type::union(alternatives.iter().map(|(disc, ty)| (*disc, ty.plain())).collect()),
            Type::Optional(behind) => behind.plain(),
            plain => plain.clone(),
        }
    }

    /// A plain type with its groups composed, although no part is optional.
    fn composed(&self) -> Type {
        match self {
            Type::Plain(PredicateTy::Record(fields)) => {
                Type::Record(fields.iter().map(|(_, ty)| Type::Plain(ty.clone()).composed()).collect())
            }
            Type::Plain(PredicateTy::Union(alternatives)) => {
                Type::Union(alternatives.iter().map(|alt| (alt.disc, Type::Plain(alt.ty.clone()).composed())).collect())
            }
            scalar => scalar.clone(),
        }
    }

    /// Panics where the composition of a plain type's groups parts from the original's own calls.
    pub fn hold_composition(&self, bytes: &[u8], value: Option<&Value>) {
        let composed = self.composed();
        let interner = crate::compute::interner();
        for decode in [Type::decode_typed, Type::decode_key] {
            let (by_original, begun) = decode(self, &interner, bytes);
            let (by_steps, counted) = decode(&composed, &interner, bytes);
            assert!(by_original == by_steps && begun == counted, "the composition parts from the original: {self:?} {bytes:02x?}");
        }
        for encode in [Type::encode_typed, Type::encode_key] {
            let parts = value.is_some_and(|value| encode(self, value) != encode(&composed, value));
            assert!(!parts, "the composition parts from the original: {self:?} {value:?}");
        }
    }

    /// The types of a record's fields; none for another type, an optional record too.
    pub fn fields(&self) -> Option<Vec<Type>> {
        match self {
            Type::Plain(PredicateTy::Record(fields)) => Some(fields.iter().map(|(_, ty)| Type::Plain(ty.clone())).collect()),
            Type::Record(fields) => Some(fields.to_vec()),
            _ => None,
        }
    }

    /// The mark of a Str or of Bytes, optional ones too; none for another type.
    pub fn run_mark(&self) -> Option<u8> {
        match self {
            Type::Plain(PredicateTy::Str) => Some(MARK_STRING),
            Type::Plain(PredicateTy::Bytes) => Some(MARK_BYTES),
            Type::Optional(behind) => behind.run_mark(),
            _ => None,
        }
    }

    fn kind(&self) -> &'static str {
        match self {
            Type::Plain(PredicateTy::Int) => "int",
            Type::Plain(PredicateTy::Str) => "string",
            Type::Plain(PredicateTy::Bytes) => "bytes",
            Type::Plain(PredicateTy::Fact(_)) => "reference",
            Type::Plain(PredicateTy::Record(_)) | Type::Record(_) => "record",
            Type::Plain(PredicateTy::Union(_)) | Type::Union(_) => "union",
            Type::Optional(behind) => behind.kind(),
        }
    }

    // ---- encoding

    /// A value where an encoder stands.
    pub fn put(&self, encoder: &mut TupleEncoder<'_>, value: &Value) -> Result<(), Error> {
        let mismatch = Error::TypeMismatch { declared: self.kind() };
        match self {
            Type::Plain(ty) => tuple::encode_typed_at(encoder, ty, value),
            Type::Optional(behind) => {
                if matches!(value, Value::Null) {
                    encoder.put_null();
                    return Ok(());
                }
                behind.put(encoder, value)
            }
            Type::Record(types) => {
                let Value::Record(fields) = value else { return Err(mismatch) };
                if types.len() != fields.len() {
                    return Err(Error::BadRecord);
                }
                encoder.record(|encoder| types.iter().zip(fields.iter()).try_for_each(|(ty, (_, field))| ty.put(encoder, field)))
            }
            Type::Union(alternatives) => {
                let Value::Union { disc, value, .. } = value else { return Err(mismatch) };
                let tag = u64::from(*disc);
                let (_, ty) = alternatives.iter().find(|(of, _)| of == disc).ok_or(Error::UnknownDiscriminant { tag })?;
                encoder.union(*disc, |encoder| ty.put(encoder, value)).map_err(|error| match error {
                    Error::BadRecord | Error::TypeMismatch { .. } => Error::BadUnion { tag },
                    error => error,
                })
            }
        }
    }

    pub fn encode_typed(&self, value: &Value) -> Result<Vec<u8>, Refusal> {
        let mut out = Vec::new();
        by_original(self.put(&mut TupleEncoder::new(&mut out), value))?;
        Ok(out)
    }

    pub fn encode_key(&self, value: &Value) -> Result<Vec<u8>, Refusal> {
        let key = match (self, value) {
            (Type::Plain(ty), _) => return by_original(tuple::encode_key(ty, value)),
            (Type::Record(types), Value::Record(fields)) => {
                if types.len() != fields.len() {
                    return by_original(Err(Error::BadRecord));
                }
                self.first_fields(fields, types.len())?
            }
            _ => self.encode_typed(value)?,
        };
        by_original(tuple::refuse_over_long_key(&key))?;
        Ok(key)
    }

    /// The first k fields of a record, bare at depth 0.
    pub fn first_fields(&self, fields: &[(String, Value)], k: usize) -> Result<Vec<u8>, Refusal> {
        let types = self.fields().expect("a record type");
        let mut out = Vec::new();
        let mut encoder = TupleEncoder::new(&mut out);
        by_original(types.iter().zip(fields).take(k).try_for_each(|(ty, (_, field))| ty.put(&mut encoder, field)))?;
        Ok(out)
    }

    // ---- decoding

    /// The value, and the values begun.
    pub fn decode_typed(&self, interner: &LocalInterner, bytes: &[u8]) -> (Result<Value, Refusal>, u64) {
        match self {
            Type::Plain(ty) => counted(|_| tuple::decode_typed(interner, bytes, ty), interner),
            _ => counted(|decoder| whole(bytes, |reader| decoder.value(self, reader)), interner),
        }
    }

    pub fn decode_key(&self, interner: &LocalInterner, bytes: &[u8]) -> (Result<Value, Refusal>, u64) {
        match self {
            Type::Plain(ty) => counted(|_| tuple::decode_key(interner, bytes, ty), interner),
            Type::Record(types) => {
                let fields = |decoder: &Decoder<'_>, reader: &mut TupleDecoder<'_>| {
                    types.iter().map(|ty| Ok((NAME.to_owned(), decoder.value(ty, reader)?))).collect::<Result<Vec<_>, Error>>()
                };
                counted(|decoder| whole(bytes, |reader| Ok(Value::Record(fields(decoder, reader)?.into_boxed_slice()))), interner)
            }
            _ => self.decode_typed(interner, bytes),
        }
    }
}

/// The values begun: by the original's own count, and those of the composition.
fn counted(decode: impl FnOnce(&Decoder<'_>) -> Result<Value, Error>, interner: &LocalInterner) -> (Result<Value, Refusal>, u64) {
    let decoder = Decoder { interner, begun: Cell::new(0) };
    tuple::decode_probe::reset();
    let result = by_original(decode(&decoder));
    (result, tuple::decode_probe::count() + decoder.begun.get())
}

/// Nothing may be left over.
fn whole(bytes: &[u8], read: impl FnOnce(&mut TupleDecoder<'_>) -> Result<Value, Error>) -> Result<Value, Error> {
    let mut reader = TupleDecoder::new(bytes);
    let value = read(&mut reader)?;
    match reader.remaining().first() {
        Some(mark) => Err(Error::UnexpectedMark(*mark)),
        None => Ok(value),
    }
}

impl Decoder<'_> {
    fn begin(&self) {
        self.begun.set(self.begun.get() + 1);
    }

    fn value(&self, ty: &Type, reader: &mut TupleDecoder<'_>) -> Result<Value, Error> {
        match ty {
            Type::Plain(ty) => tuple::decode_typed_at(self.interner, reader, ty),
            // a step that refuses does not move
            Type::Optional(behind) => match reader.take_null() {
                Ok(()) => {
                    self.begin();
                    Ok(Value::Null)
                }
                Err(_) => self.value(behind, reader),
            },
            Type::Record(types) => {
                self.begin();
                reader.record(|reader| {
                    let mut fields = Vec::new();
                    for ty in types.iter() {
                        if reader.is_record_end()? {
                            return Err(Error::BadRecord);
                        }
                        fields.push((NAME.to_owned(), self.value(ty, reader)?));
                    }
                    if !reader.is_record_end()? {
                        return Err(Error::BadRecord);
                    }
                    Ok(Value::Record(fields.into_boxed_slice()))
                })
            }
            Type::Union(alternatives) => {
                self.begin();
                reader.union(|reader, tag| {
                    let found = alternatives.iter().find(|(disc, _)| u64::from(*disc) == tag);
                    let (disc, ty) = found.ok_or(Error::UnknownDiscriminant { tag })?;
                    Ok(Value::Union { disc: *disc, alt: NAME.to_owned(), value: Box::new(self.value(ty, reader)?) })
                })
            }
        }
    }
}
