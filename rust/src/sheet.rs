use std::fmt;

/// The low bits of a reference that are its sequence; the high ones are its predicate. The only place that names the split.
pub(crate) const SEQUENCE_BITS: u32 = 40;
const MAX_SEQUENCE: u64 = (1 << SEQUENCE_BITS) - 1;

/// A predicate's number: what a reference refers to. A type may name any; one of 2^24 or more matches no reference.
#[derive(Debug, Clone, Copy, PartialEq, Eq, PartialOrd, Ord, Hash)]
pub struct PredicateId(pub u32);

/// A reference: a predicate (the high 24 bits) and a sequence (the low 40), which is not 0. Its raw number is predicate · 2^40 + sequence.
///
/// ```
/// use tuple::{FactId, PredicateId, Refusal, Type, Value, encode_key};
///
/// let id = FactId::new(PredicateId(7), 1).unwrap();
/// assert_eq!(id.raw(), 0x000007_0000000001);
/// assert_eq!((id.predicate(), id.sequence()), (PredicateId(7), 1));
/// assert_eq!(encode_key(&Type::Fact(PredicateId(7)), &Value::from(id)).unwrap(), [0x51, 0, 0, 7, 0, 0, 0, 0, 1]);
///
/// // there is no such reference
/// assert_eq!(FactId::new(PredicateId(7), 0), None);
/// assert_eq!(FactId::new(PredicateId(7), 1 << 40), None);
/// assert_eq!(FactId::new(PredicateId(1 << 24), 1), None);
///
/// // a type may name such a predicate, but no reference matches it
/// let refused = encode_key(&Type::Fact(PredicateId(1 << 24)), &Value::from(id));
/// assert_eq!(refused, Err(Refusal::FactRefPredicate { found: 7 }));
/// ```
#[derive(Debug, Clone, Copy, PartialEq, Eq, PartialOrd, Ord, Hash)]
pub struct FactId(u64);

impl FactId {
    /// The reference to this predicate with this sequence; none where the predicate is 2^24 or more, or the sequence 0 or 2^40 or more.
    #[must_use]
    pub fn new(predicate: PredicateId, sequence: u64) -> Option<FactId> {
        if sequence == 0 || sequence > MAX_SEQUENCE || u64::from(predicate.0) > u64::MAX >> SEQUENCE_BITS {
            return None;
        }
        Some(FactId((u64::from(predicate.0) << SEQUENCE_BITS) | sequence))
    }

    /// Any 64 bits as a reference; the calls refuse what is none.
    #[must_use]
    pub fn from_raw(raw: u64) -> FactId {
        FactId(raw)
    }

    /// The 64 bits.
    #[must_use]
    pub fn raw(self) -> u64 {
        self.0
    }

    /// The predicate that it refers to.
    #[must_use]
    pub fn predicate(self) -> PredicateId {
        PredicateId((self.0 >> SEQUENCE_BITS) as u32)
    }

    /// Its sequence.
    #[must_use]
    pub fn sequence(self) -> u64 {
        self.0 & MAX_SEQUENCE
    }
}

/// The kinds of types, by the number that begins each on a sheet.
#[derive(Debug, Clone, Copy, PartialEq, Eq, PartialOrd, Ord, Hash)]
pub enum Kind {
    /// 1
    Int,
    /// 2
    Str,
    /// 3
    Bytes,
    /// 4
    Fact,
    /// 5
    Record,
    /// 6
    Union,
}

impl Kind {
    pub(crate) fn numbered(number: u64) -> Option<Kind> {
        [Kind::Int, Kind::Str, Kind::Bytes, Kind::Fact, Kind::Record, Kind::Union]
            .into_iter()
            .find(|kind| u64::from(kind.number()) == number)
    }

    /// The number on a sheet, 1 to 6.
    #[must_use]
    pub fn number(self) -> u32 {
        match self {
            Kind::Int => 1,
            Kind::Str => 2,
            Kind::Bytes => 3,
            Kind::Fact => 4,
            Kind::Record => 5,
            Kind::Union => 6,
        }
    }
}

impl fmt::Display for Kind {
    fn fmt(&self, f: &mut fmt::Formatter<'_>) -> fmt::Result {
        f.write_str(match self {
            Kind::Int => "int",
            Kind::Str => "string",
            Kind::Bytes => "bytes",
            Kind::Fact => "reference",
            Kind::Record => "record",
            Kind::Union => "union",
        })
    }
}

/// One alternative of a union type.
#[derive(Debug, Clone, PartialEq, Eq, Hash)]
pub struct Alternative {
    /// its discriminant; where two alternatives have the same, the first counts
    pub disc: u32,
    /// its payload's type
    pub ty: Type,
}

/// A type of keys or of their fields. Fields and alternatives go by position and discriminant; they have no names.
///
/// A type may nest as deep as memory allows: it is dropped, cloned, compared, hashed and shown without recursion. So it has a `Drop`, and a pattern borrows
/// its parts; [`std::mem::take`] moves them out.
///
/// ```
/// use tuple::Type;
///
/// // a tank key: its tag and a number
/// let tank = Type::record([Type::Bytes, Type::Int]);
/// assert_eq!(tank.sheet(), [5, 2, 3, 1]);
/// ```
pub enum Type {
    /// an integer of 64 bits
    Int,
    /// text
    Str,
    /// any bytes
    Bytes,
    /// a reference to this predicate; of 2^24 or more there is none
    Fact(PredicateId),
    /// fields in order
    Record(Vec<Type>),
    /// one of several alternatives
    Union(Vec<Alternative>),
    /// a value of this type, or [`Value::Null`] for a blank; the type itself is not optional, or a call refuses it
    Optional(Box<Type>),
}

impl Type {
    /// The record type of these fields.
    pub fn record(fields: impl IntoIterator<Item = Type>) -> Type {
        Type::Record(fields.into_iter().collect())
    }

    /// The union type of these alternatives, each a discriminant and the payload's type.
    ///
    /// ```
    /// use tuple::Type;
    ///
    /// // a dose: grams by the scale, or a note by hand
    /// let dose = Type::union([(1, Type::Int), (2, Type::Str)]);
    /// assert_eq!(dose.sheet(), [6, 2, 1, 1, 2, 2]);
    /// ```
    pub fn union(alternatives: impl IntoIterator<Item = (u32, Type)>) -> Type {
        Type::Union(alternatives.into_iter().map(|(disc, ty)| Alternative { disc, ty }).collect())
    }

    /// This type made optional: its values, or [`Value::Null`] for a blank, which comes before them all (theorem `blanks`). An optional type made optional once more is BadType
    /// to every call.
    ///
    /// ```
    /// use tuple::{Refusal, Type, Value, decode_key, encode_key};
    ///
    /// // a recipe line: the supplier's lot, if it has one, and grams
    /// let line = Type::record([Type::optional(Type::Str), Type::Int]);
    /// assert_eq!(line.sheet(), [5, 2, 7, 2, 1]);
    /// let blank = Value::record([Value::Null, Value::Int(7)]);
    /// let key = encode_key(&line, &blank).unwrap();
    /// assert_eq!(key, [0x00, 0x49, 0x07]);
    /// assert_eq!(decode_key(&line, &key), Ok(blank));
    /// assert!(key < encode_key(&line, &Value::record([Value::from(""), Value::Int(7)])).unwrap());
    ///
    /// // a blank only where the type is optional
    /// assert_eq!(encode_key(&line, &Value::record([Value::Null, Value::Null])), Err(Refusal::TypeMismatch { declared: tuple::Kind::Int }));
    /// assert_eq!(encode_key(&Type::optional(Type::optional(Type::Int)), &Value::Null), Err(Refusal::BadType));
    /// ```
    #[must_use]
    pub fn optional(ty: Type) -> Type {
        Type::Optional(Box::new(ty))
    }

    /// The word that the type begins with on a sheet: its kind's number, or 7 before one that is optional.
    pub(crate) fn word(&self) -> u32 {
        match self {
            Type::Optional(_) => 7,
            plain => plain.kind().number(),
        }
    }

    /// The type's kind; of an optional type, that of the type which it makes optional.
    #[must_use]
    pub fn kind(&self) -> Kind {
        let mut ty = self;
        while let Type::Optional(behind) = ty {
            ty = behind;
        }
        match ty {
            Type::Int => Kind::Int,
            Type::Str => Kind::Str,
            Type::Bytes => Kind::Bytes,
            Type::Fact(_) => Kind::Fact,
            Type::Record(_) => Kind::Record,
            Type::Union(_) => Kind::Union,
            Type::Optional(_) => unreachable!("passed above"),
        }
    }

    /// The type sheet: its words, outermost first, as include/tuple.h describes them. It is made for every type; a call refuses one that is too long or
    /// nests too deep.
    #[must_use]
    pub fn sheet(&self) -> Vec<u32> {
        // A count over 2^32 - 1 stands as that: such a sheet is too long whatever its counts.
        let count = |n: usize| u32::try_from(n).unwrap_or(u32::MAX);
        let mut words = Vec::new();
        let mut due = vec![(None, self)];
        while let Some((disc, ty)) = due.pop() {
            words.extend(disc);
            words.push(ty.word());
            match ty {
                Type::Int | Type::Str | Type::Bytes => {}
                Type::Fact(predicate) => words.push(predicate.0),
                Type::Record(fields) => {
                    words.push(count(fields.len()));
                    due.extend(fields.iter().rev().map(|field| (None, field)));
                }
                Type::Union(alternatives) => {
                    words.push(count(alternatives.len()));
                    due.extend(alternatives.iter().rev().map(|alternative| (Some(alternative.disc), &alternative.ty)));
                }
                Type::Optional(behind) => due.push((None, behind)),
            }
        }
        words
    }
}

/// A value. The variants stand in the order in which kinds compare, so that [`Ord`] is the order of values, and for values of one type that of their keys;
/// [`compare`](crate::compare) is the library's answer to the same question.
///
/// A value may nest as deep as memory allows, as a [`Type`] may.
///
/// ```
/// use tuple::Value;
///
/// // tank 0A 00 with number 7
/// let tank = Value::record([Value::from(b"\x0A\x00"), Value::Int(7)]);
/// assert_eq!(tank.sheet().words(), [5, 2, 3, 2, 1, 7]);
/// assert_eq!(tank.sheet().pool(), [0x0A, 0x00]);
/// assert!(Value::from("tank") < Value::Int(i64::MIN) && Value::Int(-1) < Value::Int(0));
/// ```
pub enum Value {
    /// a blank; it fits optional types alone
    Null,
    /// text
    Str(String),
    /// fields in order
    Record(Vec<Value>),
    /// an integer
    Int(i64),
    /// a reference
    FactRef(FactId),
    /// one alternative of a union
    Union {
        /// its discriminant
        disc: u32,
        /// its payload
        value: Box<Value>,
    },
    /// any bytes
    Bytes(Vec<u8>),
}

impl Value {
    /// The record of these fields.
    pub fn record(fields: impl IntoIterator<Item = Value>) -> Value {
        Value::Record(fields.into_iter().collect())
    }

    /// The alternative of a union with this discriminant.
    #[must_use]
    pub fn union(disc: u32, value: Value) -> Value {
        Value::Union { disc, value: Box::new(value) }
    }

    /// The value sheet: words and pool, as include/tuple.h describes them. It is made for every value; a call refuses one that is too long or nests too deep.
    #[must_use]
    pub fn sheet(&self) -> ValueSheet {
        let mut sheet = ValueSheet::default();
        sheet.put(vec![self]);
        sheet
    }

    /// The value on a sheet that the library wrote; none where the sheet is not one value. It does not recur, so that a deep value takes no stack.
    pub(crate) fn read(words: &[u64], pool: &[u8]) -> Option<Value> {
        let mut rest = Rest { words, pool };
        let mut open: Vec<Open> = Vec::new();
        loop {
            let mut value = match rest.word()? {
                0 => Value::Null,
                1 => Value::Int(rest.word()? as i64),
                2 => Value::Str(String::from_utf8(rest.run()?).ok()?),
                3 => Value::Bytes(rest.run()?),
                4 => Value::FactRef(FactId(rest.word()?)),
                5 => match rest.word()? {
                    0 => Value::Record(Vec::new()),
                    count => {
                        open.push(Open::Record { count, fields: Vec::new() });
                        continue;
                    }
                },
                6 => {
                    open.push(Open::Union { disc: u32::try_from(rest.word()?).ok()? });
                    continue;
                }
                _ => return None,
            };
            // The value goes into the group that is open, which it may complete, and so on outward.
            loop {
                value = match open.pop() {
                    None => return (rest.words.is_empty() && rest.pool.is_empty()).then_some(value),
                    Some(Open::Union { disc }) => Value::union(disc, value),
                    Some(Open::Record { count, mut fields }) => {
                        fields.push(value);
                        if (fields.len() as u64) < count {
                            open.push(Open::Record { count, fields });
                            break;
                        }
                        Value::Record(fields)
                    }
                };
            }
        }
    }
}

/// A group whose values are being read.
enum Open {
    Record { count: u64, fields: Vec<Value> },
    Union { disc: u32 },
}

impl From<i64> for Value {
    fn from(number: i64) -> Value {
        Value::Int(number)
    }
}

impl From<&str> for Value {
    fn from(text: &str) -> Value {
        Value::Str(text.to_owned())
    }
}

impl From<String> for Value {
    fn from(text: String) -> Value {
        Value::Str(text)
    }
}

impl From<&[u8]> for Value {
    fn from(bytes: &[u8]) -> Value {
        Value::Bytes(bytes.to_vec())
    }
}

impl<const N: usize> From<&[u8; N]> for Value {
    fn from(bytes: &[u8; N]) -> Value {
        Value::Bytes(bytes.to_vec())
    }
}

impl From<Vec<u8>> for Value {
    fn from(bytes: Vec<u8>) -> Value {
        Value::Bytes(bytes)
    }
}

impl From<FactId> for Value {
    fn from(id: FactId) -> Value {
        Value::FactRef(id)
    }
}

/// A value as the library takes it: words, and a pool of the bytes of its strings and byte fields in order.
#[derive(Debug, Clone, Default, PartialEq, Eq)]
pub struct ValueSheet {
    words: Vec<u64>,
    pool: Vec<u8>,
}

impl ValueSheet {
    /// The words, outermost first.
    #[must_use]
    pub fn words(&self) -> &[u64] {
        &self.words
    }

    /// The bytes of all strings and byte fields, in order.
    #[must_use]
    pub fn pool(&self) -> &[u8] {
        &self.pool
    }

    /// The sheet of the record of these fields.
    pub(crate) fn record(fields: &[Value]) -> ValueSheet {
        let mut sheet = ValueSheet { words: vec![5, fields.len() as u64], pool: Vec::new() };
        sheet.put(fields.iter().rev().collect());
        sheet
    }

    /// Puts these values behind, the last of them first. It does not recur.
    fn put(&mut self, mut due: Vec<&Value>) {
        while let Some(value) = due.pop() {
            match value {
                Value::Null => self.words.push(0),
                Value::Int(number) => self.words.extend([1, *number as u64]),
                Value::Str(text) => self.run(2, text.as_bytes()),
                Value::Bytes(bytes) => self.run(3, bytes),
                Value::FactRef(id) => self.words.extend([4, id.raw()]),
                Value::Record(fields) => {
                    self.words.extend([5, fields.len() as u64]);
                    due.extend(fields.iter().rev());
                }
                Value::Union { disc, value } => {
                    self.words.extend([6, u64::from(*disc)]);
                    due.push(value);
                }
            }
        }
    }

    fn run(&mut self, kind: u64, bytes: &[u8]) {
        self.words.extend([kind, bytes.len() as u64]);
        self.pool.extend_from_slice(bytes);
    }

    /// A sheet of any words and pool.
    #[cfg(test)]
    pub(crate) fn of(words: &[u64], pool: &[u8]) -> ValueSheet {
        ValueSheet { words: words.to_vec(), pool: pool.to_vec() }
    }
}

/// What is left of a sheet to read.
struct Rest<'a> {
    words: &'a [u64],
    pool: &'a [u8],
}

impl Rest<'_> {
    fn word(&mut self) -> Option<u64> {
        let (word, rest) = self.words.split_first()?;
        self.words = rest;
        Some(*word)
    }

    fn run(&mut self) -> Option<Vec<u8>> {
        let length = usize::try_from(self.word()?).ok()?;
        let (bytes, rest) = self.pool.split_at_checked(length)?;
        self.pool = rest;
        Some(bytes.to_vec())
    }
}

#[cfg(test)]
mod tests {
    use super::*;

    #[test]
    fn a_sheet_reads_as_the_value_it_was_made_from() {
        let value = Value::record([
            Value::Null,
            Value::Int(-1),
            Value::from("a\0b"),
            Value::from(b"\x00\xFF"),
            Value::from(FactId::from_raw(u64::MAX)),
            Value::record([]),
            Value::union(u32::MAX, Value::record([Value::from(""), Value::Int(i64::MIN)])),
        ]);
        let sheet = value.sheet();
        assert_eq!(sheet.words()[..8], [5, 7, 0, 1, u64::MAX, 2, 3, 3]);
        assert_eq!(sheet.pool(), b"a\0b\x00\xFF");
        assert_eq!(Value::read(sheet.words(), sheet.pool()), Some(value));
    }

    #[test]
    fn the_sheet_of_a_record_of_fields_is_the_records() {
        let fields = [Value::from(b"\x0A"), Value::union(1, Value::from("a")), Value::record([Value::Null, Value::from(b"\x00")])];
        for k in 0..=fields.len() {
            assert_eq!(ValueSheet::record(&fields[..k]), Value::record(fields[..k].to_vec()).sheet());
        }
    }

    #[test]
    fn a_sheet_that_is_not_one_value_reads_as_none() {
        for (words, pool) in [
            (&[][..], &[][..]),
            (&[1], &[]),
            (&[2, 5], b"abc"),
            (&[2, 1], b"\xFF"),
            (&[0, 0], &[]),
            (&[0], b"a"),
            (&[7], &[]),
            (&[6, 1 << 32, 0], &[]),
        ] {
            assert_eq!(Value::read(words, pool), None, "{words:?}");
        }
    }

    #[test]
    fn a_type_sheet_stands_outermost_first() {
        let ty = Type::record([
            Type::Fact(PredicateId(7)),
            Type::union([(1, Type::record([Type::Int, Type::Str])), (1, Type::Bytes)]),
            Type::record([]),
        ]);
        assert_eq!(ty.sheet(), [5, 3, 4, 7, 6, 2, 1, 5, 2, 1, 2, 1, 3, 5, 0]);
        // word 7 stands before a type, a discriminant or a predicate of 7 being another
        let ty = Type::union([(7, Type::optional(Type::record([Type::Fact(PredicateId(7)), Type::optional(Type::Int)])))]);
        assert_eq!(ty.sheet(), [6, 1, 7, 7, 5, 2, 4, 7, 7, 1]);
        assert_eq!((Type::optional(Type::Int).kind(), Type::optional(ty).kind()), (Kind::Int, Kind::Union));
    }

    #[test]
    fn a_value_4_000_unions_deep_has_a_sheet_and_is_read_back() {
        let mut value = Value::Int(0);
        for _ in 0..4_000 {
            value = Value::union(1, value);
        }
        let sheet = value.sheet();
        assert_eq!(sheet.words().len(), 8_002);
        assert_eq!(Value::read(sheet.words(), sheet.pool()), Some(value));
    }

    #[test]
    fn the_split_of_a_reference() {
        let greatest = FactId::new(PredicateId(0xFF_FFFF), 0xFF_FFFF_FFFF).unwrap();
        assert_eq!(greatest.raw(), u64::MAX);
        assert_eq!((greatest.predicate(), greatest.sequence()), (PredicateId(0xFF_FFFF), 0xFF_FFFF_FFFF));
        assert_eq!(FactId::new(PredicateId(0x100_0000), 1), None);
        assert_eq!(FactId::new(PredicateId(u32::MAX), 1), None);
        assert_eq!(FactId::new(PredicateId(0), 0x100_0000_0000), None);
        assert_eq!(FactId::from_raw(7 << 40).sequence(), 0);
        // past 2^32 the number is the sequence's still
        assert_eq!(FactId::new(PredicateId(7), 1 << 32).unwrap().raw(), 0x000007_0100000000);
        assert_eq!((FactId::from_raw(1 << 32).predicate(), FactId::from_raw(1 << 32).sequence()), (PredicateId(0), 1 << 32));
    }
}
