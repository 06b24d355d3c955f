use crate::MAX_KEY_BYTES;
use crate::sheet::Kind;
use std::fmt;

/// Why a call said no: the numbered refusals, each with its detail.
///
/// The calls of this crate lend buffers that grow, so none of them answers [`NoRoom`](Refusal::NoRoom); [`BadLine`](Refusal::BadLine) is of the program
/// `keylist` alone.
///
/// ```
/// use tuple::{Kind, Refusal, Type, Value};
///
/// let refusal = tuple::encode_key(&Type::Int, &Value::from("seven")).unwrap_err();
/// assert_eq!(refusal, Refusal::TypeMismatch { declared: Kind::Int });
/// assert_eq!((refusal.number(), refusal.name(), refusal.detail()), (11, "TypeMismatch", 1));
/// assert_eq!(refusal.to_string(), "the value is not of its type's kind, which is int");
/// ```
#[derive(Debug, Clone, Copy, PartialEq, Eq, Hash)]
#[non_exhaustive]
pub enum Refusal {
    /// 1: the bytes end where more are due.
    UnexpectedEof,
    /// 2: a byte that cannot stand where it does, or the first of bytes left over.
    UnexpectedMark(u8),
    /// 3: a 00 without the FF that is required.
    UnexpectedTerminator,
    /// 4: a string that is not UTF-8 (RFC 3629).
    BadString,
    /// 5: an integer that is not in its shortest form.
    BadInteger,
    /// 6: the wrong number of fields, or a group opened at depth 256.
    BadRecord,
    /// 7: a key over [`MAX_KEY_BYTES`].
    KeyTooLong {
        /// its length
        len: usize,
    },
    /// 8: a reference to another predicate than the type's.
    FactRefPredicate {
        /// the predicate that the reference names
        found: u32,
    },
    /// 9: a reference with sequence 0.
    ReservedFactId,
    /// 10: the union type has no such alternative.
    UnknownDiscriminant {
        /// the tag met
        tag: u64,
    },
    /// 11: a value of another kind than its type.
    TypeMismatch {
        /// the type's kind
        declared: Kind,
    },
    /// 12: a union whose payload does not fit its alternative: a 6 or 11 within it.
    BadUnion {
        /// the innermost such union's tag
        tag: u64,
    },
    /// 13: an integer above 2^63 - 1.
    Overflow,
    /// 14: an integer below -2^63.
    Underflow,
    /// 15: a type over 4,096 words or 320 groups deep.
    BadType,
    /// 16: a value over 1,048,576 words or pool bytes, or over 320 groups deep.
    BadValue,
    /// 17: a lent buffer is short.
    NoRoom {
        /// the units needed
        needed: usize,
    },
    /// 18: no such field, none behind the first k, none that begins with bytes, a count of fields over the type's, or not a record type.
    NoField,
    /// 19: no string is above all that begin with the prefix.
    NoBound,
    /// 20: a line that is no key.
    BadLine,
}

impl Refusal {
    /// The refusal of an answer; the library gives these numbers alone, each with a detail that it allows.
    pub(crate) fn answered(number: u32, detail: u64) -> Refusal {
        let refusal = Refusal::known(number, detail);
        refusal.unwrap_or_else(|| panic!("libtuple.a does not belong to this crate: it answers refusal {number} with detail {detail}"))
    }

    fn known(number: u32, detail: u64) -> Option<Refusal> {
        Some(match number {
            1 => Refusal::UnexpectedEof,
            2 => Refusal::UnexpectedMark(u8::try_from(detail).ok()?),
            3 => Refusal::UnexpectedTerminator,
            4 => Refusal::BadString,
            5 => Refusal::BadInteger,
            6 => Refusal::BadRecord,
            7 => Refusal::KeyTooLong { len: detail as usize },
            8 => Refusal::FactRefPredicate { found: u32::try_from(detail).ok()? },
            9 => Refusal::ReservedFactId,
            10 => Refusal::UnknownDiscriminant { tag: detail },
            11 => Refusal::TypeMismatch { declared: Kind::numbered(detail)? },
            12 => Refusal::BadUnion { tag: detail },
            13 => Refusal::Overflow,
            14 => Refusal::Underflow,
            15 => Refusal::BadType,
            16 => Refusal::BadValue,
            17 => Refusal::NoRoom { needed: detail as usize },
            18 => Refusal::NoField,
            19 => Refusal::NoBound,
            20 => Refusal::BadLine,
            _ => return None,
        })
    }

    /// The refusal's number, 1 to 20.
    #[must_use]
    pub fn number(&self) -> u32 {
        match self {
            Refusal::UnexpectedEof => 1,
            Refusal::UnexpectedMark(_) => 2,
            Refusal::UnexpectedTerminator => 3,
            Refusal::BadString => 4,
            Refusal::BadInteger => 5,
            Refusal::BadRecord => 6,
            Refusal::KeyTooLong { .. } => 7,
            Refusal::FactRefPredicate { .. } => 8,
            Refusal::ReservedFactId => 9,
            Refusal::UnknownDiscriminant { .. } => 10,
            Refusal::TypeMismatch { .. } => 11,
            Refusal::BadUnion { .. } => 12,
            Refusal::Overflow => 13,
            Refusal::Underflow => 14,
            Refusal::BadType => 15,
            Refusal::BadValue => 16,
            Refusal::NoRoom { .. } => 17,
            Refusal::NoField => 18,
            Refusal::NoBound => 19,
            Refusal::BadLine => 20,
        }
    }

    /// The detail that goes with the number; 0 where it has none.
    #[must_use]
    pub fn detail(&self) -> u64 {
        match *self {
            Refusal::UnexpectedMark(byte) => u64::from(byte),
            Refusal::KeyTooLong { len } => len as u64,
            Refusal::FactRefPredicate { found } => u64::from(found),
            Refusal::UnknownDiscriminant { tag } | Refusal::BadUnion { tag } => tag,
            Refusal::TypeMismatch { declared } => u64::from(declared.number()),
            Refusal::NoRoom { needed } => needed as u64,
            _ => 0,
        }
    }

    /// The refusal's name, as the table of refusals has it.
    #[must_use]
    pub fn name(&self) -> &'static str {
        match self {
            Refusal::UnexpectedEof => "UnexpectedEof",
            Refusal::UnexpectedMark(_) => "UnexpectedMark",
            Refusal::UnexpectedTerminator => "UnexpectedTerminator",
            Refusal::BadString => "BadString",
            Refusal::BadInteger => "BadInteger",
            Refusal::BadRecord => "BadRecord",
            Refusal::KeyTooLong { .. } => "KeyTooLong",
            Refusal::FactRefPredicate { .. } => "FactRefPredicate",
            Refusal::ReservedFactId => "ReservedFactId",
            Refusal::UnknownDiscriminant { .. } => "UnknownDiscriminant",
            Refusal::TypeMismatch { .. } => "TypeMismatch",
            Refusal::BadUnion { .. } => "BadUnion",
            Refusal::Overflow => "Overflow",
            Refusal::Underflow => "Underflow",
            Refusal::BadType => "BadType",
            Refusal::BadValue => "BadValue",
            Refusal::NoRoom { .. } => "NoRoom",
            Refusal::NoField => "NoField",
            Refusal::NoBound => "NoBound",
            Refusal::BadLine => "BadLine",
        }
    }
}

impl fmt::Display for Refusal {
    fn fmt(&self, f: &mut fmt::Formatter<'_>) -> fmt::Result {
        match self {
            Refusal::UnexpectedEof => f.write_str("the bytes end where more are due"),
            Refusal::UnexpectedMark(byte) => write!(f, "the byte {byte:02X} cannot stand where it does, or is left over"),
            Refusal::UnexpectedTerminator => f.write_str("a 00 stands without the FF that is required"),
            Refusal::BadString => f.write_str("a string is not UTF-8"),
            Refusal::BadInteger => f.write_str("an integer is not in its shortest form"),
            Refusal::BadRecord => f.write_str("a record has the wrong number of fields, or a group opens at depth 256"),
            Refusal::KeyTooLong { len } => write!(f, "a key of {len} bytes is longer than the {MAX_KEY_BYTES} that a key may have"),
            Refusal::FactRefPredicate { found } => write!(f, "a reference names predicate {found}, which is not its type's"),
            Refusal::ReservedFactId => f.write_str("a reference has sequence 0, which is reserved"),
            Refusal::UnknownDiscriminant { tag } => write!(f, "the union type has no alternative {tag}"),
            Refusal::TypeMismatch { declared } => write!(f, "the value is not of its type's kind, which is {declared}"),
            Refusal::BadUnion { tag } => write!(f, "the payload of a union does not fit its alternative {tag}"),
            Refusal::Overflow => f.write_str("an integer is above 2^63 - 1"),
            Refusal::Underflow => f.write_str("an integer is below -2^63"),
            Refusal::BadType => f.write_str("the type has over 4,096 words or nests over 320 groups"),
            Refusal::BadValue => f.write_str("the value has over 1,048,576 words or pool bytes, or nests over 320 groups"),
            Refusal::NoRoom { needed } => write!(f, "a lent buffer is short: {needed} needed"),
            Refusal::NoField => f.write_str("the type has no such field, or is no record"),
            Refusal::NoBound => f.write_str("no string is above all that begin with the prefix"),
            Refusal::BadLine => f.write_str("the line is no key"),
        }
    }
}

impl std::error::Error for Refusal {}

#[cfg(test)]
mod tests {
    use super::*;

    #[test]
    fn every_number_and_detail_come_back() {
        for number in 1..=20 {
            let detail = match number {
                2 => 0x21,
                7 => 65_532,
                8 => 8,
                10 | 12 => u64::MAX,
                11 => 6,
                17 => 1,
                _ => 0,
            };
            let refusal = Refusal::answered(number, detail);
            assert_eq!((refusal.number(), refusal.detail()), (number, detail));
            assert!(format!("{refusal:?}").starts_with(refusal.name()));
            assert!(!refusal.to_string().is_empty());
        }
    }

    #[test]
    fn details_stand_in_the_words() {
        for (number, detail, part) in [
            (2, 0x21, "byte 21"),
            (7, 65_532, "65532"),
            (8, 8, "predicate 8"),
            (10, 90, "90"),
            (11, 4, "reference"),
            (12, 3, "3"),
            (17, 6, "6"),
        ] {
            let words = Refusal::answered(number, detail).to_string();
            assert!(words.contains(part), "{words}");
        }
    }

    #[test]
    #[should_panic(expected = "does not belong to this crate")]
    fn an_unknown_number_is_another_library() {
        Refusal::answered(21, 0);
    }
}
