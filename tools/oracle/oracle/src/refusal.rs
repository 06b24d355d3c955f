//! The refusals of document 01: their numbers, and the original's errors as number and detail.

use fjord_encoding::error::StoreCodecError as Error;

/// Number and detail.
pub type Refusal = (u32, u64);

pub const UNEXPECTED_EOF: u32 = 1;
pub const UNEXPECTED_MARK: u32 = 2;
pub const UNEXPECTED_TERMINATOR: u32 = 3;
pub const BAD_STRING: u32 = 4;
pub const BAD_INTEGER: u32 = 5;
pub const BAD_RECORD: u32 = 6;
pub const KEY_TOO_LONG: u32 = 7;
pub const FACT_REF_PREDICATE: u32 = 8;
pub const RESERVED_FACT_ID: u32 = 9;
pub const UNKNOWN_DISCRIMINANT: u32 = 10;
pub const TYPE_MISMATCH: u32 = 11;
pub const BAD_UNION: u32 = 12;
pub const OVERFLOW: u32 = 13;
pub const UNDERFLOW: u32 = 14;
pub const BAD_TYPE: u32 = 15;
pub const BAD_VALUE: u32 = 16;
pub const NO_ROOM: u32 = 17;
pub const NO_FIELD: u32 = 18;
pub const NO_BOUND: u32 = 19;

/// The kind of a type, by the name that the original's error gives it.
fn kind_named(declared: &str) -> u64 {
    match declared {
        "int" => 1,
        "string" => 2,
        "bytes" => 3,
        "reference" => 4,
        "record" => 5,
        "union" => 6,
        other => panic!("the original declares no {other}"),
    }
}

pub fn refusal(error: &Error) -> Refusal {
    match error {
        Error::UnexpectedEof => (UNEXPECTED_EOF, 0),
        Error::UnexpectedMark(byte) => (UNEXPECTED_MARK, u64::from(*byte)),
        Error::UnexpectedTerminator => (UNEXPECTED_TERMINATOR, 0),
        Error::BadString(_) => (BAD_STRING, 0),
        Error::BadInteger => (BAD_INTEGER, 0),
        Error::BadRecord => (BAD_RECORD, 0),
        Error::KeyTooLong { len, .. } => (KEY_TOO_LONG, *len as u64),
        Error::FactRefPredicate { found, .. } => (FACT_REF_PREDICATE, u64::from(*found)),
        Error::ReservedFactId => (RESERVED_FACT_ID, 0),
        Error::UnknownDiscriminant { tag } => (UNKNOWN_DISCRIMINANT, *tag),
        Error::TypeMismatch { declared } => (TYPE_MISMATCH, kind_named(declared)),
        Error::BadUnion { tag } => (BAD_UNION, *tag),
        Error::Overflow => (OVERFLOW, 0),
        Error::Underflow => (UNDERFLOW, 0),
        Error::UnknownSymbol(_) => panic!("the stand-in names every symbol"),
    }
}
