//! A call as data: its kind and its arguments, and what each kind takes and answers.

/// The calls, in the order of the C header; behind them the cursors' steps and the string reader.
#[derive(Debug, Clone, Copy, PartialEq, Eq, PartialOrd, Ord, Hash)]
pub enum Kind {
    EncodeTyped,
    EncodeKey,
    DecodeTyped,
    DecodeKey,
    CheckKey,
    Skip,
    Compare,
    Strinc,
    AboveField,
    Bounds,
    Span,
    StartingWith,
    Replace,
    GetI64,
    GetU64,
    GetStr,
    GetBytes,
    PutI64,
    PutU64,
    PutStr,
    PutBytes,
    PutFactId,
    TakeNull,
    TakeI64,
    TakeU64,
    TakeFactId,
    TakeStr,
    TakeBytes,
    OpenRecord,
    OpenUnion,
    Close,
    IsRecordEnd,
    PutNull,
    PutRecord,
    PutUnion,
    PutEnd,
    CharsNext,
    Chars,
    Names,
}

use Kind::*;

pub const KINDS: [Kind; 39] = [
    EncodeTyped,
    EncodeKey,
    DecodeTyped,
    DecodeKey,
    CheckKey,
    Skip,
    Compare,
    Strinc,
    AboveField,
    Bounds,
    Span,
    StartingWith,
    Replace,
    GetI64,
    GetU64,
    GetStr,
    GetBytes,
    PutI64,
    PutU64,
    PutStr,
    PutBytes,
    PutFactId,
    TakeNull,
    TakeI64,
    TakeU64,
    TakeFactId,
    TakeStr,
    TakeBytes,
    OpenRecord,
    OpenUnion,
    Close,
    IsRecordEnd,
    PutNull,
    PutRecord,
    PutUnion,
    PutEnd,
    CharsNext,
    Chars,
    Names,
];

/// An argument, and the place in [`Call`] that holds it. A room is the length of a lent buffer.
#[derive(Debug, Clone, Copy, PartialEq, Eq)]
pub enum Argument {
    Type,
    Words,
    Pool,
    OtherWords,
    OtherPool,
    ThirdWords,
    ThirdPool,
    Bytes,
    Number(usize),
    Room(usize),
}

/// What an accepted call hands out beside its numbers.
#[derive(Debug, Clone, Copy, PartialEq, Eq)]
pub enum Output {
    /// written to the first lent buffer of bytes
    Bytes,
    /// written to the lent buffer of words
    Words,
    /// written to the second lent buffer of bytes
    Pool,
    /// a payload, in the bytes given or in the scratch buffer
    Payload,
    /// the whole lent buffer as the call leaves it, also when it refuses
    Whole,
}

pub struct Shape {
    pub name: &'static str,
    /// the cargo feature of the library's part that has the call
    pub part: &'static str,
    pub arguments: &'static [Argument],
    /// the names of the numbers answered behind refusal and detail
    pub numbers: &'static [&'static str],
    pub outputs: &'static [Output],
}

/// A call with its arguments; what a kind does not take stays empty or 0.
#[derive(Debug, Clone, PartialEq, Eq)]
pub struct Call {
    pub kind: Kind,
    pub ty: Vec<u32>,
    pub words: Vec<u64>,
    pub pool: Vec<u8>,
    pub other_words: Vec<u64>,
    pub other_pool: Vec<u8>,
    pub third_words: Vec<u64>,
    pub third_pool: Vec<u8>,
    pub bytes: Vec<u8>,
    pub numbers: [u64; 3],
    pub rooms: [usize; 2],
}

impl Call {
    pub fn new(kind: Kind) -> Call {
        Call {
            kind,
            ty: Vec::new(),
            words: Vec::new(),
            pool: Vec::new(),
            other_words: Vec::new(),
            other_pool: Vec::new(),
            third_words: Vec::new(),
            third_pool: Vec::new(),
            bytes: Vec::new(),
            numbers: [0; 3],
            rooms: [0; 2],
        }
    }
}

impl Kind {
    pub fn named(name: &str) -> Option<Kind> {
        KINDS.into_iter().find(|kind| kind.shape().name == name)
    }

    pub fn shape(self) -> &'static Shape {
        use Argument::*;
        macro_rules! shape {
            ($name:literal, $part:literal, [$($argument:expr),*], [$($number:literal),*], [$($output:ident),*]) => {
                &Shape {
                    name: $name,
                    part: $part,
                    arguments: &[$($argument),*],
                    numbers: &[$($number),*],
                    outputs: &[$(Output::$output),*],
                }
            };
        }
        match self {
            EncodeTyped => shape!("encode_typed", "encode", [Type, Words, Pool, Room(0)], ["length", "zeros"], [Bytes]),
            EncodeKey => shape!("encode_key", "encode", [Type, Words, Pool, Room(0)], ["length", "zeros"], [Bytes]),
            DecodeTyped => shape!("decode_typed", "decode", [Type, Bytes, Room(0), Room(1)], ["begun", "words", "pool"], [Words, Pool]),
            DecodeKey => shape!("decode_key", "decode", [Type, Bytes, Room(0), Room(1)], ["begun", "words", "pool"], [Words, Pool]),
            CheckKey => shape!("check_key", "decode", [Type, Bytes], ["begun"], []),
            Skip => shape!("skip", "skip", [Bytes, Number(0), Number(1)], ["end"], []),
            Compare => shape!("compare", "order", [Words, Pool, OtherWords, OtherPool], ["order"], []),
            Strinc => shape!("strinc", "order", [Bytes, Room(0)], ["length"], [Bytes]),
            AboveField => shape!("above_field", "order", [Bytes, Room(0)], ["length"], [Bytes]),
            Bounds => shape!("bounds", "keys", [Type, Bytes, Number(0), Room(0), Room(1)], ["lower", "upper"], [Bytes, Pool]),
            Span => shape!(
                "span",
                "keys",
                [Type, Words, Pool, OtherWords, OtherPool, ThirdWords, ThirdPool, Room(0), Room(1)],
                ["lower", "upper"],
                [Bytes, Pool]
            ),
            StartingWith => {
                shape!("starting_with", "keys", [Type, Words, Pool, Bytes, Room(0), Room(1)], ["lower", "upper"], [Bytes, Pool])
            }
            Replace => shape!("replace", "keys", [Type, Bytes, Number(0), Number(1), Words, Pool], ["length"], [Whole]),
            GetI64 => shape!("get_i64", "scalars", [Bytes], ["value", "used"], []),
            GetU64 => shape!("get_u64", "scalars", [Bytes], ["value", "used"], []),
            GetStr => shape!("get_str", "scalars", [Bytes, Room(0)], ["source", "at", "len", "used"], [Payload]),
            GetBytes => shape!("get_bytes", "scalars", [Bytes, Room(0)], ["source", "at", "len", "used"], [Payload]),
            PutI64 => shape!("put_i64", "scalars", [Room(0), Number(0), Number(1)], ["length"], [Bytes]),
            PutU64 => shape!("put_u64", "scalars", [Room(0), Number(0), Number(1)], ["length"], [Bytes]),
            PutStr => shape!("put_str", "scalars", [Room(0), Number(0), Bytes], ["length"], [Bytes]),
            PutBytes => shape!("put_bytes", "scalars", [Room(0), Number(0), Bytes], ["length"], [Bytes]),
            PutFactId => shape!("put_fact_id", "scalars", [Room(0), Number(0), Number(1)], ["length"], [Bytes]),
            TakeNull => shape!("take_null", "cursors", [Bytes, Number(0), Number(1)], ["value", "at", "depth"], []),
            TakeI64 => shape!("take_i64", "cursors", [Bytes, Number(0), Number(1)], ["value", "at", "depth"], []),
            TakeU64 => shape!("take_u64", "cursors", [Bytes, Number(0), Number(1)], ["value", "at", "depth"], []),
            TakeFactId => shape!("take_fact_id", "cursors", [Bytes, Number(0), Number(1)], ["value", "at", "depth"], []),
            TakeStr => {
                shape!("take_str", "cursors", [Bytes, Number(0), Number(1), Room(0)], ["source", "part", "len", "at", "depth"], [Payload])
            }
            TakeBytes => {
                shape!("take_bytes", "cursors", [Bytes, Number(0), Number(1), Room(0)], ["source", "part", "len", "at", "depth"], [Payload])
            }
            OpenRecord => shape!("open_record", "cursors", [Bytes, Number(0), Number(1)], ["value", "at", "depth"], []),
            OpenUnion => shape!("open_union", "cursors", [Bytes, Number(0), Number(1)], ["value", "at", "depth"], []),
            Close => shape!("close", "cursors", [Bytes, Number(0), Number(1)], ["value", "at", "depth"], []),
            IsRecordEnd => shape!("is_record_end", "cursors", [Bytes, Number(0), Number(1)], ["value", "used"], []),
            PutNull => shape!("put_null", "cursors", [Room(0), Number(0), Number(1)], ["value", "at", "depth"], [Bytes]),
            PutRecord => shape!("put_record", "cursors", [Room(0), Number(0), Number(1)], ["value", "at", "depth"], [Bytes]),
            PutUnion => shape!("put_union", "cursors", [Room(0), Number(0), Number(1), Number(2)], ["value", "at", "depth"], [Bytes]),
            PutEnd => shape!("put_end", "cursors", [Room(0), Number(0), Number(1)], ["value", "at", "depth"], [Bytes]),
            CharsNext => shape!("chars_next", "chars", [Bytes, Number(0), Number(1)], ["given", "code", "at", "done"], []),
            Chars => shape!("chars", "chars", [Bytes], ["last", "at"], [Words]),
            Names => shape!("names", "chars", [Bytes], ["ends"], [Words]),
        }
    }
}
