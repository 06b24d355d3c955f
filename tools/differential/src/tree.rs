//! Types and values as trees, their sheets, and a value's bytes; what generators build.

use oracle::optional::OPTIONAL;
use oracle::sheet::{BYTES, INT, NULL, RECORD, REFERENCE, STR, UNION};

#[derive(Debug, Clone)]
pub enum Ty {
    Int,
    Str,
    Bytes,
    Reference(u32),
    Record(Vec<Ty>),
    Union(Vec<(u32, Ty)>),
    Optional(Box<Ty>),
}

#[derive(Debug, Clone)]
pub enum Val {
    Null,
    Int(u64),
    Str(Vec<u8>),
    Bytes(Vec<u8>),
    Reference(u64),
    Record(Vec<Val>),
    Union(u64, Box<Val>),
    /// bytes in a value's stead: only for keys, it has no sheet
    Raw(Vec<u8>),
}

impl Ty {
    pub fn write_sheet(&self, words: &mut Vec<u32>) {
        match self {
            Ty::Int => words.push(INT as u32),
            Ty::Str => words.push(STR as u32),
            Ty::Bytes => words.push(BYTES as u32),
            Ty::Reference(predicate) => words.extend([REFERENCE as u32, *predicate]),
            Ty::Record(fields) => {
                words.extend([RECORD as u32, fields.len() as u32]);
                fields.iter().for_each(|field| field.write_sheet(words));
            }
            Ty::Union(alternatives) => {
                words.extend([UNION as u32, alternatives.len() as u32]);
                for (disc, ty) in alternatives {
                    words.push(*disc);
                    ty.write_sheet(words);
                }
            }
            Ty::Optional(behind) => {
                words.push(OPTIONAL);
                behind.write_sheet(words);
            }
        }
    }

    /// Optional, if it is not.
    pub fn optional(self) -> Ty {
        match self {
            Ty::Optional(_) => self,
            ty => Ty::Optional(Box::new(ty)),
        }
    }

    pub fn field_count(&self) -> usize {
        match self {
            Ty::Record(fields) => fields.len(),
            _ => 0,
        }
    }
}

impl Val {
    pub fn write_sheet(&self, words: &mut Vec<u64>, pool: &mut Vec<u8>) {
        match self {
            Val::Null => words.push(NULL),
            Val::Int(word) => words.extend([INT, *word]),
            Val::Str(text) => {
                words.extend([STR, text.len() as u64]);
                pool.extend_from_slice(text);
            }
            Val::Bytes(payload) => {
                words.extend([BYTES, payload.len() as u64]);
                pool.extend_from_slice(payload);
            }
            Val::Reference(raw) => words.extend([REFERENCE, *raw]),
            Val::Record(fields) => {
                words.extend([RECORD, fields.len() as u64]);
                fields.iter().for_each(|field| field.write_sheet(words, pool));
            }
            Val::Union(disc, payload) => {
                words.extend([UNION, *disc]);
                payload.write_sheet(words, pool);
            }
            Val::Raw(_) => unreachable!("raw bytes have no sheet"),
        }
    }

    /// The bytes of a field; a Null as inside a group.
    pub fn write_bytes(&self, out: &mut Vec<u8>) {
        match self {
            Val::Null => out.extend([0x00, 0xFF]),
            Val::Int(word) => write_int(*word, out),
            Val::Str(text) => write_run(0x21, text, out),
            Val::Bytes(payload) => write_run(0x53, payload, out),
            Val::Reference(raw) => {
                out.push(0x51);
                out.extend(raw.to_be_bytes());
            }
            Val::Record(fields) => {
                out.push(0x22);
                fields.iter().for_each(|field| field.write_bytes(out));
                out.push(0x00);
            }
            Val::Union(disc, payload) => {
                out.push(0x52);
                write_uint(*disc, out);
                payload.write_bytes(out);
                out.push(0x00);
            }
            Val::Raw(bytes) => out.extend_from_slice(bytes),
        }
    }

    /// The bytes of a key: a top record's fields bare.
    pub fn write_key(&self, out: &mut Vec<u8>) {
        match self {
            Val::Record(fields) => fields.iter().for_each(|field| field.write_bytes(out)),
            other => other.write_bytes(out),
        }
    }

    /// The bytes of a key that may have blanks: at depth 0 a Null is 00 alone.
    pub fn write_bare_key(&self, out: &mut Vec<u8>) {
        let bare = |val: &Val, out: &mut Vec<u8>| match val {
            Val::Null => out.push(0x00),
            other => other.write_bytes(out),
        };
        match self {
            Val::Record(fields) => fields.iter().for_each(|field| bare(field, out)),
            other => bare(other, out),
        }
    }

    pub fn nodes(&self) -> usize {
        match self {
            Val::Record(fields) => 1 + fields.iter().map(Val::nodes).sum::<usize>(),
            Val::Union(_, payload) => 1 + payload.nodes(),
            _ => 1,
        }
    }

    /// The node of a number, counted from the top.
    pub fn node_mut(&mut self, number: usize) -> &mut Val {
        if number == 0 {
            return self;
        }
        let mut left = number - 1;
        match self {
            Val::Record(fields) => {
                for field in fields {
                    let nodes = field.nodes();
                    if left < nodes {
                        return field.node_mut(left);
                    }
                    left -= nodes;
                }
                unreachable!("a number below the count of nodes")
            }
            Val::Union(_, payload) => payload.node_mut(left),
            _ => unreachable!("a number below the count of nodes"),
        }
    }
}

fn width(magnitude: u64) -> usize {
    8 - magnitude.leading_zeros() as usize / 8
}

pub fn write_uint(number: u64, out: &mut Vec<u8>) {
    let width = width(number);
    out.push(0x48 + width as u8);
    out.extend(&number.to_be_bytes()[8 - width..]);
}

pub fn write_int(word: u64, out: &mut Vec<u8>) {
    if word >> 63 == 0 {
        return write_uint(word, out);
    }
    let magnitude = word.wrapping_neg();
    let width = width(magnitude);
    out.push(0x48 - width as u8);
    out.extend(&(!magnitude).to_be_bytes()[8 - width..]);
}

pub fn write_run(mark: u8, payload: &[u8], out: &mut Vec<u8>) {
    out.push(mark);
    for byte in payload {
        out.push(*byte);
        if *byte == 0 {
            out.push(0xFF);
        }
    }
    out.push(0x00);
}
