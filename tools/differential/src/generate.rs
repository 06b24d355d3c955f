//! Random types, values, sheets and damages, crowded round the places where a codec goes wrong.

use crate::random::Random;
use crate::tree::{Ty, Val};
use fjord_schema::id::{MAX_FACT_SEQUENCE, MAX_TAGGABLE_PREDICATE, SEQUENCE_BITS};

/// Bytes that mean something to the codec, and their neighbours.
pub const TELLING: [u8; 32] = [
    0x00, 0x01, 0x02, 0x20, 0x21, 0x22, 0x23, 0x3F, 0x40, 0x41, 0x47, 0x48, 0x49, 0x4A, 0x4C, 0x4D, 0x4F, 0x50, 0x51, 0x52, 0x53, 0x54,
    0x7F, 0x80, 0xBF, 0xC0, 0xC2, 0xE0, 0xED, 0xF0, 0xFE, 0xFF,
];

/// An integer's word near a change of width, or of any width.
pub fn int(random: &mut Random) -> u64 {
    let word = match random.below(8) {
        0 => random.below(3) as u64,
        1..=4 => (1u64 << (8 * random.below(8))).wrapping_add(random.below(5) as u64).wrapping_sub(2),
        5 => (1u64 << 63).wrapping_add(random.below(5) as u64).wrapping_sub(2),
        _ => random.next() >> random.below(64),
    };
    if random.one_in(2) { word.wrapping_neg() } else { word }
}

pub fn disc(random: &mut Random) -> u32 {
    match random.below(6) {
        0..=2 => random.below(5) as u32,
        3 => (1u32 << (8 * random.below(4))).wrapping_add(random.below(3) as u32).wrapping_sub(1),
        4 => u32::MAX - random.below(2) as u32,
        _ => random.next() as u32,
    }
}

pub fn predicate(random: &mut Random) -> u32 {
    match random.below(5) {
        0..=2 => random.below(9) as u32,
        3 => random.pick(&[MAX_TAGGABLE_PREDICATE, MAX_TAGGABLE_PREDICATE - 1, (1 << 24) - 1, 1 << 24, u32::MAX]),
        _ => random.next() as u32,
    }
}

fn sequence(random: &mut Random) -> u64 {
    match random.below(4) {
        0 => 1 + random.below(5) as u64,
        1 => (1 << 32) - 1 + random.below(3) as u64, // past 2^32, where the split was before
        2 => MAX_FACT_SEQUENCE - random.below(2) as u64,
        _ => (random.next() & MAX_FACT_SEQUENCE).max(1),
    }
}

/// A raw reference of a predicate, with a sequence that is not 0.
pub fn reference(random: &mut Random, predicate: u32) -> u64 {
    (u64::from(predicate) << SEQUENCE_BITS) | sequence(random)
}

/// Most often short; now and then long enough for several blocks.
pub fn length(random: &mut Random) -> usize {
    match random.below(16) {
        0..=11 => random.below(5),
        12..=14 => random.below(20),
        _ => random.below(300),
    }
}

pub fn payload(random: &mut Random, len: usize) -> Vec<u8> {
    match random.below(4) {
        0 => (0..len).map(|_| random.byte()).collect(),
        1 => (0..len).map(|_| random.pick(&[0x00, 0xFF, 0x01])).collect(),
        2 => (0..len).map(|_| random.pick(&TELLING)).collect(),
        _ => (0..len).map(|_| b'a' + random.below(3) as u8).collect(),
    }
}

/// Characters at the ends of UTF-8's ranges.
const TELLING_CHARS: [char; 20] = [
    '\0',
    '\u{1}',
    'a',
    '!',
    '\u{7E}',
    '\u{7F}',
    '\u{80}',
    '\u{E9}',
    '\u{7FF}',
    '\u{800}',
    '\u{FFF}',
    '\u{1000}',
    '\u{CFFF}',
    '\u{D7FF}',
    '\u{E000}',
    '\u{FFFF}',
    '\u{10000}',
    '\u{3FFFF}',
    '\u{40000}',
    '\u{10FFFF}',
];

pub fn text(random: &mut Random, chars: usize) -> Vec<u8> {
    let mode = random.below(4);
    let mut text = String::new();
    for _ in 0..chars {
        text.push(match mode {
            0 => char::from(b'a' + random.below(26) as u8),
            1 => random.pick(&['\0', 'a']),
            2 => random.pick(&TELLING_CHARS),
            _ => char::from_u32(random.next() as u32 % 0x11_0000).unwrap_or('\u{FFFD}'),
        });
    }
    text.into_bytes()
}

/// Ill-formed UTF-8 by RFC 3629: overlong, surrogates, too high, stray and cut.
pub const ILL_FORMED: [&[u8]; 22] = [
    b"\x80",
    b"\xBF",
    b"\xC0\x80",
    b"\xC1\xBF",
    b"\xC2",
    b"\xC2\x41",
    b"\xC2\xC0",
    b"\xE0\x80\x80",
    b"\xE0\x9F\xBF",
    b"\xE0\xA0",
    b"\xE1\x80",
    b"\xE1\x80\xC0",
    b"\xED\xA0\x80",
    b"\xED\xBF\xBF",
    b"\xEF\xBF",
    b"\xF0\x80\x80\x80",
    b"\xF0\x8F\xBF\xBF",
    b"\xF0\x90\x80",
    b"\xF4\x90\x80\x80",
    b"\xF5\x80\x80\x80",
    b"\xF8\x88\x80\x80\x80",
    b"\xFF",
];

/// A type of about so many nodes at most.
pub fn ty(random: &mut Random, nodes: usize) -> Ty {
    let groups = nodes > 1;
    match random.below(if groups { 12 } else { 6 }) {
        0 | 1 => Ty::Int,
        2 => Ty::Str,
        3 | 4 => Ty::Bytes,
        5 => Ty::Reference(predicate(random)),
        6..=9 => Ty::Record(parts(random, nodes)),
        _ => {
            let count = random.below(4.min(nodes));
            Ty::Union((0..count).map(|_| (disc(random), ty(random, (nodes - 1) / count))).collect())
        }
    }
}

fn parts(random: &mut Random, nodes: usize) -> Vec<Ty> {
    let count = random.below(6.min(nodes));
    (0..count).map(|_| ty(random, (nodes - 1) / count)).collect()
}

pub fn record_ty(random: &mut Random, nodes: usize) -> Ty {
    let count = if random.one_in(12) { 0 } else { random.between(1, 5) };
    Ty::Record((0..count).map(|_| ty(random, nodes / count)).collect())
}

/// The type with word 7 before some of its parts, or before itself.
pub fn with_optional(random: &mut Random, ty: Ty) -> Ty {
    let ty = match ty {
        Ty::Record(fields) => Ty::Record(fields.into_iter().map(|field| with_optional(random, field)).collect()),
        Ty::Union(alternatives) => Ty::Union(alternatives.into_iter().map(|(disc, ty)| (disc, with_optional(random, ty))).collect()),
        scalar => scalar,
    };
    if random.below(5) < 2 { ty.optional() } else { ty }
}

/// A value that the type takes, where it takes any.
pub fn fitting(random: &mut Random, ty: &Ty) -> Val {
    match ty {
        Ty::Int => Val::Int(int(random)),
        Ty::Str => {
            let len = length(random);
            Val::Str(text(random, len))
        }
        Ty::Bytes => {
            let len = length(random);
            Val::Bytes(payload(random, len))
        }
        Ty::Reference(predicate) => Val::Reference(reference(random, *predicate)),
        Ty::Record(fields) => Val::Record(fields.iter().map(|field| fitting(random, field)).collect()),
        Ty::Union(alternatives) => {
            if alternatives.is_empty() {
                return Val::Union(u64::from(disc(random)), Box::new(Val::Null));
            }
            let chosen = random.pick(&alternatives.iter().map(|(disc, _)| *disc).collect::<Vec<_>>());
            let (disc, ty) = alternatives.iter().find(|(disc, _)| *disc == chosen).expect("one of them");
            Val::Union(u64::from(*disc), Box::new(fitting(random, ty)))
        }
        Ty::Optional(behind) => {
            if random.below(5) < 2 {
                return Val::Null;
            }
            fitting(random, behind)
        }
    }
}

/// A small value of any kind.
pub fn value(random: &mut Random, nodes: usize) -> Val {
    if random.one_in(6) {
        return Val::Null;
    }
    let ty = ty(random, nodes);
    fitting(random, &ty)
}

/// Changes one node so that the value fits its type no longer, or by chance still does.
pub fn unfit(random: &mut Random, val: &mut Val) {
    let nodes = val.nodes();
    let node = val.node_mut(random.below(nodes));
    let other = value(random, 3);
    match (random.below(6), node) {
        (0..=1, Val::Record(fields)) => {
            if random.one_in(2) || fields.is_empty() {
                fields.push(other);
            } else {
                fields.pop();
            }
        }
        (0..=1, Val::Union(disc, _)) => *disc = u64::from(self::disc(random)),
        (0..=1, Val::Reference(raw)) => {
            *raw = match random.below(4) {
                0 => *raw & !MAX_FACT_SEQUENCE,
                1 => raw.wrapping_add(1 << SEQUENCE_BITS),
                2 => *raw & !0xFFFF_FFFF, // a sequence that is 0 in its low 32 bits alone
                _ => random.next(),
            }
        }
        (2, Val::Record(fields)) if fields.len() > 1 => fields.swap(0, 1),
        (2, node) => *node = Val::Record(vec![std::mem::replace(node, Val::Null)]),
        (3, node) => *node = Val::Null,
        (4, node) => *node = Val::Union(u64::from(self::disc(random)), Box::new(std::mem::replace(node, Val::Null))),
        (_, node) => *node = other,
    }
}

/// Spoils a value sheet so that it is admitted no longer, or by chance still is.
pub fn spoil_sheet(random: &mut Random, words: &mut Vec<u64>, pool: &mut Vec<u8>) {
    match random.below(8) {
        0 => {
            words.pop();
        }
        1 => words.push(random.pick(&[0, 1, 7])),
        2 => {
            pool.pop();
        }
        3 => pool.push(random.byte()),
        4 if !pool.is_empty() => {
            let at = random.below(pool.len());
            pool[at] = random.pick(&[0x80, 0xC0, 0xED, 0xFF]);
        }
        _ if !words.is_empty() => {
            let at = random.below(words.len());
            words[at] = match random.below(4) {
                0 => random.below(9) as u64,
                1 => words[at].wrapping_add(1),
                2 => words[at].wrapping_sub(1),
                _ => random.pick(&[u64::MAX, 1 << 32, (1 << 32) - 1, 1 << 63, 1 << 20]),
            };
        }
        _ => words.push(9),
    }
}

/// Spoils a type sheet likewise.
pub fn spoil_type(random: &mut Random, words: &mut Vec<u32>) {
    match random.below(4) {
        0 => {
            words.pop();
        }
        1 => words.push(random.below(8) as u32),
        _ if !words.is_empty() => {
            let at = random.below(words.len());
            words[at] = random.pick(&[0, 1, 5, 6, 7, 8, u32::MAX, words[at].wrapping_add(1)]);
        }
        _ => words.push(0),
    }
}

/// Fields that no value encodes to, or of another kind than is due: for each refusal of a decoder some.
const ILL_FIELDS: [&[u8]; 31] = [
    b"",
    b"\x00",
    b"\x00\xFF",
    b"\x21",
    b"\x21\x00\x00",
    b"\x21\x80\x00",
    b"\x21\xED\xA0\x80\x00",
    b"\x21\xC2\x00\xFF\x00",
    b"\x21a",
    b"\x22",
    b"\x22\x00",
    b"\x22\x48\x48\x00",
    b"\x40\x7F\xFF\xFF\xFF\xFF\xFF\xFF\xFE",
    b"\x40\x00\x00\x00\x00\x00\x00\x00\x00",
    b"\x40\xFF\xFF\xFF\xFF\xFF\xFF\xFF\xFF",
    b"\x46\xFF\xFE",
    b"\x47\xFF",
    b"\x48\x48",
    b"\x49\x00",
    b"\x4A\x00\x01",
    b"\x4A\x00",
    b"\x50\x80\x00\x00\x00\x00\x00\x00\x00",
    b"\x50\xFF\xFF\xFF\xFF\xFF\xFF\xFF\xFF",
    b"\x51\x00\x00\x00\x00\x00\x00\x00\x00",
    b"\x51\x00\x00\x07\x00\x00\x00\x00\x00",
    b"\x51\x00\x00\x63\x00\x00\x00\x00\x01",
    b"\x51\x00\x00\x00\x07\x00\x00\x00\x01", // predicate 7 before the split was 24 and 40
    b"\x52\x49\x63\x48\x00",
    b"\x52\x49\x00\x48\x00",
    b"\x52\x4D\x01\x00\x00\x00\x01\x48\x00",
    b"\x53\x00\xFF",
];

/// Puts an ill-formed field in the place of one node.
pub fn ill_form(random: &mut Random, val: &mut Val) {
    let nodes = val.nodes();
    let node = val.node_mut(random.below(nodes));
    *node = match (random.below(3), &node) {
        // of the kind that is due
        (0 | 1, Val::Int(_)) => Val::Raw(random.pick(&ILL_FIELDS[12..23]).to_vec()),
        (0 | 1, Val::Str(_)) => Val::Raw(random.pick(&ILL_FIELDS[3..9]).to_vec()),
        (0 | 1, Val::Reference(_)) => Val::Raw(random.pick(&ILL_FIELDS[23..27]).to_vec()),
        (0 | 1, Val::Union(..)) => Val::Raw(random.pick(&ILL_FIELDS[27..30]).to_vec()),
        _ => Val::Raw(random.pick(&ILL_FIELDS).to_vec()),
    };
}

/// One damage: a flipped bit, a telling byte, a byte dropped or put in, a cut, an addition, a part moved or repeated.
pub fn damage(random: &mut Random, bytes: &mut Vec<u8>) {
    let byte = if random.one_in(3) { random.byte() } else { random.pick(&TELLING) };
    if bytes.is_empty() {
        bytes.push(byte);
        return;
    }
    let at = random.below(bytes.len());
    match random.below(9) {
        0 => bytes[at] ^= 1 << random.below(8),
        1 | 2 => bytes[at] = byte,
        3 => {
            bytes.remove(at);
        }
        4 => bytes.insert(at, byte),
        5 => bytes.truncate(at),
        6 => bytes.push(byte),
        7 => {
            let end = random.between(at, bytes.len().min(at + 12));
            let part = bytes[at..end].to_vec();
            let to = random.below(bytes.len());
            bytes.splice(to..to, part);
        }
        _ => {
            let end = random.between(at, bytes.len().min(at + 4));
            bytes.drain(at..end);
        }
    }
}

/// A value of the type near another of it in the order: a number's neighbour, a payload with a telling byte more or one fewer, another
/// alternative, a Null or none.
pub fn near(random: &mut Random, ty: &Ty, val: &Val) -> Val {
    match (ty, val) {
        (Ty::Optional(behind), Val::Null) => fitting(random, behind),
        (Ty::Optional(_), _) if random.one_in(5) => Val::Null,
        (Ty::Optional(behind), _) => near(random, behind, val),
        (_, Val::Int(word)) => Val::Int(word.wrapping_add(random.pick(&[1, u64::MAX, 255, 1 << 63]))),
        (_, Val::Str(text)) => {
            let mut text = text.clone();
            match (random.below(4), std::str::from_utf8(&text).ok().and_then(|text| text.char_indices().last())) {
                (0, Some((at, _))) => text.truncate(at),
                (1, _) => text.push(b'a'),
                (2, _) => text.extend("\u{10FFFF}".bytes()),
                _ => text.push(0),
            }
            Val::Str(text)
        }
        (_, Val::Bytes(payload)) => {
            let mut payload = payload.clone();
            match random.below(4) {
                0 => drop(payload.pop()),
                1 => payload.push(random.pick(&[0x01, 0xFF])),
                2 if !payload.is_empty() => *payload.last_mut().expect("it has one") ^= random.pick(&[0x01, 0xFF]),
                _ => payload.push(0),
            }
            Val::Bytes(payload)
        }
        (Ty::Record(types), Val::Record(fields)) if !fields.is_empty() && types.len() == fields.len() => {
            let mut fields = fields.clone();
            let at = random.below(fields.len());
            fields[at] = near(random, &types[at], &fields[at]);
            Val::Record(fields)
        }
        (Ty::Union(alternatives), Val::Union(disc, payload)) if !random.one_in(3) => {
            match alternatives.iter().find(|(of, _)| u64::from(*of) == *disc) {
                Some((_, ty)) => Val::Union(*disc, Box::new(near(random, ty, payload))),
                None => fitting(random, ty),
            }
        }
        _ => fitting(random, ty),
    }
}
