//! What is timed: types with values of them, all records, so that every call takes them; a span takes those with a second field, and what begins with some
//! bytes has inputs of its own.

use fjord_schema::id::SEQUENCE_BITS;

pub struct Input {
    pub name: &'static str,
    pub ty: Vec<u32>,
    /// the value sheets, taken in turn
    pub values: Vec<(Vec<u64>, Vec<u8>)>,
}

/// The longest payload of a key that holds nothing else and no zero.
const LONGEST: usize = 65_529;

fn one_field(name: &'static str, kind: u32, payload: Vec<u8>) -> Input {
    Input { name, ty: vec![5, 1, kind], values: vec![(vec![5, 1, u64::from(kind), payload.len() as u64], payload)] }
}

/// A union of 90 alternatives: Int, Str, Bytes and a record of two by turns.
fn alternatives(ty: &mut Vec<u32>) {
    ty.extend([6, 90]);
    for i in 0..90 {
        ty.push(i);
        match i % 4 {
            0 => ty.push(1),
            1 => ty.push(2),
            2 => ty.push(3),
            _ => ty.extend([5, 2, 1, 2]),
        }
    }
}

fn alternative(i: u64, words: &mut Vec<u64>, pool: &mut Vec<u8>) {
    words.extend([6, i]);
    match i % 4 {
        0 => words.extend([1, i * 1_000]),
        1 | 2 => {
            words.extend([1 + i % 4, 8]);
            pool.extend_from_slice(b"08:30:00");
        }
        _ => {
            words.extend([5, 2, 1, i, 2, 5]);
            pool.extend_from_slice(b"stage");
        }
    }
}

pub fn all() -> Vec<Input> {
    let mut list = Vec::new();
    // a tag, a number and a reference
    let tank =
        (0..64u64).map(|i| (vec![5, 3, 3, 5, 1, 1_000 + i, 4, (7 << SEQUENCE_BITS) + 1 + i], vec![b'T', b'0', 0x0A, 0x00, i as u8 + 1]));
    list.push(Input { name: "tank key", ty: vec![5, 3, 3, 1, 4, 7], values: tank.collect() });

    let mut ints = vec![5, 1_000];
    for i in 0..1_000u64 {
        let magnitude = i.wrapping_mul(0x9E37_79B9_7F4A_7C15) >> (i % 64);
        ints.extend([1, if i % 3 == 0 { magnitude.wrapping_neg() | 1 << 63 } else { magnitude >> 1 }]);
    }
    let mut ty = vec![5, 1_000];
    ty.extend([1; 1_000]);
    list.push(Input { name: "1,000 integers", ty, values: vec![(ints, vec![])] });

    let mut ty = vec![5, 1];
    alternatives(&mut ty);
    let values = (0..90).map(|i| {
        let (mut words, mut pool) = (vec![5, 1], vec![]);
        alternative(i, &mut words, &mut pool);
        (words, pool)
    });
    list.push(Input { name: "union of 90", ty, values: values.collect() });

    list.push(one_field("64 KB bytes", 3, (0..LONGEST).map(|i| (i * 31 % 255) as u8 + 1).collect()));

    // line number, ingredient with its amount, and one of 90 steps
    let mut ty = vec![5, 4, 4, 9, 1, 5, 3, 2, 1, 5, 2, 2, 3];
    alternatives(&mut ty);
    let values = (0..90).map(|i| {
        let mut words = vec![5, 4, 4, (9 << SEQUENCE_BITS) + 77, 1, i + 1, 5, 3, 2, 10, 1, 250_000 + i, 5, 2, 2, 4, 3, 3];
        let mut pool = b"sodium\0ascbulk\x01\x00\x02".to_vec();
        alternative(i, &mut words, &mut pool);
        (words, pool)
    });
    list.push(Input { name: "recipe line", ty, values: values.collect() });

    list.push(one_field("64 KB of zeros", 3, vec![0; 32_764]));
    list.push(one_field("64 KB ASCII", 2, (0..LONGEST).map(|i| b'a' + (i % 26) as u8).collect()));
    list.push(one_field("64 KB three-byte text", 2, "本語水".chars().cycle().take(LONGEST / 3).collect::<String>().into_bytes()));

    let (mut ty, mut words) = (vec![5, 1].repeat(200), vec![5, 1].repeat(200));
    ty.push(1);
    words.extend([1, 7]);
    list.push(Input { name: "200 nested records", ty, values: vec![(words, vec![])] });
    list
}

/// What names begin with, and a field before: a beginning takes these alone, the second field as the bytes that it asks for.
pub fn beginnings() -> Vec<Input> {
    let tag = |i: u64| [b'T', b'0', 0x0A, 0x00, i as u8 + 1];
    // a tank's tag, and the first letters of a colour's name
    let letters = ["c", "cy", "cyan ", "ma", "re", "ver", "\u{E9}", "aquama"];
    let names = (0..64u64).map(|i| {
        let name = letters[i as usize % letters.len()];
        (vec![5, 2, 3, 5, 2, name.len() as u64], [&tag(i), name.as_bytes()].concat())
    });
    let names = Input { name: "colour names", ty: vec![5, 2, 3, 2], values: names.collect() };

    // recipe, the first letters of an ingredient, its amount, and one of 90 steps
    let mut ty = vec![5, 4, 4, 9, 2, 1];
    alternatives(&mut ty);
    let lines = (0..90).map(|i| {
        let mut words = vec![5, 4, 4, (9 << SEQUENCE_BITS) + 77, 2, 6, 1, 250_000 + i];
        let mut pool = b"sodium".to_vec();
        alternative(i, &mut words, &mut pool);
        (words, pool)
    });
    let lines = Input { name: "recipe lines by name", ty, values: lines.collect() };

    let behind_tag = |name: &'static str, start: Vec<u8>| {
        let values = vec![(vec![5, 2, 3, 5, 3, start.len() as u64], [&tag(0), &start[..]].concat())];
        Input { name, ty: vec![5, 2, 3, 3], values }
    };
    let byte = |i: usize| (i * 31 % 255) as u8 + 1;
    vec![
        names,
        lines,
        behind_tag("1,000 bytes", (0..1_000).map(byte).collect()),
        behind_tag("1,000 bytes, 100 of them 0", (0..1_000).map(|i| if i % 10 == 0 { 0 } else { byte(i) }).collect()),
    ]
}

/// One of ninety Ints, by its place from 1: what an alternative more costs the search.
pub fn doses() -> Vec<Input> {
    let mut ty = vec![5, 1, 6, 90];
    ty.extend((1..=90).flat_map(|disc| [disc, 1]));
    [("dose 1", 1), ("dose 2", 2), ("dose 8", 8), ("dose 9", 9), ("dose 89", 89), ("dose 90", 90)]
        .map(|(name, disc)| Input { name, ty: ty.clone(), values: vec![(vec![5, 1, 6, disc, 1, 7], vec![])] })
        .into()
}
