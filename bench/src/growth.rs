//! How time grows with the size of a value: payloads of 2^4 to 2^20 bytes and records of as many as a sheet admits, encoded and decoded as a whole
//! (a key ends at 65,531 bytes).

use crate::sheet::{admit_type, admit_value};
use crate::{clock, library};
use fjord_encoding::tuple;
use fjord_schema::schema::{LocalInterner, SchemaInterner};
use std::hint::black_box;

/// A type and a value of a size.
type Sized = (Vec<u32>, Vec<u64>, Vec<u8>);

fn bytes(n: usize) -> Sized {
    (vec![3], vec![3, n as u64], (0..n).map(|i| (i * 31 % 255) as u8 + 1).collect())
}

fn zeros(n: usize) -> Sized {
    (vec![3], vec![3, n as u64], vec![0; n])
}

fn text(n: usize) -> Sized {
    (vec![2], vec![2, n as u64], (0..n).map(|i| b'a' + (i % 26) as u8).collect())
}

/// Integers in a record; its type has a word for each.
fn integers(n: usize) -> Sized {
    let mut words = vec![5, n as u64];
    words.extend((0..n as u64).flat_map(|i| [1, i * i * 7_919]));
    ([vec![5, n as u32], vec![1; n]].concat(), words, Vec::new())
}

/// Rows: the size, then ours and the Rust's time for encoding and for decoding, and ours by the unit.
pub fn run() {
    println!("| value | size | encode_typed ns | Rust ns | ns a unit | decode_typed ns | Rust ns | ns a unit |\n|-|-|-|-|-|-|-|-|");
    for (name, value) in [("bytes", bytes as fn(usize) -> Sized), ("zeros", zeros), ("ASCII", text)] {
        for k in (4..=20).step_by(4) {
            row(name, 1 << k, value(1 << k));
        }
    }
    for k in 4..=11 {
        row("integers", 1 << k, integers(1 << k));
    }
}

fn row(name: &str, n: usize, (ty, words, pool): Sized) {
    let (rust_ty, value) = (admit_type(&ty).expect("a type"), admit_value(&words, &pool).expect("a value"));
    let interner = LocalInterner::new(SchemaInterner::new(()));
    let mut out = vec![0; 2 * pool.len() + 9 * words.len() + 2];
    let encoded = tuple::encode_typed(&rust_ty, &value).expect("a value of the type");
    let len = library::encode_typed(&ty, &words, &pool, &mut out).length as usize;
    assert_eq!(out[..len], encoded);
    let (mut back, mut back_pool) = (vec![0; words.len()], vec![0; pool.len()]);
    let mut ours = |_: usize| _ = black_box(library::encode_typed(&ty, &words, &pool, &mut out));
    let mut rust = |_: usize| _ = black_box(tuple::encode_typed(&rust_ty, &value));
    let [e, re] = clock::medians([&mut ours, &mut rust], 1);
    let mut ours = |_: usize| _ = black_box(library::decode_typed(&ty, &encoded, &mut back, &mut back_pool));
    let mut rust = |_: usize| _ = black_box(tuple::decode_typed(&interner, &encoded, &rust_ty));
    let [d, rd] = clock::medians([&mut ours, &mut rust], 1);
    assert_eq!((&back, &back_pool), (&words, &pool));
    println!("| {name} | {n} | {e:.0} | {re:.0} | {:.2} | {d:.0} | {rd:.0} | {:.2} |", e / n as f64, d / n as f64);
}
