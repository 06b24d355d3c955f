//! Keys by the beginning of the field behind the first k: the two ends, and the keys between them. What it refuses is in refusals.rs and order_of_checks.rs;
//! sheets and rooms that no `Value` brings about are in src/ffi.rs; what holds for every value is in laws.rs.

mod common;

use common::{ends, nested, run, strings};
use std::collections::{BTreeMap, BTreeSet};
use std::slice;
use tuple::{Refusal, Type, Value, encode_key, span, starting_with, strinc};

/// A tank's tag and a colour name, which may be blank.
fn named(name: Type) -> Type {
    Type::record([Type::Bytes, Type::optional(name)])
}

/// The keys of these names for each of the tags, and a blank for each.
fn store<'a>(ty: &Type, tags: &[&'a [u8]], names: &[Value]) -> BTreeMap<Vec<u8>, (&'a [u8], Value)> {
    let mut store = BTreeMap::new();
    for tag in tags {
        for name in names.iter().cloned().chain([Value::Null]) {
            store.insert(encode_key(ty, &Value::record([Value::from(*tag), name.clone()])).unwrap(), (*tag, name));
        }
    }
    store
}

#[test]
fn ends_of_every_beginning() {
    for (ty, start, lower, upper) in [
        (Type::Str, &b"re"[..], "21 72 65", "21 72 66"),
        (Type::Str, b"r", "21 72", "21 73"),
        (Type::Str, b"", "21", "22"),
        (Type::Bytes, b"", "53", "54"),
        // a zero at the end, or FF
        (Type::Str, b"\0", "21 00 FF", "21 01"),
        (Type::Bytes, b"\x0A\x00", "53 0A 00 FF", "53 0A 01"),
        (Type::Bytes, b"\x00\x00", "53 00 FF 00 FF", "53 00 FF 01"),
        (Type::Bytes, b"\xFF", "53 FF", "54"),
        (Type::Bytes, b"\x0A\xFF\xFF", "53 0A FF FF", "53 0B"),
        (Type::Bytes, b"\x00\xFF", "53 00 FF FF", "53 01"),
        (Type::Bytes, b"\x00\x0A", "53 00 FF 0A", "53 00 FF 0B"),
        // no whole UTF-8
        (Type::Str, b"\xC3", "21 C3", "21 C4"),
        (Type::Str, b"\x80", "21 80", "21 81"),
        (Type::Str, b"\xFF\xFF", "21 FF FF", "22"),
    ] {
        for ty in [ty.clone(), Type::optional(ty)] {
            assert_eq!(starting_with(&Type::record([ty.clone()]), &[], start), ends(lower, upper));
            // the same behind a field and before others
            let behind = Type::record([Type::Bytes, ty.clone(), Type::Int]);
            let due = ends(&format!("53 0A 00 {lower}"), &format!("53 0A 00 {upper}"));
            assert_eq!(starting_with(&behind, &[Value::from(b"\x0A")], start), due);
            let blank = Type::record([Type::optional(Type::Int), ty]);
            assert_eq!(starting_with(&blank, &[Value::Null], start), ends(&format!("00 {lower}"), &format!("00 {upper}")));
        }
    }
}

#[test]
fn names_that_begin_with_re() {
    let (ty, tags) = (named(Type::Str), [&b"\x0A"[..], b"\x0A\x00"]);
    let names = ["", "r", "rd", "re", "re\0", "re\0\0", "re a", "red", "reé", "re\u{10FFFF}", "rf", "s", "R", "RE"].map(Value::from);
    let store = store(&ty, &tags, &names);
    for tag in tags {
        let range = starting_with(&ty, &[Value::from(tag)], b"re").unwrap();
        let found: Vec<&(&[u8], Value)> = store.range(range).map(|(_, line)| line).collect();
        assert_eq!(found, ["re", "re\0", "re\0\0", "re a", "red", "reé", "re\u{10FFFF}"].map(|name| (tag, Value::from(name))).each_ref());
    }
}

#[test]
fn half_a_character_finds_the_names_that_go_on_with_it() {
    let ty = named(Type::Str);
    let store = store(&ty, &[b"\x0A"], &["écru", "éosine", "ê", "€", "cyan", "\u{80}"].map(Value::from));
    let found = |start: &[u8]| -> Vec<&str> {
        let range = starting_with(&ty, &[Value::from(b"\x0A")], start).unwrap();
        store.range(range).map(|(_, (_, name))| std::str::from_utf8(run(name).unwrap()).unwrap()).collect()
    };
    assert_eq!(found(b"\xC3"), ["écru", "éosine", "ê"]);
    assert_eq!(found("é".as_bytes()), ["écru", "éosine"]);
    assert_eq!(found(b"\xE2\x82"), ["€"]);
    assert_eq!(found(b"").len(), 6);
    for start in [&b"\x80"[..], b"\xC0", b"\xF5", b"\xFF", b"cyan\xC3", b"CYAN", b"cyan "] {
        assert_eq!(found(start), [""; 0]);
    }
}

/// How many keys lie within and without, over every start; each within exactly if its tag is the given one and its name begins so.
fn counted(ty: &Type, names: &[Value], starts: &BTreeSet<Vec<u8>>) -> (usize, usize) {
    let store = store(ty, &[b"", b"\x0A", b"\x0A\x00", b"\x0A\xFF"], names);
    let (mut within, mut without) = (0, 0);
    for start in starts {
        let range = starting_with(ty, &[Value::from(b"\x0A")], start).unwrap();
        assert!(range.start < range.end && range.end.len() <= range.start.len());
        for (key, (tag, name)) in &store {
            let due = *tag == b"\x0A" && run(name).is_some_and(|run| run.starts_with(start));
            assert_eq!(range.contains(key), due, "{name:?} {start:?}");
            *(if due { &mut within } else { &mut without }) += 1;
        }
    }
    (within, without)
}

#[test]
fn every_short_start_among_all_short_names() {
    let runs = strings(&[0x00, 0x01, 0x41, 0xFE, 0xFF], 3);
    let names: Vec<Value> = runs.iter().map(|run| Value::from(run.as_slice())).collect();
    let counts = counted(&named(Type::Bytes), &names, &runs.iter().cloned().collect());
    // 156 names and starts, 1 + 2 + 3 + 4 starts to a name by its length; 157 keys with the blank, for each of four tags
    assert_eq!(counts, (1 + 2 * 5 + 3 * 25 + 4 * 125, 156 * 4 * 157 - 586));
}

#[test]
fn every_beginning_of_a_text_among_all_short_texts() {
    let characters = ["\0", "a", "é", "€", "\u{10FFFF}"];
    let texts: Vec<String> =
        strings(&[0, 1, 2, 3, 4], 3).iter().map(|places| places.iter().map(|at| characters[usize::from(*at)]).collect()).collect();
    let names: Vec<Value> = texts.iter().map(|text| Value::from(text.as_str())).collect();
    // every beginning of each, cut within characters too, and with a byte behind that no character has there
    let cut = texts.iter().flat_map(|text| (0..=text.len()).map(|n| text.as_bytes()[..n].to_vec()));
    let starts: BTreeSet<Vec<u8>> = cut.flat_map(|start| [start.clone(), [&start[..], &[0xFF]].concat()]).collect();
    let counts = counted(&named(Type::Str), &names, &starts);
    let within: usize = texts.iter().map(|text| text.len() + 1).sum();
    assert_eq!(counts, (within, starts.len() * 4 * 157 - within));
}

#[test]
fn no_lower_end_is_above_all_that_begin_so() {
    let candidates = strings(&[0x00, 0x01, 0x02, 0x41, 0x42, 0x53, 0x54, 0xFE, 0xFF], 4);
    for start in strings(&[0x00, 0x01, 0x41, 0xFE, 0xFF], 2) {
        let range = starting_with(&Type::record([Type::Bytes]), &[], &start).unwrap();
        // as many FF behind the lower end as the candidate has bytes, and one more: no string that begins so comes closer to it
        let above = |end: &&Vec<u8>| [range.start.as_slice(), &vec![0xFF; end.len() + 1]].concat() < **end;
        assert_eq!(Some(&range.end), candidates.iter().filter(above).min(), "{start:?}");
        assert_eq!(strinc(&range.start), Ok(range.end));
    }
}

#[test]
fn the_runs_end_or_an_ff_behind_would_lose_names() {
    let ty = Type::record([Type::Bytes]);
    let key = |name: &[u8]| encode_key(&ty, &Value::record([Value::from(name)])).unwrap();
    let range = starting_with(&ty, &[], b"re").unwrap();
    assert!([&b"re"[..], b"red", b"re\0", b"re\xFF"].iter().all(|name| range.contains(&key(name))));
    // the span from the name to itself: the lower end with the run's end, the upper that with FF behind
    let name = Value::from(b"re");
    let alone = span(&ty, &[], &name, &name).unwrap();
    assert!(alone.contains(&key(b"re")) && ![&b"red"[..], b"re\0", b"re\xFF"].iter().any(|name| alone.contains(&key(name))));
    // FF behind the lower end: the names that go on with FF are not below it
    let below = range.start.clone()..[&range.start[..], &[0xFF]].concat();
    assert!(below.contains(&key(b"red")) && !below.contains(&key(b"re\xFF")));
}

#[test]
fn values_before_are_judged_as_fields_of_a_key() {
    // 256 groups, as in a field that stands bare; more are admitted, and refused by the encoder
    let (ty, deep) = nested(256, Type::Int, Value::Int(0));
    let lower = [vec![0x22; 256], vec![0x48], vec![0x00; 256], vec![0x21]].concat();
    assert_eq!(starting_with(&Type::record([ty, Type::Str]), &[deep], b"").unwrap().start, lower);
    for groups in [257, 319] {
        let (ty, deep) = nested(groups, Type::Int, Value::Int(0));
        assert_eq!(starting_with(&Type::record([ty, Type::Str]), &[deep], b""), Err(Refusal::BadRecord));
    }
    // the record of the first fields is a group of its sheet
    let (_, deepest) = nested(320, Type::Int, Value::Int(0));
    assert_eq!(starting_with(&named(Type::Str), &[deepest], b""), Err(Refusal::BadValue));
}

#[test]
fn a_start_has_no_limit_and_the_longest_ends_have_room() {
    let (most, over) = (Value::Bytes(vec![0; 1_048_576]), Value::Bytes(vec![0; 1_048_577]));
    let ty = named(Type::Bytes);
    let long = vec![0; 1_048_577];
    let range = starting_with(&ty, slice::from_ref(&most), &long).unwrap();
    assert_eq!((range.start.len(), range.end.len()), (2_097_154 + 1 + 2_097_154, 2_097_154 + 2_097_154));
    assert_eq!(starting_with(&ty, slice::from_ref(&over), b""), Err(Refusal::BadValue));
    let range = starting_with(&ty, &[Value::from(b"")], &vec![0xFF; 1_048_577]).unwrap();
    assert_eq!((range.start.len(), range.end), (2 + 1 + 1_048_577, vec![0x53, 0x00, 0x54]));

    // the longest bytes for their sheets before it
    let blank = Type::optional(Type::Int);
    let (union, tagged) = (Type::union([(u32::MAX, blank.clone())]), Value::union(u32::MAX, Value::Null));
    for (ty, value, length) in [
        (Type::Int, Value::Int(i64::MIN), 9),
        (union, tagged, 9),
        (Type::Record(vec![blank.clone(); 7]), Value::Record(vec![Value::Null; 7]), 16),
        (blank, Value::Null, 1),
    ] {
        for k in [0, 1, 2, 9] {
            let types = [vec![ty.clone(); k], vec![Type::Str]].concat();
            for start in [&b""[..], b"\0", b"\0\0\0"] {
                let range = starting_with(&Type::Record(types.clone()), &vec![value.clone(); k], start).unwrap();
                assert_eq!(range.start.len(), k * length + 1 + 2 * start.len());
            }
        }
    }
}
