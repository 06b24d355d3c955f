//! The library and the original on the same inputs in one process: batches of each by turns, the medians of 41, and their ratio.
//!
//! The library is given sheets, which each call admits, and buffers lent once, which decoding fills. The original is given its own types and values, built
//! before, and allocates what it answers; the time to free that counts. The third time is the original's with what the library's includes: its sheets
//! admitted to types and values first, a decoded value written to a sheet in buffers lent once. Bounds and replacement are the original's decode, change and
//! encode, a span is two of its encodes, what begins with some bytes one of them, `put_str` or `put_bytes` less the last byte, and strinc. The argument
//! `growth` shows how time grows with the size of a value instead, `counts` the instructions by callgrind, `dose` the alternatives of a union by their places
//! in place of the inputs.

mod clock;
mod counts;
mod growth;
mod inputs;
mod library;
#[path = "../../tools/oracle/oracle/src/sheet.rs"]
#[allow(dead_code)]
mod sheet;

use fjord_encoding::tuple::{self, TupleEncoder, Value};
use fjord_schema::schema::{LocalInterner, PredicateTy, SchemaInterner};
use inputs::Input;
use sheet::{admit_type, admit_value, write_sheet};
use std::hint::black_box;

const CALLS: [&str; 10] =
    ["encode_key", "decode_key", "check_key", "skip", "compare", "strinc", "bounds", "span", "starting_with", "replace"];

fn main() {
    let wanted: Vec<String> = std::env::args().skip(1).collect();
    std::thread::Builder::new().stack_size(64 << 20).spawn(move || run(&wanted)).expect("a thread").join().expect("the benchmark ends");
}

fn run(wanted: &[String]) {
    if wanted == ["growth"] {
        return growth::run();
    }
    if let [first, words @ ..] = wanted
        && first == "counts"
    {
        return counts::run(words);
    }
    let (inputs, beginnings) = match wanted.iter().any(|word| word == "dose") {
        true => (inputs::doses(), vec![]),
        false => (inputs::all(), inputs::beginnings()),
    };
    if !counts::inside() {
        println!("| call | input | key bytes | Rust ns | ours ns | ours / Rust | Rust from sheets ns | ours / that |\n|-|-|-|-|-|-|-|-|");
    }
    for call in CALLS {
        for input in if call == "starting_with" { &beginnings } else { &inputs } {
            let name = format!("{call} {}", input.name);
            let takes = call != "span" || input.ty[1] > 1;
            if takes && (wanted.is_empty() || wanted.iter().any(|word| name.contains(word.as_str()))) {
                let mut row = Row::new(input);
                let bytes = row.cases.iter().map(|case| case.key.len()).sum::<usize>() / row.cases.len();
                let [ours, rust, sheets] = row.times(call);
                if counts::inside() {
                    println!("{call}|{}|{}|{}", input.name, if matches!(call, "skip" | "strinc") { 2 } else { 3 }, row.cases.len());
                    continue;
                }
                println!(
                    "| {call} | {} | {bytes} | {rust:.0} | {ours:.0} | {:.2} | {sheets:.0} | {:.2} |",
                    input.name,
                    ours / rust,
                    ours / sheets
                );
            }
        }
    }
}

/// One value in both shapes, with its key.
struct Case {
    sheet: (Vec<u64>, Vec<u8>),
    value: Value,
    key: Vec<u8>,
    /// the first field
    first: (Vec<u64>, Vec<u8>),
    first_value: Value,
}

impl Case {
    fn new(ty: &PredicateTy, sheet: &(Vec<u64>, Vec<u8>)) -> Case {
        let value = admit_value(&sheet.0, &sheet.1).expect("a value sheet");
        let key = tuple::encode_key(ty, &value).expect("a value of the type");
        let Value::Record(fields) = &value else { unreachable!("a record") };
        let first_value = fields[0].1.clone();
        let first = sheet_of(&first_value);
        Case { sheet: sheet.clone(), value, key, first, first_value }
    }
}

fn sheet_of(value: &Value) -> (Vec<u64>, Vec<u8>) {
    let mut sheet = (Vec::new(), Vec::new());
    write_sheet(value, &mut sheet.0, &mut sheet.1);
    sheet
}

const ROOM: usize = 1 << 18;

struct Row<'a> {
    sheet: &'a [u32],
    ty: PredicateTy,
    cases: Vec<Case>,
    interner: LocalInterner,
    /// the lent buffers
    out: Vec<u8>,
    more: Vec<u8>,
    words: Vec<u64>,
    pool: Vec<u8>,
}

impl<'a> Row<'a> {
    fn new(input: &'a Input) -> Row<'a> {
        let ty = admit_type(&input.ty).expect("a type sheet");
        let cases = input.values.iter().map(|sheet| Case::new(&ty, sheet)).collect();
        let interner = LocalInterner::new(SchemaInterner::new(()));
        Row { sheet: &input.ty, ty, cases, interner, out: vec![0; ROOM], more: vec![0; ROOM], words: vec![0; ROOM], pool: vec![0; ROOM] }
    }

    /// Ours, the original's, and the original's from and to sheets.
    fn times(&mut self, call: &str) -> [f64; 3] {
        match call {
            "encode_key" => self.encode(),
            "decode_key" => self.decode(),
            "check_key" => self.check(),
            "skip" => self.skip(),
            "compare" => self.compare(),
            "strinc" => self.strinc(),
            "bounds" => self.bounds(),
            "span" => self.span(),
            "starting_with" => self.starting_with(),
            _ => self.replace(),
        }
    }

    fn encode(&mut self) -> [f64; 3] {
        let Row { sheet, ty, cases, out, .. } = self;
        for case in &*cases {
            let n = library::encode_key(sheet, &case.sheet.0, &case.sheet.1, out).length as usize;
            assert_eq!(out[..n], case.key);
        }
        let mut ours = |i: usize| _ = black_box(library::encode_key(sheet, &cases[i].sheet.0, &cases[i].sheet.1, out));
        let mut rust = |i: usize| _ = black_box(tuple::encode_key(ty, &cases[i].value));
        let mut sheets = |i: usize| {
            let (ty, value) = (admit_type(sheet).expect("a type"), admit_value(&cases[i].sheet.0, &cases[i].sheet.1).expect("a value"));
            _ = black_box(tuple::encode_key(&ty, &value));
        };
        clock::medians([&mut ours, &mut rust, &mut sheets], cases.len())
    }

    fn decode(&mut self) -> [f64; 3] {
        let Row { sheet, ty, cases, interner, words, pool, .. } = self;
        for case in &*cases {
            let answer = library::decode_key(sheet, &case.key, words, pool);
            assert_eq!((&words[..answer.words as usize], &pool[..answer.pool as usize]), (&case.sheet.0[..], &case.sheet.1[..]));
        }
        let (mut lent_words, mut lent_pool) = (Vec::with_capacity(ROOM), Vec::with_capacity(ROOM));
        let mut ours = |i: usize| _ = black_box(library::decode_key(sheet, &cases[i].key, words, pool));
        let mut rust = |i: usize| _ = black_box(tuple::decode_key(interner, &cases[i].key, ty));
        let mut sheets = |i: usize| {
            let value = tuple::decode_key(interner, &cases[i].key, &admit_type(sheet).expect("a type")).expect("a key");
            lent_words.clear();
            lent_pool.clear();
            write_sheet(&value, &mut lent_words, &mut lent_pool);
            black_box((&lent_words, &lent_pool));
        };
        clock::medians([&mut ours, &mut rust, &mut sheets], cases.len())
    }

    /// Against decode_key: the original has no call that keeps no value.
    fn check(&mut self) -> [f64; 3] {
        let Row { sheet, ty, cases, interner, .. } = self;
        let mut ours = |i: usize| _ = black_box(library::check_key(sheet, &cases[i].key));
        let mut rust = |i: usize| _ = black_box(tuple::decode_key(interner, &cases[i].key, ty));
        let mut sheets = |i: usize| _ = black_box(tuple::decode_key(interner, &cases[i].key, &admit_type(sheet).expect("a type")));
        clock::medians([&mut ours, &mut rust, &mut sheets], cases.len())
    }

    /// Every field of the key in turn; there are no sheets.
    fn skip(&mut self) -> [f64; 3] {
        let cases = &self.cases;
        let mut ours = |i: usize| {
            let mut at = 0;
            while at < cases[i].key.len() {
                let answer = library::skip(&cases[i].key, at);
                assert_eq!(answer.refusal, 0);
                at = answer.length as usize;
            }
        };
        let mut rust = |i: usize| {
            let mut at = 0;
            while at < cases[i].key.len() {
                at = tuple::skip(&cases[i].key, at, false).expect("a field");
            }
        };
        let [ours, rust] = clock::medians([&mut ours, &mut rust], cases.len());
        [ours, rust, rust]
    }

    /// With an equal value.
    fn compare(&mut self) -> [f64; 3] {
        let cases = &self.cases;
        let others: Vec<Case> = cases.iter().map(|case| Case::new(&self.ty, &case.sheet)).collect();
        let mut ours = |i: usize| {
            let answer = library::compare(&cases[i].sheet, &others[i].sheet);
            assert_eq!((answer.refusal, answer.order), (0, 0));
        };
        let mut rust = |i: usize| assert!(black_box(cases[i].value.cmp(&others[i].value)).is_eq());
        let mut sheets = |i: usize| {
            let (a, b) = (&cases[i].sheet, &others[i].sheet);
            let (a, b) = (admit_value(&a.0, &a.1).expect("a value"), admit_value(&b.0, &b.1).expect("a value"));
            assert!(black_box(a.cmp(&b)).is_eq());
        };
        clock::medians([&mut ours, &mut rust, &mut sheets], cases.len())
    }

    /// Of the whole key; there are no sheets.
    fn strinc(&mut self) -> [f64; 3] {
        let Row { cases, out, .. } = self;
        let mut ours = |i: usize| _ = black_box(library::strinc(&cases[i].key, out));
        let mut rust = |i: usize| _ = black_box(tuple::strinc(&cases[i].key));
        let [ours, rust] = clock::medians([&mut ours, &mut rust], cases.len());
        [ours, rust, rust]
    }

    /// Of the first field.
    fn bounds(&mut self) -> [f64; 3] {
        let Row { sheet, ty, cases, interner, out, more, .. } = self;
        for case in &*cases {
            let answer = library::bounds(sheet, &case.key, 1, out, more);
            let ends = original_bounds(interner, ty, &case.key, 1);
            assert_eq!((&out[..answer.lower as usize], &more[..answer.upper as usize]), (&ends.0[..], &ends.1[..]));
        }
        let mut ours = |i: usize| _ = black_box(library::bounds(sheet, &cases[i].key, 1, out, more));
        let mut rust = |i: usize| _ = black_box(original_bounds(interner, ty, &cases[i].key, 1));
        let mut sheets = |i: usize| _ = black_box(original_bounds(interner, &admit_type(sheet).expect("a type"), &cases[i].key, 1));
        clock::medians([&mut ours, &mut rust, &mut sheets], cases.len())
    }

    /// Behind the first field, from the second of a value to that of the next value.
    fn span(&mut self) -> [f64; 3] {
        let Row { sheet, ty, cases, out, more, .. } = self;
        let nexts: Vec<&Value> = cases.iter().map(|case| &fields(&case.value)[1].1).collect();
        let spans: Vec<Span> =
            cases.iter().enumerate().map(|(i, case)| Span::new(&case.first_value, nexts[i], nexts[(i + 1) % nexts.len()])).collect();
        for Span { sheets: [first, lowest, highest], values } in &spans {
            let answer = library::span(sheet, first, lowest, highest, out, more);
            let ends = original_span(ty, values);
            assert_eq!((&out[..answer.lower as usize], &more[..answer.upper as usize]), (&ends.0[..], &ends.1[..]));
        }
        let mut ours = |i: usize| {
            let [first, lowest, highest] = &spans[i].sheets;
            _ = black_box(library::span(sheet, first, lowest, highest, out, more));
        };
        let mut rust = |i: usize| _ = black_box(original_span(ty, &spans[i].values));
        let mut sheets = |i: usize| {
            let values = spans[i].sheets.each_ref().map(|(words, pool)| admit_value(words, pool).expect("a value"));
            _ = black_box(original_span(&admit_type(sheet).expect("a type"), &values));
        };
        clock::medians([&mut ours, &mut rust, &mut sheets], cases.len())
    }

    /// Behind the first field, what begins with the bytes of the second.
    fn starting_with(&mut self) -> [f64; 3] {
        let Row { sheet, ty, cases, out, more, .. } = self;
        let firsts: Vec<Value> = cases.iter().map(|case| record_of(&case.first_value)).collect();
        let sheets: Vec<(Vec<u64>, Vec<u8>)> = firsts.iter().map(sheet_of).collect();
        let starts: Vec<&Value> = cases.iter().map(|case| &fields(&case.value)[1].1).collect();
        for i in 0..cases.len() {
            let answer = library::starting_with(sheet, &sheets[i], bytes_of(starts[i]), out, more);
            let ends = original_starting_with(ty, &firsts[i], starts[i]);
            assert_eq!((&out[..answer.lower as usize], &more[..answer.upper as usize]), (&ends.0[..], &ends.1[..]));
        }
        let mut ours = |i: usize| _ = black_box(library::starting_with(sheet, &sheets[i], bytes_of(starts[i]), out, more));
        let mut rust = |i: usize| _ = black_box(original_starting_with(ty, &firsts[i], starts[i]));
        let mut from_sheets = |i: usize| {
            let (ty, first) = (admit_type(sheet).expect("a type"), admit_value(&sheets[i].0, &sheets[i].1).expect("a value"));
            _ = black_box(original_starting_with(&ty, &first, starts[i]));
        };
        clock::medians([&mut ours, &mut rust, &mut from_sheets], cases.len())
    }

    /// The first field by itself, so that the key stays.
    fn replace(&mut self) -> [f64; 3] {
        let Row { sheet, ty, cases, interner, .. } = self;
        let mut buffers: Vec<Vec<u8>> = cases.iter().map(|case| [&case.key[..], &[0; 64]].concat()).collect();
        let mut ours = |i: usize| {
            let used = cases[i].key.len();
            let answer = library::replace(sheet, &mut buffers[i], used, 0, &cases[i].first);
            assert_eq!((answer.refusal, answer.length as usize), (0, used));
        };
        let mut rust = |i: usize| _ = black_box(original_replace(interner, ty, &cases[i].key, 0, cases[i].first_value.clone()));
        let mut sheets = |i: usize| {
            let value = admit_value(&cases[i].first.0, &cases[i].first.1).expect("a value");
            _ = black_box(original_replace(interner, &admit_type(sheet).expect("a type"), &cases[i].key, 0, value));
        };
        let times = clock::medians([&mut ours, &mut rust, &mut sheets], cases.len());
        assert!(cases.iter().zip(&buffers).all(|(case, buffer)| buffer.starts_with(&case.key)));
        times
    }
}

/// A record of the first field, a lowest and a highest value, in both shapes.
struct Span {
    sheets: [(Vec<u64>, Vec<u8>); 3],
    values: [Value; 3],
}

impl Span {
    fn new(first: &Value, lowest: &Value, highest: &Value) -> Span {
        let values = [record_of(first), lowest.clone(), highest.clone()];
        Span { sheets: values.each_ref().map(sheet_of), values }
    }
}

fn record_of(field: &Value) -> Value {
    Value::Record([(String::new(), field.clone())].into())
}

fn bytes_of(value: &Value) -> &[u8] {
    match value {
        Value::Str(text) => text.as_bytes(),
        Value::Bytes(payload) => payload,
        _ => unreachable!("a Str or Bytes"),
    }
}

fn fields(value: &Value) -> &[(String, Value)] {
    let Value::Record(fields) = value else { unreachable!("a record") };
    fields
}

/// Values one behind the other under the types of the first fields.
fn bare<'v>(ty: &PredicateTy, values: impl Iterator<Item = &'v Value>) -> Vec<u8> {
    let PredicateTy::Record(types) = ty else { unreachable!("a record") };
    let mut bytes = Vec::new();
    let mut encoder = TupleEncoder::new(&mut bytes);
    for ((_, ty), value) in types.iter().zip(values) {
        tuple::encode_typed_at(&mut encoder, ty, value).expect("a value of the type");
    }
    bytes
}

/// Two encodes: the first values and the lowest; the first values, the highest and FF.
fn original_span(ty: &PredicateTy, [first, lowest, highest]: &[Value; 3]) -> (Vec<u8>, Vec<u8>) {
    let end = |next: &Value| bare(ty, fields(first).iter().map(|(_, value)| value).chain([next]));
    let (lower, mut upper) = (end(lowest), end(highest));
    upper.push(0xFF);
    (lower, upper)
}

/// The closest that the original comes: one encode of the first values, the run of the next less its last byte, and strinc of that.
fn original_starting_with(ty: &PredicateTy, first: &Value, start: &Value) -> (Vec<u8>, Vec<u8>) {
    let mut lower = bare(ty, fields(first).iter().map(|(_, value)| value));
    match start {
        Value::Str(text) => tuple::put_str(&mut lower, text),
        other => tuple::put_bytes(&mut lower, bytes_of(other)),
    }
    lower.pop();
    let upper = tuple::strinc(&lower).expect("a mark is below FF");
    (lower, upper)
}

/// The first k fields, encoded bare, and with FF behind.
fn original_bounds(interner: &LocalInterner, ty: &PredicateTy, key: &[u8], k: usize) -> (Vec<u8>, Vec<u8>) {
    let (PredicateTy::Record(types), Value::Record(fields)) = (ty, tuple::decode_key(interner, key, ty).expect("a key")) else {
        unreachable!("a record")
    };
    let mut lower = Vec::new();
    let mut encoder = TupleEncoder::new(&mut lower);
    for ((_, ty), (_, value)) in types.iter().zip(&fields).take(k) {
        tuple::encode_typed_at(&mut encoder, ty, value).expect("a decoded field encodes");
    }
    let upper = tuple::above_field(&lower);
    (lower, upper)
}

fn original_replace(interner: &LocalInterner, ty: &PredicateTy, key: &[u8], field: usize, value: Value) -> Vec<u8> {
    let Value::Record(mut fields) = tuple::decode_key(interner, key, ty).expect("a key") else { unreachable!("a record") };
    fields[field].1 = value;
    tuple::encode_key(ty, &Value::Record(fields)).expect("a value of the type")
}
