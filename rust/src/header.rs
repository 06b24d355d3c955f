//! That this crate has every call and refusal of include/tuple.h and its split of references, as that declares them.

use crate::refusal::Refusal;

const HEADER: &str = include_str!("../../include/tuple.h");
const FFI: &str = include_str!("ffi.rs");

/// A call: its name, its parameters' types and its answer, in Rust's words.
type Call = (String, Vec<String>, String);

/// `const uint8_t *bytes`, `size_t start` and the like.
fn parameter(text: &str) -> String {
    let (ty, name) = text.trim().rsplit_once(' ').unwrap();
    let word = match ty.trim_start_matches("const ") {
        "uint8_t" => "u8",
        "uint32_t" => "u32",
        "uint64_t" => "u64",
        "size_t" => "usize",
        "bool" => "bool",
        other => panic!("{other}"),
    };
    match (name.starts_with('*'), ty.starts_with("const ")) {
        (true, true) => format!("*const {word}"),
        (true, false) => format!("*mut {word}"),
        (false, _) => word.to_owned(),
    }
}

/// `ONE_WORD` as `OneWord`.
fn joined(name: &str) -> String {
    name.split('_').map(|part| part[..1].to_uppercase() + &part[1..].to_lowercase()).collect()
}

fn declared() -> Vec<Call> {
    let lines = HEADER.lines().filter(|line| line.starts_with("tuple_"));
    let call = |line: &str| {
        let (answer, rest) = line.split_once(' ').unwrap();
        let (name, parameters) = rest.strip_suffix(");").unwrap().split_once('(').unwrap();
        (name.to_owned(), parameters.split(',').map(parameter).collect(), joined(answer.strip_prefix("tuple_").unwrap()))
    };
    lines.map(call).collect()
}

fn here() -> Vec<Call> {
    // from each name to the semicolon: a declaration may stand on several lines
    let declarations = FFI.split("\n    fn tuple_").skip(1).map(|rest| rest.split_once(';').unwrap().0);
    let call = |declaration: &str| {
        let (name, rest) = declaration.split_once('(').unwrap();
        let (parameters, answer) = rest.split_once(") -> ").unwrap();
        let types = parameters.split(',').map(|parameter| parameter.split_once(": ").unwrap().1.trim().to_owned());
        (format!("tuple_{name}"), types.collect(), answer.to_owned())
    };
    declarations.map(call).collect()
}

#[test]
fn every_call() {
    let calls = declared();
    assert!(calls.len() >= 37);
    assert_eq!(here(), calls);
}

#[test]
fn the_split_of_a_reference() {
    let bits = HEADER.lines().find_map(|line| line.strip_prefix("#define TUPLE_SEQUENCE_BITS ")).unwrap();
    assert_eq!(bits.parse(), Ok(crate::sheet::SEQUENCE_BITS));
}

#[test]
fn every_refusal() {
    let lines = HEADER.lines().filter_map(|line| line.trim().strip_prefix("TUPLE_")?.split_once(" = "));
    let mut due = 0;
    for (name, rest) in lines {
        let digits: String = rest.chars().take_while(char::is_ascii_digit).collect();
        let number: u32 = digits.parse().unwrap();
        assert_eq!(number, due, "{name}");
        if number > 0 {
            let detail = u64::from(number == 11); // a kind is from 1 on
            assert_eq!(Refusal::answered(number, detail).name(), joined(name));
        }
        due += 1;
    }
    assert!(due >= 21);
}
