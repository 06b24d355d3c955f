//! One call a line on standard input. A line without ` = ` is answered on standard output; one with it is checked, and printed
//! only where the oracle answers otherwise. Empty lines and lines that begin with # are passed over.

use oracle::{Oracle, line};
use std::io::{BufRead, Write};
use std::process::ExitCode;

fn run() -> ExitCode {
    let mut oracle = Oracle::default();
    let mut out = std::io::BufWriter::new(std::io::stdout().lock());
    let (mut agreed, mut differing) = (0u64, 0u64);
    for text in std::io::stdin().lock().lines() {
        let text = text.expect("standard input is text");
        if text.is_empty() || text.starts_with('#') {
            continue;
        }
        let (call, expected) = match text.split_once(" = ") {
            Some((call, expected)) => (call, Some(expected)),
            None => (text.as_str(), None),
        };
        let Some(call) = line::read_call(call) else {
            writeln!(out, "not a call: {text}").expect("standard output takes it");
            differing += 1;
            continue;
        };
        let answered = line::line(&mut oracle, &call);
        match expected {
            None => writeln!(out, "{answered}").expect("standard output takes it"),
            // compared behind the sign, since a list may be written in more than one way
            Some(expected) if answered.split_once(" = ").is_some_and(|(_, answer)| answer == expected) => agreed += 1,
            Some(_) => {
                differing += 1;
                writeln!(out, "differs: {text}\n oracle: {answered}").expect("standard output takes it");
            }
        }
    }
    if agreed + differing > 0 {
        writeln!(out, "{agreed} lines agree, {differing} differ").expect("standard output takes it");
    }
    if differing == 0 { ExitCode::SUCCESS } else { ExitCode::FAILURE }
}

fn main() -> ExitCode {
    oracle::on_large_stack(run)
}
