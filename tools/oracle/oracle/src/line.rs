//! Calls and answers as lines; README.md has the format.

use crate::call::{Argument, Call, Kind, Output};
use crate::compute::{Answer, IN_KEY, IN_SCRATCH, Oracle, Outcome};
use crate::room::answer_in_room;
use std::fmt::Write;

/// How many elements a repetition must cover to be written as one.
const WORTH_REPEATING: usize = 24;

/// A list as pieces parted by `+`: a repetition `*..xN`, or plain elements.
fn write_list<T: PartialEq>(text: &mut String, list: &[T], longest_period: usize, plain: fn(&mut String, &[T])) {
    if list.is_empty() {
        text.push('-');
        return;
    }
    let start = text.len();
    let part = |text: &mut String| {
        if text.len() > start {
            text.push('+');
        }
    };
    let (mut at, mut from) = (0, 0);
    while at < list.len() {
        let Some((period, times)) = repetition(&list[at..], longest_period) else {
            at += 1;
            continue;
        };
        if from < at {
            part(text);
            plain(text, &list[from..at]);
        }
        part(text);
        text.push('*');
        plain(text, &list[at..at + period]);
        write!(text, "x{times}").expect("a string takes it");
        at += period * times;
        from = at;
    }
    if from < at {
        part(text);
        plain(text, &list[from..at]);
    }
}

fn repetition<T: PartialEq>(list: &[T], longest_period: usize) -> Option<(usize, usize)> {
    (1..=longest_period.min(list.len())).find_map(|period| {
        let same = list.iter().zip(&list[period..]).take_while(|(a, b)| a == b).count();
        let times = 1 + same / period;
        (times > 1 && period * times >= WORTH_REPEATING).then_some((period, times))
    })
}

fn write_bytes(text: &mut String, bytes: &[u8]) {
    write_list(text, bytes, 2, |text, bytes| {
        for byte in bytes {
            write!(text, "{byte:02x}").expect("a string takes it");
        }
    });
}

fn write_words<T: PartialEq + std::fmt::Display>(text: &mut String, words: &[T]) {
    write_list(text, words, 5, |text, words| {
        for (i, word) in words.iter().enumerate() {
            if i > 0 {
                text.push(',');
            }
            write!(text, "{word}").expect("a string takes it");
        }
    });
}

/// The call's name and arguments.
pub fn write_call(text: &mut String, call: &Call) {
    let shape = call.kind.shape();
    text.push_str(shape.name);
    for argument in shape.arguments {
        text.push(' ');
        match *argument {
            Argument::Type => write_words(text, &call.ty),
            Argument::Words => write_words(text, &call.words),
            Argument::Pool => write_bytes(text, &call.pool),
            Argument::OtherWords => write_words(text, &call.other_words),
            Argument::OtherPool => write_bytes(text, &call.other_pool),
            Argument::ThirdWords => write_words(text, &call.third_words),
            Argument::ThirdPool => write_bytes(text, &call.third_pool),
            Argument::Bytes => write_bytes(text, &call.bytes),
            Argument::Number(i) => write!(text, "{}", call.numbers[i]).expect("a string takes it"),
            Argument::Room(i) => write!(text, "{}", call.rooms[i]).expect("a string takes it"),
        }
    }
}

/// The buffer of a replacement after the call.
pub fn whole_after(call: &Call, answer: &Answer, outcome: &Outcome) -> Vec<u8> {
    let mut whole = call.bytes.clone();
    if answer.refusal == 0 {
        whole[..outcome.bytes.len()].copy_from_slice(&outcome.bytes);
    }
    whole
}

/// The answer: refusal, detail, numbers, and what was handed out.
pub fn write_answer(text: &mut String, call: &Call, answer: &Answer, outcome: &Outcome) {
    let shape = call.kind.shape();
    write!(text, "{} {}", answer.refusal, answer.detail).expect("a string takes it");
    for number in &answer.numbers[..shape.numbers.len()] {
        write!(text, " {number}").expect("a string takes it");
    }
    for output in shape.outputs {
        text.push(' ');
        match output {
            Output::Whole => write_bytes(text, &whole_after(call, answer, outcome)),
            _ if answer.refusal != 0 => text.push('-'),
            Output::Bytes => write_bytes(text, &outcome.bytes),
            Output::Words => write_words(text, &outcome.words),
            Output::Pool => write_bytes(text, &outcome.pool),
            Output::Payload => write_bytes(text, payload(call, answer, outcome)),
        }
    }
}

fn payload<'a>(call: &'a Call, answer: &Answer, outcome: &'a Outcome) -> &'a [u8] {
    let [source, at, len, ..] = answer.numbers;
    match source {
        IN_KEY => usize::try_from(at).ok().and_then(|at| call.bytes.get(at..)?.get(..usize::try_from(len).ok()?)).unwrap_or(&[]),
        IN_SCRATCH => &outcome.bytes,
        _ => &[],
    }
}

/// The whole line of a call: `name arguments = answer`.
pub fn line(oracle: &mut Oracle, call: &Call) -> String {
    oracle.run(call);
    let answer = answer_in_room(call, &oracle.outcome);
    let mut text = String::new();
    write_call(&mut text, call);
    text.push_str(" = ");
    write_answer(&mut text, call, &answer, &oracle.outcome);
    text
}

// ---- reading

fn read_list<T: Clone>(text: &str, plain: fn(&str) -> Option<Vec<T>>) -> Option<Vec<T>> {
    let mut list = Vec::new();
    if text == "-" {
        return Some(list);
    }
    for piece in text.split('+') {
        match piece.strip_prefix('*') {
            None => list.extend(plain(piece)?),
            Some(repeated) => {
                let (unit, times) = repeated.split_once('x')?;
                let unit = plain(unit)?;
                for _ in 0..times.parse::<usize>().ok()? {
                    list.extend_from_slice(&unit);
                }
            }
        }
    }
    Some(list)
}

fn read_bytes(text: &str) -> Option<Vec<u8>> {
    read_list(text, |text| {
        let digits = text.as_bytes();
        if digits.len() % 2 != 0 {
            return None;
        }
        let digit = |digit: u8| (digit as char).to_digit(16);
        digits.chunks(2).map(|pair| Some((digit(pair[0])? * 16 + digit(pair[1])?) as u8)).collect()
    })
}

fn read_words<T: Clone + std::str::FromStr>(text: &str) -> Option<Vec<T>> {
    read_list(text, |text| text.split(',').map(|word| word.parse().ok()).collect())
}

/// The call of a line, without what stands behind `=`.
pub fn read_call(text: &str) -> Option<Call> {
    let mut fields = text.split(' ');
    let mut call = Call::new(Kind::named(fields.next()?)?);
    for argument in call.kind.shape().arguments {
        let field = fields.next()?;
        match *argument {
            Argument::Type => call.ty = read_words(field)?,
            Argument::Words => call.words = read_words(field)?,
            Argument::Pool => call.pool = read_bytes(field)?,
            Argument::OtherWords => call.other_words = read_words(field)?,
            Argument::OtherPool => call.other_pool = read_bytes(field)?,
            Argument::ThirdWords => call.third_words = read_words(field)?,
            Argument::ThirdPool => call.third_pool = read_bytes(field)?,
            Argument::Bytes => call.bytes = read_bytes(field)?,
            Argument::Number(i) => call.numbers[i] = field.parse().ok()?,
            Argument::Room(i) => call.rooms[i] = field.parse().ok()?,
        }
    }
    fields.next().is_none().then_some(call)
}
