//! Writes a fixed list of the oracle's answers, chosen to cover every refusal and detail of every call; README.md has the format.

use differential::Sink;
use differential::families::{FAMILIES, Work};
use differential::generate::TELLING;
use differential::tree::write_run;
use oracle::call::KINDS;
use oracle::line::{read_call, write_answer, write_call};
use oracle::room::{answer_in_room, telling_rooms};
use oracle::{Answer, Argument, Call, Kind, Oracle, Outcome};
use std::collections::{BTreeMap, BTreeSet};
use std::process::ExitCode;

const USAGE: &str = "usage: fixed-list [--seed N] [--inputs N] [--per N] [--parts NAME,..] [--large] [--keep FILE]
  --seed    of the random families (1)
  --inputs  how many inputs of each family to choose from (4000)
  --per     the most lines for a call and a refusal; twice as many where the call is accepted (24)
  --parts   the library's parts whose calls to list (scalars,encode,decode,skip,order,keys,cursors,chars)
  --large   only the lines whose lists are longer than a plain list may have
  --keep    a list whose calls are all in the new one: what an earlier list had is not lost";

/// No line of the list is longer.
const LONGEST_LINE: usize = 4_000;

/// The longest lists of a plain list's lines; a program that replays it needs no more room.
const MOST_TYPE_WORDS: usize = 4_097;
const MOST_WORDS: usize = 8_192;
const MOST_BYTES: usize = 72_000;

/// How many lines a large list has for a call and a refusal.
const LARGE_PER: usize = 2;

struct Options {
    seed: u64,
    inputs: u64,
    per: usize,
    parts: Vec<String>,
    large: bool,
    keep: String,
}

fn options() -> Option<Options> {
    let parts = ["scalars", "encode", "decode", "skip", "order", "keys", "cursors", "chars"].map(String::from).to_vec();
    let mut options = Options { seed: 1, inputs: 4_000, per: 24, parts, large: false, keep: String::new() };
    let mut arguments = std::env::args().skip(1);
    while let Some(argument) = arguments.next() {
        match argument.as_str() {
            "--seed" => options.seed = arguments.next()?.parse().ok()?,
            "--inputs" => options.inputs = arguments.next()?.parse().ok()?,
            "--per" => options.per = arguments.next()?.parse().ok()?,
            "--parts" => options.parts = arguments.next()?.split(',').map(String::from).collect(),
            "--large" => options.large = true,
            "--keep" => options.keep = std::fs::read_to_string(arguments.next()?).ok()?,
            _ => return None,
        }
    }
    Some(options)
}

/// The refusals that a call can have, 0 for none.
fn refusals(kind: Kind) -> &'static [u32] {
    use Kind::*;
    match kind {
        EncodeTyped => &[0, 6, 8, 9, 10, 11, 12, 15, 16, 17],
        EncodeKey => &[0, 6, 7, 8, 9, 10, 11, 12, 15, 16, 17],
        DecodeTyped | DecodeKey => &[0, 1, 2, 4, 5, 6, 8, 9, 10, 13, 14, 15, 17],
        CheckKey => &[0, 1, 2, 4, 5, 6, 8, 9, 10, 13, 14, 15],
        Skip => &[0, 1, 2, 3, 5, 6],
        Compare => &[0, 16],
        Strinc => &[0, 17, 19],
        AboveField => &[0, 17],
        Bounds => &[0, 1, 2, 4, 5, 6, 8, 9, 10, 13, 14, 15, 17, 18],
        Span | StartingWith => &[0, 6, 8, 9, 10, 11, 12, 15, 16, 17, 18],
        Replace => &[0, 1, 2, 4, 5, 6, 7, 8, 9, 10, 11, 12, 13, 14, 15, 16, 17, 18],
        GetI64 | TakeI64 => &[0, 1, 2, 5, 13, 14],
        GetU64 | TakeU64 => &[0, 1, 2, 5],
        GetStr | TakeStr => &[0, 1, 2, 4, 17],
        GetBytes | TakeBytes => &[0, 1, 2, 17],
        PutI64 | PutU64 | PutBytes | PutFactId | PutNull => &[0, 17],
        PutStr => &[0, 4, 17],
        TakeNull => &[0, 1, 2, 3],
        TakeFactId => &[0, 1, 2, 9],
        OpenRecord => &[0, 1, 2, 6],
        OpenUnion => &[0, 1, 2, 5, 6],
        Close => &[0, 1, 2, 6],
        IsRecordEnd => &[0, 1],
        PutRecord | PutUnion | PutEnd => &[0, 6, 17],
        CharsNext => &[0, 1, 4],
        Chars | Names => &[0, 1, 2],
    }
}

// ---- what tells two lines apart

fn length_class(length: usize) -> u64 {
    match length {
        0..=3 => length as u64,
        4..=6 => 4,
        7..=15 => 5,
        16..=63 => 6,
        64..=600 => 7,
        601..=4_095 => 8,
        4_096..=60_000 => 9,
        _ => 10,
    }
}

fn number_class(number: u64) -> u64 {
    match number {
        0..=3 => number,
        4..=255 => 4,
        256..=65_535 => 5,
        65_536..=0xFFFF_FFFF => 6,
        u64::MAX => 8,
        _ => 7,
    }
}

/// The details that count as one.
fn detail_class(refusal: u32, detail: u64) -> u64 {
    match refusal {
        2 if TELLING.contains(&(detail as u8)) => detail,
        2 => 256,
        7 if detail < 65_540 => detail,
        11 => detail,
        _ => number_class(detail),
    }
}

fn words_class(words: impl Iterator<Item = u64>) -> u64 {
    let (mut kinds, mut len) = (0u64, 0);
    for word in words {
        kinds |= 1 << word.min(8);
        len += 1;
    }
    kinds * 16 + length_class(len)
}

fn bytes_class(bytes: &[u8]) -> u64 {
    let first = bytes.first().map_or(40, |byte| TELLING.iter().position(|telling| telling == byte).unwrap_or(32));
    let escape = bytes.windows(2).any(|pair| pair == [0x00, 0xFF]);
    (first as u64 * 16 + length_class(bytes.len())) * 4 + u64::from(escape) * 2 + u64::from(bytes.ends_with(&[0x00]))
}

/// By the last byte, and by the last one that is not FF.
fn end_class(bytes: &[u8]) -> u64 {
    let behind_ff = bytes.iter().rev().find(|byte| **byte != 0xFF);
    bytes_class(&bytes[bytes.len().saturating_sub(1)..]) * 4 + behind_ff.map_or(0, |byte| 1 + u64::from(*byte == 0))
}

fn room_class(room: usize, needed: usize) -> u64 {
    match (room, needed) {
        (0, _) => 0,
        _ if room + 1 == needed => 1,
        _ if room == needed => 2,
        _ if room == needed + 1 => 3,
        _ => 4,
    }
}

/// One number for all that tells two lines of the same refusal and detail apart.
fn shape_class(call: &Call, answer: &Answer, outcome: &Outcome) -> u64 {
    let more = match call.kind {
        Kind::Span => [bytes_class(&call.other_pool), words_class(call.third_words.iter().copied()), bytes_class(&call.third_pool)],
        // how s ends, by which the upper end goes
        Kind::StartingWith => [end_class(&call.bytes), outcome.bytes.len().abs_diff(outcome.pool.len()).min(4) as u64, 0],
        _ => [0; 3],
    };
    let lists = [
        words_class(call.ty.iter().map(|word| u64::from(*word))),
        words_class(call.words.iter().copied()),
        bytes_class(&call.pool),
        words_class(call.other_words.iter().copied()),
        bytes_class(&call.bytes),
        room_class(call.rooms[0], outcome.at.saturating_add(outcome.bytes.len().max(outcome.words.len()))),
        room_class(call.rooms[1], outcome.pool.len()),
    ];
    let numbers = call.numbers.into_iter().chain(answer.numbers).map(number_class);
    lists
        .into_iter()
        .chain(more)
        .chain(numbers)
        .fold(0xCBF2_9CE4_8422_2325, |mixed: u64, class| (mixed ^ class).wrapping_mul(0x100_0000_01B3).rotate_left(17))
}

// ---- choosing

/// Sorts of lines of one call and refusal, by detail and shape; of each sort the shortest line.
type Sorts = BTreeMap<(u64, u64), (usize, String)>;

struct Chooser {
    oracle: Oracle,
    rooms: Vec<[usize; 2]>,
    parts: Vec<String>,
    large: bool,
    chosen: BTreeMap<(Kind, u32), Sorts>,
    /// those with an admitted type that has word 7 in it are chosen apart, so that they take no other line's place
    optional: BTreeMap<(Kind, u32), Sorts>,
    only_optional: bool,
}

fn elements(call: &Call) -> usize {
    let sheets = call.words.len() + call.pool.len() + call.other_words.len() + call.other_pool.len() + call.third_words.len();
    call.ty.len() + sheets + call.third_pool.len() + call.bytes.len()
}

impl Chooser {
    fn is_large(&self, call: &Call) -> bool {
        let outcome = &self.oracle.outcome;
        call.ty.len() > MOST_TYPE_WORDS
            || [call.words.len(), call.other_words.len(), call.third_words.len(), outcome.words.len()]
                .into_iter()
                .any(|len| len > MOST_WORDS)
            || [
                call.pool.len(),
                call.other_pool.len(),
                call.third_pool.len(),
                call.bytes.len(),
                outcome.bytes.len(),
                outcome.pool.len(),
                call.rooms[0],
                call.rooms[1],
            ]
            .into_iter()
            .any(|len| len > MOST_BYTES)
    }

    /// Takes the call with the rooms it has, if it is of a new sort or the shortest of its sort.
    fn consider(&mut self, call: &Call) {
        if self.is_large(call) != self.large {
            return;
        }
        let answer = answer_in_room(call, &self.oracle.outcome);
        let optional = call.kind.shape().arguments.contains(&Argument::Type) && self.oracle.is_optional(&call.ty);
        if self.only_optional && !optional {
            return;
        }
        let outcome = &self.oracle.outcome;
        let sort = (detail_class(answer.refusal, answer.detail), shape_class(call, &answer, outcome));
        let size = elements(call);
        let chosen = if optional { &mut self.optional } else { &mut self.chosen };
        let sorts = chosen.entry((call.kind, answer.refusal)).or_default();
        if sorts.get(&sort).is_some_and(|(kept, _)| *kept <= size) {
            return;
        }
        let mut text = String::new();
        write_call(&mut text, call);
        text.push_str(" = ");
        write_answer(&mut text, call, &answer, outcome);
        if text.len() <= LONGEST_LINE {
            sorts.insert(sort, (size, text));
        }
    }
}

impl Sink for Chooser {
    fn takes(&self, kind: Kind) -> bool {
        self.parts.iter().any(|part| part == kind.shape().part)
    }

    fn call(&mut self, call: &mut Call) {
        if !self.takes(call.kind) {
            return;
        }
        self.oracle.run(call);
        let mut rooms = std::mem::take(&mut self.rooms);
        telling_rooms(call, &self.oracle.outcome, &mut rooms);
        for room in &rooms {
            call.rooms = *room;
            self.consider(call);
        }
        self.rooms = rooms;
    }
}

/// One line for each detail, then others from the shortest to the longest sort, more of the short ones.
fn choose(sorts: Sorts, per: usize) -> BTreeSet<(usize, String)> {
    let mut by_detail: BTreeMap<u64, (usize, String)> = BTreeMap::new();
    for ((detail, _), (_, text)) in &sorts {
        let line = (text.len(), text.clone());
        let kept = by_detail.entry(*detail).or_insert_with(|| line.clone());
        if line < *kept {
            *kept = line;
        }
    }
    let mut lines: BTreeSet<(usize, String)> = by_detail.into_values().collect();
    let all: BTreeSet<(usize, String)> = sorts.into_values().map(|(_, text)| (text.len(), text)).collect();
    let others: Vec<(usize, String)> = all.into_iter().filter(|line| !lines.contains(line)).collect();
    let wanted = per.saturating_sub(lines.len()).min(others.len());
    let mut next = 0;
    for i in 0..wanted {
        next = next.max(i * i * others.len() / (wanted * wanted));
        lines.extend(others.get(next).cloned());
        next += 1;
    }
    lines
}

/// The lengths of blocks that a fast run reader or writer may work by.
const BLOCKS: [usize; 9] = [8, 16, 32, 64, 128, 240, 256, 480, 512];

/// A zero, FF, or a character of two bytes as the last of a block and as the first of the next.
fn block_calls() -> Vec<Call> {
    let mut calls = Vec::new();
    for at in BLOCKS.into_iter().flat_map(|block| [block - 1, block]) {
        for part in [b"\0".as_slice(), b"\xFF", "é".as_bytes()] {
            let payload = [vec![b'a'; at].as_slice(), part, b"b"].concat();
            for (mark, kind, put, get) in [(0x21, 2, Kind::PutStr, Kind::GetStr), (0x53, 3, Kind::PutBytes, Kind::GetBytes)] {
                let mut run = Vec::new();
                write_run(mark, &payload, &mut run);
                calls.push(Call { bytes: payload.clone(), rooms: [run.len(), 0], ..Call::new(put) });
                calls.push(Call { bytes: run.clone(), rooms: [payload.len(), 0], ..Call::new(get) });
                let words = vec![kind, payload.len() as u64];
                calls.push(Call {
                    ty: vec![kind as u32],
                    words,
                    pool: payload.clone(),
                    rooms: [run.len(), 0],
                    ..Call::new(Kind::EncodeKey)
                });
                calls.push(Call { ty: vec![kind as u32], bytes: run, rooms: [2, payload.len()], ..Call::new(Kind::DecodeKey) });
            }
        }
    }
    calls
}

/// Whole keys that end round the blocks of 2,048 bytes that a copy may go by.
fn whole_key_calls() -> Vec<Call> {
    let mut calls = Vec::new();
    for len in [2_047, 2_048, 2_049, 4_096, 4_097, 8_192, 8_193] {
        let bytes: Vec<u8> = (0..len).map(|i| (i / 100 + 1) as u8).collect();
        calls.push(Call { bytes: bytes.clone(), rooms: [len + 1, 0], ..Call::new(Kind::Strinc) });
        calls.push(Call { bytes, rooms: [len + 1, 0], ..Call::new(Kind::AboveField) });
    }
    calls
}

/// Families without end give as many inputs as asked; the others as many, spread over them all.
fn run_families(chooser: &mut Chooser, options: &Options) {
    let mut work = Work::default();
    for family in FAMILIES {
        let wanted = match (family.name, options.large) {
            ("limits", true) => 60,
            (_, true) | ("limits", false) => 0,
            ("longtypes", _) => options.inputs / 50,
            ("lengths", _) => options.inputs / 20,
            ("bytes3" | "types5" | "steps2" | "places" | "copies", _) => options.inputs / 50,
            ("optional5", _) => options.inputs / 100,
            ("spans5" | "starts5", _) => options.inputs / 8,
            ("members" | "begun", _) => 0,
            ("depths" | "counts" | "optdepths", _) => options.inputs / 4,
            _ => options.inputs,
        };
        chooser.only_optional = family.name.starts_with("opt");
        let step = family.inputs.map_or(1, |inputs| (inputs / wanted.max(1)).max(1));
        for input in 0..wanted {
            let input = input * step;
            if family.inputs.is_some_and(|inputs| input >= inputs) {
                break;
            }
            family.run(&mut work, options.seed, input, chooser);
        }
    }
}

fn run(options: Options) -> ExitCode {
    let mut chooser = Chooser {
        oracle: Oracle::default(),
        rooms: Vec::new(),
        parts: options.parts.clone(),
        large: options.large,
        chosen: BTreeMap::new(),
        optional: BTreeMap::new(),
        only_optional: false,
    };
    // document 01's own examples, the ends of blocks and what is kept are all in the list
    let specimens = include_str!("../../../oracle/specimens.txt").lines().chain(options.keep.lines());
    let specimens = specimens.filter_map(|line| line.split_once(" = ")).map(|(call, _)| read_call(call).expect("a line is a call"));
    let mut lines: BTreeMap<(Kind, u32), BTreeSet<(usize, String)>> = BTreeMap::new();
    for call in specimens.chain(block_calls()).chain(whole_key_calls()) {
        if !chooser.takes(call.kind) {
            continue;
        }
        let line = oracle::line::line(&mut chooser.oracle, &call);
        if chooser.is_large(&call) == options.large {
            let refusal = answer_in_room(&call, &chooser.oracle.outcome).refusal;
            lines.entry((call.kind, refusal)).or_default().insert((line.len(), line));
        }
    }
    run_families(&mut chooser, &options);
    // a span's refusals are for the most part those of encoding, which have lines of their own; a beginning has many specimens
    let part = |kind: Kind| match kind {
        Kind::Span if !options.large => 2,
        Kind::StartingWith if !options.large => 3,
        _ => 1,
    };
    let per = if options.large { LARGE_PER } else { options.per };
    for (call, sorts) in chooser.chosen {
        // an accepted call tells most
        let per = if call.1 == 0 { 2 * per } else { per };
        lines.entry(call).or_default().extend(choose(sorts, per / part(call.0)));
    }
    for (call, sorts) in chooser.optional {
        let per = if call.1 == 0 { per } else { per / 3 };
        lines.entry(call).or_default().extend(choose(sorts, per / part(call.0)));
    }

    let mut missing = 0;
    for kind in KINDS {
        if !options.parts.iter().any(|part| part == kind.shape().part) {
            continue;
        }
        let mut counts = String::new();
        for refusal in refusals(kind) {
            let count = lines.get(&(kind, *refusal)).map_or(0, BTreeSet::len);
            counts.push_str(&format!(" {refusal}:{count}"));
            if count == 0 && !options.large {
                eprintln!("no line for {} with refusal {refusal}", kind.shape().name);
                missing += 1;
            }
        }
        let all = lines.range((kind, 0)..=(kind, u32::MAX)).map(|(_, lines)| lines.len()).sum::<usize>();
        eprintln!("{:16}{all:>6}  {counts}", kind.shape().name);
    }
    let all: Vec<String> = lines.into_values().flatten().map(|(_, text)| text).collect();
    let longest = all.iter().map(String::len).max().unwrap_or(0);
    eprintln!("{} lines, the longest of {longest} characters", all.len());
    all.iter().for_each(|line| println!("{line}"));
    if missing == 0 { ExitCode::SUCCESS } else { ExitCode::FAILURE }
}

fn main() -> ExitCode {
    match options() {
        Some(options) => oracle::on_large_stack(|| run(options)),
        None => {
            eprintln!("{USAGE}");
            ExitCode::from(2)
        }
    }
}
