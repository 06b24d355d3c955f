//! One family run on several threads: inputs handed out in order, cases counted, differences kept.

use crate::ours::{Ours, built};
use differential::Sink;
use differential::families::{Family, Work};
use differential::shrink::shrink;
use oracle::call::KINDS;
use oracle::line::{write_answer, write_call};
use oracle::room::{answer_in_room, telling_rooms};
use oracle::{Call, Kind, Oracle, Outcome};
use std::sync::Mutex;
use std::sync::atomic::{AtomicBool, AtomicU64, Ordering::Relaxed};
use std::time::{Duration, Instant};

/// How long and how far to run.
pub struct Limits {
    pub seed: u64,
    pub from: u64,
    pub cases: Option<u64>,
    pub seconds: Option<u64>,
    pub threads: usize,
    pub differences: usize,
    pub trace: bool,
}

pub type Counts = [u64; KINDS.len()];

/// What a family's run came to.
pub struct Ran {
    pub counts: Counts,
    /// the first input that was not run
    pub next: u64,
    pub differences: usize,
    /// how often a key was in a span, and how often it was not
    pub members: [u64; 2],
}

/// A thread's two sides.
struct Both {
    oracle: Oracle,
    ours: Ours,
    rooms: Vec<[usize; 2]>,
    counts: Counts,
    /// the first call of the input that differed
    differing: Option<Call>,
    members: [u64; 2],
    /// the first key of the input that is in a span by its values and not by its bytes, or the other way round
    stray: Option<String>,
}

/// Room for the bytes of a value.
fn room_for(words: &[u64], pool: &[u8]) -> usize {
    10 * words.len() + 2 * pool.len() + 2
}

impl Both {
    fn new() -> Both {
        Both {
            oracle: Oracle::default(),
            ours: Ours::default(),
            rooms: Vec::new(),
            counts: [0; KINDS.len()],
            differing: None,
            members: [0; 2],
            stray: None,
        }
    }

    fn differs_in_rooms_given(&mut self, call: &Call) -> bool {
        self.oracle.run(call);
        let expected = answer_in_room(call, &self.oracle.outcome);
        !self.ours.agrees(call, &expected, &self.oracle.outcome)
    }

    /// Whether a call differs in the rooms it has or in others worth trying; it is left with the first that tell.
    fn differs(&mut self, call: &mut Call) -> bool {
        self.oracle.run(call);
        let mut rooms = std::mem::take(&mut self.rooms);
        telling_rooms(call, &self.oracle.outcome, &mut rooms);
        rooms.push(call.rooms);
        let mut differs = false;
        for room in &rooms {
            call.rooms = *room;
            let expected = answer_in_room(call, &self.oracle.outcome);
            if !self.ours.agrees(call, &expected, &self.oracle.outcome) {
                differs = true;
                break;
            }
        }
        self.rooms = rooms;
        differs
    }

    /// The difference as lines: the call with the oracle's answer, and the library's.
    fn report(&mut self, call: Call) -> String {
        let mut call = shrink(call, &mut |call| self.differs(call));
        self.differs(&mut call);
        self.oracle.run(&call);
        let expected = answer_in_room(&call, &self.oracle.outcome);
        let mut text = String::new();
        write_call(&mut text, &call);
        text.push_str(" = ");
        write_answer(&mut text, &call, &expected, &self.oracle.outcome);
        let (answer, outcome) = self.ours.seen(&call);
        let seen = crate::ours::seen_text(&call, &answer, &outcome);
        let oracle_text = text.split_once(" = ").map_or("", |(_, answer)| answer).to_owned();
        text.push_str("\n  ours: ");
        text.push_str(&seen);
        if seen == oracle_text {
            text.push_str("  (the same answer, but other bytes of a lent buffer or numbers of a refusal differ)");
        }
        text
    }

    /// The call with the library's answer, and what it handed out, given room enough. A refusal is a stray, since the original accepts it.
    fn shown(&mut self, call: &Call) -> (String, Outcome) {
        // of the first values, and of what the next begins with
        let first = room_for(&call.words, &call.pool) + 2 * call.bytes.len();
        let rooms = [first + room_for(&call.other_words, &call.other_pool), first + room_for(&call.third_words, &call.third_pool)];
        let call = Call { rooms, ..call.clone() };
        let (answer, outcome) = self.ours.seen(&call);
        let mut text = String::new();
        write_call(&mut text, &call);
        text.push_str(" = ");
        text.push_str(&crate::ours::seen_text(&call, &answer, &outcome));
        self.counts[call.kind as usize] += 1;
        if answer.refusal != 0 && self.stray.is_none() {
            self.stray = Some(format!("ours: {text}\n  the original accepts it"));
        }
        (text, outcome)
    }
}

impl Sink for Both {
    fn takes(&self, kind: Kind) -> bool {
        built(kind)
    }

    fn call(&mut self, call: &mut Call) {
        if !built(call.kind) {
            return;
        }
        self.oracle.run(call);
        telling_rooms(call, &self.oracle.outcome, &mut self.rooms);
        for room in &self.rooms {
            call.rooms = *room;
            let expected = answer_in_room(call, &self.oracle.outcome);
            let agrees = self.ours.agrees(call, &expected, &self.oracle.outcome);
            if !agrees && self.differing.is_none() {
                self.differing = Some(call.clone());
            }
        }
        self.counts[call.kind as usize] += self.rooms.len() as u64;
    }

    /// The library's keys between the library's ends, against what the values say.
    fn members(&mut self, keys: &[Call], spans: &[(Call, Vec<bool>)]) {
        let keys: Vec<(String, Outcome)> = keys.iter().map(|key| self.shown(key)).collect();
        for (span, held) in spans {
            let (ends, outcome) = self.shown(span);
            for ((key, written), held) in keys.iter().zip(held) {
                self.members[usize::from(!held)] += 1;
                let between = outcome.bytes <= written.bytes && written.bytes < outcome.pool;
                if between != *held && self.stray.is_none() {
                    let by_values = if *held { "in the span by its values" } else { "outside the span by its values" };
                    self.stray = Some(format!("ours: {ends}\n  ours: {key}\n  the key is {by_values}, but not by its bytes"));
                }
            }
        }
    }
}

/// What the threads share.
struct Shared<'a> {
    family: &'a Family,
    limits: &'a Limits,
    end: Option<Instant>,
    next: AtomicU64,
    cases: AtomicU64,
    stop: AtomicBool,
    differences: Mutex<usize>,
}

impl Shared<'_> {
    fn spent(&self) -> bool {
        self.stop.load(Relaxed)
            || self.limits.cases.is_some_and(|cases| self.cases.load(Relaxed) >= cases)
            || self.end.is_some_and(|end| Instant::now() >= end)
    }

    fn work(&self) -> (Counts, [u64; 2]) {
        let (mut both, mut work) = (Both::new(), Work::default());
        let mut counted = 0;
        while !self.spent() {
            let from = self.next.fetch_add(self.family.chunk, Relaxed);
            let to = self.family.inputs.map_or(from + self.family.chunk, |inputs| inputs.min(from + self.family.chunk));
            if from >= to {
                break;
            }
            for input in from..to {
                if self.limits.trace {
                    eprintln!("{} input {input}", self.family.name);
                }
                self.family.run(&mut work, self.limits.seed, input, &mut both);
                if let Some(call) = both.differing.take() {
                    self.keep(input, both.report(call));
                }
                if let Some(report) = both.stray.take() {
                    self.keep(input, report);
                }
            }
            let total = both.counts.iter().sum::<u64>();
            self.cases.fetch_add(total - counted, Relaxed);
            counted = total;
        }
        (both.counts, both.members)
    }

    fn keep(&self, input: u64, report: String) {
        let mut differences = self.differences.lock().expect("no thread failed");
        if *differences < self.limits.differences {
            println!("difference: family {}, seed {}, input {input}\n  {report}", self.family.name, self.limits.seed);
            *differences += 1;
        }
        if *differences >= self.limits.differences {
            self.stop.store(true, Relaxed);
        }
    }

    fn progress(&self, since: Instant, last: bool) {
        let (cases, next) = (self.cases.load(Relaxed), self.next.load(Relaxed));
        let inputs = self.family.inputs.map_or(String::new(), |inputs| format!(" of {inputs}"));
        let seconds = since.elapsed().as_secs_f64();
        let line = format!(
            "{:9} input {}{inputs}, {cases} cases, {seconds:.1} s, {:.2} million a second",
            self.family.name,
            next.min(self.family.inputs.unwrap_or(u64::MAX)),
            cases as f64 / seconds / 1e6
        );
        use std::io::{IsTerminal, Write};
        let mut error = std::io::stderr();
        let (before, behind) = if error.is_terminal() { ("\r", if last { "\n" } else { "" }) } else { ("", "\n") };
        let _ = write!(error, "{before}{line}{behind}");
    }
}

pub fn run(family: &Family, limits: &Limits) -> Ran {
    let since = Instant::now();
    let shared = Shared {
        family,
        limits,
        end: limits.seconds.map(|seconds| since + Duration::from_secs(seconds)),
        next: AtomicU64::new(limits.from),
        cases: AtomicU64::new(0),
        stop: AtomicBool::new(false),
        differences: Mutex::new(0),
    };
    let (mut counts, mut members) = ([0; KINDS.len()], [0; 2]);
    std::thread::scope(|scope| {
        let threads: Vec<_> = (0..limits.threads)
            .map(|_| {
                let thread = std::thread::Builder::new().stack_size(oracle::STACK);
                thread.spawn_scoped(scope, || shared.work()).expect("a thread starts")
            })
            .collect();
        let terminal = std::io::IsTerminal::is_terminal(&std::io::stderr());
        let every = Duration::from_secs(if terminal { 1 } else { 10 });
        let mut shown = Instant::now();
        while !threads.iter().all(|thread| thread.is_finished()) {
            std::thread::sleep(Duration::from_millis(20));
            if shown.elapsed() >= every {
                shared.progress(since, false);
                shown = Instant::now();
            }
        }
        for thread in threads {
            let ran = thread.join().unwrap_or_else(|panic| std::panic::resume_unwind(panic));
            counts.iter_mut().zip(ran.0).for_each(|(total, count)| *total += count);
            members.iter_mut().zip(ran.1).for_each(|(total, count)| *total += count);
        }
    });
    shared.progress(since, true);
    Ran {
        counts,
        next: shared.next.load(Relaxed).min(family.inputs.unwrap_or(u64::MAX)),
        differences: shared.differences.into_inner().expect("no thread failed"),
        members,
    }
}

/// Replays lines of a fixed list: how many agreed and how many differ, by call.
pub fn replay(lines: impl Iterator<Item = String>, counts: &mut Counts) -> u64 {
    let mut both = Both::new();
    let mut differing = 0;
    for line in lines {
        if line.is_empty() || line.starts_with('#') {
            continue;
        }
        let (text, expected) = line.split_once(" = ").unwrap_or((&line, ""));
        let Some(call) = oracle::line::read_call(text) else {
            println!("not a call: {line}");
            differing += 1;
            continue;
        };
        if !built(call.kind) {
            continue;
        }
        let (answer, outcome) = both.ours.seen(&call);
        let seen = crate::ours::seen_text(&call, &answer, &outcome);
        counts[call.kind as usize] += 1;
        if both.differs_in_rooms_given(&call) || (!expected.is_empty() && seen != expected) {
            println!("difference: {line}\n  ours: {seen}");
            differing += 1;
        }
    }
    differing
}
