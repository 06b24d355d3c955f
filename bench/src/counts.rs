//! Instructions and not nanoseconds: the same calls under callgrind, which counts each side between two marks, so that a busy machine changes nothing.

use std::hint::black_box;
use std::path::Path;
use std::process::Command;

/// Set for the process that runs under callgrind.
const INSIDE: &str = "BENCH_COUNTS";

pub fn inside() -> bool {
    std::env::var_os(INSIDE).is_some()
}

/// callgrind writes out its counts and begins anew where this is entered.
#[unsafe(no_mangle)]
#[inline(never)]
pub extern "C" fn count_begins() {
    black_box(());
}

/// And where this is left.
#[unsafe(no_mangle)]
#[inline(never)]
pub extern "C" fn count_ends() {
    black_box(());
}

/// One turn over the inputs before, for what the first turn alone does, and one that is counted.
pub fn count(f: &mut dyn FnMut(usize), inputs: usize) {
    (0..inputs).for_each(&mut *f);
    count_begins();
    (0..inputs).for_each(&mut *f);
    count_ends();
}

/// Runs this program under callgrind, and prints a table of instructions a call.
pub fn run(words: &[String]) {
    let folder = std::env::temp_dir().join(format!("bench-counts-{}", std::process::id()));
    std::fs::create_dir_all(&folder).expect("a folder for the counts");
    let answer = Command::new("valgrind")
        .args(["--tool=callgrind", "--dump-before=count_begins", "--dump-after=count_ends", "--main-stacksize=67108864", "-q"])
        .arg(format!("--callgrind-out-file={}/out", folder.display()))
        .arg(std::env::current_exe().expect("this program"))
        .args(words)
        .env(INSIDE, "1")
        .output()
        .expect("valgrind");
    assert!(answer.status.success(), "{}", String::from_utf8_lossy(&answer.stderr));
    println!("| call | input | Rust | ours | ours / Rust | Rust from sheets | ours / that |\n|-|-|-|-|-|-|-|");
    let mut dump = 0;
    for line in String::from_utf8(answer.stdout).expect("text").lines() {
        let [call, input, sides, turns] = line.split('|').collect::<Vec<_>>()[..] else { panic!("a row of the process inside: {line}") };
        let turns: u64 = turns.parse().expect("a number of turns");
        let counts: Vec<u64> = (0..sides.parse().expect("a number of sides"))
            .map(|_| {
                // each side has two: what went before it, and its own
                dump += 2;
                instructions(&folder.join(format!("out.{dump}"))) / turns
            })
            .collect();
        let (ours, rust, sheets) = (counts[0], counts[1], *counts.last().expect("a side"));
        let ratio = |other: u64| ours as f64 / other as f64;
        println!("| {call} | {input} | {rust} | {ours} | {:.2} | {sheets} | {:.2} |", ratio(rust), ratio(sheets));
    }
    std::fs::remove_dir_all(&folder).expect("the folder can be removed");
}

/// The total of a dump.
fn instructions(file: &Path) -> u64 {
    let text = std::fs::read_to_string(file).unwrap_or_else(|error| panic!("{}: {error}", file.display()));
    let total = text.lines().find_map(|line| line.strip_prefix("totals: ").or(line.strip_prefix("summary: "))).expect("a total");
    total.trim().parse().expect("a number of instructions")
}
