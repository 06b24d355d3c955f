//! Runs the library and the original on the same inputs and compares every result.

mod lent;
mod library;
mod ours;
mod run;

use differential::families::{FAMILIES, Family, named};
use oracle::call::KINDS;
use run::{Counts, Limits, replay, run};
use std::io::BufRead;
use std::process::ExitCode;
use std::time::Instant;

const USAGE: &str = "usage: differential [--family NAME,..] [--seed N] [--from INPUT] [--cases N] [--seconds N] [--threads N]
                    [--differences N] [--trace] | --list | --replay FILE
  --family       families to run, in this order (all of them if none is given)
  --seed         of the random families (1)
  --from         the input to begin at (0)
  --cases        stop a family once it has compared so many cases (10 million for a family without end)
  --seconds      stop a family after so long
  --threads      (2)
  --differences  stop after so many (1)
  --trace        name each input before it is run
  --list         name the families
  --replay       compare the lines of a fixed list; - is standard input";

struct Options {
    families: Vec<&'static Family>,
    limits: Limits,
    list: bool,
    replay: Option<String>,
}

fn options() -> Option<Options> {
    let limits = Limits { seed: 1, from: 0, cases: None, seconds: None, threads: 2, differences: 1, trace: false };
    let mut options = Options { families: FAMILIES.iter().collect(), limits, list: false, replay: None };
    let mut arguments = std::env::args().skip(1);
    while let Some(argument) = arguments.next() {
        let mut number = || arguments.next()?.parse::<u64>().ok();
        match argument.as_str() {
            "--seed" => options.limits.seed = number()?,
            "--from" => options.limits.from = number()?,
            "--cases" => options.limits.cases = Some(number()?),
            "--seconds" => options.limits.seconds = Some(number()?),
            "--threads" => options.limits.threads = number()?.max(1) as usize,
            "--differences" => options.limits.differences = number()?.max(1) as usize,
            "--trace" => options.limits.trace = true,
            "--list" => options.list = true,
            "--family" => options.families = arguments.next()?.split(',').map(named).collect::<Option<_>>()?,
            "--replay" => options.replay = Some(arguments.next()?),
            _ => return None,
        }
    }
    Some(options)
}

/// Without a limit of its own, a family without end stops here.
const CASES: u64 = 10_000_000;

fn print_totals(counts: &Counts) {
    for kind in KINDS.iter().filter(|kind| counts[**kind as usize] > 0) {
        println!("{:16}{:>14}", kind.shape().name, counts[*kind as usize]);
    }
    println!("{:16}{:>14}", "in all", counts.iter().sum::<u64>());
}

fn main() -> ExitCode {
    let Some(mut options) = options() else {
        eprintln!("{USAGE}");
        return ExitCode::from(2);
    };
    if options.list {
        FAMILIES.iter().for_each(|family| println!("{:9} {}", family.name, family.about));
        return ExitCode::SUCCESS;
    }
    let since = Instant::now();
    let mut counts = [0; KINDS.len()];
    let mut differences = 0;
    if let Some(file) = &options.replay {
        differences = oracle::on_large_stack(|| {
            let input: Box<dyn BufRead> = match file.as_str() {
                "-" => Box::new(std::io::stdin().lock()),
                file => Box::new(std::io::BufReader::new(std::fs::File::open(file).expect("the file opens"))),
            };
            replay(input.lines().map(|line| line.expect("the file is text")), &mut counts)
        });
    } else {
        let unlimited = options.limits.cases.is_none() && options.limits.seconds.is_none();
        for family in &options.families {
            options.limits.cases = match (unlimited, family.inputs) {
                (true, None) => Some(CASES),
                (true, Some(_)) => None,
                (false, _) => options.limits.cases,
            };
            let most = options.limits.differences;
            let ran = run(family, &options.limits);
            let cases = ran.counts.iter().sum::<u64>();
            let members = match ran.members {
                [0, 0] => String::new(),
                [inside, outside] => format!("; keys in a span {inside}, not in it {outside}"),
            };
            println!(
                "{:9} seed {} inputs {} to {}: {cases} cases, {} differences{members}",
                family.name, options.limits.seed, options.limits.from, ran.next, ran.differences
            );
            counts.iter_mut().zip(ran.counts).for_each(|(total, count)| *total += count);
            differences += ran.differences as u64;
            options.limits.differences = most.saturating_sub(ran.differences);
            if options.limits.differences == 0 {
                break;
            }
        }
    }
    print_totals(&counts);
    println!("{differences} differences, {:.1} s", since.elapsed().as_secs_f64());
    if differences == 0 { ExitCode::SUCCESS } else { ExitCode::FAILURE }
}
