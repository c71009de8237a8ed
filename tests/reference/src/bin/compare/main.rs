//! Compares the library with the reference, and both with the examples of the paper that fixes the terms.
//!
//! `cargo run --release` runs every part; `cargo run --release -- PART` one part, and `-- PART CASE` one case again. The environment
//! may give another `SEED` than the usual one (decimal, or hexadecimal after 0x) and the paths of the two programs as `VOUCH_REPORT` and
//! `VOUCH_ORDER`. This program exits with 1 where anything differs.
mod calls;
mod case;
mod common;
mod damage;
mod enumerate;
mod equal;
mod indexes;
mod inside;
mod journal;
mod kinds;
mod link_kinds;
mod networks;
mod one_order;
mod order;
mod paper;
mod program;
mod rows;
mod table;
mod vouch;

use case::{Case, Tally};
use std::env;
use std::process::ExitCode;
use std::time::Instant;

/// The seed where none is given.
const SEED: u64 = 0x5643_4801_2026_0001;

/// A part of the run: so many cases, each of them the same for the same seed and number.
struct Part {
    name: &'static str,
    cases: u64,
    run: fn(&mut Case),
}

const PARTS: [Part; 20] = [
    Part {
        name: "paper",
        cases: 1,
        run: paper::paper,
    },
    Part {
        name: "small",
        cases: 6000,
        run: networks::small,
    },
    Part {
        name: "medium",
        cases: 360,
        run: networks::medium,
    },
    Part {
        name: "full",
        cases: 54,
        run: networks::full,
    },
    Part {
        name: "enumerate",
        cases: 2531,
        run: enumerate::enumerate,
    },
    Part {
        name: "fault-pairs",
        cases: 900,
        run: damage::pairs,
    },
    Part {
        name: "changed-bytes",
        cases: 4000,
        run: damage::changes,
    },
    Part {
        name: "lengths",
        cases: 320,
        run: damage::lengths,
    },
    Part {
        name: "order",
        cases: 300,
        run: order::order,
    },
    Part {
        name: "row-examples",
        cases: 18,
        run: rows::examples,
    },
    Part {
        name: "rows",
        cases: 10_000,
        run: rows::random,
    },
    Part {
        name: "equal",
        cases: 60,
        run: equal::equal,
    },
    Part {
        name: "common",
        cases: 540,
        run: common::common,
    },
    Part {
        name: "vouch",
        cases: 720,
        run: vouch::vouch,
    },
    Part {
        name: "journal-examples",
        cases: 1,
        run: journal::examples,
    },
    Part {
        name: "journals",
        cases: 2750,
        run: journal::journals,
    },
    Part {
        name: "journals-full",
        cases: 48,
        run: journal::full,
    },
    Part {
        name: "journal-faults",
        cases: 55,
        run: journal::faults,
    },
    Part {
        name: "journal-sequences",
        cases: 441,
        run: journal::sequences,
    },
    Part {
        name: "program",
        cases: 360,
        run: program::program,
    },
];

/// Runs the cases of a part, or one of them, and prints its line.
fn run_part(part: &Part, seed: u64, only: Option<u64>) -> Tally {
    let start = Instant::now();
    let mut tally = Tally::default();
    let numbers = only.map_or(0..part.cases, |number| number..number + 1);
    let cases = numbers.end - numbers.start;
    for number in numbers {
        (part.run)(&mut Case::new(part.name, number, seed, &mut tally));
    }
    // A case alone may have no rise.
    if part.name == "vouch" && only.is_none() {
        tally.require_rises();
    }
    println!(
        "{:<18}{:>6} cases{:>9} comparisons{:>4} differences{:>7.1} s",
        part.name,
        cases,
        tally.comparisons,
        tally.differences,
        start.elapsed().as_secs_f64()
    );
    tally
}

/// How often each number was given that was.
fn counted(counts: &[u64]) -> String {
    let counts = counts.iter().enumerate();
    let counts: Vec<String> = counts
        .filter(|&(_, &count)| count > 0)
        .map(|(number, count)| format!("{number}: {count}"))
        .collect();
    counts.join(", ")
}

/// Prints how often each refusal number was compared, each number of an entry, where entries were followed, and each rise of a level, where
/// links were added; and the sum.
fn print_sum(sum: &Tally) {
    println!("answers by refusal: {}", counted(&sum.refusals));
    if sum.entries.iter().any(|&count| count > 0) {
        println!("entries by number: {}", counted(&sum.entries));
    }
    if sum.rises != Tally::default().rises {
        let [level, across, equal] = sum.rises.map(|counts| counted(&counts));
        println!("levels by rise: {level}; across: {across}; equal: {equal}");
    }
    println!(
        "{} comparisons, {} differences",
        sum.comparisons, sum.differences
    );
}

/// A number in decimal, or in hexadecimal after 0x.
fn parse(text: &str) -> Result<u64, String> {
    let parsed = match text.strip_prefix("0x") {
        Some(digits) => u64::from_str_radix(digits, 16),
        None => text.parse(),
    };
    parsed.map_err(|error| format!("{text}: {error}"))
}

/// Runs what the arguments and the environment ask for; the sum over all parts.
fn run() -> Result<Tally, String> {
    let arguments: Vec<String> = env::args().skip(1).collect();
    let seed = env::var("SEED").map_or(Ok(SEED), |text| parse(&text))?;
    let only = arguments.get(1).map(|text| parse(text)).transpose()?;
    let asked = |part: &&Part| arguments.first().map_or(true, |name| name == part.name);
    let parts: Vec<&Part> = PARTS.iter().filter(asked).collect();
    if parts.is_empty() {
        let names = PARTS.map(|part| part.name).join(", ");
        return Err(format!("no such part; the parts are {names}"));
    }
    if parts.iter().any(|part| part.name == "program") {
        let mut paths = program::PROGRAMS.iter().map(|program| program.path());
        if let Some(missing) = paths.find(|path| !path.exists()) {
            return Err(format!("{} is missing", missing.display()));
        }
    }
    println!("seed {seed:#x}");
    let mut sum = Tally::default();
    for part in parts {
        sum.add(&run_part(part, seed, only));
    }
    Ok(sum)
}

fn main() -> ExitCode {
    match run() {
        Ok(sum) => {
            print_sum(&sum);
            ExitCode::from((sum.differences > 0) as u8)
        }
        Err(message) => {
            eprintln!("{message}");
            ExitCode::from(2)
        }
    }
}
