//! The two programs, fed through a pipe in pieces.
use crate::case::Case;
use crate::damage::{changed_file, faulty_file, FILE_FAULTS};
use crate::networks::{
    disorder_file, full_file, largest_file, medium_file, roomy_network, small_file,
};
use crate::paper::example_file;
use networks::Draw;
use reference::{convert, report, INPUT, OLD_INPUT};
use std::env;
use std::io::{ErrorKind, Result, Write};
use std::path::PathBuf;
use std::process::{ChildStdin, Command, Stdio};
use std::thread::sleep;
use std::time::Duration;

/// A program, the variable that may name another one to run in its place, and what it writes for an input.
pub struct Program {
    name: &'static str,
    variable: &'static str,
    expected: fn(&[u8]) -> Vec<u8>,
}

pub const PROGRAMS: [Program; 2] = [
    Program {
        name: "vouch_report",
        variable: "VOUCH_REPORT",
        expected: |input| report(input).into_bytes(),
    },
    Program {
        name: "vouch_order",
        variable: "VOUCH_ORDER",
        expected: convert,
    },
];

impl Program {
    /// The path in the variable, or where the repository builds the program.
    pub fn path(&self) -> PathBuf {
        let built = PathBuf::from(env!("CARGO_MANIFEST_DIR")).join("../../target/bin");
        match env::var_os(self.variable) {
            Some(path) => path.into(),
            None => built.join(self.name),
        }
    }
}

/// Ways to make an input.
const INPUTS: [fn(&mut Case); 10] = [
    example_file,
    small_file,
    medium_file,
    full_file,
    any_order,
    changed_file,
    faulty,
    over_long,
    |case| case.file = Vec::new(),
    noise,
];

/// A file of any size with its links in another order.
fn any_order(case: &mut Case) {
    let sizes: [fn(&mut Case); 4] = [small_file, medium_file, full_file, largest_file];
    case.draw.pick(&sizes)(case);
    disorder_file(case);
}

/// A file with one fault of its own bytes.
fn faulty(case: &mut Case) {
    let network = roomy_network(case);
    let fault = case.draw.pick(&FILE_FAULTS);
    case.kind += &format!(", fault {fault}");
    case.file = faulty_file(&mut case.draw, &network, &[fault]);
}

/// A file with more bytes after it, around the most that the programs read and far past it.
fn over_long(case: &mut Case) {
    match case.draw.below(3) {
        0 => small_file(case),
        _ => largest_file(case),
    }
    if case.draw.one_in(2) {
        disorder_file(case);
    }
    let most = case.draw.pick(&[INPUT, OLD_INPUT]);
    let lengths = [most - 1, most, most + 1, most + 30_000, 300_000];
    let length = case.draw.pick(&lengths);
    let more = length.saturating_sub(case.file.len());
    case.file.extend(case.draw.bytes(more));
    case.kind += &format!(", lengthened to {length}");
}

/// Random bytes, with or without the mark.
fn noise(case: &mut Case) {
    let length = case.draw.among(0, 40);
    case.file = case.draw.bytes(length);
    if case.draw.one_in(2) {
        case.file.splice(..length.min(3), *b"VCH");
    }
    case.kind = "noise".into();
}

/// Writes the input in pieces of random lengths up to the longest, now and then with a pause.
fn feed(draw: &mut Draw, mut pipe: ChildStdin, input: &[u8]) -> Result<()> {
    let longest = draw.pick(&[1, 3, 100, 5000, 400_000]);
    let mut rest = input;
    let mut pauses = 0;
    while !rest.is_empty() {
        let (piece, later) = rest.split_at(draw.among(1, longest).min(rest.len()));
        pipe.write_all(piece)?;
        rest = later;
        if pauses < 20 && draw.one_in(3) {
            pauses += 1;
            sleep(Duration::from_micros(draw.among(1, 1500) as u64));
        }
    }
    Ok(())
}

/// The exit code of a program and what it writes for the case's file. It may stop reading early: a closed pipe is no fault.
fn run(case: &mut Case, program: &Program) -> Result<(Option<i32>, Vec<u8>)> {
    let mut command = Command::new(program.path());
    let mut child = command
        .stdin(Stdio::piped())
        .stdout(Stdio::piped())
        .spawn()?;
    let pipe = child.stdin.take().ok_or(ErrorKind::BrokenPipe)?;
    match feed(&mut case.draw, pipe, &case.file) {
        Err(error) if error.kind() != ErrorKind::BrokenPipe => return Err(error),
        _ => (),
    }
    let output = child.wait_with_output()?;
    Ok((output.status.code(), output.stdout))
}

pub fn program(case: &mut Case) {
    let input = INPUTS[case.number as usize % INPUTS.len()];
    case.turn = case.number / INPUTS.len() as u64;
    input(case);
    for program in &PROGRAMS {
        let expected = (Some(0), (program.expected)(&case.file));
        let given = run(case, program);
        let given = given.unwrap_or_else(|error| (None, error.to_string().into_bytes()));
        case.compare(|| program.name.into(), expected, given);
    }
}
