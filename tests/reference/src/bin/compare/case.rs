//! One case: its random numbers, its file, and the comparisons made in it.
use networks::Draw;
use reference::{file_length, LINKS, MEMBERS};
use std::fmt::Debug;

/// The most differences that are printed.
const PRINTED: u64 = 20;

/// Comparisons and differences so far.
#[derive(Default)]
pub struct Tally {
    pub comparisons: u64,
    pub differences: u64,
    /// For each refusal number, how many answers had it; for 0, how many were accepted.
    pub refusals: [u64; 23],
    /// For each number of a journal's entry, how many followed entries had it; for 0, how many were accepted.
    pub entries: [u64; 21],
    /// For the level, the level across and the equal level, how often a link more left it as it was and how often it raised it by 1.
    pub rises: [[u64; 2]; 3],
}

/// Bytes in hexadecimal.
pub fn hex(bytes: &[u8]) -> String {
    bytes.iter().map(|byte| format!("{byte:02x}")).collect()
}

impl Tally {
    pub fn add(&mut self, other: &Tally) {
        self.comparisons += other.comparisons;
        self.differences += other.differences;
        for (sum, more) in self.refusals.iter_mut().zip(other.refusals) {
            *sum += more;
        }
        for (sum, more) in self.entries.iter_mut().zip(other.entries) {
            *sum += more;
        }
        for (sum, more) in self.rises.iter_mut().flatten().zip(other.rises.concat()) {
            *sum += more;
        }
    }

    /// Of each of the three calls a level must have stayed and one must have risen: else too little was tried.
    pub fn require_rises(&mut self) {
        self.comparisons += 1;
        if self.rises.concat().contains(&0) {
            self.differences += 1;
            println!("DIFFERENCE over all cases: rises {:?}", self.rises);
        }
    }
}

pub struct Case<'a> {
    pub part: &'static str,
    pub number: u64,
    /// The kinds of networks take turns by it: the case's number, where a part does not say otherwise.
    pub turn: u64,
    pub seed: u64,
    pub draw: Draw,
    /// What the network was made by, or how it was damaged.
    pub kind: String,
    pub file: Vec<u8>,
    tally: &'a mut Tally,
}

impl<'a> Case<'a> {
    pub fn new(part: &'static str, number: u64, seed: u64, tally: &'a mut Tally) -> Case<'a> {
        // The case's own start: the part's letters and the case's number stirred into the seed.
        let mut start = Draw::new(seed ^ number.wrapping_mul(0xd134_2543_de82_ef95)).number();
        for letter in part.bytes() {
            start = Draw::new(start ^ letter as u64).number();
        }
        let draw = Draw::new(start);
        Case {
            part,
            number,
            turn: number,
            seed,
            draw,
            kind: String::new(),
            file: Vec::new(),
            tally,
        }
    }

    /// n and m as the file's bytes claim them, kept within the limits; 0 where there are no such bytes. Tables are lent by them.
    pub fn claimed(&self) -> (usize, usize) {
        match self.file.get(5..9) {
            Some(head) => {
                let number = |low, high| u16::from_le_bytes([low, high]) as usize;
                (
                    number(head[0], head[1]).min(MEMBERS),
                    number(head[2], head[3]).min(LINKS),
                )
            }
            None => (0, 0),
        }
    }

    /// 2 where the file's bytes claim this version, else 1.
    pub fn version(&self) -> usize {
        match self.file.get(3..5) {
            Some([2, 0]) => 2,
            _ => 1,
        }
    }

    /// The length of a file of this version with the claimed m.
    pub fn claimed_length(&self) -> usize {
        file_length(self.version(), self.claimed().1)
    }

    /// Counts an answer of the reference by its refusal number.
    pub fn seen(&mut self, refusal: u16) {
        self.tally.refusals[refusal as usize] += 1;
    }

    /// Counts the entries of a journal that the reference followed by their numbers.
    pub fn followed(&mut self, numbers: &[u8]) {
        for &number in numbers {
            self.tally.entries[number as usize] += 1;
        }
    }

    /// Counts how far a link more raised a level: the level, the level across or the equal level, in this order.
    pub fn rose(&mut self, level: usize, by: usize) {
        self.tally.rises[level][by] += 1;
    }

    /// Compares what was expected, by the reference or by the paper, with what the library gave.
    pub fn compare<A: PartialEq + Debug>(
        &mut self,
        call: impl FnOnce() -> String,
        expected: A,
        library: A,
    ) {
        self.tally.comparisons += 1;
        if expected == library {
            return;
        }
        self.tally.differences += 1;
        if self.tally.differences <= PRINTED {
            println!("DIFFERENCE in part {}, case {}", self.part, self.number);
            println!("  seed {:#x}, kind {}", self.seed, self.kind);
            println!("  call {}", call());
            println!("  expected {expected:?}");
            println!("  library  {library:?}");
            println!("  file {}", hex(&self.file));
        }
    }
}
