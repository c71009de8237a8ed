//! The links that are in both of two files, each in order.
use super::links::Link;
use std::cmp::Ordering;

/// How the links that are in both lists are looked for.
#[derive(Clone, Copy)]
pub enum Merge {
    Blocks,
    Steps,
    Branches,
}

impl Merge {
    /// Writes the links of the first list that are in the second too, of equal weight, to the start of a table and returns how many they are.
    /// The table has room for one link more than the shorter list has.
    pub fn lists<L: Link>(self, first: &[L], second: &[L], out: &mut [L]) -> usize {
        match self {
            Merge::Blocks => by_blocks(first, second, out),
            Merge::Steps => by_steps(first, second, out),
            Merge::Branches => by_branches(first, second, out),
        }
    }
}

/// Where the lists agree this many links are compared at once.
const BLOCK: usize = 8;

/// Where they do not, steps are taken among this many links of each before the lists are compared again.
const WINDOW: usize = 32;

/// Blocks where the lists agree, and steps that branch by no link where they do not.
fn by_blocks<L: Link>(mut first: &[L], mut second: &[L], out: &mut [L]) -> usize {
    let mut both = 0;
    while first.len().min(second.len()) >= WINDOW {
        let out = &mut out[both..];
        let [of_first, of_second, found] = match agreeing(first, second) {
            0 => steps(first, second, out),
            agree => {
                out[..agree].copy_from_slice(&first[..agree]);
                [agree; 3]
            }
        };
        first = &first[of_first..];
        second = &second[of_second..];
        both += found;
    }
    both + by_steps(first, second, &mut out[both..])
}

/// How many links at the start are the same in both lists, in whole blocks.
fn agreeing<L: Link>(first: &[L], second: &[L]) -> usize {
    let blocks = first.chunks_exact(BLOCK).zip(second.chunks_exact(BLOCK));
    BLOCK * blocks.take_while(|(one, other)| one == other).count()
}

/// Steps through a window of each list: how far it comes in each, and how many links it finds in both. The links that may be next are read
/// before it is known which of them is, so that no step waits for a link to be read.
fn steps<L: Link>(first: &[L], second: &[L], out: &mut [L]) -> [usize; 3] {
    // Of this length, so that a remainder is an index without a test.
    let (first, second) = (&first[..WINDOW], &second[..WINDOW]);
    let out = &mut out[..WINDOW];
    let (mut i, mut j, mut both) = (0, 0, 0);
    let (mut one, mut other) = (first[0].mark(), second[0].mark());
    for _ in 1..WINDOW {
        let after_one = first[(i + 1) % WINDOW].mark();
        let after_other = second[(j + 1) % WINDOW].mark();
        out[both % WINDOW] = first[i % WINDOW];
        let (takes_one, takes_other) = (one <= other, other <= one);
        both += usize::from(one == other);
        i += usize::from(takes_one);
        j += usize::from(takes_other);
        one = if takes_one { after_one } else { one };
        other = if takes_other { after_other } else { other };
    }
    [i, j, both]
}

/// Steps that branch by no link, and nothing else: a link of the first list is written in any case, and counted if it is in both.
fn by_steps<L: Link>(first: &[L], second: &[L], out: &mut [L]) -> usize {
    let (mut i, mut j, mut both) = (0, 0, 0);
    while i < first.len() && j < second.len() {
        let (one, other) = (first[i].mark(), second[j].mark());
        out[both] = first[i];
        both += usize::from(one == other);
        i += usize::from(one <= other);
        j += usize::from(other <= one);
    }
    both
}

/// A branch at each link.
fn by_branches<L: Link>(first: &[L], second: &[L], out: &mut [L]) -> usize {
    let (mut i, mut j, mut both) = (0, 0, 0);
    while i < first.len() && j < second.len() {
        match first[i].mark().cmp(&second[j].mark()) {
            Ordering::Less => i += 1,
            Ordering::Greater => j += 1,
            Ordering::Equal => {
                out[both] = first[i];
                both += 1;
                i += 1;
                j += 1;
            }
        }
    }
    both
}
