//! The call on a journal: its sides, the comparison of their answers, and their times.
use crate::journals::Journal;
use crate::measure::{least_times, opaque};
use crate::plain::{Links, States};
use cogsplice::{lent, JOURNAL_OUT, JOURNAL_WORK};
use std::collections::BTreeSet;

/// A journal, how many of its entries are refused, and the time of one call on each side, in microseconds.
pub struct Followed {
    pub journal: Journal,
    pub refused: usize,
    pub library: f64,
    pub plain: f64,
    /// Plain Rust over a `BTreeSet`.
    pub tree: f64,
}

impl Followed {
    pub fn ratio(&self) -> f64 {
        self.library / self.plain
    }
}

/// The tables that a side is lent.
#[derive(Clone, PartialEq, Eq)]
struct Tables {
    out: Vec<u8>,
    numbers: Vec<u8>,
}

impl Tables {
    /// Tables that are long enough for so many entries, full of one number.
    fn new(entries: usize, full: u8) -> Self {
        Self {
            out: vec![full; JOURNAL_OUT],
            numbers: vec![full; entries],
        }
    }
}

trait Side {
    /// The refusal, and m.
    fn follow(&mut self, journal: &[u8], asked: usize, tables: &mut Tables) -> [usize; 2];
}

/// The proved library, with the work table that it is lent.
struct Library {
    work: Vec<u16>,
}

impl Side for Library {
    fn follow(&mut self, journal: &[u8], asked: usize, tables: &mut Tables) -> [usize; 2] {
        let Tables { out, numbers } = tables;
        let told = lent::journal(journal, asked, out, numbers, &mut self.work);
        assert_eq!(told.link, 0, "a journal has no link's number");
        [told.refusal.into(), told.m]
    }
}

impl<L: Links> Side for States<L> {
    fn follow(&mut self, journal: &[u8], asked: usize, tables: &mut Tables) -> [usize; 2] {
        match self.journal(journal, asked, &mut tables.out, &mut tables.numbers) {
            Ok([m]) => [0, m],
            Err(refusal) => [refusal.number.into(), 0],
        }
    }
}

/// The sides, the library first.
struct Sides {
    library: Library,
    plain: States<Vec<u32>>,
    tree: States<BTreeSet<u32>>,
}

impl Sides {
    /// What every side answers, over tables that are full of the same number before; all leave the same tables.
    fn agree(&mut self, journal: &[u8], asked: usize, lent: &Tables) -> ([usize; 2], Tables) {
        let sides: [&mut dyn Side; 3] = [&mut self.library, &mut self.plain, &mut self.tree];
        let mut left = sides.into_iter().map(|side| {
            let mut tables = lent.clone();
            (side.follow(journal, asked, &mut tables), tables)
        });
        let library = left.next().expect("the library is a side");
        assert!(left.all(|other| other == library), "the sides differ");
        library
    }
}

/// Compares the answers of all sides, then times following all entries.
pub fn follow(journal: Journal) -> Followed {
    let mut sides = Sides {
        library: Library {
            work: vec![0; JOURNAL_WORK],
        },
        plain: States::default(),
        tree: States::default(),
    };
    let entries = journal.entries();
    for asked in [0, 1, entries / 2, entries, usize::MAX] {
        // A byte that only one side writes differs from one of the two numbers.
        for full in [0, 255] {
            let lent = Tables::new(entries, full);
            let ([refusal, _], _) = sides.agree(&journal.bytes, asked, &lent);
            assert_eq!(refusal, 0, "{} is refused", journal.name);
        }
    }
    compare_refusals(&mut sides, &journal);
    let (_, left) = sides.agree(&journal.bytes, entries, &Tables::new(entries, 255));
    let refused = left.numbers.iter().filter(|&&number| number > 0).count();
    let [library, plain, tree] = time(&mut sides, &journal.bytes, left);
    Followed {
        journal,
        refused,
        library,
        plain,
        tree,
    }
}

/// Each damaged journal, and each table that is too short, gets its refusal from every side, and no table changes.
fn compare_refusals(sides: &mut Sides, journal: &Journal) {
    let (bytes, entries) = (&journal.bytes, journal.entries());
    let mut damaged = vec![
        (1, Vec::new()),
        (1, bytes[..6].to_vec()),
        (6, bytes[..bytes.len() - 1].to_vec()),
    ];
    for (number, at, byte) in [(2, 2, 0), (3, 4, 1), (4, 6, 255)] {
        let mut copy = bytes.clone();
        copy[at] = byte;
        damaged.push((number, copy));
    }
    let lent = Tables::new(entries, 255);
    let mut short = [lent.clone(), lent.clone()];
    short[0].out.pop();
    short[1].numbers.pop();
    let damaged = damaged
        .into_iter()
        .map(|(number, bytes)| (number, bytes, lent.clone()));
    let short = short.into_iter().map(|lent| (9, bytes.clone(), lent));
    for (number, bytes, lent) in damaged.chain(short) {
        let (told, left) = sides.agree(&bytes, usize::MAX, &lent);
        assert_eq!(told, [number, 0]);
        assert!(left == lent, "the tables after refusals");
    }
}

/// The time of one call on each side.
fn time(sides: &mut Sides, journal: &[u8], tables: Tables) -> [f64; 3] {
    let Sides {
        library,
        plain,
        tree,
    } = sides;
    let mut lent = [tables.clone(), tables.clone(), tables];
    let [of_library, of_plain, of_tree] = &mut lent;
    let asked = usize::MAX;
    least_times([
        &mut || {
            opaque(library.follow(opaque(journal), asked, of_library));
        },
        &mut || {
            opaque(plain.follow(opaque(journal), asked, of_plain));
        },
        &mut || {
            opaque(tree.follow(opaque(journal), asked, of_tree));
        },
    ])
}
