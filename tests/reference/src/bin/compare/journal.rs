//! The journal call, by the reference and by the library, after some of a journal's entries and with tables of many lengths.
mod examples;
mod faults;
mod kinds;
mod places;
mod promises;
mod sequences;

pub use examples::examples;
pub use faults::faults;
pub use kinds::{full, journals};
pub use sequences::sequences;

use crate::case::Case;
use crate::inside::{everyone, lend, lent_groups, Groups};
use crate::table::{lengths_to_try, Table};
use cogsplice::lent::{self, FindingNumbers, WriteNumbers};
use networks::Draw;
use reference::{file_length, work_length, JOURNAL_OUT, JOURNAL_WORK};

/// The mark, the version and n come before the entries.
const HEAD: usize = 7;

/// The bytes of an entry.
const ENTRY: usize = 5;

/// Up to so many links the reference finds as fast as the library.
const FEW: usize = 64;

/// The tables that the call is lent.
#[derive(Clone)]
struct Lent {
    out: Table<u8>,
    numbers: Table<u8>,
    work: Table<u16>,
}

impl Lent {
    fn new(draw: &mut Draw, [out, numbers, work]: [usize; 3]) -> Lent {
        Lent {
            out: Table::bytes(draw, out),
            numbers: Table::bytes(draw, numbers),
            work: Table::words(draw, work),
        }
    }

    /// The answer of the reference, which needs no work table.
    fn reference(&mut self, journal: &[u8], asked: usize) -> WriteNumbers {
        let work = self.work.lend().len();
        reference::journal(journal, asked, self.out.lend(), self.numbers.lend(), work)
    }

    /// The answer of the library.
    fn library(&mut self, journal: &[u8], asked: usize) -> WriteNumbers {
        let Lent { out, numbers, work } = self;
        lent::journal(journal, asked, out.lend(), numbers.lend(), work.lend())
    }

    /// The first difference of each table, but for what the call was free to use.
    fn differences(&mut self, other: &mut Lent, free: usize) -> String {
        self.work.clear(free);
        other.work.clear(free);
        let out = self.out.difference(&other.out);
        let numbers = self.numbers.difference(&other.numbers);
        let work = self.work.difference(&other.work);
        match (out, numbers, work) {
            (None, None, None) => String::new(),
            _ => format!("out {out:?}, numbers {numbers:?}, work {work:?}"),
        }
    }

    /// The file that the output begins with.
    fn written(&mut self, m: usize) -> &[u8] {
        &self.out.lend()[..file_length(1, m)]
    }
}

/// n as the journal's bytes tell it.
fn members(case: &Case) -> usize {
    case.file[5] as usize + 256 * case.file[6] as usize
}

/// The entries of the case's journal, were it accepted.
fn present(case: &Case) -> usize {
    case.file.len().saturating_sub(HEAD) / ENTRY
}

/// The case's journal after many numbers of its entries, each with tables of the needed lengths, but numbers for all entries; and after one
/// of them with tables of other lengths. What is promised of every journal is promised of it.
fn try_journal(case: &mut Case) {
    let before = case.file.clone();
    let present = present(case);
    let tables = Lent::new(&mut case.draw, [JOURNAL_OUT, present, JOURNAL_WORK]);
    let all = asked(&mut case.draw, present);
    for &asked in &all {
        try_tables(case, asked, tables.clone());
    }
    let asked = case.draw.pick(&all);
    let needed = [JOURNAL_OUT, asked.min(present), JOURNAL_WORK];
    for lengths in lengths_to_try(&mut case.draw, needed) {
        let tables = Lent::new(&mut case.draw, lengths);
        try_tables(case, asked, tables);
    }
    let after = case.file.clone();
    case.compare(|| "the journal stays as it was".into(), before, after);
    promises::promises(case);
}

/// How many entries to follow: none, some, all, and more than there are; of these some that 16, 32 or 63 bits would cut to fewer.
fn asked(draw: &mut Draw, present: usize) -> Vec<usize> {
    let mut some = || draw.below(present + 1);
    let mut all = vec![0, some(), some(), present, present + 1];
    all.extend([65_536 + some(), usize::MAX / 2 + 1 + some(), usize::MAX]);
    all
}

/// One call, and what it wrote where it was accepted.
fn try_tables(case: &mut Case, asked: usize, mut tables: Lent) {
    let mut library_tables = tables.clone();
    let expected = tables.reference(&case.file, asked);
    let given = library_tables.library(&case.file, asked);
    let accepted = expected.refusal == 0;
    let free = if accepted { JOURNAL_WORK } else { 0 };
    let differences = tables.differences(&mut library_tables, free);
    case.seen(expected.refusal);
    case.compare(
        || format!("journal, {asked} entries"),
        (expected, String::new()),
        (given, differences),
    );
    if accepted {
        let followed = asked.min(present(case));
        case.followed(&tables.numbers.lend()[..followed]);
        try_written(
            case,
            tables.written(expected.m),
            library_tables.written(expected.m),
        );
    }
}

/// What the library wrote is accepted, and its finding is that of the file of the plain set: by the reference where there are few links,
/// else by the library.
fn try_written(case: &mut Case, plain: &[u8], library: &[u8]) {
    let checked = reference::check(plain);
    case.compare(|| "written: check".into(), checked, lent::check(library));
    let n = checked.n;
    let drawn = lent_groups(&mut case.draw, n, [n, n], [false, false]);
    for inside in [everyone(n), drawn] {
        let expected = match checked.m {
            0..=FEW => finding(n, |s, t| {
                let work = work_length(n, checked.m);
                reference::finding(plain, lend(&inside), s, t, work)
            }),
            _ => library_finding(plain, n, &inside),
        };
        let given = library_finding(library, n, &inside);
        case.compare(|| "written: finding".into(), expected, given);
    }
}

/// A finding with S and T.
fn finding(
    n: usize,
    call: impl FnOnce(&mut [u8], &mut [u8]) -> FindingNumbers,
) -> (FindingNumbers, Groups) {
    let mut groups = [vec![7; n], vec![7; n]];
    let [s, t] = &mut groups;
    (call(s, t), groups)
}

fn library_finding(file: &[u8], n: usize, inside: &Groups) -> (FindingNumbers, Groups) {
    let [a, b] = lend(inside);
    let mut work = vec![0; work_length(n, file.len() / 4)];
    finding(n, |s, t| lent::finding(file, a, b, s, t, &mut work))
}
