//! All short journals over a few entries, without links or from links on that take all places but one.
use super::{Lent, HEAD};
use crate::case::Case;
use networks::{add, encode_journal, return_to, set, withdraw, Entry};
use reference::{JOURNAL_OUT, JOURNAL_WORK};

/// One member: its link, two names, one of them never above 3, and an entry that is none.
const OF_ONE: [Entry; 8] = [
    add((0, 0)),
    withdraw((0, 0)),
    set(0),
    set(3),
    return_to(0),
    return_to(3),
    add((0, 1)),
    (4, 0, 0),
];

/// Two members: their links, two names, and entries of which one names a stranger and one is none.
const OF_TWO: [Entry; 14] = [
    add((0, 0)),
    add((0, 1)),
    add((1, 0)),
    add((1, 1)),
    withdraw((0, 0)),
    withdraw((0, 1)),
    withdraw((1, 0)),
    withdraw((1, 1)),
    set(0),
    set(1),
    return_to(0),
    return_to(1),
    withdraw((2, 0)),
    (2, 0, 1),
];

/// 2,047 members, of whom one has seven links and one four, so that one place is anyone's: what they and a third member may do next.
const AT_THE_EDGE: [Entry; 10] = [
    add((0, 7)),
    add((0, 8)),
    add((1, 4)),
    add((2, 0)),
    add((2, 1)),
    withdraw((0, 0)),
    withdraw((1, 0)),
    withdraw((2, 0)),
    set(0),
    return_to(0),
];

/// 2,033 members, of whom one has 63 links and one four, so that one place is anyone's: what they may do next.
const AT_64: [Entry; 9] = [
    add((0, 63)),
    add((0, 64)),
    add((0, 0)),
    add((1, 4)),
    add((1, 0)),
    withdraw((0, 0)),
    withdraw((1, 0)),
    set(3),
    return_to(3),
];

/// Journals that begin with the links of two members, and then have so many entries at most, each of them one of a few.
struct Sequences {
    n: usize,
    given: [usize; 2],
    entries: &'static [Entry],
    most: usize,
}

static SEQUENCES: [Sequences; 4] = [
    Sequences {
        n: 1,
        given: [0, 0],
        entries: &OF_ONE,
        most: 6,
    },
    Sequences {
        n: 2,
        given: [0, 0],
        entries: &OF_TWO,
        most: 5,
    },
    Sequences {
        n: 2047,
        given: [7, 4],
        entries: &AT_THE_EDGE,
        most: 5,
    },
    Sequences {
        n: 2033,
        given: [63, 4],
        entries: &AT_64,
        most: 4,
    },
];

impl Sequences {
    /// What every one of them begins with.
    fn begin(&self) -> Vec<Entry> {
        let members = self.given.iter().enumerate();
        let links =
            members.flat_map(|(member, &given)| (0..given).map(move |vouched| (member, vouched)));
        links.map(add).collect()
    }

    /// The most entries of one.
    fn longest(&self) -> usize {
        self.given.iter().sum::<usize>() + self.most
    }
}

/// The library's tables and the reference's, equal after every call.
struct Both {
    plain: Lent,
    library: Lent,
}

/// The journals that go on with two entries, which the case's number tells: those over one member come first, and so on. The first case of
/// each kind also has the journals with fewer entries.
pub fn sequences(case: &mut Case) {
    let (sequences, number) = chosen(case.number as usize);
    let entries = sequences.entries;
    let first = entries[number / entries.len() % entries.len()];
    let second = entries[number % entries.len()];
    let lengths = [JOURNAL_OUT + 1, sequences.longest() + 1, JOURNAL_WORK + 1];
    let plain = Lent::new(&mut case.draw, lengths);
    let library = plain.clone();
    let mut both = Both { plain, library };
    case.kind = format!("n {}, all short ones", sequences.n);
    let mut begun = sequences.begin();
    if number == 0 {
        follow(case, &mut both, sequences, &begun);
        for &entry in entries {
            follow(case, &mut both, sequences, &[&begun[..], &[entry]].concat());
        }
    }
    begun.extend([first, second]);
    continue_all(case, &mut both, sequences, &mut begun);
    let differences = both.plain.differences(&mut both.library, JOURNAL_WORK);
    case.compare(
        || "behind the work table".into(),
        String::new(),
        differences,
    );
}

/// The kind of the case, and its number among the cases of this kind.
fn chosen(mut number: usize) -> (&'static Sequences, usize) {
    let mut last = 0;
    while last + 1 < SEQUENCES.len() && number >= SEQUENCES[last].entries.len().pow(2) {
        number -= SEQUENCES[last].entries.len().pow(2);
        last += 1;
    }
    (&SEQUENCES[last], number)
}

/// A journal, and all that go on from it.
fn continue_all(case: &mut Case, both: &mut Both, sequences: &Sequences, begun: &mut Vec<Entry>) {
    follow(case, both, sequences, begun);
    if begun.len() < sequences.longest() {
        for &entry in sequences.entries {
            begun.push(entry);
            continue_all(case, both, sequences, begun);
            begun.pop();
        }
    }
}

/// All entries of a journal, in tables that hold what earlier ones left.
fn follow(case: &mut Case, both: &mut Both, sequences: &Sequences, entries: &[Entry]) {
    case.file = encode_journal(sequences.n, entries);
    let Both { plain, library } = both;
    let expected = plain.reference(&case.file, usize::MAX);
    let given = library.library(&case.file, usize::MAX);
    let numbers = &plain.numbers.lend()[..(case.file.len() - HEAD) / 5];
    case.seen(expected.refusal);
    case.followed(numbers);
    let out = plain.out.difference(&library.out);
    let numbers = plain.numbers.difference(&library.numbers);
    case.compare(
        || "journal: answer, out and numbers".into(),
        (expected, None, None),
        (given, out, numbers),
    );
    if out.is_some() || numbers.is_some() {
        library.clone_from(plain);
    }
}
