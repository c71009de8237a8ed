//! Journals worked out by hand, by the reference and by the library.
use super::places::places;
use super::{members, try_journal, Lent, HEAD};
use crate::case::Case;
use cogsplice::lent::WriteNumbers;
use networks::{add, encode, encode_journal, return_to, set, withdraw, Entry, Link, Network};
use reference::{JOURNAL_OUT, JOURNAL_WORK, MEMBERS};

/// An entry, its number, and the links present after it.
type Step = (Entry, u8, &'static [Link]);

/// Three members. Every number but 19 and 20, and named states that hold until they are set again.
const MONTH: [Step; 30] = [
    (add((0, 1)), 0, &[(0, 1)]),
    (add((0, 1)), 16, &[(0, 1)]),
    (withdraw((1, 0)), 17, &[(0, 1)]),
    // 10 for either member, and before 17.
    (add((0, 3)), 10, &[(0, 1)]),
    (add((3, 0)), 10, &[(0, 1)]),
    (withdraw((3, 3)), 10, &[(0, 1)]),
    // Neither a kind nor a state.
    ((4, 0, 0), 18, &[(0, 1)]),
    (return_to(0), 18, &[(0, 1)]),
    (set(0), 0, &[(0, 1)]),
    (add((2, 2)), 0, &[(0, 1), (2, 2)]),
    (set(1), 0, &[(0, 1), (2, 2)]),
    (withdraw((0, 1)), 0, &[(2, 2)]),
    // A return leaves the other names, and its own, which may be returned to again.
    (return_to(0), 0, &[(0, 1)]),
    (return_to(1), 0, &[(0, 1), (2, 2)]),
    (return_to(0), 0, &[(0, 1)]),
    (return_to(0), 0, &[(0, 1)]),
    // What follows a return is no part of the state.
    (add((1, 2)), 0, &[(0, 1), (1, 2)]),
    (return_to(0), 0, &[(0, 1)]),
    (add((1, 2)), 0, &[(0, 1), (1, 2)]),
    // Set again, after which the earlier one is gone.
    (set(0), 0, &[(0, 1), (1, 2)]),
    (withdraw((1, 2)), 0, &[(0, 1)]),
    (return_to(0), 0, &[(0, 1), (1, 2)]),
    // Names above 3, also one whose low byte is not, and a last number that is not 0, also by its high byte alone: nothing is set.
    (withdraw((0, 1)), 0, &[(1, 2)]),
    (set(4), 18, &[(1, 2)]),
    (set(256), 18, &[(1, 2)]),
    ((2, 0, 1), 18, &[(1, 2)]),
    ((3, 0, 256), 18, &[(1, 2)]),
    (return_to(0), 0, &[(0, 1), (1, 2)]),
    // A state set and one that never was.
    (return_to(1), 0, &[(0, 1), (2, 2)]),
    (return_to(2), 18, &[(0, 1), (2, 2)]),
];

/// Nobody: no link can be added, and 18 comes before 10, which is for kinds 0 and 1 alone.
const NOBODY: [Step; 6] = [
    (add((0, 0)), 10, &[]),
    (withdraw((0, 0)), 10, &[]),
    (return_to(3), 18, &[]),
    (set(3), 0, &[]),
    (return_to(3), 0, &[]),
    ((255, 65_535, 65_535), 18, &[]),
];

/// The most members, in numbers of two bytes, entered in no order.
const EVERYONE: [Step; 6] = [
    (add((2047, 2047)), 0, &[(2047, 2047)]),
    (add((256, 1)), 0, &[(256, 1), (2047, 2047)]),
    (add((255, 2)), 0, &[(255, 2), (256, 1), (2047, 2047)]),
    (add((2048, 0)), 10, &[(255, 2), (256, 1), (2047, 2047)]),
    (withdraw((1, 256)), 17, &[(255, 2), (256, 1), (2047, 2047)]),
    (withdraw((256, 1)), 0, &[(255, 2), (2047, 2047)]),
];

pub fn examples(case: &mut Case) {
    for (n, steps) in [(3, &MONTH[..]), (0, &NOBODY), (MEMBERS, &EVERYONE)] {
        let entries: Vec<Entry> = steps.iter().map(|step| step.0).collect();
        let numbers: Vec<u8> = steps.iter().map(|step| step.1).collect();
        set_journal(case, n, &entries);
        expect_followed(case, 0, &[], &[]);
        for followed in 1..=steps.len() {
            let links = steps[followed - 1].2;
            expect_followed(case, followed, &numbers[..followed], links);
        }
        for asked in [steps.len() + 1, 65_536, usize::MAX] {
            expect_followed(case, asked, &numbers, steps[steps.len() - 1].2);
        }
        try_journal(case);
    }
    expect_heads(case);
    expect_lengths(case);
    places(case);
}

pub fn set_journal(case: &mut Case, n: usize, entries: &[Entry]) {
    case.kind = format!("n {n}, {} entries", entries.len());
    case.file = encode_journal(n, entries);
}

/// The numbers of the entries followed, and the file of the links then present. All other bytes stay.
pub fn expect_followed(case: &mut Case, asked: usize, numbers: &[u8], links: &[Link]) {
    let file = encode(&Network::new(members(case), links));
    let expected = WriteNumbers {
        refusal: 0,
        link: 0,
        m: links.len(),
    };
    let lengths = [JOURNAL_OUT + 1, numbers.len() + 1, JOURNAL_WORK + 1];
    let before = Lent::new(&mut case.draw, lengths);
    let mut wanted = before.clone();
    wanted.out.lend()[..file.len()].copy_from_slice(&file);
    wanted.numbers.lend()[..numbers.len()].copy_from_slice(numbers);
    let calls: [(&str, Call); 2] = [
        ("journal: reference", Lent::reference),
        ("journal", Lent::library),
    ];
    for (name, call) in calls {
        let mut tables = before.clone();
        let given = call(&mut tables, &case.file, asked);
        let differences = wanted.differences(&mut tables, JOURNAL_WORK);
        case.compare(
            || format!("{name}, {asked} entries"),
            (expected, String::new()),
            (given, differences),
        );
    }
}

/// The call by the reference or by the library.
type Call = fn(&mut Lent, &[u8], usize) -> WriteNumbers;

/// The refusal of the case's journal, whatever of it is asked for, with tables that are long enough.
fn expect_refusal(case: &mut Case, refusal: u16) {
    let mut tables = Lent::new(&mut case.draw, [JOURNAL_OUT, 100, JOURNAL_WORK]);
    for asked in [0, 1, usize::MAX] {
        let plain = tables.reference(&case.file, asked).refusal;
        case.compare(|| "journal: reference".into(), refusal, plain);
        let given = tables.library(&case.file, asked).refusal;
        case.compare(|| "journal".into(), refusal, given);
    }
    try_journal(case);
}

/// Heads: no bytes, which are no journal, every length to the last of the head, and the limit of n.
fn expect_heads(case: &mut Case) {
    for n in [0, 1, MEMBERS] {
        set_journal(case, n, &[]);
        expect_followed(case, usize::MAX, &[], &[]);
        expect_refusal(case, 0);
        for length in 0..HEAD {
            case.file.truncate(HEAD - 1 - length);
            case.kind = format!("{} bytes", case.file.len());
            expect_refusal(case, 1);
        }
    }
    for n in [2049, 4096, 65_535] {
        set_journal(case, n, &[add((0, 0))]);
        expect_refusal(case, 4);
    }
    for (place, refusal) in [2, 2, 2, 3, 3].into_iter().enumerate() {
        set_journal(case, 1, &[add((0, 0))]);
        case.file[place] ^= 0x20;
        case.kind = format!("byte {place} changed");
        expect_refusal(case, refusal);
    }
    case.file = encode(&Network::w());
    case.kind = "a network file".into();
    expect_refusal(case, 2);
}

/// Entries cut off and bytes too many: 6 unless the rest divides by five.
fn expect_lengths(case: &mut Case) {
    set_journal(case, 2, &[add((0, 0)), set(1), add((0, 1))]);
    let whole = case.file.clone();
    for length in HEAD..whole.len() + 6 {
        case.file = whole.clone();
        case.file.resize(length, 0);
        case.kind = format!("{length} bytes");
        let divides = (length - HEAD) % 5 == 0;
        expect_refusal(case, if divides { 0 } else { 6 });
    }
}
