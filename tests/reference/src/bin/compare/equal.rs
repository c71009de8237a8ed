//! Whether two findings are equal: examples by hand, findings that differ in one thing or in n, each choice of what may be faulty in both,
//! the laws of equality, and what the library finds in networks.
use crate::case::Case;
use crate::inside::{everyone, lend, lent_groups, Groups};
use crate::kinds::KINDS;
use crate::networks::small_file;
use crate::table::Table;
use cogsplice::lent::{self, EqualNumbers};
use networks::Draw;
use reference::{equal_findings, first_of, read, work_length, Found, MEMBERS};

/// A finding as the call is given it: x and y, n, and the bytes of S and T, which may be more than n.
#[derive(Clone, Debug, PartialEq)]
struct Finding {
    x: usize,
    y: usize,
    n: usize,
    groups: Groups,
}

impl Finding {
    /// The same with something changed.
    fn with(&self, change: impl FnOnce(&mut Finding)) -> Finding {
        let mut changed = self.clone();
        change(&mut changed);
        changed
    }

    /// The same with more bytes behind both groups, which may be anything.
    fn longer(&self, draw: &mut Draw) -> Finding {
        self.with(|longer| {
            for group in &mut longer.groups {
                let more = draw.among(1, 40);
                group.extend(draw.bytes(more));
            }
        })
    }

    fn tables(&self, draw: &mut Draw) -> [Table<u8>; 2] {
        lend(&self.groups).map(|group| Table::holding(draw, group))
    }

    fn found(&self) -> Found<'_> {
        Found {
            x: self.x,
            y: self.y,
            n: self.n,
            groups: lend(&self.groups),
        }
    }
}

/// The answer where nothing is refused.
fn accepted(equal: bool) -> EqualNumbers {
    EqualNumbers { refusal: 0, equal }
}

fn refused(refusal: u16) -> EqualNumbers {
    EqualNumbers {
        refusal,
        equal: false,
    }
}

/// The library's call, with the groups in these tables.
fn library([one, other]: [&Finding; 2], tables: &mut [[Table<u8>; 2]; 2]) -> EqualNumbers {
    let [[s1, t1], [s2, t2]] = tables;
    lent::equal_findings(
        one.x,
        one.y,
        one.n,
        s1.lend(),
        t1.lend(),
        other.x,
        other.y,
        other.n,
        s2.lend(),
        t2.lend(),
    )
}

/// The call by the reference and by the library, which has the two either way round; what the library gave.
fn try_call(case: &mut Case, what: &str, one: &Finding, other: &Finding) -> EqualNumbers {
    let expected = equal_findings(&one.found(), &other.found());
    case.seen(expected.refusal);
    let [given, _] = [[one, other], [other, one]].map(|pair| {
        let tables = pair.map(|finding| finding.tables(&mut case.draw));
        let mut library_tables = tables.clone();
        let given = library(pair, &mut library_tables);
        case.compare(
            || format!("equal_findings, {what}: {pair:?}"),
            (expected, tables),
            (given, library_tables),
        );
        given
    });
    given
}

/// The call, with the answer that is known.
fn expect(case: &mut Case, what: &str, one: &Finding, other: &Finding, wanted: EqualNumbers) {
    let given = try_call(case, what, one, other);
    case.compare(|| format!("equal_findings, {what}: known"), wanted, given);
}

/// Two findings that nothing is wrong with, in tables of exactly n bytes: equal where all that they have agrees, and so in longer tables.
fn expect_decided(case: &mut Case, what: &str, one: &Finding, other: &Finding) {
    let wanted = accepted(one == other);
    expect(case, what, one, other, wanted);
    let [one, other] = [one, other].map(|finding| finding.longer(&mut case.draw));
    expect(case, &format!("{what}, longer"), &one, &other, wanted);
}

/// A finding of an example: x, y, n, and the bytes of S and T.
type Plain = (usize, usize, usize, &'static [u8], &'static [u8]);

/// W's finding.
const W: Plain = (2, 3, 6, &[1, 1, 1, 0, 0, 0], &[0, 0, 0, 1, 1, 0]);

/// Two findings, the number that refuses them, and whether they are equal.
type Example = (Plain, Plain, u16, bool);

const EXAMPLES: [Example; 25] = [
    (W, W, 0, true),
    // Another [2,3]: the members 3, 4 and 5 vouch for 0 and 1.
    (
        W,
        (2, 3, 6, &[0, 0, 0, 1, 1, 1], &[1, 1, 0, 0, 0, 0]),
        0,
        false,
    ),
    // One of three is another, in S alone and in T alone.
    (W, (2, 3, 6, &[1, 1, 0, 0, 0, 1], W.4), 0, false),
    (W, (2, 3, 6, W.3, &[0, 0, 0, 1, 0, 1]), 0, false),
    (W, (2, 3, 6, W.4, W.3), 0, false),
    (W, (3, 2, 6, W.3, W.4), 0, false),
    (W, (3, 3, 6, W.3, W.4), 0, false),
    (W, (2, 2, 6, W.3, W.4), 0, false),
    // The same members among five, and among seven.
    (W, (2, 3, 5, W.3, W.4), 0, false),
    (
        W,
        (2, 3, 7, &[1, 1, 1, 0, 0, 0, 0], &[0, 0, 0, 1, 1, 0, 0]),
        0,
        false,
    ),
    // Past n a table may hold anything.
    (
        W,
        (2, 3, 6, &[1, 1, 1, 0, 0, 0, 2, 255], &[0, 0, 0, 1, 1, 0, 1]),
        0,
        true,
    ),
    // Quiet months among nobody, among one member and among two.
    ((0, 0, 0, &[], &[]), (0, 0, 0, &[], &[9]), 0, true),
    ((0, 0, 0, &[], &[]), (0, 0, 1, &[0], &[0]), 0, false),
    ((0, 0, 0, &[0], &[0]), (0, 0, 1, &[0], &[0]), 0, false),
    (
        (0, 0, 2, &[0, 0], &[0, 0]),
        (0, 0, 2, &[0, 0, 1], &[0, 0]),
        0,
        true,
    ),
    // 4 comes before 9, and 9 before 11.
    (W, (2, 3, 2049, W.3, W.4), 4, false),
    (
        (2, 3, usize::MAX, &[], &[]),
        (2, 3, 2049, &[2], &[2]),
        4,
        false,
    ),
    (W, (2, 3, 2048, W.3, W.4), 9, false),
    (W, (2, 3, 7, W.3, W.4), 9, false),
    (W, (2, 3, 6, W.3, &[0, 0, 0, 1, 1]), 9, false),
    ((0, 0, 1, &[2], &[]), (0, 0, 0, &[], &[]), 9, false),
    ((0, 0, 1, &[2], &[0]), (0, 0, 2, &[0], &[0, 0]), 9, false),
    // 11 comes before what another n means, or other numbers or members.
    (
        W,
        (2, 3, 7, &[1, 1, 1, 0, 0, 0, 2], &[0, 0, 0, 1, 1, 0, 0]),
        11,
        false,
    ),
    (W, (1, 1, 6, W.3, &[0, 0, 0, 1, 1, 255]), 11, false),
    ((0, 0, 1, &[2], &[0]), (0, 0, 1, &[2], &[0]), 11, false),
];

fn try_examples(case: &mut Case) {
    let finding = |(x, y, n, s, t): Plain| Finding {
        x,
        y,
        n,
        groups: [s.to_vec(), t.to_vec()],
    };
    for (one, other, refusal, equal) in EXAMPLES {
        let wanted = EqualNumbers { refusal, equal };
        expect(case, "example", &finding(one), &finding(other), wanted);
    }
}

/// A finding of n members, in tables of exactly n bytes; x and y are small, at the limits of fewer bits, the greatest, or any.
fn drawn(draw: &mut Draw, n: usize) -> Finding {
    let mut number = || {
        let any = draw.number() as usize;
        draw.pick(&[0, 1, 2, 3, 65_535, 65_536, usize::MAX, any])
    };
    Finding {
        x: number(),
        y: number(),
        n,
        groups: lent_groups(draw, n, [n, n], [false, false]),
    }
}

/// Findings that agree in all, or in all but x, y or both: by each bit, and exchanged.
fn try_numbers(case: &mut Case, n: usize) {
    let one = drawn(&mut case.draw, n);
    expect_decided(case, "all agrees", &one, &one);
    for bit in 0..usize::BITS {
        let other = one.with(|other| other.x ^= 1 << bit);
        expect_decided(case, "x alone", &one, &other);
        let other = one.with(|other| other.y ^= 1 << bit);
        expect_decided(case, "y alone", &one, &other);
        let both = other.with(|both| both.x ^= 1 << bit);
        expect_decided(case, "x and y", &one, &both);
    }
    let exchanged = one.with(|other| (other.x, other.y) = (one.y, one.x));
    expect_decided(case, "x and y exchanged", &one, &exchanged);
}

/// Places among n bytes: all where they are few, else the first, the last and some between.
fn places(draw: &mut Draw, n: usize) -> Vec<usize> {
    match n {
        0..=65 => (0..n).collect(),
        _ => {
            let mut places = vec![0, n - 1];
            places.extend([(); 8].map(|()| draw.below(n)));
            places
        }
    }
}

/// A byte that is neither 0 nor 1.
fn faulty_byte(draw: &mut Draw) -> u8 {
    let any = draw.among(2, 255) as u8;
    draw.pick(&[2, 255, any])
}

/// Findings that agree in all but one byte of a group, where one member more or less is in it or the byte is faulty.
fn try_bytes(case: &mut Case, n: usize) {
    let one = drawn(&mut case.draw, n);
    for place in places(&mut case.draw, n) {
        for group in [0, 1] {
            let other = one.with(|other| other.groups[group][place] ^= 1);
            expect_decided(case, "one member", &one, &other);
            let byte = faulty_byte(&mut case.draw);
            let faulty = one.with(|faulty| faulty.groups[group][place] = byte);
            expect(case, "one faulty byte", &one, &faulty, refused(11));
            expect(case, "it twice", &faulty, &faulty, refused(11));
        }
    }
}

/// Findings whose groups have as many members: exchanged with each other, and with one member in another's stead.
fn try_exchanges(case: &mut Case, n: usize) {
    let one = drawn(&mut case.draw, n);
    let exchanged = one.with(|other| other.groups.swap(0, 1));
    expect_decided(case, "S and T exchanged", &one, &exchanged);
    for group in [0, 1] {
        let place = |byte| one.groups[group].iter().position(|&other| other == byte);
        if let (Some(outside), Some(inside)) = (place(0), place(1)) {
            let other = one.with(|other| other.groups[group].swap(outside, inside));
            expect_decided(case, "a member for another", &one, &other);
        }
    }
}

/// Findings whose n differ, in tables that are long enough for both, and in such as each asks for.
fn try_other_n(case: &mut Case, n: usize) {
    let any = case.draw.below(MEMBERS + 1);
    for other_n in [0, 1, n + 1, 2 * n, MEMBERS, any] {
        if other_n != n && other_n <= MEMBERS {
            try_two_n(case, n.min(other_n), n.max(other_n));
        }
    }
}

fn try_two_n(case: &mut Case, few: usize, many: usize) {
    let more = drawn(&mut case.draw, many);
    let fewer = more.with(|fewer| fewer.n = few);
    let cut = |finding: &Finding| {
        let cut = |cut: &mut Finding| cut.groups.iter_mut().for_each(|group| group.truncate(few));
        finding.with(cut)
    };
    expect(case, "the same bytes", &more, &fewer, accepted(false));
    expect_decided(case, "the own bytes", &more, &cut(&fewer));
    let [nobody, fewer_nobody] = [&more, &fewer]
        .map(|finding| finding.with(|nobody| nobody.groups = [vec![0; many], vec![0; many]]));
    expect(case, "zeros", &nobody, &fewer_nobody, accepted(false));
    expect_decided(case, "the own zeros", &nobody, &cut(&fewer_nobody));
    expect(case, "the other's tables", &cut(&more), &fewer, refused(9));
    let past = case.draw.among(few, many - 1);
    for group in [0, 1] {
        let byte = faulty_byte(&mut case.draw);
        let put = |faulty: &mut Finding| faulty.groups[group][past] = byte;
        let what = "a faulty byte past the other n";
        expect(case, what, &more, &fewer.with(put), accepted(false));
        expect(case, what, &more.with(put), &fewer, refused(11));
        expect(case, what, &more.with(put), &cut(&fewer), refused(11));
    }
}

/// What may be wrong with a finding, as a number below this: each group in a table that is long enough, one short or empty, with a faulty
/// byte or without; and its n too great or not.
const FAULTS: usize = 6 * 6 * 2;

/// Makes one group faulty by a number below 6; the numbers that refuse it.
fn spoil(draw: &mut Draw, group: &mut Vec<u8>, faults: usize) -> Vec<u16> {
    let mut numbers = Vec::new();
    if faults % 2 == 1 {
        let any = draw.below(group.len());
        let place = draw.pick(&[0, group.len() - 1, any]);
        group[place] = faulty_byte(draw);
        numbers.push(11);
    }
    let short = [group.len(), group.len() - 1, 0][faults / 2];
    if short < group.len() {
        group.truncate(short);
        numbers.push(9);
    } else {
        let more = draw.below(5);
        group.extend(draw.bytes(more));
    }
    numbers
}

/// A finding with these faults, and the numbers that refuse it. Where its n is too great it is that of 2,049 members, or the other one with
/// another n.
fn spoilt(
    draw: &mut Draw,
    [finding, too_many]: [&Finding; 2],
    faults: usize,
) -> (Finding, Vec<u16>) {
    let n = finding.n;
    let mut numbers = Vec::new();
    let mut spoilt = finding.clone();
    if faults >= FAULTS / 2 {
        if draw.one_in(2) {
            spoilt = too_many.clone();
        } else {
            // One too many, such as fewer bits would cut to n, and the greatest.
            spoilt.n = draw.pick(&[2049, 65_536 + n, (1 << 32) + n, usize::MAX]);
        }
        numbers.push(4);
    }
    for (group, faults) in spoilt.groups.iter_mut().zip([faults % 6, faults / 6 % 6]) {
        numbers.extend(spoil(draw, group, faults));
    }
    (spoilt, numbers)
}

/// Each choice of faults of one finding with each of another, the same or of any n: of 4, 9 and 11 the first in order is given.
fn try_faults(case: &mut Case, n: usize) {
    let draw = &mut case.draw;
    let one = drawn(draw, n);
    let any = draw.among(1, MEMBERS);
    let another = drawn(draw, any);
    let other = draw.pick(&[one.clone(), another]);
    let too_many = drawn(draw, MEMBERS + 1);
    for faults in 0..FAULTS * FAULTS {
        let [first, second] = [(&one, faults / FAULTS), (&other, faults % FAULTS)]
            .map(|(finding, faults)| spoilt(&mut case.draw, [finding, &too_many], faults));
        let applying = [first.1, second.1].concat();
        let wanted = match first_of(&applying) {
            0 => accepted(one == other),
            number => refused(number),
        };
        let what = format!("numbers {applying:?}");
        expect(case, &what, &first.0, &second.0, wanted);
    }
}

/// The same finding, or one that differs in x, in y, in n or in a member.
fn varied(draw: &mut Draw, finding: &Finding) -> Finding {
    let n = finding.n;
    let group = draw.below(2);
    finding.with(|varied| match draw.below(8) {
        0 => varied.x ^= 1,
        1 => varied.y ^= 1,
        2 if n > 0 => varied.n -= 1,
        3 | 4 if n > 0 => varied.groups[group][draw.below(n)] ^= 1,
        _ => (),
    })
}

/// Each finding equals itself, and where one equals another and that one a third, the first equals the third. That two may be exchanged is
/// held at every call.
fn try_laws(case: &mut Case) {
    for _ in 0..50 {
        let n = case.draw.below(5);
        let one = drawn(&mut case.draw, n);
        let other = varied(&mut case.draw, &one);
        let third = varied(&mut case.draw, &other);
        let [one, other, third] = [one, other, third].map(|one| one.longer(&mut case.draw));
        for finding in [&one, &other, &third] {
            expect(case, "itself", finding, finding, accepted(true));
        }
        let [first, second, both] = [[&one, &other], [&other, &third], [&one, &third]]
            .map(|[one, other]| try_call(case, "of three", one, other).equal);
        case.compare(
            || "equal_findings: transitive".into(),
            true,
            both || !first || !second,
        );
    }
}

/// The library's finding in the case's file, in tables that held anything before.
fn found(case: &mut Case) -> Finding {
    let (n, m) = case.claimed();
    let [a, b] = everyone(n);
    let mut groups = [(); 2].map(|()| {
        let more = case.draw.below(5);
        case.draw.bytes(n + more)
    });
    let [s, t] = &mut groups;
    let mut work = case.draw.words(work_length(n, m));
    let numbers = lent::finding(&case.file, &a, &b, s, t, &mut work);
    Finding {
        x: numbers.x,
        y: numbers.y,
        n,
        groups,
    }
}

/// What is found in a network of each kind, against what is found in it again, with a link less, and in another network of the kind.
fn try_networks(case: &mut Case) {
    for turn in 0..KINDS.len() as u64 {
        case.turn = turn;
        small_file(case);
        let one = found(case);
        let again = found(case);
        expect(case, "found again", &one, &again, accepted(true));
        let mut network = read(&case.file).expect("the file of a network");
        if !network.links.is_empty() {
            network.links.remove(case.draw.below(network.links.len()));
            case.file = network.encode();
            let fewer = found(case);
            try_call(case, "found with a link less", &one, &fewer);
        }
        small_file(case);
        let other = found(case);
        try_call(case, "found in another network", &one, &other);
    }
}

/// n by turns: few, those about which a loop over many bytes at once may go wrong, and the most.
const SIZES: [usize; 20] = [
    0, 1, 2, 3, 6, 9, 15, 16, 17, 31, 32, 33, 63, 64, 65, 127, 128, 129, 2047, 2048,
];

pub fn equal(case: &mut Case) {
    let n = SIZES[case.number as usize % SIZES.len()];
    case.kind = format!("n {n}");
    try_examples(case);
    try_numbers(case, n);
    try_bytes(case, n);
    try_exchanges(case, n);
    try_other_n(case, n);
    // A group without members has no fault.
    try_faults(case, n.max(1));
    try_laws(case);
    try_networks(case);
}
