//! The examples and limits that the papers name, and the layers and harmonic pairs of these examples, W among some members and links in and
//! out of order as worked out by hand, by the reference and by the library.
mod kinds;

use crate::calls::try_all;
use crate::case::Case;
use crate::damage::by_old_rule;
use crate::inside::{lend, Groups};
use cogsplice::lent::{
    self, CheckNumbers, FindingNumbers, LayersNumbers, LevelNumbers, TotalsNumbers, WriteNumbers,
};
use networks::{encode, Link, Network};
use reference::{report, work_length};

/// What 01 prints for network W.
const W_REPORT: &str = "x 2 y 3 equal 2\nlinks 6 vouchers 3 vouched 2\nS 0 1 2\nT 3 4\n";

/// What is printed for a quiet month.
const QUIET_REPORT: &str = "x 0 y 0 equal 0\nlinks 0 vouchers 0 vouched 0\nS\nT\n";

/// The members of the examples of order: enough for numbers of two bytes.
const PLENTY: usize = 300;

/// Links, the refusal and the link's number of their check, and the links as the conversion writes them, none where it refuses them.
type Order = (&'static [Link], (u16, u16), &'static [Link]);

const ORDERS: [Order; 22] = [
    (&[], (0, 0), &[]),
    (&[(2, 1)], (0, 0), &[(2, 1)]),
    (&[(2, 1), (2, 2)], (0, 0), &[(2, 1), (2, 2)]),
    // By voucher alone, by vouched alone, and the voucher before the vouched.
    (&[(1, 0), (0, 0)], (15, 1), &[(0, 0), (1, 0)]),
    (&[(0, 2), (0, 1)], (15, 1), &[(0, 1), (0, 2)]),
    (&[(1, 0), (0, 1)], (15, 1), &[(0, 1), (1, 0)]),
    (&[(0, 1), (1, 0)], (0, 0), &[(0, 1), (1, 0)]),
    // Numbers, not bytes, are in order.
    (&[(255, 0), (256, 0)], (0, 0), &[(255, 0), (256, 0)]),
    (&[(256, 0), (255, 0)], (15, 1), &[(255, 0), (256, 0)]),
    (&[(0, 255), (0, 256)], (0, 0), &[(0, 255), (0, 256)]),
    (&[(0, 256), (0, 255)], (15, 1), &[(0, 255), (0, 256)]),
    (&[(0, 299), (1, 0)], (0, 0), &[(0, 299), (1, 0)]),
    // The first of several, at the start, in between and at the end.
    (
        &[(0, 1), (0, 0), (2, 2), (1, 1)],
        (15, 1),
        &[(0, 0), (0, 1), (1, 1), (2, 2)],
    ),
    (
        &[(0, 0), (2, 0), (1, 2), (1, 1)],
        (15, 2),
        &[(0, 0), (1, 1), (1, 2), (2, 0)],
    ),
    (
        &[(1, 0), (1, 1), (2, 2), (0, 2)],
        (15, 3),
        &[(0, 2), (1, 0), (1, 1), (2, 2)],
    ),
    // The last link comes before an earlier one, but not before the one preceding it.
    (
        &[(0, 0), (2, 2), (1, 0), (1, 1)],
        (15, 2),
        &[(0, 0), (1, 0), (1, 1), (2, 2)],
    ),
    // Equal neighbours are a repeat and no descent; a repeat before, behind and at the place of a descent.
    (&[(0, 1), (0, 1)], (8, 1), &[]),
    (&[(1, 1), (1, 1), (0, 0)], (8, 1), &[]),
    (&[(1, 1), (0, 0), (2, 2), (2, 2)], (8, 3), &[]),
    (&[(0, 0), (1, 1), (0, 0)], (8, 2), &[]),
    // A stranger behind a descent, and behind a descent and a repeat.
    (&[(1, 1), (0, 0), (0, 300)], (7, 2), &[]),
    (&[(1, 1), (0, 0), (0, 0), (300, 0)], (7, 3), &[]),
];

fn set(case: &mut Case, kind: &str, n: usize, links: &[Link]) {
    case.kind = kind.into();
    case.file = encode(&Network::new(n, links));
}

/// The members of a group.
fn members(group: &[u8]) -> Vec<usize> {
    (0..group.len())
        .filter(|&member| group[member] == 1)
        .collect()
}

/// Groups by their members, in tables two bytes longer than n: no call reads or writes the last two.
fn groups_of(n: usize, members: [&[usize]; 2]) -> Groups {
    members.map(|group| {
        let bytes = (0..n).map(|member| group.contains(&member) as u8);
        bytes.chain([7, 7]).collect()
    })
}

/// Everyone of the case's members as A and as B.
fn everyone(case: &Case) -> Groups {
    let n = case.claimed().0;
    let all: Vec<usize> = (0..n).collect();
    groups_of(n, [&all, &all])
}

/// Network W.
pub fn example_file(case: &mut Case) {
    case.kind = "W".into();
    case.file = encode(&Network::w());
}

pub fn paper(case: &mut Case) {
    example_file(case);
    let all = everyone(case);
    expect_core(case, &all, [2, 3], 6, &[0, 1, 2], &[3, 4]);
    expect_core(case, &all, [1, 2], 8, &[0, 1, 2, 4, 5], &[3, 4, 5]);
    expect_core(case, &all, [0, 4], 0, &[0, 1, 2, 3, 4, 5], &[]);
    expect_core(case, &all, [3, 0], 0, &[], &[0, 1, 2, 3, 4, 5]);
    expect_levels(case, &all, &[(1, 3), (2, 3), (3, 0)], &[(3, 2)]);
    expect_finding(case, [2, 3, 2, 6], &[0, 1, 2], &[3, 4]);
    expect_harmonic(case, 6, &[0, 1, 2], &[3, 4]);
    let enough = work_length(6, 8);
    expect_layers(case, [8, enough], (0, 2), &[1, 1, 1, 1, 1, 1, 2, 2]);
    expect_layers(case, [10, enough], (0, 2), &[1, 1, 1, 1, 1, 1, 2, 2]);
    expect_layers(case, [7, enough], (9, 0), &[]);
    expect_layers(case, [8, enough - 1], (9, 0), &[]);
    let text = report(&case.file);
    case.compare(|| "report".into(), W_REPORT.to_string(), text);
    try_all(case);
    expect_regions(case);
    set(case, "P6", 4, &[(0, 1), (0, 2), (0, 3)]);
    expect_finding(case, [3, 1, 1, 3], &[0], &[1, 2, 3]);
    expect_harmonic(case, 3, &[0], &[1, 2, 3]);
    expect_layers(case, [3, work_length(4, 3)], (0, 1), &[1, 1, 1]);
    set(case, "P7", 6, &[(0, 1), (0, 2), (3, 5), (4, 5)]);
    expect_finding(case, [1, 2, 1, 2], &[3, 4], &[5]);
    // Both stars, and later that of member 0 alone, have the greatest measure, 2 × 4 / 6 and 2 × 2 / 3: the earlier pair counts.
    expect_harmonic(case, 4, &[0, 3, 4], &[1, 2, 5]);
    expect_layers(case, [4, work_length(6, 4)], (0, 2), &[2, 2, 1, 1]);
    expect_even_pairs(case);
    expect_one_offs(case);
    set(case, "P8", 1, &[(0, 0)]);
    expect_finding(case, [1, 1, 1, 1], &[0], &[0]);
    expect_harmonic(case, 1, &[0], &[0]);
    expect_layers(case, [1, work_length(1, 1)], (0, 1), &[1]);
    set(case, "P9", 1, &[]);
    expect_quiet(case);
    for n in [0, 2, 5, 2048] {
        set(case, "quiet", n, &[]);
        expect_quiet(case);
    }
    expect_no_bytes(case);
    expect_short(case);
    expect_limits(case);
    expect_orders(case);
    kinds::kinds(case);
}

/// An even pair comes before a star of the same product: 02's example, and the rings [1,12], [2,6], [3,4], [4,3], [6,2] and [12,1].
fn expect_even_pairs(case: &mut Case) {
    case.kind = "star and ring".into();
    case.file = encode(&Network::star_and_ring());
    expect_finding(case, [2, 2, 2, 4], &[5, 6], &[7, 8]);
    expect_harmonic(case, 4, &[5, 6], &[7, 8]);
    let layers = [2, 2, 2, 2, 1, 1, 1, 1];
    expect_layers(case, [8, work_length(9, 8)], (0, 2), &layers);
    try_all(case);
    case.kind = "rings of product 12".into();
    case.file = encode(&Network::rings(12));
    expect_finding(case, [3, 4, 3, 12], &[18, 19, 20, 21], &[31, 32, 33]);
    // [3,4] and [4,3] together are met before either of them alone, and have the same measure.
    let (s, t): (Vec<usize>, Vec<usize>) = ((18..25).collect(), (31..38).collect());
    expect_harmonic(case, 24, &s, &t);
    let layers = [5, 3, 1, 2, 4, 6].map(|layer| [layer; 12]).concat();
    expect_layers(case, [72, work_length(56, 72)], (0, 6), &layers);
    try_all(case);
}

/// The finding is a star, and the harmonic measure finds the ring beside it.
fn expect_one_offs(case: &mut Case) {
    case.kind = "one-offs".into();
    case.file = encode(&Network::one_offs());
    let leaves: Vec<usize> = (1..13).collect();
    expect_finding(case, [12, 1, 3, 12], &[0], &leaves);
    expect_harmonic(case, 9, &[13, 14, 15], &[16, 17, 18]);
    try_all(case);
}

/// W among some members only: apart, A and B that overlap, and without a link from A to B.
fn expect_regions(case: &mut Case) {
    let lengths = [10, work_length(6, 8)];
    let apart = groups_of(6, [&[0, 1, 5], &[3, 4]]);
    expect_core(case, &apart, [2, 2], 4, &[0, 1], &[3, 4]);
    expect_core(case, &apart, [0, 2], 4, &[0, 1, 5], &[3, 4]);
    expect_core(case, &apart, [0, 3], 0, &[0, 1, 5], &[]);
    expect_core(case, &apart, [3, 0], 0, &[], &[3, 4]);
    expect_levels(case, &apart, &[(1, 2), (2, 2), (3, 0)], &[(2, 2), (3, 0)]);
    expect_finding_inside(case, &apart, [2, 2, 2, 4], &[0, 1], &[3, 4]);
    expect_layers_inside(case, &apart, lengths, (0, 1), &[1, 1, 1, 1, 0, 0, 0, 0]);
    let overlapping = groups_of(6, [&[2, 4, 5], &[0, 1, 2, 3, 4, 5]]);
    expect_levels(case, &overlapping, &[(1, 2), (2, 1)], &[(1, 2), (2, 1)]);
    expect_finding_inside(case, &overlapping, [1, 2, 1, 2], &[4, 5], &[5]);
    let layers = [0, 0, 0, 0, 2, 2, 1, 1];
    expect_layers_inside(case, &overlapping, lengths, (0, 2), &layers);
    for quiet in [[&[0, 1, 2, 3][..], &[0, 5]], [&[], &[3, 4]]] {
        let groups = groups_of(6, quiet);
        expect_core(case, &groups, [0, 0], 0, quiet[0], quiet[1]);
        expect_core(case, &groups, [0, 1], 0, quiet[0], &[]);
        expect_finding_inside(case, &groups, [0; 4], &[], &[]);
        expect_layers_inside(case, &groups, lengths, (0, 0), &[0; 8]);
    }
}

/// The answer of a call that found these groups.
fn totals(edges: u32, s: &[usize], t: &[usize]) -> TotalsNumbers {
    TotalsNumbers {
        refusal: 0,
        link: 0,
        edges,
        sources: s.len(),
        targets: t.len(),
    }
}

/// What a call answers that is lent two tables of other bytes, two longer than the groups, and the tables after it.
fn with_tables<A>(n: usize, call: impl FnOnce(&mut [u8], &mut [u8]) -> A) -> (A, Groups) {
    let mut groups = [vec![7; n + 2], vec![7; n + 2]];
    let [s, t] = &mut groups;
    let answer = call(s, t);
    (answer, groups)
}

/// E, S and T of the [x,y]-core inside A and B.
fn expect_core(
    case: &mut Case,
    groups: &Groups,
    [x, y]: [u16; 2],
    edges: u32,
    s: &[usize],
    t: &[usize],
) {
    let (n, m) = case.claimed();
    let (mut lent_s, mut lent_t) = (vec![0; n], vec![0; n]);
    let mut work = vec![0; work_length(n, m)];
    let expected = totals(edges, s, t);
    let inside = lend(groups);
    let plain = reference::core(
        &case.file,
        inside,
        x,
        y,
        &mut lent_s,
        &mut lent_t,
        work.len(),
    );
    let found = (members(&lent_s), members(&lent_t));
    let wanted = (expected, (s.to_vec(), t.to_vec()));
    case.compare(
        || format!("core {x} {y}: reference"),
        &wanted,
        &(plain, found),
    );
    let [a, b] = inside;
    let given = lent::core(&case.file, a, b, x, y, &mut lent_s, &mut lent_t, &mut work);
    let found = (members(&lent_s), members(&lent_t));
    case.compare(|| format!("core {x} {y}"), &wanted, &(given, found));
}

/// Levels inside A and B, as P5 gives them of W for everyone: numbers with their levels, then numbers with their levels across.
fn expect_levels(
    case: &mut Case,
    groups: &Groups,
    levels: &[(u16, usize)],
    across: &[(u16, usize)],
) {
    let (n, m) = case.claimed();
    let mut work = vec![0; work_length(n, m)];
    let answer = |level| LevelNumbers {
        refusal: 0,
        link: 0,
        level,
    };
    let inside = lend(groups);
    let [a, b] = inside;
    for &(x, level) in levels {
        let plain = reference::level(&case.file, inside, x, work.len());
        case.compare(|| format!("level {x}: reference"), answer(level), plain);
        let given = lent::level(&case.file, a, b, x, &mut work);
        case.compare(|| format!("level {x}"), answer(level), given);
    }
    for &(y, level) in across {
        let plain = reference::level_across(&case.file, inside, y, work.len());
        let name = format!("level_across {y}");
        case.compare(|| format!("{name}: reference"), answer(level), plain);
        let given = lent::level_across(&case.file, a, b, y, &mut work);
        case.compare(|| name, answer(level), given);
    }
}

fn expect_finding(case: &mut Case, numbers: [usize; 4], s: &[usize], t: &[usize]) {
    let all = everyone(case);
    expect_finding_inside(case, &all, numbers, s, t);
}

/// x, y, the equal level and E; S and T. The two last bytes of the lent tables stay.
fn expect_finding_inside(
    case: &mut Case,
    inside: &Groups,
    numbers: [usize; 4],
    s: &[usize],
    t: &[usize],
) {
    let [x, y, equal, edges] = numbers;
    let (sources, targets) = (s.len(), t.len());
    let edges = edges as u32;
    let expected = FindingNumbers {
        refusal: 0,
        link: 0,
        edges,
        x,
        y,
        equal,
        sources,
        targets,
    };
    let (n, m) = case.claimed();
    let wanted = (expected, groups_of(n, [s, t]));
    let mut work = vec![0; work_length(n, m)];
    let plain = with_tables(n, |s, t| {
        reference::finding(&case.file, lend(inside), s, t, work.len())
    });
    case.compare(|| "finding: reference".into(), &wanted, &plain);
    let [a, b] = lend(inside);
    let given = with_tables(n, |s, t| lent::finding(&case.file, a, b, s, t, &mut work));
    case.compare(|| "finding".into(), &wanted, &given);
}

/// E, S and T of the pair of the harmonic measure. The two last bytes of the lent tables stay.
fn expect_harmonic(case: &mut Case, edges: u32, s: &[usize], t: &[usize]) {
    let (n, m) = case.claimed();
    let wanted = (totals(edges, s, t), groups_of(n, [s, t]));
    let mut work = vec![0; work_length(n, m)];
    let plain = with_tables(n, |s, t| reference::harmonic(&case.file, s, t, work.len()));
    case.compare(|| "harmonic: reference".into(), &wanted, &plain);
    let given = with_tables(n, |s, t| lent::harmonic(&case.file, s, t, &mut work));
    case.compare(|| "harmonic".into(), &wanted, &given);
}

fn expect_layers(case: &mut Case, lengths: [usize; 2], numbers: (u16, usize), of_links: &[u16]) {
    let all = everyone(case);
    expect_layers_inside(case, &all, lengths, numbers, of_links);
}

/// For a table of layers and a work table of these lengths: the refusal, the number of layers, and the layer of each link. No other
/// entry of the table changes.
fn expect_layers_inside(
    case: &mut Case,
    inside: &Groups,
    lengths: [usize; 2],
    numbers: (u16, usize),
    of_links: &[u16],
) {
    let before = vec![7; lengths[0]];
    let mut after = before.clone();
    after[..of_links.len()].copy_from_slice(of_links);
    let (refusal, layers) = numbers;
    let expected = LayersNumbers {
        refusal,
        link: 0,
        layers,
    };
    let wanted = (expected, after);
    let mut table = before.clone();
    let plain = reference::layers(&case.file, lend(inside), &mut table, lengths[1]);
    case.compare(|| "layers: reference".into(), &wanted, &(plain, table));
    let (mut table, mut work) = (before, vec![0; lengths[1]]);
    let [a, b] = lend(inside);
    let given = lent::layers(&case.file, a, b, &mut table, &mut work);
    case.compare(|| "layers".into(), &wanted, &(given, table));
}

/// The file has no link: zeros and empty groups, also by the harmonic measure, no layers and their table unchanged, and a report without
/// members. 9 is still given.
fn expect_quiet(case: &mut Case) {
    let enough = work_length(case.claimed().0, 0);
    expect_finding(case, [0; 4], &[], &[]);
    expect_harmonic(case, 0, &[], &[]);
    expect_layers(case, [0, enough], (0, 0), &[]);
    expect_layers(case, [2, enough], (0, 0), &[]);
    expect_layers(case, [2, enough - 1], (9, 0), &[]);
    let text = report(&case.file);
    case.compare(|| "report".into(), QUIET_REPORT.to_string(), text);
    try_all(case);
}

/// Zero bytes count as the file with n 0 and m 0, which the writer and the conversion write.
fn expect_no_bytes(case: &mut Case) {
    case.kind = "no bytes".into();
    case.file = Vec::new();
    let checked = CheckNumbers {
        refusal: 0,
        link: 0,
        n: 0,
        m: 0,
    };
    let plain = reference::check(&case.file);
    case.compare(|| "check: reference".into(), checked, plain);
    case.compare(|| "check".into(), checked, lent::check(&case.file));
    let file = b"VCH\x01\0\0\0\0\0";
    expect_written(case, "write: reference", reference::write, (0, 0), file);
    expect_written(case, "write", lent::write, (0, 0), file);
    expect_written(case, "order: reference", reference::order, (0, 0), file);
    expect_written(case, "order", lent::order, (0, 0), file);
    expect_quiet(case);
}

/// The refusal, the link's number and the file that a call writes, none where it is refused. The output's other bytes stay.
fn expect_written(
    case: &mut Case,
    call: &str,
    write: fn(&[u8], &mut [u8]) -> WriteNumbers,
    (refusal, link): (u16, u16),
    file: &[u8],
) {
    let m = case.claimed().1;
    let expected = WriteNumbers {
        refusal,
        link,
        m: if refusal == 0 { m } else { 0 },
    };
    let mut out = vec![7; case.claimed_length() + 1];
    let mut wanted = out.clone();
    wanted[..file.len()].copy_from_slice(file);
    let given = write(&case.file, &mut out);
    case.compare(|| call.into(), (expected, wanted), (given, out));
}

/// Links in order and out of order: the check, and the file that the conversion writes.
fn expect_orders(case: &mut Case) {
    for (links, refusal, ordered) in ORDERS {
        expect_check(case, refusal, PLENTY, links);
        let (refusal, file) = match by_old_rule(&case.file, &[refusal.0]) {
            0 => ((0, 0), encode(&Network::new(PLENTY, ordered))),
            _ => (refusal, Vec::new()),
        };
        expect_written(case, "order: reference", reference::order, refusal, &file);
        expect_written(case, "order", lent::order, refusal, &file);
        try_all(case);
    }
}

/// 1 to 8 bytes are refused by 1, whatever they are the start of.
fn expect_short(case: &mut Case) {
    for network in [Network::w(), Network::new(0, &[])] {
        for length in 1..9 {
            case.kind = format!("{length} bytes");
            case.file = encode(&network)[..length].to_vec();
            let plain = reference::check(&case.file).refusal;
            case.compare(|| "check: reference".into(), 1, plain);
            case.compare(|| "check".into(), 1, lent::check(&case.file).refusal);
            try_all(case);
        }
    }
}

/// The limits of n, m and a link's members.
fn expect_limits(case: &mut Case) {
    let links = |m: usize| -> Vec<Link> { (0..m).map(|i| (i / 4, i % 4)).collect() };
    expect_check(case, (0, 0), 1, &[]);
    expect_check(case, (0, 0), 0, &[]);
    expect_check(case, (0, 0), 2048, &links(8192));
    expect_check(case, (4, 0), 2049, &links(8192));
    expect_check(case, (5, 0), 2048, &links(8193));
    expect_check(case, (0, 0), 3, &[(0, 2), (2, 0)]);
    expect_check(case, (7, 1), 3, &[(0, 2), (2, 3)]);
    expect_check(case, (7, 0), 0, &[(0, 0)]);
    expect_check(case, (8, 2), 3, &[(1, 2), (2, 1), (1, 2), (2, 1)]);
    expect_check(case, (7, 3), 3, &[(1, 2), (1, 2), (0, 0), (3, 0)]);
}

/// The refusal and the link's number of a check.
fn expect_check(case: &mut Case, refusal: (u16, u16), n: usize, links: &[Link]) {
    set(case, &format!("n {n}, m {}", links.len()), n, links);
    expect_refusal(case, refusal);
}

/// The refusal and the link's number of the check of the case's file.
fn expect_refusal(case: &mut Case, refusal: (u16, u16)) {
    let plain = reference::check(&case.file);
    case.compare(
        || "check: reference".into(),
        refusal,
        (plain.refusal, plain.link),
    );
    let given = lent::check(&case.file);
    case.compare(|| "check".into(), refusal, (given.refusal, given.link));
}
