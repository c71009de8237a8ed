//! Kinds of vouch: a ring that only weights make, each weight, the greatest sums, and the numbers of files of version 2.
use super::{
    everyone, expect_core, expect_finding, expect_harmonic, expect_layers, expect_levels,
    expect_refusal, expect_written, totals,
};
use crate::calls::try_all;
use crate::case::Case;
use crate::common::expect_kinds;
use cogsplice::lent;
use networks::{all_links, encode, Kinded, Link, Network, Vouch};
use reference::{report, work_length, LINKS, MEMBERS};

/// What each kind weighs.
const WEIGHTS: [usize; 8] = [1, 1, 2, 3, 4, 6, 8, 12];

const VISITS_REPORT: &str = "x 3 y 3 equal 3\nlinks 6 vouchers 2 vouched 2\nS 0 1\nT 2 3\n";

/// Links of version 2 among three members, the refusal and the link's number of their check.
type Checked = (&'static [Vouch], (u16, u16));

const CHECKED: [Checked; 18] = [
    (&[((0, 1), 7)], (0, 0)),
    (&[((0, 1), 8)], (22, 0)),
    (&[((0, 1), 255)], (22, 0)),
    // The first of several, in between and at the end.
    (&[((0, 1), 7), ((0, 2), 9), ((1, 0), 8)], (22, 1)),
    (&[((0, 1), 0), ((0, 2), 1), ((1, 0), 128)], (22, 2)),
    // A stranger behind it, before it and at the same link.
    (&[((0, 1), 8), ((0, 2), 0), ((3, 0), 0)], (7, 2)),
    (&[((0, 3), 0), ((1, 0), 8)], (7, 0)),
    (&[((0, 0), 0), ((1, 3), 8)], (7, 1)),
    // A repeat before it, behind it and at the same link.
    (&[((0, 1), 0), ((0, 1), 0), ((1, 0), 8)], (22, 2)),
    (&[((0, 1), 8), ((1, 0), 0), ((1, 0), 0)], (22, 0)),
    (&[((0, 1), 0), ((0, 1), 8)], (22, 1)),
    // A descent before it.
    (&[((1, 0), 0), ((0, 1), 0), ((2, 0), 8)], (22, 2)),
    // The same pair with one kind and with two, which is no descent either.
    (&[((0, 1), 5), ((0, 1), 5)], (8, 1)),
    (&[((0, 1), 2), ((0, 1), 3)], (8, 1)),
    (&[((0, 1), 7), ((0, 1), 0)], (8, 1)),
    (&[((1, 0), 0), ((0, 1), 1), ((1, 0), 2)], (8, 2)),
    // Kinds are in no order.
    (&[((0, 1), 7), ((0, 2), 0)], (0, 0)),
    (&[((0, 2), 0), ((0, 1), 7)], (15, 1)),
];

pub fn kinds(case: &mut Case) {
    expect_visits(case);
    expect_without_kinds(case);
    expect_weights(case);
    expect_greatest(case);
    for (links, refusal) in CHECKED {
        set(case, "links of kinds", &Kinded::new(3, links));
        expect_refusal(case, refusal);
        expect_old(case);
        try_all(case);
    }
    expect_kinds(case);
    expect_heads(case);
    expect_limits(case);
}

fn set(case: &mut Case, kind: &str, network: &Kinded) {
    case.kind = kind.into();
    case.file = network.encode();
}

/// The conversion refuses version 2 by 3, whatever its links are.
fn expect_old(case: &mut Case) {
    expect_written(case, "order: reference", reference::order, (3, 0), &[]);
    expect_written(case, "order", lent::order, (3, 0), &[]);
}

/// The ring comes first, and the star of those who vouch for member 0 remains. By the harmonic measure the ring alone has the most, 2 × 6 / 4.
fn expect_visits(case: &mut Case) {
    set(case, "a ring by weights", &Kinded::visits());
    let all = everyone(case);
    expect_core(case, &all, [3, 3], 6, &[0, 1], &[2, 3]);
    expect_core(case, &all, [1, 5], 5, &[1, 2, 3, 4, 5], &[0]);
    expect_core(case, &all, [4, 1], 4, &[1], &[0, 2, 3]);
    expect_core(case, &all, [4, 2], 0, &[], &[]);
    let levels = [(1, 5), (2, 3), (3, 3), (4, 1), (5, 0)];
    let across = [(1, 4), (2, 3), (3, 3), (4, 1), (5, 1), (6, 0)];
    expect_levels(case, &all, &levels, &across);
    expect_finding(case, [3, 3, 3, 6], &[0, 1], &[2, 3]);
    expect_harmonic(case, 6, &[0, 1], &[2, 3]);
    let layers = [1, 1, 2, 1, 1, 2, 2, 2, 2];
    expect_layers(case, [9, work_length(6, 9)], (0, 2), &layers);
    let file = case.file.clone();
    expect_written(case, "write: reference", reference::write, (0, 0), &file);
    expect_written(case, "write", lent::write, (0, 0), &file);
    expect_old(case);
    let text = report(&case.file);
    case.compare(|| "report".into(), VISITS_REPORT.to_string(), text);
    try_all(case);
}

/// The same links without kinds: the star comes first. Everyone who vouches has the harmonic measure 2 × 9 / 9 with everyone who is vouched
/// for, and no later pair has more.
fn expect_without_kinds(case: &mut Case) {
    case.kind = "the ring without weights".into();
    case.file = encode(&Kinded::visits().plain());
    expect_finding(case, [1, 5, 2, 5], &[1, 2, 3, 4, 5], &[0]);
    expect_harmonic(case, 9, &[0, 1, 2, 3, 4, 5], &[0, 2, 3]);
    let layers = [2, 2, 1, 2, 2, 1, 1, 1, 1];
    expect_layers(case, [9, work_length(6, 9)], (0, 2), &layers);
    try_all(case);
}

/// One link of each kind alone.
fn expect_weights(case: &mut Case) {
    for (kind, weight) in (0..).zip(WEIGHTS) {
        let link = ((0, 1), kind);
        set(case, "one link of a kind", &Kinded::new(2, &[link]));
        expect_finding(case, [weight; 4], &[0], &[1]);
        expect_harmonic(case, weight as u32, &[0], &[1]);
        expect_layers(case, [1, work_length(2, 1)], (0, 1), &[1]);
        let count = lent::count(&case.file, &[1, 0], &[0, 1]);
        let expected = totals(weight as u32, &[0], &[1]);
        case.compare(|| "count".into(), expected, count);
        try_all(case);
    }
}

/// Everyone of the most members vouches for four with the greatest weight: E is past 16 bits, and so is x × y.
fn expect_greatest(case: &mut Case) {
    let members: Vec<usize> = (0..MEMBERS).collect();
    let links = all_links(&members, &members[..4]);
    let links: Vec<Vouch> = links.into_iter().map(|link| (link, 7)).collect();
    set(case, "the greatest weights", &Kinded::new(MEMBERS, &links));
    let (x, y) = (12 * 4, 12 * MEMBERS);
    expect_finding(case, [x, y, x, 12 * LINKS], &members, &members[..4]);
    let all = everyone(case);
    let levels = [(x as u16, y), (x as u16 + 1, 0)];
    let across = [(y as u16, x), (y as u16 + 1, 0)];
    expect_levels(case, &all, &levels, &across);
    expect_layers(
        case,
        [LINKS, work_length(MEMBERS, LINKS)],
        (0, 1),
        &[1; LINKS],
    );
    try_all(case);
}

/// The head and the length of a file of version 2, and other versions with its length.
fn expect_heads(case: &mut Case) {
    let whole = Kinded::visits().encode();
    for length in 0..whole.len() + 7 {
        case.kind = format!("a ring by weights, length {length}");
        case.file = whole.clone();
        case.file.resize(length, 0);
        let refusal = match length {
            1..=8 => 1,
            0 | 54 => 0,
            _ => 6,
        };
        expect_refusal(case, (refusal, 0));
    }
    for (version, refusal) in [
        (0, 3),
        (1, 6),
        (2, 0),
        (3, 3),
        (4, 3),
        (257, 3),
        (258, 3),
        (513, 3),
    ] {
        let version: u16 = version;
        case.kind = format!("a ring by weights, version {version}");
        case.file = whole.clone();
        case.file[3..5].copy_from_slice(&version.to_le_bytes());
        expect_refusal(case, (refusal, 0));
        try_all(case);
    }
    // A file of version 1 is too short for version 2.
    case.file = encode(&Network::w());
    case.file[3] = 2;
    expect_refusal(case, (6, 0));
}

/// The limits of n, m and a link's members, with kinds.
fn expect_limits(case: &mut Case) {
    let links = |m: usize| -> Vec<Vouch> { (0..m).map(|e| ((e / 4, e % 4), 3)).collect() };
    let link: fn(Link) -> Vec<Vouch> = |link| vec![(link, 0)];
    for (n, links, refusal) in [
        (0, vec![], (0, 0)),
        (2048, links(8192), (0, 0)),
        (2049, links(8192), (4, 0)),
        (2048, links(8193), (5, 0)),
        (3, link((2, 2)), (0, 0)),
        (3, link((2, 3)), (7, 0)),
        (3, link((3, 2)), (7, 0)),
    ] {
        set(case, &format!("n {n}, with kinds"), &Kinded::new(n, &links));
        expect_refusal(case, refusal);
    }
}
