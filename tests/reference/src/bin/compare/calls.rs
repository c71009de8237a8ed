//! Each call on a case's file, by the reference and by the library, with tables of many lengths.
use crate::case::Case;
use crate::indexes::try_indexes;
use crate::inside::{everyone, lend, lent_groups, tries_inside, Groups};
use crate::table::{lengths_to_try, Table};
use cogsplice::lent::{self, WriteNumbers};
use networks::{encode, root, Kinded, Network};
use reference::{file_length, weight, work_length};
use std::fmt::Debug;

/// Every call on the case's file, accepted or not.
pub fn try_all(case: &mut Case) {
    let before = case.file.clone();
    try_check(case);
    try_counts(case);
    try_writes(case);
    try_indexes(case);
    for (x, y) in pairs_to_try(case) {
        try_core(case, x, y);
    }
    for asked in levels_to_try(case) {
        try_levels(case, asked);
    }
    try_equal_level(case);
    try_finding(case);
    try_layers(case);
    try_harmonic(case);
    let after = case.file.clone();
    case.compare(|| "the file stays as it was".into(), before, after);
}

/// The most that the links of one member weigh as a voucher and as a vouched member.
fn most_weights(network: &Kinded) -> [usize; 2] {
    let mut sums = vec![[0; 2]; network.n];
    for &((a, b), kind) in &network.links {
        sums[a][0] += weight(kind);
        sums[b][1] += weight(kind);
    }
    [0, 1].map(|side| sums.iter().map(|sum| sum[side]).max().unwrap_or(0))
}

/// Values of x and y for cores: the ends of the range, some at random, and those around the finding.
fn pairs_to_try(case: &mut Case) -> Vec<(u16, u16)> {
    let top = u16::MAX;
    let mut pairs = vec![(0, 0), (0, 1), (1, 0), (1, 1)];
    pairs.extend([(0, top), (top, 0), (1, top), (top, top)]);
    let network = match reference::read(&case.file) {
        Ok(network) => network,
        Err(_) => return pairs,
    };
    let most = most_weights(&network);
    for _ in 0..6 {
        let [x, y] = most.map(|most| {
            let high = case.draw.pick(&[most + 1, root(most) + 1]);
            case.draw.among(0, high) as u16
        });
        pairs.push((x, y));
    }
    let (n, m) = (network.n, network.links.len());
    let [a, b] = everyone(n);
    let (mut s, mut t, mut work) = (vec![0; n], vec![0; n], vec![0; work_length(n, m)]);
    let found = lent::finding(&case.file, &a, &b, &mut s, &mut t, &mut work);
    let (x, y) = (found.x as u16, found.y as u16);
    pairs.extend([(x, y), (x + 1, y), (x, y + 1), (x, 0), (0, y)]);
    pairs
}

/// Values to ask levels for: all up to n + 1 where that is little, and else, or where links may weigh more than 1, some.
fn levels_to_try(case: &mut Case) -> Vec<u16> {
    let n = case.claimed().0;
    let mut levels: Vec<usize> = (0..=(n + 1).min(10)).collect();
    if let Ok(network) = reference::read(&case.file) {
        if n > 9 || network.version == 2 {
            for most in most_weights(&network) {
                levels.extend([case.draw.among(1, most + 1), most, most + 1]);
            }
        }
    }
    levels.push(65_535);
    levels.into_iter().map(|level| level as u16).collect()
}

pub fn try_check(case: &mut Case) {
    let expected = reference::check(&case.file);
    let given = lent::check(&case.file);
    case.seen(expected.refusal);
    case.compare(|| "check".into(), expected, given);
}

fn try_counts(case: &mut Case) {
    let n = case.claimed().0;
    for faulty in [[false, false], [false, false], [true, false], [false, true]] {
        for lengths in lengths_to_try(&mut case.draw, [n, n]) {
            let [s, t] = lent_groups(&mut case.draw, n, lengths, faulty);
            let expected = reference::count(&case.file, &s, &t);
            let given = lent::count(&case.file, &s, &t);
            case.seen(expected.refusal);
            case.compare(|| format!("count {s:?} {t:?}"), expected, given);
        }
    }
}

/// The writer and the conversion.
pub fn try_writes(case: &mut Case) {
    try_write(case, "write", reference::write, lent::write);
    try_write(case, "order", reference::order, lent::order);
    if reference::read(&case.file).is_ok() {
        try_copy(case);
    }
    if let Ok(network) = reference::read_old(&case.file) {
        try_write_again(case, network);
    }
}

/// A call that writes a file.
type Write = fn(&[u8], &mut [u8]) -> WriteNumbers;

fn try_write(case: &mut Case, call: &str, reference: Write, library: Write) {
    let needed = case.claimed_length();
    let mut lengths = lengths_to_try(&mut case.draw, [needed]);
    // As long as a file of version 1 with as many links.
    lengths.push([file_length(1, case.claimed().1)]);
    for [length] in lengths {
        let mut out = Table::bytes(&mut case.draw, length);
        let mut library_out = out.clone();
        let expected = reference(&case.file, out.lend());
        let given = library(&case.file, library_out.lend());
        case.seen(expected.refusal);
        case.compare(
            || format!("{call}, length {length}"),
            (expected, out),
            (given, library_out),
        );
    }
}

/// An accepted file is written as it stands, in its version, and zero bytes as the file that they count as.
fn try_copy(case: &mut Case) {
    let mut copied = case.file.clone();
    if copied.is_empty() {
        copied = encode(&Network::new(0, &[]));
    }
    let mut out = vec![0; copied.len()];
    lent::write(&case.file, &mut out);
    case.compare(|| "write: a copy".into(), copied, out);
}

/// What the conversion writes is accepted, holds the same links, and is written again as the same bytes.
fn try_write_again(case: &mut Case, mut network: Kinded) {
    let m = network.links.len();
    let mut first = vec![0; file_length(1, m)];
    lent::order(&case.file, &mut first);
    network.links.sort();
    let written = reference::read(&first);
    case.compare(|| "order: links".into(), Ok(network), written);
    let calls: [(&str, Write); 2] = [("write", lent::write), ("order", lent::order)];
    for (call, write) in calls {
        let mut again = vec![0; first.len()];
        let answer = write(&first, &mut again);
        let numbers = (answer.refusal, answer.m);
        case.compare(|| format!("{call} again: m"), (0, m), numbers);
        case.compare(|| format!("{call} again: bytes"), &first, &again);
    }
}

fn try_core(case: &mut Case, x: u16, y: u16) {
    let tries = pairs_inside(case);
    try_groups(
        case,
        &format!("core {x} {y}"),
        tries,
        |file, groups, s, t, work| reference::core(file, groups, x, y, s, t, work),
        |file, [a, b], s, t, work| lent::core(file, a, b, x, y, s, t, work),
        |answer| answer.refusal,
    );
}

fn try_finding(case: &mut Case) {
    let tries = pairs_inside(case);
    try_groups(
        case,
        "finding",
        tries,
        reference::finding,
        |file, [a, b], s, t, work| lent::finding(file, a, b, s, t, work),
        |answer| answer.refusal,
    );
}

/// The harmonic call, which has no A and B.
fn try_harmonic(case: &mut Case) {
    let (n, m) = case.claimed();
    let lengths = lengths_to_try(&mut case.draw, [n, n, work_length(n, m)]);
    let tries = lengths
        .into_iter()
        .map(|lengths| (Groups::default(), lengths));
    try_groups(
        case,
        "harmonic",
        tries.collect(),
        |file, _, s, t, work| reference::harmonic(file, s, t, work),
        |file, _, s, t, work| lent::harmonic(file, s, t, work),
        |answer| answer.refusal,
    );
}

/// A and B, and the lengths of S, T and the work table.
type Try = (Groups, [usize; 3]);

/// Tries of a call that searches inside A and B, writes two groups and is lent a work table.
fn pairs_inside(case: &mut Case) -> Vec<Try> {
    let (n, m) = case.claimed();
    let tries = tries_inside(&mut case.draw, n, [n, n, n, n, work_length(n, m)]);
    let own = |(groups, [_, _, s, t, work]): (Groups, [usize; 5])| (groups, [s, t, work]);
    tries.into_iter().map(own).collect()
}

/// Clears what is free of the work tables lent to a call of this refusal: the entries that it needs where it was accepted, else none.
fn clear_work(case: &Case, refusal: u16, tables: [&mut Table<u16>; 2]) {
    if refusal == 0 {
        let (n, m) = case.claimed();
        for work in tables {
            work.clear(work_length(n, m));
        }
    }
}

/// A call that writes two groups and is lent a work table, perhaps with A and B to search inside.
fn try_groups<A: PartialEq + Debug>(
    case: &mut Case,
    call: &str,
    tries: Vec<Try>,
    reference: impl Fn(&[u8], [&[u8]; 2], &mut [u8], &mut [u8], usize) -> A,
    library: impl Fn(&[u8], [&[u8]; 2], &mut [u8], &mut [u8], &mut [u16]) -> A,
    refusal: impl Fn(&A) -> u16,
) {
    for (groups, lengths) in tries {
        let [s_length, t_length, work_length] = lengths;
        let mut s = Table::bytes(&mut case.draw, s_length);
        let mut t = Table::bytes(&mut case.draw, t_length);
        let mut work = Table::words(&mut case.draw, work_length);
        let (mut library_s, mut library_t) = (s.clone(), t.clone());
        let library_groups = groups.clone();
        let mut library_work = work.clone();
        let expected = reference(&case.file, lend(&groups), s.lend(), t.lend(), work_length);
        let given = library(
            &case.file,
            lend(&library_groups),
            library_s.lend(),
            library_t.lend(),
            library_work.lend(),
        );
        clear_work(case, refusal(&expected), [&mut work, &mut library_work]);
        case.seen(refusal(&expected));
        case.compare(
            || format!("{call}, lengths {lengths:?}"),
            (expected, groups, s, t, work),
            (given, library_groups, library_s, library_t, library_work),
        );
    }
}

/// The level and the level across for one number.
fn try_levels(case: &mut Case, asked: u16) {
    try_level(
        case,
        &format!("level {asked}"),
        |file, groups, work| reference::level(file, groups, asked, work),
        |file, [a, b], work| lent::level(file, a, b, asked, work),
    );
    try_level(
        case,
        &format!("level_across {asked}"),
        |file, groups, work| reference::level_across(file, groups, asked, work),
        |file, [a, b], work| lent::level_across(file, a, b, asked, work),
    );
}

fn try_equal_level(case: &mut Case) {
    try_level(
        case,
        "equal_level",
        reference::equal_level,
        |file, [a, b], work| lent::equal_level(file, a, b, work),
    );
}

/// A level of any kind.
fn try_level(
    case: &mut Case,
    call: &str,
    reference: impl Fn(&[u8], [&[u8]; 2], usize) -> lent::LevelNumbers,
    library: impl Fn(&[u8], [&[u8]; 2], &mut [u16]) -> lent::LevelNumbers,
) {
    let (n, m) = case.claimed();
    for (groups, lengths) in tries_inside(&mut case.draw, n, [n, n, work_length(n, m)]) {
        let mut work = Table::words(&mut case.draw, lengths[2]);
        let library_groups = groups.clone();
        let mut library_work = work.clone();
        let expected = reference(&case.file, lend(&groups), lengths[2]);
        let given = library(&case.file, lend(&library_groups), library_work.lend());
        clear_work(case, expected.refusal, [&mut work, &mut library_work]);
        case.seen(expected.refusal);
        case.compare(
            || format!("{call}, lengths {lengths:?}"),
            (expected, groups, work),
            (given, library_groups, library_work),
        );
    }
}

fn try_layers(case: &mut Case) {
    let (n, m) = case.claimed();
    for (groups, lengths) in tries_inside(&mut case.draw, n, [n, n, m, work_length(n, m)]) {
        let mut layers = Table::words(&mut case.draw, lengths[2]);
        let mut work = Table::words(&mut case.draw, lengths[3]);
        let library_groups = groups.clone();
        let (mut library_layers, mut library_work) = (layers.clone(), work.clone());
        let expected = reference::layers(&case.file, lend(&groups), layers.lend(), lengths[3]);
        let [a, b] = lend(&library_groups);
        let (lent_layers, lent_work) = (library_layers.lend(), library_work.lend());
        let given = lent::layers(&case.file, a, b, lent_layers, lent_work);
        clear_work(case, expected.refusal, [&mut work, &mut library_work]);
        case.seen(expected.refusal);
        case.compare(
            || format!("layers, lengths {lengths:?}"),
            (expected, groups, layers, work),
            (given, library_groups, library_layers, library_work),
        );
    }
}
