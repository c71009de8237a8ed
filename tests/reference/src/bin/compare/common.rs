//! The links in two files: examples by hand, every pair of networks of few members, networks that share their links in many ways, n that
//! differ, and files that are refused.
mod examples;
mod faults;
mod related;

pub use examples::expect_kinds;

use crate::case::{hex, Case};
use crate::enumerate::{of_picture, pictured};
use crate::link_kinds::{perhaps_with_kinds, with_kinds_of};
use crate::table::{lengths_to_try, Table};
use cogsplice::lent::{self, CheckNumbers, CommonNumbers};
use networks::{Draw, Kinded, Link, Network, Vouch};
use reference::{file_length, read, weight};
use std::collections::HashMap;
use std::fmt::Debug;

/// The two files, the first and the second.
type Files<'a> = [&'a [u8]; 2];

/// The answer where nothing is refused: how many links are in both, in the first only and in the second only.
fn accepted([both, first_only, second_only]: [usize; 3]) -> CommonNumbers {
    CommonNumbers {
        refusal: 0,
        link: 0,
        both,
        first_only,
        second_only,
    }
}

fn refused(refusal: u16, link: u16) -> CommonNumbers {
    CommonNumbers {
        refusal,
        link,
        ..accepted([0; 3])
    }
}

/// The answer where so many bytes are needed.
fn judged(length: usize, needed: usize, totals: [usize; 3]) -> CommonNumbers {
    if length < needed {
        refused(9, 0)
    } else {
        accepted(totals)
    }
}

/// A call's answer with an output that is long enough for all links of either file, and the file written.
fn with_enough(
    case: &mut Case,
    call: impl FnOnce(&[u8], &[u8], &mut [u8]) -> CommonNumbers,
    [first, second]: Files,
) -> (CommonNumbers, Vec<u8>) {
    // A link takes four bytes at least in either file, and five in the one written.
    let enough = file_length(2, first.len().min(second.len()) / 4);
    let mut out = Table::bytes(&mut case.draw, enough);
    let told = call(first, second, out.lend());
    let mut written = out.lend().to_vec();
    written.truncate(file_length(2, told.both));
    (told, written)
}

/// Compares what is expected of two files with what the library gave.
fn compare<A: PartialEq + Debug>(
    case: &mut Case,
    what: &str,
    [first, second]: Files,
    expected: A,
    given: A,
) {
    case.file = first.to_vec();
    let call = || format!("common, {what}, second {}", hex(second));
    case.compare(call, expected, given);
}

/// The library's answer with an output that is long enough, and the file written.
fn expect_written(case: &mut Case, what: &str, files: Files, wanted: (CommonNumbers, Vec<u8>)) {
    let given = with_enough(case, lent::common, files);
    compare(case, &format!("{what}: written"), files, wanted, given);
}

/// The call by the reference and by the library, with an output of this length; the answer of the library. Neither file is written.
fn try_length(case: &mut Case, what: &str, files: Files, length: usize) -> CommonNumbers {
    let [first, second] = files;
    let mut out = Table::bytes(&mut case.draw, length);
    let mut library_out = out.clone();
    let tables = files.map(|file| Table::holding(&mut case.draw, file));
    let mut library_tables = tables.clone();
    let expected = reference::common(first, second, out.lend());
    let [one, other] = &mut library_tables;
    let given = lent::common(one.lend(), other.lend(), library_out.lend());
    case.seen(expected.refusal);
    compare(
        case,
        &format!("{what}, length {length}"),
        files,
        (expected, None, None),
        (
            given,
            out.difference(&library_out),
            (tables != library_tables).then_some("a file was written"),
        ),
    );
    given
}

/// The call with an output of this length, with the answer that is known.
fn expect(case: &mut Case, what: &str, files: Files, length: usize, wanted: CommonNumbers) {
    let given = try_length(case, what, files, length);
    compare(case, &format!("{what}: known"), files, wanted, given);
}

/// The call on two files, either way round: with outputs exactly long enough, longer by a few, none, one byte short, short by any number,
/// without room for a header, as long as with four bytes a link, and as long as either file or a byte less.
fn try_files(case: &mut Case, what: &str, files: Files) {
    let [first, second] = files;
    let told = with_enough(case, reference::common, files).0;
    let needed = file_length(2, told.both);
    let mut lengths = lengths_to_try(&mut case.draw, [needed]).concat();
    lengths.extend([8, file_length(1, told.both), case.draw.below(needed)]);
    for length in files.map(<[u8]>::len) {
        lengths.extend([length, length.saturating_sub(1)]);
    }
    for length in lengths {
        try_length(case, what, files, length);
        try_length(case, what, [second, first], length);
    }
    if told.refusal == 0 {
        try_laws(case, what, files);
    }
}

/// What holds of two files that are not refused, whatever the reference gives: each m is what is in both and in that file only; the file
/// written is accepted, over the same n and of as many links; with the files exchanged it has the same links and weights, with the kinds of
/// the file that is first then; with itself in place of one of them it is the same; and of either file with itself it is that file in
/// version 2.
fn try_laws(case: &mut Case, what: &str, files: Files) {
    let (told, written) = with_enough(case, lent::common, files);
    let (both, first_only, second_only) = (told.both, told.first_only, told.second_only);
    let [first, second] = files;
    let [one, other] = files.map(lent::check);
    let sums = [both + first_only, both + second_only];
    compare(case, &format!("{what}: m"), files, [one.m, other.m], sums);
    let wanted = CheckNumbers { m: both, ..one };
    let checked = lent::check(&written);
    let call = format!("{what}: check of what is written");
    compare(case, &call, files, wanted, checked);
    let exchanged = with_kinds_in(&written, second);
    let [wanted, given] = [&written, &exchanged].map(|file| weighed(file));
    compare(case, &format!("{what}: weights"), files, wanted, given);
    for (files, totals, wanted) in [
        ([second, first], [both, second_only, first_only], &exchanged),
        ([second, &written], [both, second_only, 0], &exchanged),
        ([&written, second], [both, 0, second_only], &written),
        ([first, &written], [both, first_only, 0], &written),
        ([&written, first], [both, 0, first_only], &written),
    ] {
        let wanted = (accepted(totals), wanted.clone());
        expect_written(case, what, files, wanted);
    }
    for (file, m) in [(first, one.m), (second, other.m)] {
        let wanted = (accepted([m, 0, 0]), as_written(file));
        expect_written(case, what, [file, file], wanted);
    }
}

/// An accepted file in version 2, with its kinds.
fn as_written(file: &[u8]) -> Vec<u8> {
    let network = read(file).expect("an accepted file");
    in_version_2(&network).encode()
}

fn in_version_2(network: &Kinded) -> Kinded {
    Kinded::new(network.n, &network.links)
}

/// The file with the kinds that another file's links have, those of links that are in both.
fn with_kinds_in(file: &[u8], other: &[u8]) -> Vec<u8> {
    let (mut network, other) = match (read(file), read(other)) {
        (Ok(network), Ok(other)) => (network, other),
        _ => return Vec::new(),
    };
    let kinds: HashMap<Link, u8> = other.links.into_iter().collect();
    for (link, kind) in &mut network.links {
        *kind = kinds.get(link).copied().unwrap_or(*kind);
    }
    network.encode()
}

/// The links of a file with their weights.
fn weighed(file: &[u8]) -> Option<Vec<(Link, usize)>> {
    let network = read(file).ok()?;
    let links = network.links.into_iter();
    Some(links.map(|(link, kind)| (link, weight(kind))).collect())
}

/// The call on two files of networks over one n, with the answer that is known: the links of the third are in both.
fn expect_common(case: &mut Case, what: &str, networks: [&Kinded; 2], both: &Kinded) {
    let [first, second] = networks.map(Kinded::encode);
    let files = [&first[..], &second];
    let shared = both.links.len();
    let [first_only, second_only] = networks.map(|network| network.links.len() - shared);
    let written = in_version_2(both).encode();
    let wanted = (accepted([shared, first_only, second_only]), written);
    expect_written(case, what, files, wanted);
    try_files(case, what, files);
}

/// A network of up to 3 members by turns, or one of 4, against all of as many members, or some: the links in both are the bits of both
/// pictures, where their kinds are equal or weigh the same.
fn try_pictures(case: &mut Case) {
    let (n, picture) = pictured(case);
    let pictures = 1 << (n * n);
    let others: Vec<usize> = match n {
        0..=3 => (0..pictures).collect(),
        _ => (0..500).map(|_| case.draw.below(pictures)).collect(),
    };
    let first = perhaps_with_kinds(&mut case.draw, &of_picture(n, picture));
    for other in others {
        let second = other_record(&mut case.draw, &of_picture(n, other), &first);
        let mut both = Kinded::new(n, &first.links);
        both.links.retain(|vouch| has_equal(&second, vouch));
        let networks = [&first, &second];
        let [first, second] = networks.map(Kinded::encode);
        let files = [&first[..], &second];
        let shared = both.links.len();
        let [first_only, second_only] = networks.map(|network| network.links.len() - shared);
        let wanted = (accepted([shared, first_only, second_only]), both.encode());
        expect_written(case, "pictures", files, wanted);
        try_length(case, "pictures", files, both.encode().len());
        try_length(case, "pictures", files, both.encode().len() - 1);
    }
}

/// Whether a network of few links has this one, of the same weight.
fn has_equal(network: &Kinded, &(link, kind): &Vouch) -> bool {
    let mut links = network.links.iter();
    links.any(|other| other.0 == link && weighs_as(other.1, kind))
}

/// Whether two kinds weigh the same: of different ones only 0 and 1 do.
fn weighs_as(one: u8, other: u8) -> bool {
    one == other || one.max(other) == 1
}

/// A second file beside that of another network: without kinds, with its kinds, with those or others that weigh the same, or with any.
fn other_record(draw: &mut Draw, network: &Network, other: &Kinded) -> Kinded {
    match draw.below(4) {
        0 => Kinded::from(network),
        1 => perhaps_with_kinds(draw, network),
        2 => with_kinds_of(draw, network, other),
        _ => {
            let mut record = with_kinds_of(draw, network, other);
            for (_, kind) in record.links.iter_mut().filter(|vouch| vouch.1 < 2) {
                *kind = draw.below(2) as u8;
            }
            record
        }
    }
}

pub fn common(case: &mut Case) {
    if case.number == 0 {
        examples::examples(case);
    }
    case.kind = "picture".into();
    try_pictures(case);
    related::try_related(case);
    faults::try_faults(case);
}
