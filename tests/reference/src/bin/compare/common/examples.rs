//! Pairs of files worked out by hand, by the reference and by the library.
use super::{accepted, expect, expect_common, expect_written, judged, refused, try_files};
use crate::case::Case;
use crate::link_kinds::KINDS;
use networks::{all_links, encode, Kinded, Link, Network, Vouch};
use reference::{LINKS, MEMBERS};

/// n, the links of the first file and of the second, and those in both.
type Example = (usize, &'static [Link], &'static [Link], &'static [Link]);

const EXAMPLES: [Example; 24] = [
    (0, &[], &[], &[]),
    (1, &[], &[], &[]),
    (1, &[(0, 0)], &[], &[]),
    (1, &[(0, 0)], &[(0, 0)], &[(0, 0)]),
    // The same two members, and another voucher or another vouched.
    (2, &[(0, 1)], &[(1, 0)], &[]),
    (2, &[(0, 1)], &[(0, 0)], &[]),
    (2, &[(0, 1)], &[(1, 1)], &[]),
    (2, &[(0, 0), (1, 1)], &[(0, 1), (1, 0)], &[]),
    // A link of one file is at another place of the other.
    (3, &[(0, 0), (0, 1), (0, 2)], &[(0, 2)], &[(0, 2)]),
    (3, &[(0, 0), (1, 0), (2, 0)], &[(0, 1), (2, 0)], &[(2, 0)]),
    (
        3,
        &[(0, 1), (0, 2), (2, 2)],
        &[(0, 2), (1, 1), (2, 2)],
        &[(0, 2), (2, 2)],
    ),
    // One file comes to its end before the other, with a link in both or behind it.
    (3, &[(0, 0), (1, 1)], &[(1, 1), (2, 2)], &[(1, 1)]),
    (3, &[(0, 0), (0, 1)], &[(1, 0), (2, 2)], &[]),
    (3, &[(0, 0), (2, 2)], &[(1, 1)], &[]),
    (3, &[(0, 0), (2, 2)], &[(1, 1), (2, 2)], &[(2, 2)]),
    (3, &[(0, 0), (1, 2)], &[(0, 0), (1, 1), (2, 0)], &[(0, 0)]),
    // Numbers of two bytes, of which one is the same, or both in another order.
    (300, &[(0, 1), (256, 1)], &[(0, 257), (256, 1)], &[(256, 1)]),
    (300, &[(1, 0)], &[(257, 0)], &[]),
    (300, &[(0, 1)], &[(0, 257)], &[]),
    (300, &[(256, 0)], &[(1, 0)], &[]),
    (300, &[(255, 0), (256, 0)], &[(256, 0)], &[(256, 0)]),
    (300, &[(0, 255), (0, 256)], &[(0, 256), (1, 0)], &[(0, 256)]),
    (
        300,
        &[(0, 299), (256, 255), (299, 0)],
        &[(0, 299), (255, 256), (299, 0)],
        &[(0, 299), (299, 0)],
    ),
    (
        MEMBERS,
        &[(0, 2047), (2047, 0), (2047, 2047)],
        &[(0, 2047), (1023, 2047), (2047, 2047)],
        &[(0, 2047), (2047, 2047)],
    ),
];

/// A byte of W's file, another value, and the number with that of the link which refuses the file then.
type Damage = (usize, u8, (u16, u16));

const DAMAGES: [Damage; 13] = [
    (0, b'v', (2, 0)),
    (3, 3, (3, 0)),
    // Version 2, for which there are too few bytes.
    (3, 2, (6, 0)),
    (6, 8, (4, 0)),
    (8, 32, (5, 0)),
    (7, 7, (6, 0)),
    // Links 2 and 7 name member 6.
    (17, 6, (7, 2)),
    (39, 6, (7, 7)),
    // Link 1 becomes 0→3, and link 7 becomes 4→5.
    (15, 3, (8, 1)),
    (37, 4, (8, 7)),
    // Link 3 becomes 1→0, and link 6 becomes 0→5.
    (23, 0, (15, 3)),
    (33, 0, (15, 6)),
    // n becomes 7, which is no fault of the file.
    (5, 7, (0, 0)),
];

pub fn examples(case: &mut Case) {
    case.kind = "example".into();
    for (n, first, second, both) in EXAMPLES {
        let networks = [first, second, both].map(|links| Network::new(n, links));
        let [first, second, both] = [0, 1, 2].map(|which| Kinded::from(&networks[which]));
        expect_common(case, "example", [&first, &second], &both);
        expect_common(case, "example", [&second, &first], &both);
        let of_version_2 = Kinded::new(n, &second.links);
        expect_common(case, "example", [&first, &of_version_2], &both);
        expect_common(case, "example", [&of_version_2, &first], &both);
    }
    expect_kinds(case);
    expect_crowds(case);
    expect_no_bytes(case);
    let files = damaged_files();
    for first in &files {
        files
            .iter()
            .for_each(|second| expect_damaged(case, [first, second]));
    }
    expect_lengths(case);
}

/// Each of the most members vouches for the first four, and each of the later half for the first eight: both have the most links.
fn expect_crowds(case: &mut Case) {
    let members: Vec<usize> = (0..MEMBERS).collect();
    let later = &members[MEMBERS / 2..];
    let [all, eight, both] = [(&members[..], 4), (later, 8), (later, 4)]
        .map(|(vouchers, given)| Network::new(MEMBERS, &all_links(vouchers, &members[..given])))
        .map(|network| Kinded::from(&network));
    let counts = [&all, &eight, &both].map(|network| network.links.len());
    case.compare(
        || "the links of crowds".into(),
        [LINKS, LINKS, LINKS / 2],
        counts,
    );
    expect_common(case, "crowds", [&all, &eight], &both);
    expect_common(case, "crowds", [&all, &all], &all);
    let visits: Vec<Vouch> = all.links.iter().map(|vouch| (vouch.0, 7)).collect();
    let visits = Kinded::new(MEMBERS, &visits);
    expect_common(case, "crowds", [&visits, &visits], &visits);
    let nothing = Kinded::new(MEMBERS, &[]);
    expect_common(case, "crowds", [&visits, &all], &nothing);
}

/// One link of each kind against one of each: only equal kinds, and 0 and 1, are of equal weight, and the first file's is written.
pub fn expect_kinds(case: &mut Case) {
    let network = |kind| Kinded::new(2, &[((0, 1), kind)]);
    for kinds in (0..KINDS).flat_map(|one| (0..KINDS).map(move |other| [one, other])) {
        let [first, second] = kinds.map(network);
        let both = match kinds {
            [0 | 1, 0 | 1] => first.clone(),
            [one, other] if one == other => first.clone(),
            _ => Kinded::new(2, &[]),
        };
        expect_common(case, "one link of a kind each", [&first, &second], &both);
    }
    let first = [((0, 1), 1), ((0, 2), 3), ((1, 1), 0), ((2, 0), 7)];
    let second = [((0, 1), 0), ((0, 2), 2), ((1, 1), 0), ((2, 0), 7)];
    let networks = [first, second].map(|links| Kinded::new(3, &links));
    let both = [first, second].map(|links| Kinded::new(3, &[links[0], links[2], links[3]]));
    let [one, other] = &networks;
    expect_common(case, "four links of kinds", [one, other], &both[0]);
    expect_common(case, "four links of kinds", [other, one], &both[1]);
}

/// Zero bytes count as the file of nobody, and that of version 2 is written for two of any.
fn expect_no_bytes(case: &mut Case) {
    let nobody = encode(&Network::new(0, &[]));
    let written = Kinded::new(0, &[]).encode();
    for files in [
        [&[][..], &[]],
        [&[], &nobody],
        [&nobody, &[]],
        [&written, &[]],
        [&nobody, &written],
    ] {
        let wanted = (accepted([0; 3]), written.clone());
        expect_written(case, "no bytes", files, wanted);
        try_files(case, "no bytes", files);
    }
}

/// A file, and the number that refuses it with that of a link, or zeros.
type Told = (Vec<u8>, (u16, u16));

/// W with links of kind 1, but for these, in version 2, and what refuses it.
fn damaged_kinds() -> [Told; 4] {
    let file = |change: fn(&mut [Vouch])| {
        let mut network = Kinded::from(&Network::w());
        network.version = 2;
        network.links.iter_mut().for_each(|vouch| vouch.1 = 1);
        change(&mut network.links);
        network.encode()
    };
    [
        (file(|links| links[5].1 = 8), (22, 5)),
        // Before a repeat, though that is at an earlier link, and after a member that is not there.
        (
            file(|links| {
                links[1] = links[0];
                links[6].1 = 255;
            }),
            (22, 6),
        ),
        (
            file(|links| {
                links[0].1 = 9;
                links[7].0 .1 = 6;
            }),
            (7, 7),
        ),
        (file(|links| links[3] = (links[2].0, 2)), (8, 3)),
    ]
}

/// W's file, the same damaged in one place, its first 8 bytes, and damaged files with kinds.
fn damaged_files() -> Vec<Told> {
    let whole = encode(&Network::w());
    let damaged = DAMAGES.iter().map(|&(place, byte, told)| {
        let mut file = whole.clone();
        file[place] = byte;
        (file, told)
    });
    let short = (whole[..8].to_vec(), (1, 0));
    let others = [(whole.clone(), (0, 0)), short];
    damaged.chain(others).chain(damaged_kinds()).collect()
}

/// The first file's number comes first, then the second's, then 21 where n became another, and then 9 where the output is short.
fn expect_damaged(case: &mut Case, [first, second]: [&Told; 2]) {
    let told = [first.1, second.1].into_iter().find(|told| told.0 > 0);
    let files = [&first.0[..], &second.0];
    for length in [49, 48, 0] {
        let wanted = match told {
            Some((number, link)) => refused(number, link),
            None if files[0] != files[1] => refused(21, 0),
            None => judged(length, 49, [8, 0, 0]),
        };
        expect(case, "damaged W", files, length, wanted);
    }
}

/// W and three links of which two are W's: 19 bytes are enough, whatever either file has.
fn expect_lengths(case: &mut Case) {
    let w = encode(&Network::w());
    let few = encode(&Network::new(6, &[(0, 4), (3, 3), (5, 5)]));
    for length in 0..60 {
        let wanted = judged(length, 19, [2, 6, 1]);
        expect(case, "lengths", [&w, &few], length, wanted);
        let wanted = judged(length, 19, [2, 1, 6]);
        expect(case, "lengths", [&few, &w], length, wanted);
    }
}
