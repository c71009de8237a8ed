//! Two networks of any size over one n: one network's links shared out between them in many ways, and others that are like it; and the same
//! links over n that differ.
use super::{expect, expect_common, other_record, refused, try_files, weighs_as};
use crate::case::Case;
use crate::kinds::{network, KINDS};
use crate::networks::{drawn, full_file, largest_file, medium_file, small_file};
use networks::{Draw, Kinded, Link, Network};
use reference::MEMBERS;

/// Where a link is.
#[derive(Clone, Copy, PartialEq)]
enum Share {
    Both,
    First,
    Second,
}

use Share::{Both, First, Second};

/// A way to share links out: where the link at a place among so many goes.
type Split = (&'static str, fn(&mut Draw, usize, usize) -> Share);

static SPLITS: [Split; 17] = [
    ("equal", |_, _, _| Both),
    ("one in the first only", |_, place, m| {
        alone_where(place == m / 2, First)
    }),
    ("the first link in the second only", |_, place, _| {
        alone_where(place == 0, Second)
    }),
    ("the last link in the first only", |_, place, m| {
        alone_where(place + 1 == m, First)
    }),
    ("the last two in one only each", |_, place, m| {
        [Both, First, Second][(place + 3).saturating_sub(m)]
    }),
    ("some dropped and others added", |draw, _, _| {
        draw.pick(&[Both, Both, Both, Both, Both, First, Second])
    }),
    ("a part", |draw, _, _| draw.pick(&[Both, First])),
    ("any", |draw, _, _| draw.pick(&[Both, First, Second])),
    ("few in common", |draw, _, _| {
        draw.pick(&[Both, First, First, First, Second, Second, Second])
    }),
    ("nothing in common", |draw, _, _| alone(draw)),
    ("only the last in common", |draw, place, m| {
        common_where(draw, place + 1 == m)
    }),
    ("only the first in common", |draw, place, _| {
        common_where(draw, place == 0)
    }),
    ("by turns", |_, place, _| [First, Second][place % 2]),
    ("in runs", |_, place, _| {
        [First, Both, Second][place / 4 % 3]
    }),
    ("in long runs", |_, place, _| {
        [Both, First, Both, Second][place / 17 % 4]
    }),
    ("one after the other", |_, place, m| {
        [First, Second][(2 * place >= m) as usize]
    }),
    ("all in one", |_, _, _| First),
];

fn alone(draw: &mut Draw) -> Share {
    draw.pick(&[First, Second])
}

fn alone_where(here: bool, share: Share) -> Share {
    if here {
        share
    } else {
        Both
    }
}

fn common_where(draw: &mut Draw, here: bool) -> Share {
    if here {
        Both
    } else {
        alone(draw)
    }
}

/// The network of the links that go to one of these.
fn kept(network: &Kinded, shares: &[Share], here: &[Share]) -> Kinded {
    let links = network.links.iter().zip(shares);
    let links = links.filter(|(_, share)| here.contains(share));
    Kinded {
        links: links.map(|(&vouch, _)| vouch).collect(),
        ..network.clone()
    }
}

/// The second file may have other kinds: a link that is in either with another weight is in neither's share of both.
fn try_split(case: &mut Case, network: &Kinded, (what, share): &Split) {
    let m = network.links.len();
    let shares: Vec<Share> = (0..m).map(|e| share(&mut case.draw, e, m)).collect();
    let other = other_record(&mut case.draw, &network.plain(), network);
    let first = kept(network, &shares, &[Both, First]);
    let second = kept(&other, &shares, &[Both, Second]);
    let mut both = network.clone();
    let places = shares.iter().zip(&other.links);
    let mut shared = places.map(|(share, other)| (*share == Both, *other));
    both.links.retain(|vouch| {
        let (is_shared, other) = shared.next().expect("as many links");
        is_shared && weighs_as(vouch.1, other.1)
    });
    expect_common(case, what, [&first, &second], &both);
}

/// Links that are like those of a network, over its members.
type Like = (&'static str, fn(&mut Draw, &Network) -> Vec<Link>);

static LIKES: [Like; 6] = [
    ("the same", |_, network| network.links.clone()),
    ("turned round", |_, network| {
        network.links.iter().map(|&(a, b)| (b, a)).collect()
    }),
    ("some numbers another by a bit", |draw, network| {
        let links = network.links.iter();
        links
            .map(|&link| changed_bit(draw, network.n, link))
            .collect()
    }),
    ("the next vouched", |_, &Network { n, ref links }| {
        links.iter().map(|&(a, b)| (a, (b + 1) % n)).collect()
    }),
    ("the next voucher", |_, &Network { n, ref links }| {
        links.iter().map(|&(a, b)| ((a + 1) % n, b)).collect()
    }),
    ("another network", |draw, &Network { n, ref links }| {
        let kind = &KINDS[draw.below(KINDS.len())];
        network(draw, kind, n, links.len()).links
    }),
];

/// A link, or one with a bit of a number changed, where that is a member too.
fn changed_bit(draw: &mut Draw, n: usize, (a, b): Link) -> Link {
    let bit = 1 << draw.below(11);
    match draw.below(6) {
        0 if a ^ bit < n => (a ^ bit, b),
        1 if b ^ bit < n => (a, b ^ bit),
        _ => (a, b),
    }
}

fn try_like(case: &mut Case, first: &Kinded, (what, like): &Like) {
    let mut links = like(&mut case.draw, &first.plain());
    links.sort();
    links.dedup();
    let second = Network { n: first.n, links };
    let second = other_record(&mut case.draw, &second, first);
    try_files(case, what, [&first.encode(), &second.encode()]);
}

/// The same links over another n: 21, with any output. So it is where the numbers differ in the higher byte alone.
fn try_other_n(case: &mut Case, network: &Kinded) {
    let n = network.n;
    let fewest = network.links.iter().map(|&((a, b), _)| a.max(b) + 1).max();
    let any = case.draw.below(MEMBERS + 1);
    for other_n in [
        n + 1,
        n.saturating_sub(1),
        n + 256,
        n ^ 1024,
        0,
        MEMBERS,
        any,
    ] {
        if other_n != n && (fewest.unwrap_or(0)..=MEMBERS).contains(&other_n) {
            let mut other = network.clone();
            other.n = other_n;
            let [one, other] = [network, &other].map(Kinded::encode);
            expect_other_n(case, [&one, &other]);
            expect_other_n(case, [&other, &one]);
        }
    }
    let file = network.encode();
    if n > 0 {
        expect_other_n(case, [&file, &[]]);
        expect_other_n(case, [&[], &file]);
    }
}

fn expect_other_n(case: &mut Case, files: [&[u8]; 2]) {
    let enough = files[0].len().max(files[1].len());
    for length in [enough, 8, 0] {
        expect(case, "another n", files, length, refused(21, 0));
    }
}

/// Small networks, or one in eleven times medium ones, related in every way; and, one in thirteen times, of full size in one way by turns.
pub fn try_related(case: &mut Case) {
    let network = match case.number % 11 {
        0 => drawn(case, medium_file),
        _ => drawn(case, small_file),
    };
    SPLITS
        .iter()
        .for_each(|split| try_split(case, &network, split));
    LIKES.iter().for_each(|like| try_like(case, &network, like));
    try_other_n(case, &network);
    if case.number % 13 == 0 {
        try_full(case);
    }
}

fn try_full(case: &mut Case) {
    let sets: [fn(&mut Case); 2] = [full_file, largest_file];
    let set_file = case.draw.pick(&sets);
    let network = drawn(case, set_file);
    let way = case.number as usize / 13 % (SPLITS.len() + LIKES.len());
    match SPLITS.get(way) {
        Some(split) => try_split(case, &network, split),
        None => try_like(case, &network, &LIKES[way - SPLITS.len()]),
    }
    if case.draw.one_in(4) {
        try_other_n(case, &network);
    }
}
