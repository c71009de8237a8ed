//! Links worked out by hand, with the levels without them and with them.
use super::{all_levels, questions, try_link};
use crate::case::Case;
use crate::inside::{everyone, Groups};
use networks::{Kinded, Link, Network, Vouch};

/// A level without the link, and with it.
type Move = [usize; 2];

struct Example {
    n: usize,
    links: &'static [Link],
    link: Link,
    /// Who is kept out of A, and out of B.
    out: [&'static [usize]; 2],
    /// The levels of 1, 2 and so on.
    level: &'static [Move],
    across: &'static [Move],
    equal: Move,
}

/// Three members who each vouch for the same three, but for the link from 2 to 5.
const RING: &[Link] = &[
    (0, 3),
    (0, 4),
    (0, 5),
    (1, 3),
    (1, 4),
    (1, 5),
    (2, 3),
    (2, 4),
];

const EXAMPLES: [Example; 9] = [
    // [2,3] with 3 and 4, or [3,2] with 0 and 1; then [3,3].
    Example {
        n: 6,
        links: RING,
        link: (2, 5),
        out: [&[], &[]],
        level: &[[3, 3], [3, 3], [2, 3], [0, 0]],
        across: &[[3, 3], [3, 3], [2, 3], [0, 0]],
        equal: [2, 3],
    },
    // Without the voucher in A there is [3,2] alone.
    Example {
        n: 6,
        links: RING,
        link: (2, 5),
        out: [&[2], &[]],
        level: &[[2, 2], [2, 2], [2, 2], [0, 0]],
        across: &[[3, 3], [3, 3], [0, 0], [0, 0]],
        equal: [2, 2],
    },
    // Without the vouched member in B there is [2,3] alone.
    Example {
        n: 6,
        links: RING,
        link: (2, 5),
        out: [&[], &[5]],
        level: &[[3, 3], [3, 3], [0, 0], [0, 0]],
        across: &[[2, 2], [2, 2], [2, 2], [0, 0]],
        equal: [2, 2],
    },
    // Out of B the voucher may be, and out of A the vouched member.
    Example {
        n: 6,
        links: RING,
        link: (2, 5),
        out: [&[5], &[2]],
        level: &[[3, 3], [3, 3], [2, 3], [0, 0]],
        across: &[[3, 3], [3, 3], [2, 3], [0, 0]],
        equal: [2, 3],
    },
    // To a member whom nobody else vouches for.
    Example {
        n: 7,
        links: RING,
        link: (2, 6),
        out: [&[], &[]],
        level: &[[3, 3], [3, 3], [2, 2], [0, 0]],
        across: &[[3, 3], [3, 3], [2, 2], [0, 0]],
        equal: [2, 2],
    },
    // The first link.
    Example {
        n: 2,
        links: &[],
        link: (0, 1),
        out: [&[], &[]],
        level: &[[0, 1], [0, 0]],
        across: &[[0, 1], [0, 0]],
        equal: [0, 1],
    },
    // A link to oneself.
    Example {
        n: 1,
        links: &[],
        link: (0, 0),
        out: [&[], &[]],
        level: &[[0, 1], [0, 0]],
        across: &[[0, 1], [0, 0]],
        equal: [0, 1],
    },
    // A star: the level of 4 and the level across for 1 alone.
    Example {
        n: 5,
        links: &[(0, 1), (0, 2), (0, 3)],
        link: (0, 4),
        out: [&[], &[]],
        level: &[[1, 1], [1, 1], [1, 1], [0, 1], [0, 0]],
        across: &[[3, 4], [0, 0], [0, 0], [0, 0], [0, 0]],
        equal: [1, 1],
    },
    // Two levels either way with one link, and not the equal level: from [1,3], [2,2] and [1,3] to [1,4], [2,3] and [1,4].
    Example {
        n: 6,
        links: &[(0, 4), (0, 5), (1, 4), (1, 5), (2, 4), (3, 5)],
        link: (3, 4),
        out: [&[], &[]],
        level: &[[3, 4], [2, 3], [0, 0], [0, 0], [0, 0]],
        across: &[[2, 2], [2, 2], [1, 2], [0, 1], [0, 0]],
        equal: [2, 2],
    },
];

impl Example {
    /// Everyone but those kept out.
    fn groups(&self) -> Groups {
        let mut groups = everyone(self.n);
        for (group, out) in groups.iter_mut().zip(self.out) {
            out.iter().for_each(|&member| group[member] = 0);
        }
        groups
    }

    /// The levels without the link, or with it, in the order of the calls asked.
    fn levels(&self, with: usize) -> Vec<usize> {
        let numbers = self.level.iter().zip(self.across);
        let both = numbers.flat_map(|(level, across)| [level[with], across[with]]);
        both.chain([self.equal[with]]).collect()
    }
}

/// The examples, by the reference and by the library, in version 1 and with kinds 0 and 1 by turns.
pub fn examples(case: &mut Case) {
    for example in &EXAMPLES {
        let network = Kinded::from(&Network::new(example.n, example.links));
        let kinds = [0, 1].into_iter().cycle();
        let links = network.links.iter().zip(kinds);
        let links: Vec<Vouch> = links.map(|(vouch, kind)| (vouch.0, kind)).collect();
        let of_kinds = Kinded::new(example.n, &links);
        for network in [network, of_kinds] {
            expect_levels(case, example, &network);
        }
    }
}

fn expect_levels(case: &mut Case, example: &Example, network: &Kinded) {
    let version = network.version;
    case.kind = format!("the link {:?} by hand, version {version}", example.link);
    case.file = network.encode();
    let numbers: Vec<u16> = (1..=example.level.len() as u16).collect();
    let questions = questions(vec![example.groups()], &numbers);
    let without = all_levels(case, &questions);
    let with = try_link(case, network, example.link, &questions, &without);
    let worked_out = [0, 1].map(|with| vec![example.levels(with)]);
    case.compare(|| "levels by hand".into(), worked_out, [without, with]);
}
