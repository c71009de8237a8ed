//! Networks of many kinds, for any number of members and any limit of links. The kinds of the links are drawn elsewhere.
use networks::{root, Draw, Link, Network, Vouch};
use std::cmp::Reverse;

/// A kind of network: its links among n members, about m at most. Repeats are taken out later.
pub struct Kind {
    pub name: &'static str,
    links: fn(&mut Draw, usize, usize) -> Vec<Link>,
}

pub static KINDS: [Kind; 18] = [
    Kind {
        name: "random",
        links: random,
    },
    Kind {
        name: "crammed",
        links: crammed,
    },
    Kind {
        name: "sparse",
        links: sparse,
    },
    Kind {
        name: "dense",
        links: dense,
    },
    Kind {
        name: "power law",
        links: power_law,
    },
    Kind {
        name: "star out",
        links: star_out,
    },
    Kind {
        name: "star in",
        links: star_in,
    },
    Kind {
        name: "planted pair",
        links: planted_pair,
    },
    Kind {
        name: "block",
        links: block,
    },
    Kind {
        name: "staircase",
        links: staircase,
    },
    Kind {
        name: "hyperbola",
        links: hyperbola,
    },
    Kind {
        name: "equal products",
        links: equal_products,
    },
    Kind {
        name: "ring beside stars",
        links: ring_beside_stars,
    },
    Kind {
        name: "self links",
        links: self_links,
    },
    Kind {
        name: "ladder",
        links: ladder,
    },
    Kind {
        name: "nested blocks",
        links: nested_blocks,
    },
    Kind {
        name: "few members",
        links: few_members,
    },
    Kind {
        name: "no link",
        links: no_link,
    },
];

/// A network of a kind with n members and at most m links, its members renamed and its links in order.
pub fn network(draw: &mut Draw, kind: &Kind, n: usize, m: usize) -> Network {
    if n == 0 {
        return Network {
            n,
            links: Vec::new(),
        };
    }
    let mut names: Vec<usize> = (0..n).collect();
    if draw.one_in(2) {
        draw.shuffle(&mut names);
    }
    let mut links = (kind.links)(draw, n, m);
    links.sort();
    links.dedup();
    draw.shuffle(&mut links);
    links.truncate(m);
    for link in &mut links {
        *link = (names[link.0], names[link.1]);
    }
    links.sort();
    Network { n, links }
}

/// Whether a link comes before the one preceding it.
fn descends(links: &[Vouch]) -> bool {
    links.windows(2).any(|pair| pair[1].0 < pair[0].0)
}

/// Puts links, at least two of them different, in an order that descends: now and then all the way, or at one place alone.
pub fn disorder(draw: &mut Draw, links: &mut [Vouch]) {
    loop {
        let place = draw.below(links.len() - 1);
        match draw.below(7) {
            0 => links.sort_by_key(|&(link, _)| Reverse(link)),
            1 => links.sort_by_key(|&((a, b), _)| (b, a)),
            2 => links.sort_by_key(|&((a, b), _)| (a, Reverse(b))),
            3 => links.swap(place, place + 1),
            4 => links[place..].rotate_left(1),
            5 => links[place..].rotate_right(1),
            _ => draw.shuffle(links),
        }
        if descends(links) {
            return;
        }
    }
}

fn pairs(draw: &mut Draw, n: usize, count: usize) -> Vec<Link> {
    (0..count).map(|_| (draw.below(n), draw.below(n))).collect()
}

/// The pairs of a grid that are kept, member numbers taken around at n.
fn grid(
    n: usize,
    size: Link,
    corner: Link,
    mut keep: impl FnMut(usize, usize) -> bool,
) -> Vec<Link> {
    let mut links = Vec::new();
    for a in 0..size.0.min(n) {
        for b in 0..size.1.min(n) {
            if keep(a, b) {
                links.push(((corner.0 + a) % n, (corner.1 + b) % n));
            }
        }
    }
    links
}

fn random(draw: &mut Draw, n: usize, m: usize) -> Vec<Link> {
    let count = draw.among(0, m);
    pairs(draw, n, count)
}

/// As many links as allowed, where the members suffice.
fn crammed(draw: &mut Draw, n: usize, m: usize) -> Vec<Link> {
    pairs(draw, n, 3 * m)
}

fn sparse(draw: &mut Draw, n: usize, m: usize) -> Vec<Link> {
    pairs(draw, n, n.min(m))
}

/// Nearly all pairs among as many members as the limit of links allows.
fn dense(draw: &mut Draw, n: usize, m: usize) -> Vec<Link> {
    let side = root(m) + 2;
    grid(n, (side, side), (0, 0), |_, _| !draw.one_in(10))
}

fn power_law(draw: &mut Draw, n: usize, m: usize) -> Vec<Link> {
    let mut low = || {
        let (first, second) = (draw.below(n), draw.below(n));
        first * second / n
    };
    (0..m).map(|_| (low(), low())).collect()
}

/// One member vouches for all, another for half of them; some further links.
fn star_out(draw: &mut Draw, n: usize, m: usize) -> Vec<Link> {
    let mut links = grid(n, (1, n), (0, 0), |_, _| true);
    links.extend(grid(n, (1, n / 2), (n / 3, n / 4), |_, _| true));
    let few = draw.among(0, 3).min(m);
    links.extend(pairs(draw, n, few));
    links
}

fn star_in(draw: &mut Draw, n: usize, m: usize) -> Vec<Link> {
    star_out(draw, n, m)
        .into_iter()
        .map(|(a, b)| (b, a))
        .collect()
}

/// A dense pair of groups among scattered links.
fn planted_pair(draw: &mut Draw, n: usize, m: usize) -> Vec<Link> {
    let half = m / 2;
    let vouchers = draw.among(1, root(half).max(1));
    let corner = (draw.below(n), draw.below(n));
    let size = (vouchers, half / vouchers);
    let mut links = grid(n, size, corner, |_, _| !draw.one_in(8));
    links.extend(pairs(draw, n, half));
    links
}

/// All pairs of two groups that overlap or do not: 90 by 90 at full size.
fn block(draw: &mut Draw, n: usize, m: usize) -> Vec<Link> {
    let corner = (draw.below(n), draw.below(n));
    grid(n, (root(m), root(m)), corner, |_, _| true)
}

/// Each voucher has one link fewer than the one before it: many levels.
fn staircase(_: &mut Draw, n: usize, m: usize) -> Vec<Link> {
    let side = root(2 * m).min(n);
    grid(n, (side, side), (0, n / 2), |a, b| a + b < side)
}

/// The products of levels lie close together.
fn hyperbola(_: &mut Draw, n: usize, m: usize) -> Vec<Link> {
    let mut limit = 1;
    let size = |limit: usize| {
        (1..=limit.min(n))
            .map(|a| (limit / a).min(n))
            .sum::<usize>()
    };
    while limit < n * n && size(limit + 1) <= m {
        limit += 1;
    }
    grid(n, (n, n), (0, n / 2), |a, b| (a + 1) * (b + 1) <= limit)
}

/// Blocks of one area and different sides, 1 by 12, 2 by 6, 3 by 4 and so on, apart from each other where the members suffice: products
/// tie. Which of them have room where the members do not suffice is drawn.
fn equal_products(draw: &mut Draw, n: usize, m: usize) -> Vec<Link> {
    let area: usize = draw.pick(&[2, 4, 6, 12, 36, 60, 120, 360]);
    let mut sides: Vec<usize> = (1..=area).filter(|x| area % x == 0).collect();
    draw.shuffle(&mut sides);
    let mut links = Vec::new();
    let mut corner = (0, 0);
    for x in sides {
        let size = (area / x, x);
        if links.len() + area <= m && corner.0 + size.0 <= n && corner.1 + size.1 <= n {
            links.extend(grid(n, size, corner, |_, _| true));
            corner = (corner.0 + size.0, corner.1 + size.1);
        }
    }
    links
}

/// A block beside a star in and a star out of as many links as it has, or one of these, now and then with a link more: products tie, or
/// the star comes first by one.
fn ring_beside_stars(draw: &mut Draw, n: usize, _: usize) -> Vec<Link> {
    let most = root(n / 2).max(2);
    let (x, y) = (draw.among(2, most), draw.among(2, most));
    let mut links = grid(n, (y, x), (0, 0), |_, _| true);
    let which = draw.below(3);
    let count = x * y + draw.one_in(5) as usize;
    if which != 1 {
        links.extend(grid(n, (count, 1), (y, x), |_, _| true));
    }
    if which != 2 {
        links.extend(grid(n, (1, count), (y + count, x + 1), |_, _| true));
    }
    links
}

fn self_links(_: &mut Draw, n: usize, _: usize) -> Vec<Link> {
    (0..n).map(|a| (a, a)).collect()
}

/// One long way along both sides, open or closed at the end: members drop one after another.
fn ladder(draw: &mut Draw, n: usize, _: usize) -> Vec<Link> {
    let mut links: Vec<Link> = (0..n).map(|a| (a, a)).collect();
    links.extend((1..n).map(|a| (a - 1, a)));
    if draw.one_in(2) {
        links.push((n - 1, 0));
    }
    links
}

/// Blocks inside larger and thinner ones.
fn nested_blocks(draw: &mut Draw, n: usize, m: usize) -> Vec<Link> {
    let mut links = Vec::new();
    let mut side = root(m) / 2;
    while side > 0 {
        let one_in = draw.among(1, 4);
        let size = (side * one_in, side);
        links.extend(grid(n, size, (0, 0), |_, _| draw.one_in(one_in)));
        side = side * 2 / 3;
    }
    links
}

/// Many links among few members; the others have none.
fn few_members(draw: &mut Draw, n: usize, m: usize) -> Vec<Link> {
    let few = draw.among(1, n.min(root(m) + 1));
    let corner = draw.below(n);
    grid(n, (few, few), (corner, corner), |_, _| draw.one_in(2))
}

fn no_link(_: &mut Draw, _: usize, _: usize) -> Vec<Link> {
    Vec::new()
}
