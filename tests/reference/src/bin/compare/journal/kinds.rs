//! Journals of many kinds, and journals in which all members enter what they may.
use super::try_journal;
use crate::case::Case;
use crate::kinds::{network, KINDS};
use networks::{add, encode_journal, return_to, set, withdraw, Draw, Entry, Link};
use reference::{DUE, GIVEN, LINKS, MEMBERS};
use std::cmp::Reverse;

/// Members and entries.
type Journal = (usize, Vec<Entry>);

/// A kind of journal.
struct Kind {
    name: &'static str,
    journal: fn(&mut Draw) -> Journal,
}

static JOURNALS: [Kind; 11] = [
    Kind {
        name: "few members",
        journal: |draw| among_few(draw, 3, 80, [4, 3, 1, 1, 1]),
    },
    Kind {
        name: "named states",
        journal: |draw| among_few(draw, 4, 80, [3, 2, 4, 4, 1]),
    },
    Kind {
        name: "one member",
        journal: |draw| among_few(draw, 1, 40, [3, 3, 2, 2, 1]),
    },
    Kind {
        name: "hostile",
        journal: |draw| among_few(draw, 3, 120, [2, 1, 1, 1, 20]),
    },
    Kind {
        name: "two bytes",
        journal: two_bytes,
    },
    Kind {
        name: "noise",
        journal: noise,
    },
    Kind {
        name: "a network's links",
        journal: network_links,
    },
    Kind {
        name: "many members",
        journal: many_members,
    },
    Kind {
        name: "nobody",
        journal: nobody,
    },
    Kind {
        name: "few places for anyone",
        journal: few_places,
    },
    Kind {
        name: "64 given",
        journal: sixty_four,
    },
];

/// How often an entry adds, withdraws, sets, returns, or is hostile.
type Weights = [usize; 5];

/// An entry by these weights. One that is about a link is about this one.
fn entry(draw: &mut Draw, n: usize, link: Link, weights: Weights) -> Entry {
    let mut place = draw.below(weights.iter().sum());
    let mut kind = 0;
    while place >= weights[kind] {
        place -= weights[kind];
        kind += 1;
    }
    match kind {
        0 => add(link),
        1 => withdraw(link),
        2 => set(draw.below(4)),
        3 => return_to(draw.below(4)),
        _ => hostile(draw, n),
    }
}

/// An entry of any kind, its numbers around every limit.
fn hostile(draw: &mut Draw, n: usize) -> Entry {
    let random = draw.number() as u8;
    let kind = draw.pick(&[0, 1, 2, 2, 3, 3, 4, 5, 128, 255, random]);
    let [first, second] = [(); 2].map(|()| {
        let random = draw.below(65_536);
        let members = [n.saturating_sub(1), n, n + 1, 65_535, random];
        let names = [0, 0, 0, 1, 2, 3, 4, 5, 255, 256, 257, 259];
        draw.pick(&[&members[..], &names].concat())
    });
    (kind, first, second)
}

/// So many entries by these weights, about links between these members.
fn mixed(
    draw: &mut Draw,
    n: usize,
    members: &[usize],
    length: usize,
    weights: Weights,
) -> Vec<Entry> {
    let next = |_| {
        let link = (draw.pick(members), draw.pick(members));
        entry(draw, n, link, weights)
    };
    (0..length).map(next).collect()
}

/// Up to so many entries about links between up to so many members.
fn among_few(draw: &mut Draw, most: usize, length: usize, weights: Weights) -> Journal {
    let n = draw.among(1, most);
    let members: Vec<usize> = (0..n).collect();
    let length = draw.among(0, length);
    (n, mixed(draw, n, &members, length, weights))
}

/// Members whose numbers differ in the high byte alone, or in the low one.
fn two_bytes(draw: &mut Draw) -> Journal {
    let members = [0, 1, 255, 256, 257, 512, 2046, 2047];
    let length = draw.among(0, 120);
    let entries = mixed(draw, MEMBERS, &members, length, [5, 3, 1, 1, 1]);
    (MEMBERS, entries)
}

/// Any bytes at all.
fn noise(draw: &mut Draw) -> Journal {
    let n = draw.among(0, MEMBERS);
    let mut number = |limit| draw.below(limit);
    let length = number(40);
    let entries = (0..length).map(|_| (number(256) as u8, number(65_536), number(65_536)));
    (n, entries.collect())
}

/// The links of a network of any kind, in any order, and between them entries about those before.
fn network_links(draw: &mut Draw) -> Journal {
    let kind = &KINDS[draw.below(KINDS.len())];
    let n = draw.among(1, 30);
    let mut links = network(draw, kind, n, 200).links;
    if draw.one_in(2) {
        draw.shuffle(&mut links);
    }
    let mut entries = Vec::new();
    for (place, &link) in links.iter().enumerate() {
        entries.push(add(link));
        if draw.one_in(5) {
            let earlier = links[draw.below(place + 1)];
            entries.push(entry(draw, n, earlier, [1, 4, 1, 1, 1]));
        }
    }
    (n, entries)
}

/// Links between many members, of which some come back.
fn many_members(draw: &mut Draw) -> Journal {
    let n = draw.among(100, MEMBERS);
    let mut links = vec![(n - 1, n - 1)];
    let mut entries = Vec::new();
    for _ in 0..draw.among(0, 400) {
        if draw.one_in(2) {
            links.push((draw.below(n), draw.below(n)));
        }
        let newest = draw.one_in(2);
        let link = draw.pick(&links[if newest { links.len() - 1 } else { 0 }..]);
        entries.push(entry(draw, n, link, [8, 4, 1, 1, 1]));
    }
    (n, entries)
}

fn nobody(draw: &mut Draw) -> Journal {
    let length = draw.among(0, 12);
    (0, (0..length).map(|_| hostile(draw, 0)).collect())
}

/// Makes the case's journal.
fn set_journal(case: &mut Case, name: &str, (n, entries): Journal) {
    case.kind = format!("{name}, n {n}, {} entries", entries.len());
    case.file = encode_journal(n, &entries);
}

/// A journal of the kinds by turns.
pub fn small_journal(case: &mut Case) {
    let kind = &JOURNALS[case.turn as usize % JOURNALS.len()];
    let journal = (kind.journal)(&mut case.draw);
    set_journal(case, kind.name, journal);
}

pub fn journals(case: &mut Case) {
    small_journal(case);
    try_journal(case);
}

/// Members of whom the first are busy and enter so many links each, and the last are small and enter four.
struct Fight {
    n: usize,
    busy: usize,
    each: usize,
    small: usize,
}

impl Fight {
    /// Busy members who take all places that are anyone's, where they are enough for it.
    fn for_places(draw: &mut Draw, n: usize) -> Fight {
        let places = LINKS - DUE * n;
        // With so many more than four each, all members take all places.
        let least = DUE + places / n + 1;
        let each = draw.among(least.min(GIVEN + 2), GIVEN + 2);
        let most = each.min(GIVEN) - DUE;
        let busy = n.min(places / most + draw.among(1, 3));
        let small = (n - busy).max(1);
        Fight {
            n,
            busy,
            each,
            small,
        }
    }

    /// Some of the links that a member may enter, which have numbers from 0.
    fn links(&self, member: usize, from: usize, to: usize) -> Vec<Link> {
        let link = |place| (member, (7 * member + place) % self.n);
        (from..to).map(link).collect()
    }

    /// What all enter, in an order of any kind.
    fn opening(&self, draw: &mut Draw) -> Vec<Link> {
        let busy = (0..self.busy).flat_map(|member| self.links(member, 0, self.each));
        let small = (self.n - self.small..self.n).flat_map(|member| self.links(member, 0, DUE));
        let mut links: Vec<Link> = busy.chain(small).collect();
        match draw.below(5) {
            0 => links.sort_by_key(|&link| Reverse(link)),
            1 => links.sort_by_key(|&(voucher, vouched)| (vouched, voucher)),
            2 => draw.shuffle(&mut links),
            _ => (),
        }
        links
    }

    /// A link that a busy member or a small one might enter next.
    fn further(&self, draw: &mut Draw) -> Link {
        let (first, members, given) = match draw.below(3) {
            0 => (0, self.n, DUE),
            1 => (self.n - self.small, self.small, DUE),
            _ => (0, self.busy, self.each),
        };
        let member = first + draw.below(members);
        let links = self.links(member, given, given + 4);
        draw.pick(&links)
    }

    /// All that they enter, with states set on the way, then so many entries at the edge.
    fn journal(&self, draw: &mut Draw, length: usize) -> Journal {
        let links = self.opening(draw);
        let mut entries = Vec::new();
        for (place, &link) in links.iter().enumerate() {
            entries.push(add(link));
            if draw.one_in(1000) || (place + 5 > links.len() && draw.one_in(2)) {
                entries.push(set(draw.below(4)));
            }
        }
        for _ in 0..length {
            let link = match draw.one_in(2) {
                true => self.further(draw),
                false => draw.pick(&links),
            };
            entries.push(entry(draw, self.n, link, [6, 2, 1, 1, 1]));
        }
        (self.n, entries)
    }
}

/// So many members that few busy ones take all places that are anyone's, of which there may be none; of the small ones some act.
fn few_places(draw: &mut Draw) -> Journal {
    let n = draw.pick(&[2018, 2030, 2033, 2040, 2045, 2047, MEMBERS]);
    let small = draw.among(1, 12);
    let fight = Fight::for_places(draw, n);
    let length = draw.among(0, 200);
    Fight { small, ..fight }.journal(draw, length)
}

/// Members who have given 64 or nearly so, where places are left for all.
fn sixty_four(draw: &mut Draw) -> Journal {
    let fight = Fight {
        n: draw.among(GIVEN + 2, 200),
        busy: draw.among(1, 3),
        each: draw.among(GIVEN - 1, GIVEN + 1),
        small: draw.among(1, 5),
    };
    let length = draw.among(0, 200);
    fight.journal(draw, length)
}

/// All members enter links, until live + due is 8,192 or, where they are too few, all have given 64.
fn filled(draw: &mut Draw) -> Journal {
    let n = draw.pick(&[91, 127, 128, 129, 140, 300, 1000, 2000, 2033, 2047, MEMBERS]);
    let fight = Fight::for_places(draw, n);
    let length = draw.among(200, 800);
    fight.journal(draw, length)
}

/// Journals in which all members enter what they may, and now and then one with more entries than 16 bits can count.
pub fn full(case: &mut Case) {
    if case.number % 8 == 7 {
        let members = [0, 1, 2];
        let entries = mixed(&mut case.draw, 3, &members, 70_000, [4, 3, 1, 1, 1]);
        set_journal(case, "many entries", (3, entries));
    } else {
        let journal = filled(&mut case.draw);
        set_journal(case, "filled", journal);
    }
    try_journal(case);
}
