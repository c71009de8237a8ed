//! The links of both versions of the network file. What passes over links or rows is written once and compiled for each version: in
//! version 1 each link weighs 1, and no loop has a weight to look up or to add.
use super::chunks::{chunks, flattened};

/// A link as it stands in a file of version 1.
pub type Single = [u8; 4];

/// A link as it stands in a file of version 2: the last byte is its kind.
pub type Weighed = [u8; 5];

/// The weights of the kinds.
const WEIGHTS: [u16; 8] = [1, 1, 2, 3, 4, 6, 8, 12];

pub trait Link: Copy + Default + PartialEq {
    /// What stands in a row for such a link.
    type Entry: Entry;

    fn ends(self) -> Single;
    fn weight(self) -> u16;
    /// A number that orders links by voucher, then vouched, and is the same for those that are taken as one.
    fn mark(self) -> u32;
    /// Whether all links name members below n, have a kind and ascend, where this is told in one pass.
    fn are_in_order(links: &[Self], n: usize) -> bool;
    /// The first link that names a member not below n.
    fn first_outside(links: &[Self], n: usize) -> Option<usize>;
    /// The first link that has no kind.
    fn first_unknown(links: &[Self]) -> Option<usize>;
    /// Writes links as they stand in a file of version 2.
    fn widen(links: &[Self], out: &mut [Weighed]);

    fn source(self) -> usize {
        let [low, high, ..] = self.ends();
        u16::from_le_bytes([low, high]).into()
    }

    fn target(self) -> usize {
        let [.., low, high] = self.ends();
        u16::from_le_bytes([low, high]).into()
    }

    /// A number that orders links by voucher, then vouched.
    fn key(self) -> u32 {
        u32::from_le_bytes(self.ends()).rotate_left(16)
    }
}

impl Link for Single {
    type Entry = Place;

    fn ends(self) -> Single {
        self
    }

    fn weight(self) -> u16 {
        1
    }

    fn mark(self) -> u32 {
        self.key()
    }

    fn are_in_order(_: &[Self], _: usize) -> bool {
        // Two passes can each look at many links at once.
        false
    }

    fn first_outside(links: &[Self], n: usize) -> Option<usize> {
        // A pass over all the ends without a way out can look at many at once.
        let (ends, _) = chunks(flattened(links));
        let most = ends.iter().map(|&end| u16::from_le_bytes(end)).max();
        if most.map_or(true, |most| usize::from(most) < n) {
            return None;
        }
        position_outside(links, n)
    }

    fn first_unknown(_: &[Self]) -> Option<usize> {
        None
    }

    fn widen(links: &[Self], out: &mut [Weighed]) {
        for (entry, &[a, b, c, d]) in out.iter_mut().zip(links) {
            *entry = [a, b, c, d, 0];
        }
    }
}

impl Link for Weighed {
    type Entry = Packed;

    fn ends(self) -> Single {
        let [a, b, c, d, _] = self;
        [a, b, c, d]
    }

    fn weight(self) -> u16 {
        // No accepted kind is above 7: the remainder spares a test.
        WEIGHTS[usize::from(self[4] % 8)]
    }

    fn mark(self) -> u32 {
        // A key has 27 bits, and a weight four.
        self.key() << 4 | u32::from(self.weight())
    }

    fn are_in_order(links: &[Self], n: usize) -> bool {
        let (mut ascend, mut greatest, mut kinds) = (true, 0, 0);
        // Before the first link stands what comes before every link.
        let mut before = -1;
        for &link in links {
            let key = i64::from(link.key());
            ascend &= before < key;
            greatest = greatest.max(link.target());
            kinds |= link[4];
            before = key;
        }
        // The last voucher of links that ascend is the greatest.
        let last = links.last().map_or(0, |link| link.source());
        links.is_empty() || ascend && greatest.max(last) < n && kinds < 8
    }

    fn first_outside(links: &[Self], n: usize) -> Option<usize> {
        position_outside(links, n)
    }

    fn first_unknown(links: &[Self]) -> Option<usize> {
        links.iter().position(|link| link[4] > 7)
    }

    fn widen(links: &[Self], out: &mut [Weighed]) {
        out.copy_from_slice(links);
    }
}

fn position_outside<L: Link>(links: &[L], n: usize) -> Option<usize> {
    let outside = |link: &L| link.source() >= n || link.target() >= n;
    links.iter().position(outside)
}

/// An entry of a row: a place, and the weight of the link with it.
pub trait Entry: Copy + Default {
    /// Whether every link weighs 1.
    const IS_SINGLE: bool;

    fn of(place: usize, weight: u16) -> Self;
    fn place(self) -> u16;
    fn weight(self) -> u16;
}

/// An entry where every link weighs 1.
#[derive(Clone, Copy, Default)]
pub struct Place(u16);

impl Entry for Place {
    const IS_SINGLE: bool = true;

    fn of(place: usize, _: u16) -> Self {
        Self(place as u16)
    }

    fn place(self) -> u16 {
        self.0
    }

    fn weight(self) -> u16 {
        1
    }
}

/// The place in the lower 12 bits, the weight in the others.
#[derive(Clone, Copy, Default)]
pub struct Packed(u16);

impl Entry for Packed {
    const IS_SINGLE: bool = false;

    fn of(place: usize, weight: u16) -> Self {
        Self(place as u16 | weight << 12)
    }

    fn place(self) -> u16 {
        self.0 % 4096
    }

    fn weight(self) -> u16 {
        self.0 >> 12
    }
}
