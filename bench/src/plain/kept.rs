//! The calls on an accepted network, and what they keep from one to the next: the same code for either version.
use super::common::Merge;
use super::drops::Drops;
use super::links::Link;
use super::network::{fill_out_starts, fill_starts, next_place, Network};
use super::peel::{Need, Peel, Rise};
use super::search::search;
use super::{size_of, Index, Refusal};

#[derive(Default)]
pub struct Kept<L: Link> {
    peel: Peel<L::Entry>,
    drops: Drops,
    ends: Vec<u16>,
    /// The links from A to B.
    inside: Vec<L>,
    /// The numbers of the links from A to B that no layer has yet, ascending.
    left: Vec<u16>,
    /// The links in both of two files.
    both: Vec<L>,
}

impl<L: Link> Kept<L> {
    /// E(S,T), |S| and |T|.
    pub fn count(
        &self,
        Network { n, links, .. }: Network<L>,
        groups: [&[u8]; 2],
    ) -> Result<[usize; 3], Refusal> {
        let [s, t] = Refusal::of_groups(n, groups)?;
        let between = |&link: &L| usize::from(u16::from(is_between(link, [s, t])) * link.weight());
        let edges = links.iter().map(between).sum();
        Ok([edges, size_of(s), size_of(t)])
    }

    /// Fills the four tables. The links come by voucher, then vouched: so do the out-rows, and each in-row is filled by voucher.
    pub fn index(
        &mut self,
        Network { n, links, .. }: Network<L>,
        index: Index,
    ) -> Result<[usize; 0], Refusal> {
        let m = links.len();
        Refusal::of_tables(&[
            (index.out_starts.len(), n + 1),
            (index.out_rows.len(), m),
            (index.in_starts.len(), n + 1),
            (index.in_rows.len(), m),
        ])?;
        for (entry, link) in index.out_rows.iter_mut().zip(links) {
            *entry = link.target() as u16;
        }
        fill_out_starts(links, &mut index.out_starts[..=n]);
        let targets = links.iter().map(|link| link.target());
        fill_starts(targets, &mut index.in_starts[..=n]);
        self.ends.clear();
        self.ends.extend_from_slice(&index.in_starts[..n]);
        let (ends, in_rows) = (&mut self.ends[..], &mut index.in_rows[..m]);
        for link in links {
            in_rows[next_place(ends, link.target())] = link.source() as u16;
        }
        Ok([])
    }

    /// Writes the [x,y]-core inside A and B and returns E, |S| and |T|.
    pub fn core(
        &mut self,
        network: Network<L>,
        inside: [&[u8]; 2],
        [x, y]: [u16; 2],
        s: &mut [u8],
        t: &mut [u8],
    ) -> Result<[usize; 3], Refusal> {
        let n = network.n;
        Refusal::of_tables(&[(s.len(), n), (t.len(), n)])?;
        let inside = Refusal::of_groups(n, inside)?;
        self.load(network, inside);
        Ok(self.peel.core(Need { x, y }, inside, s, t))
    }

    /// The level of x inside A and B.
    pub fn level(
        &mut self,
        network: Network<L>,
        inside: [&[u8]; 2],
        x: u16,
    ) -> Result<[usize; 1], Refusal> {
        let inside = Refusal::of_groups(network.n, inside)?;
        if x == 0 {
            return Err(Refusal::of(12));
        }
        self.load(network, inside);
        // Of 1 nothing is climbed: the heaviest vouched member and all that vouch for it are a core, and none has a greater y.
        let level = match x {
            1 => self.peel.heaviest().y,
            _ => self.peel.climb(Rise::Y, x, 1),
        };
        Ok([level.into()])
    }

    /// Writes the finding inside A and B and returns x, y, the equal level, E, |S| and |T|. Without links from A to B all are 0 and both
    /// groups empty.
    pub fn finding(
        &mut self,
        network: Network<L>,
        inside: [&[u8]; 2],
        s: &mut [u8],
        t: &mut [u8],
    ) -> Result<[usize; 6], Refusal> {
        let n = network.n;
        Refusal::of_tables(&[(s.len(), n), (t.len(), n)])?;
        let inside = Refusal::of_groups(n, inside)?;
        if !self.load(network, inside) {
            s[..n].fill(0);
            t[..n].fill(0);
            return Ok([0; 6]);
        }
        let (equal, best) = search(&mut self.peel);
        let [edges, sources, targets] = self.peel.core(best, inside, s, t);
        let [x, y, equal] = [best.x, best.y, equal].map(usize::from);
        Ok([x, y, equal, edges, sources, targets])
    }

    /// Writes the layer of each link and returns the number of layers. A layer is the links between the groups of the finding among
    /// the links from A to B that are left; every other link gets 0.
    pub fn layers(
        &mut self,
        Network { n, links, .. }: Network<L>,
        inside: [&[u8]; 2],
        layers: &mut [u16],
    ) -> Result<[usize; 1], Refusal> {
        Refusal::of_tables(&[(layers.len(), links.len())])?;
        let inside = Refusal::of_groups(n, inside)?;
        layers[..links.len()].fill(0);
        let Self { peel, left, .. } = self;
        if are_everyone(inside) {
            left.clear();
            left.extend(0..links.len() as u16);
        } else {
            list_inside(links, inside, |number, _| number, left);
        }
        let mut layer = 0;
        while !left.is_empty() {
            peel.load(n, left.iter().map(|&number| &links[usize::from(number)]));
            let (_, best) = search(peel);
            peel.peel(best);
            layer += 1;
            let between = peel.between(best);
            left.retain(|&number| {
                let number = usize::from(number);
                let taken = between(links[number]);
                if taken {
                    layers[number] = layer;
                }
                !taken
            });
        }
        Ok([layer.into()])
    }

    /// Writes the pair of the harmonic measure and returns E, |S| and |T|. Without links all are 0 and both groups empty.
    pub fn harmonic(
        &mut self,
        Network { n, links, .. }: Network<L>,
        s: &mut [u8],
        t: &mut [u8],
    ) -> Result<[usize; 3], Refusal> {
        Refusal::of_tables(&[(s.len(), n), (t.len(), n)])?;
        let (s, t) = (&mut s[..n], &mut t[..n]);
        if links.is_empty() {
            s.fill(0);
            t.fill(0);
            return Ok([0; 3]);
        }
        self.peel.load(n, links.iter());
        let edges = self.drops.harmonic(&self.peel, s, t);
        Ok([edges, size_of(s), size_of(t)])
    }

    /// The links of one list that are in the other too, of equal weight.
    pub fn common(&mut self, merge: Merge, one: &[L], other: &[L]) -> &[L] {
        let room = one.len().min(other.len()) + 1;
        self.both.resize(room, L::default());
        let both = merge.lists(one, other, &mut self.both);
        &self.both[..both]
    }

    /// Has the peel take the links from A to B over, and tells whether there are any. With everyone in both groups these are all links.
    fn load(&mut self, Network { n, links, .. }: Network<L>, inside: [&[u8]; 2]) -> bool {
        if are_everyone(inside) {
            self.peel.load(n, links.iter());
            return !links.is_empty();
        }
        list_inside(links, inside, |_, link| link, &mut self.inside);
        self.peel.load(n, self.inside.iter());
        !self.inside.is_empty()
    }
}

/// Whether everyone is in both groups. No branch depends on a byte, so that many are looked at together.
fn are_everyone(groups: [&[u8]; 2]) -> bool {
    let all = |group: &[u8]| group.iter().fold(true, |all, &byte| all & (byte == 1));
    groups.into_iter().all(all)
}

/// Lists what `of` makes of the number of each link from A to B and of the link. Each is written to the next free entry in any case, and
/// counted if it goes from A to B: no branch depends on the groups.
fn list_inside<L: Link, T: Clone + Default>(
    links: &[L],
    inside: [&[u8]; 2],
    of: impl Fn(u16, L) -> T,
    list: &mut Vec<T>,
) {
    list.resize(links.len(), T::default());
    let entries = &mut list[..];
    let mut count = 0;
    for (number, &link) in links.iter().enumerate() {
        entries[count] = of(number as u16, link);
        count += usize::from(is_between(link, inside));
    }
    list.truncate(count);
}

/// 1 where a link goes from one group to the other, else 0.
fn is_between<L: Link>(link: L, [s, t]: [&[u8]; 2]) -> u8 {
    s[link.source()] & t[link.target()]
}
