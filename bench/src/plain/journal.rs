//! The journal: its check, and a set of links that follows its entries.
use super::chunks::{chunks, chunks_mut};
use super::links::Single;
use super::network::{HEADER_LENGTH, MOST_LINKS, MOST_MEMBERS};
use super::Refusal;
use cogsplice::JOURNAL_OUT;
use std::collections::BTreeSet;
use std::ops::RangeInclusive;

const JOURNAL_HEADER_LENGTH: usize = 7;
const NAMES: usize = 4;
const MOST_GIVEN: usize = 64;
const DUE: usize = 4;

/// An entry as it stands in the journal.
type Entry = [u8; 5];

/// The number of links, live, and the total of what all members lack to four, due.
#[derive(Clone, Copy, Default)]
pub struct Totals {
    live: usize,
    due: usize,
}

impl Totals {
    /// Counts one link more of a member that has given so many, or gives the number that refuses it.
    fn add(&mut self, given: usize) -> u8 {
        if given == MOST_GIVEN {
            return 19;
        }
        if given >= DUE && self.live + self.due == MOST_LINKS {
            return 20;
        }
        self.live += 1;
        self.due -= usize::from(given < DUE);
        0
    }

    /// Counts one link less of a member that had given so many.
    fn withdraw(&mut self, given: usize) {
        self.live -= 1;
        self.due += usize::from(given <= DUE);
    }
}

/// A set of links, each as the number that orders links by voucher, then vouched.
pub trait Links: Default + Clone {
    /// Adds a link and counts it, or gives the number that refuses it.
    fn add(&mut self, link: u32, totals: &mut Totals) -> u8;
    /// Takes a link out and counts it no more, or gives the number that refuses it.
    fn withdraw(&mut self, link: u32, totals: &mut Totals) -> u8;
    fn clear(&mut self);
    /// Writes the links as they stand in a file.
    fn lay_out(&self, out: &mut [Single]);
}

/// A sorted vector.
impl Links for Vec<u32> {
    fn add(&mut self, link: u32, totals: &mut Totals) -> u8 {
        match self.binary_search(&link) {
            Ok(_) => 16,
            Err(place) => {
                let number = totals.add(given(self, place, link));
                if number == 0 {
                    self.insert(place, link);
                }
                number
            }
        }
    }

    fn withdraw(&mut self, link: u32, totals: &mut Totals) -> u8 {
        match self.binary_search(&link) {
            Ok(place) => {
                totals.withdraw(given(self, place, link));
                self.remove(place);
                0
            }
            Err(_) => 17,
        }
    }

    fn clear(&mut self) {
        self.clear();
    }

    fn lay_out(&self, out: &mut [Single]) {
        lay_out(self.iter(), out);
    }
}

/// How many links have the voucher of a link that stands, or would stand, at this place. All are among the nearest on either side, since
/// nobody has given more.
fn given(links: &[u32], place: usize, link: u32) -> usize {
    let (before, from) = links.split_at(place);
    let before = &before[place.saturating_sub(MOST_GIVEN)..];
    let from = &from[..from.len().min(MOST_GIVEN)];
    let own = vouches(link);
    let others = before.partition_point(|other| other < own.start());
    before.len() - others + from.partition_point(|other| other <= own.end())
}

/// All links that have the voucher of this one.
fn vouches(link: u32) -> RangeInclusive<u32> {
    link & 0xffff_0000..=link | 0xffff
}

impl Links for BTreeSet<u32> {
    fn add(&mut self, link: u32, totals: &mut Totals) -> u8 {
        if !self.insert(link) {
            return 16;
        }
        // Counted with the link, which is seldom to be taken out again.
        let number = totals.add(self.range(vouches(link)).count() - 1);
        if number > 0 {
            self.remove(&link);
        }
        number
    }

    fn withdraw(&mut self, link: u32, totals: &mut Totals) -> u8 {
        if !self.remove(&link) {
            return 17;
        }
        totals.withdraw(self.range(vouches(link)).count() + 1);
        0
    }

    fn clear(&mut self) {
        self.clear();
    }

    fn lay_out(&self, out: &mut [Single]) {
        lay_out(self.iter(), out);
    }
}

/// Voucher and vouched change places on the way to the number that orders links, and on the way back.
fn lay_out<'a>(links: impl Iterator<Item = &'a u32>, out: &mut [Single]) {
    for (entry, link) in out.iter_mut().zip(links) {
        *entry = link.rotate_left(16).to_le_bytes();
    }
}

/// Links and their totals.
#[derive(Default)]
struct State<L> {
    links: L,
    totals: Totals,
}

impl<L: Links> State<L> {
    /// The state without links of so many members.
    fn clear(&mut self, n: u16) {
        self.links.clear();
        self.totals = Totals {
            live: 0,
            due: DUE * usize::from(n),
        };
    }

    fn add(&mut self, link: u32) -> u8 {
        self.links.add(link, &mut self.totals)
    }

    fn withdraw(&mut self, link: u32) -> u8 {
        self.links.withdraw(link, &mut self.totals)
    }

    /// Becomes the same as another state, in the memory that it has.
    fn copy_from(&mut self, other: &Self) {
        self.links.clone_from(&other.links);
        self.totals = other.totals;
    }
}

/// The links present and those of the named states, in memory that is kept from call to call.
#[derive(Default)]
pub struct States<L> {
    present: State<L>,
    named: [State<L>; NAMES],
    is_set: [bool; NAMES],
}

impl<L: Links> States<L> {
    /// Follows the first `asked` entries, all where there are fewer, writes the file of the links then present and the number of each
    /// entry followed, and returns m.
    pub fn journal(
        &mut self,
        journal: &[u8],
        asked: usize,
        out: &mut [u8],
        numbers: &mut [u8],
    ) -> Result<[usize; 1], Refusal> {
        let (n, entries) = split(journal)?;
        let entries = &entries[..entries.len().min(asked)];
        Refusal::of_tables(&[(out.len(), JOURNAL_OUT), (numbers.len(), entries.len())])?;
        self.present.clear(n);
        self.is_set = [false; NAMES];
        for (number, &entry) in numbers.iter_mut().zip(entries) {
            *number = self.follow(n, entry);
        }
        let m = self.present.totals.live;
        let (header, links) = out.split_at_mut(HEADER_LENGTH);
        header[..5].copy_from_slice(b"VCH\x01\0");
        header[5..7].copy_from_slice(&n.to_le_bytes());
        header[7..].copy_from_slice(&(m as u16).to_le_bytes());
        self.present.links.lay_out(&mut chunks_mut(links)[..m]);
        Ok([m])
    }

    /// Does what an entry says, or gives the number that refuses it.
    fn follow(&mut self, n: u16, [kind, a0, a1, b0, b1]: Entry) -> u8 {
        let [a, b] = [[a0, a1], [b0, b1]].map(u16::from_le_bytes);
        let link = u32::from(a) << 16 | u32::from(b);
        let name = usize::from(a);
        let is_name = name < NAMES && b == 0;
        match kind {
            0 | 1 if a.max(b) >= n => 10,
            0 => self.present.add(link),
            1 => self.present.withdraw(link),
            2 if is_name => {
                self.named[name].copy_from(&self.present);
                self.is_set[name] = true;
                0
            }
            3 if is_name && self.is_set[name] => {
                self.present.copy_from(&self.named[name]);
                0
            }
            _ => 18,
        }
    }
}

/// n and the entries, or the refusal that the header and the length give.
fn split(journal: &[u8]) -> Result<(u16, &[Entry]), Refusal> {
    if journal.len() < JOURNAL_HEADER_LENGTH {
        return Err(Refusal::of(1));
    }
    let (header, rest) = journal.split_at(JOURNAL_HEADER_LENGTH);
    let number = |at: usize| u16::from_le_bytes([header[at], header[at + 1]]);
    let (version, n) = (number(3), number(5));
    if !header.starts_with(b"VJN") {
        return Err(Refusal::of(2));
    }
    if version != 1 {
        return Err(Refusal::of(3));
    }
    if usize::from(n) > MOST_MEMBERS {
        return Err(Refusal::of(4));
    }
    let (entries, odd) = chunks(rest);
    if !odd.is_empty() {
        return Err(Refusal::of(6));
    }
    Ok((n, entries))
}
