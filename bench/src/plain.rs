//! The library's calls in plain Rust, written for speed: the same answers, refusals and lent tables. What they sort and peel in is
//! kept from call to call, so that no call allocates once the largest network was seen. What passes over links is compiled for each version
//! of the file.
mod chunks;
mod common;
mod drops;
mod equal;
mod journal;
mod kept;
mod links;
mod network;
mod peel;
mod search;

use chunks::chunks_mut;
pub use common::Merge;
pub use equal::{compared_first, equal_findings, Lent};
pub use journal::{Links, States};
use kept::Kept;
use links::{Link, Single, Weighed};
use network::{counted, File, Network, Sorter, HEADER_LENGTH};

/// A refusal's number, and the link's number for the refusals that name one.
#[derive(Clone, Copy)]
pub struct Refusal {
    pub number: u16,
    pub link: usize,
}

impl Refusal {
    fn of(number: u16) -> Self {
        Self::at(number, 0)
    }

    fn at(number: u16, link: usize) -> Self {
        Self { number, link }
    }

    /// Refusal 9 unless each table, a length and the length needed, is long enough.
    fn of_tables(tables: &[(usize, usize)]) -> Result<(), Self> {
        if tables.iter().any(|&(length, needed)| length < needed) {
            return Err(Self::of(9));
        }
        Ok(())
    }

    /// The first n bytes of two groups; refusal 9 where there are fewer, 11 where one of them is neither 0 nor 1.
    fn of_groups(n: usize, groups: [&[u8]; 2]) -> Result<[&[u8]; 2], Self> {
        Self::of_tables(&groups.map(|group| (group.len(), n)))?;
        let groups = groups.map(|group| &group[..n]);
        let fits = |group: &&[u8]| group.iter().fold(true, |fits, &byte| fits & (byte <= 1));
        if !groups.iter().all(fits) {
            return Err(Self::of(11));
        }
        Ok(groups)
    }
}

/// The four tables of an index.
pub struct Index<'a> {
    pub out_starts: &'a mut [u16],
    pub out_rows: &'a mut [u16],
    pub in_starts: &'a mut [u16],
    pub in_rows: &'a mut [u16],
}

/// What the calls keep from one to the next.
#[derive(Default)]
pub struct Plain {
    sorter: Sorter,
    one: Kept<Single>,
    two: Kept<Weighed>,
    /// The links of a file of version 1 as they stand in one of version 2.
    widened: Vec<Weighed>,
}

/// An answer on a file that is checked first, by its network and what is kept for its version.
macro_rules! answer {
    ($plain:ident, $file:expr, |$network:ident, $kept:ident| $answer:expr) => {
        match $plain.sorter.accept($file)? {
            File::One($network) => {
                let $kept = &mut $plain.one;
                $answer
            }
            File::Two($network) => {
                let $kept = &mut $plain.two;
                $answer
            }
        }
    };
}

impl Plain {
    /// n and m.
    pub fn check(&mut self, file: &[u8]) -> Result<[usize; 2], Refusal> {
        let file = self.sorter.accept(file)?;
        Ok([file.n(), file.m()])
    }

    /// E(S,T), |S| and |T|.
    pub fn count(&mut self, file: &[u8], groups: [&[u8]; 2]) -> Result<[usize; 3], Refusal> {
        answer!(self, file, |network, kept| kept.count(network, groups))
    }

    /// Writes the file as it stands and returns m.
    pub fn write(&mut self, file: &[u8], out: &mut [u8]) -> Result<[usize; 1], Refusal> {
        let file = counted(file);
        let accepted = self.sorter.accept(file)?;
        Refusal::of_tables(&[(out.len(), file.len())])?;
        out[..file.len()].copy_from_slice(file);
        Ok([accepted.m()])
    }

    /// Writes a file by the old rule with its links in order and returns m.
    pub fn order(&mut self, file: &[u8], out: &mut [u8]) -> Result<[usize; 1], Refusal> {
        let file = counted(file);
        let network = self.sorter.accept_old(file)?;
        Refusal::of_tables(&[(out.len(), file.len())])?;
        let (header, links) = out[..file.len()].split_at_mut(HEADER_LENGTH);
        header.copy_from_slice(&file[..HEADER_LENGTH]);
        self.sorter.lay_out(network, chunks_mut(links));
        Ok([network.links.len()])
    }

    /// Fills the four tables.
    pub fn index(&mut self, file: &[u8], index: Index) -> Result<[usize; 0], Refusal> {
        answer!(self, file, |network, kept| kept.index(network, index))
    }

    /// Writes the [x,y]-core inside A and B and returns E, |S| and |T|.
    pub fn core(
        &mut self,
        file: &[u8],
        inside: [&[u8]; 2],
        need: [u16; 2],
        [s, t]: [&mut [u8]; 2],
    ) -> Result<[usize; 3], Refusal> {
        answer!(self, file, |network, kept| kept
            .core(network, inside, need, s, t))
    }

    /// The level of x inside A and B.
    pub fn level(
        &mut self,
        file: &[u8],
        inside: [&[u8]; 2],
        x: u16,
    ) -> Result<[usize; 1], Refusal> {
        answer!(self, file, |network, kept| kept.level(network, inside, x))
    }

    /// Writes the finding inside A and B and returns x, y, the equal level, E, |S| and |T|.
    pub fn finding(
        &mut self,
        file: &[u8],
        inside: [&[u8]; 2],
        [s, t]: [&mut [u8]; 2],
    ) -> Result<[usize; 6], Refusal> {
        answer!(self, file, |network, kept| kept
            .finding(network, inside, s, t))
    }

    /// Writes the layer of each link and returns the number of layers.
    pub fn layers(
        &mut self,
        file: &[u8],
        inside: [&[u8]; 2],
        layers: &mut [u16],
    ) -> Result<[usize; 1], Refusal> {
        answer!(self, file, |network, kept| kept
            .layers(network, inside, layers))
    }

    /// Writes the pair of the harmonic measure and returns E, |S| and |T|.
    pub fn harmonic(&mut self, file: &[u8], [s, t]: [&mut [u8]; 2]) -> Result<[usize; 3], Refusal> {
        answer!(self, file, |network, kept| kept.harmonic(network, s, t))
    }

    /// Writes the file of the links that are in both files, found in one pass by `merge`, and returns how many are in both, in the first only
    /// and in the second only.
    pub fn common(
        &mut self,
        merge: Merge,
        [first, second]: [&[u8]; 2],
        out: &mut [u8],
    ) -> Result<[usize; 3], Refusal> {
        let first = self.sorter.accept(first)?;
        let second = self.sorter.accept(second)?;
        if first.n() != second.n() {
            return Err(Refusal::of(21));
        }
        let Self {
            one, two, widened, ..
        } = self;
        let both = match (first, second) {
            (File::One(a), File::One(b)) => put_file(a.n, one.common(merge, a.links, b.links), out),
            (File::Two(a), File::Two(b)) => put_file(a.n, two.common(merge, a.links, b.links), out),
            (File::One(a), File::Two(b)) => {
                widen(a, widened);
                put_file(a.n, two.common(merge, widened, b.links), out)
            }
            (File::Two(a), File::One(b)) => {
                widen(b, widened);
                put_file(a.n, two.common(merge, a.links, widened), out)
            }
        }?;
        Ok([both, first.m() - both, second.m() - both])
    }
}

/// The links of a file of version 1, each with kind 0.
fn widen(network: Network<Single>, widened: &mut Vec<Weighed>) {
    widened.resize(network.links.len(), Weighed::default());
    Single::widen(network.links, widened);
}

/// Writes the file of version 2 of these links, and returns how many they are.
fn put_file<L: Link>(n: usize, links: &[L], out: &mut [u8]) -> Result<usize, Refusal> {
    let (m, length) = (links.len(), HEADER_LENGTH + 5 * links.len());
    Refusal::of_tables(&[(out.len(), length)])?;
    let (header, entries) = out[..length].split_at_mut(HEADER_LENGTH);
    header[..5].copy_from_slice(b"VCH\x02\0");
    header[5..7].copy_from_slice(&(n as u16).to_le_bytes());
    header[7..].copy_from_slice(&(m as u16).to_le_bytes());
    L::widen(links, chunks_mut(entries));
    Ok(m)
}

fn size_of(group: &[u8]) -> usize {
    group.iter().map(|&byte| usize::from(byte)).sum()
}
