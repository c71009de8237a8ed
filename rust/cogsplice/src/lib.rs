//! Dense rings in a network of members who vouch for members, found by a proved library.
//!
//! A [`Network`] holds an accepted network file, whose links ascend; [`Network::read_old`] takes stored files with links in any order too.
//! Its calls own the tables that the library works on, and answer with groups as vectors of members, or with a typed [`Refusal`].
//! [`Network::within`] has cores, levels, the finding and the layers among some members only, [`Network::common`] the links that are in
//! another network too. A [`Journal`] is a month entry by entry, and gives the network after so many of them: so it is seen when a ring
//! formed. That the answers are right is proved in the library itself, which is linked as a static library; this crate only hands numbers
//! and tables across. [`lent`] has the calls as they are, over tables of the caller's.
//!
//! In a file of version 2, such as [`Network::from_links_of_kinds`] makes, each link has a kind, and by it a weight ([`WEIGHTS`]). What a
//! member has into a group or from one, and E, are sums of weights, and by these go cores, levels, both finders and the layers.
//!
//! ```
//! use cogsplice::Network;
//! # fn main() -> Result<(), cogsplice::Refusal> {
//! let network = Network::from_links(6, &[(0, 3), (0, 4), (1, 3), (1, 4), (2, 3), (2, 4), (4, 5), (5, 5)])?;
//! let finding = network.finding();
//! assert_eq!((finding.x, finding.y, finding.equal_level), (2, 3, 2));
//! assert_eq!(finding.pair.s, [0, 1, 2]);
//! assert_eq!(finding.pair.t, [3, 4]);
//! assert_eq!(finding.pair.edges, 6);
//! let layers = network.layers();
//! assert_eq!(layers.count(), 2);
//! assert_eq!(layers.links(2).collect::<Vec<_>>(), [(4, 5), (5, 5)]);
//! assert_eq!(network.harmonic(), finding.pair);
//! # Ok(())
//! # }
//! ```
mod common;
mod journal;
mod layers;
pub mod lent;
mod network;
mod refusal;
mod within;

pub use common::Common;
pub use journal::{After, Journal, Name};
pub use layers::Layers;
pub use network::{Finding, Index, Network, Pair, Totals};
pub use refusal::{EntryRefusal, Refusal};
pub use within::Within;

/// A side of a link.
#[derive(Clone, Copy, Debug, PartialEq, Eq)]
pub enum Side {
    /// The member that vouches.
    Voucher,
    /// The member that is vouched for.
    Vouched,
}

/// The most members of a network.
pub const MEMBERS: usize = 2048;

/// The most links of a network.
pub const LINKS: usize = 8192;

/// The number of kinds that a link may have; they are numbered from 0.
pub const KINDS: usize = 8;

/// The weight of a link by its kind. Links of a file of version 1, and those of a journal, have kind 0.
///
/// ```
/// use cogsplice::{Network, WEIGHTS};
/// let network = Network::from_links_of_kinds(3, &[(0, 1, 4), (0, 2, 7)]).unwrap();
/// let weights: Vec<u32> = network.kinds().map(|kind| WEIGHTS[usize::from(kind)]).collect();
/// assert_eq!(weights, [4, 12]);
/// assert_eq!(network.count(&[0], &[1, 2]).unwrap().edges, 4 + 12);
/// ```
pub const WEIGHTS: [u32; KINDS] = [1, 1, 2, 3, 4, 6, 8, 12];

/// The most vouches that a member may have given in a journal.
pub const GIVEN: usize = 64;

/// The vouches due to each member of a journal.
pub const DUE: usize = 4;

/// The length in bytes of a file of version 1 of `m` links.
pub const fn file_length(m: usize) -> usize {
    9 + 4 * m
}

/// The length in bytes of a file of version 2, whose links have kinds, of `m` links.
pub const fn file_of_kinds_length(m: usize) -> usize {
    9 + 5 * m
}

/// The length of the work table for `n` members and `m` links.
pub const fn work_length(n: usize, m: usize) -> usize {
    2 * m + 6 * n + 2
}

/// The length in bytes of a journal of `k` entries.
pub const fn journal_length(k: usize) -> usize {
    7 + 5 * k
}

/// The length in bytes of the output of a journal, whatever its entries.
pub const JOURNAL_OUT: usize = file_length(LINKS);

/// The length of the work table for a journal.
pub const JOURNAL_WORK: usize = 81_920;
