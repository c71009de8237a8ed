//! Groups, and counting between them.
use crate::answers::{refuse, too_short, Refusal, Refused};
use crate::file::read;
use crate::weights::weight;
use cogsplice::lent::TotalsNumbers;
use networks::{Kinded, Link};

/// A group: for each member, whether it is in.
pub(crate) type Group = Vec<bool>;

/// Whether a byte among the first n of one of two groups is neither 0 nor 1.
pub(crate) fn faulty(n: usize, tables: [&[u8]; 2]) -> bool {
    let mut members = tables.iter().flat_map(|table| table.iter().take(n));
    members.any(|&byte| byte > 1)
}

/// The groups of n members that two tables hold.
pub(crate) fn held(n: usize, tables: [&[u8]; 2]) -> [Group; 2] {
    tables.map(|table| table.iter().take(n).map(|&byte| byte == 1).collect())
}

/// Whether a link's voucher is in S and its vouched member in T.
pub(crate) fn between(s: &Group, t: &Group, (voucher, vouched): Link) -> bool {
    s[voucher] && t[vouched]
}

/// E(S,T), |S| and |T|. E is the sum of the weights.
pub(crate) fn totals(network: &Kinded, s: &Group, t: &Group) -> TotalsNumbers {
    let size = |group: &Group| group.iter().filter(|&&inside| inside).count();
    let inside = network.links.iter().filter(|vouch| between(s, t, vouch.0));
    TotalsNumbers {
        refusal: 0,
        link: 0,
        edges: inside.map(|vouch| weight(vouch.1)).sum::<usize>() as u32,
        sources: size(s),
        targets: size(t),
    }
}

/// The count: E(S,T), |S| and |T| of two groups.
pub fn count(file: &[u8], s: &[u8], t: &[u8]) -> TotalsNumbers {
    try_count(file, [s, t]).unwrap_or_else(Refused::refused)
}

fn try_count(file: &[u8], groups: [&[u8]; 2]) -> Result<TotalsNumbers, Refusal> {
    let network = read(file)?;
    let n = network.n;
    let short = too_short(&groups.map(|table| (table.len(), n)));
    refuse(&[(9, short), (11, faulty(n, groups))])?;
    let [s, t] = held(n, groups);
    Ok(totals(&network, &s, &t))
}
