//! The links that two files have in common.
use crate::answers::{refuse, too_short, Refusal, Refused};
use crate::file::{file_length, read};
use crate::weights::weight;
use cogsplice::lent::CommonNumbers;
use networks::{Kinded, Link, Vouch};
use std::collections::BTreeSet;

/// Writes the links in both of two files, in version 2 with the kinds of the first, and counts those in both, in the first only and in the
/// second only. Two links are one only with equal weight.
pub fn common(first: &[u8], second: &[u8], out: &mut [u8]) -> CommonNumbers {
    try_common(first, second, out).unwrap_or_else(Refused::refused)
}

/// A link, and its weight.
type Weighed = (Link, usize);

fn weighed(&(link, kind): &Vouch) -> Weighed {
    (link, weight(kind))
}

fn try_common(first: &[u8], second: &[u8], out: &mut [u8]) -> Result<CommonNumbers, Refusal> {
    let (first, second) = (read(first)?, read(second)?);
    let [given, received]: [BTreeSet<Weighed>; 2] =
        [&first, &second].map(|network| network.links.iter().map(weighed).collect());
    let is_received = |vouch: &&Vouch| received.contains(&weighed(vouch));
    let both: Vec<Vouch> = first.links.iter().filter(is_received).copied().collect();
    let needed = file_length(2, both.len());
    refuse(&[
        (21, first.n != second.n),
        (9, too_short(&[(out.len(), needed)])),
    ])?;
    out[..needed].copy_from_slice(&Kinded::new(first.n, &both).encode());
    Ok(CommonNumbers {
        refusal: 0,
        link: 0,
        both: both.len(),
        first_only: given.difference(&received).count(),
        second_only: received.difference(&given).count(),
    })
}
