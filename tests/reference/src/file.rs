//! The network file of version 1 or 2: read with refusals 1 to 8, 22 and 15, read by the old rule, and written.
use crate::answers::{refuse, too_short, Refusal, Refused};
use cogsplice::lent::{CheckNumbers, WriteNumbers};
use networks::{Kinded, Network, Vouch};
use std::collections::HashSet;

/// The most members of a network.
pub const MEMBERS: usize = 2048;

/// The most links of a network.
pub const LINKS: usize = 8192;

/// The bytes of a link in a file of this version.
fn link_length(version: usize) -> usize {
    if version == 2 {
        5
    } else {
        4
    }
}

/// The length of a file of this version with m links.
pub fn file_length(version: usize, m: usize) -> usize {
    9 + link_length(version) * m
}

/// A number of 16 bits, low byte first.
pub(crate) fn number_at(file: &[u8], offset: usize) -> usize {
    file[offset] as usize + 256 * file[offset + 1] as usize
}

/// The network of an accepted file, or the first of the refusals 1 to 8, 22 and 15.
pub fn read(file: &[u8]) -> Result<Kinded, Refusal> {
    let network = read_any_order(file, &[1, 2])?;
    match first_descent(&network.links) {
        Some(first) => Err(Refusal::at(15, first)),
        None => Ok(network),
    }
}

/// The first link that comes before the one preceding it, by voucher, then vouched.
fn first_descent(links: &[Vouch]) -> Option<usize> {
    (1..links.len()).find(|&e| links[e].0 < links[e - 1].0)
}

/// The network of a file by the old rule, of version 1 only, or the first of the refusals 1 to 8: links may stand in any order.
pub fn read_old(file: &[u8]) -> Result<Kinded, Refusal> {
    read_any_order(file, &[1])
}

/// The network of a file of one of these versions, or the first of the refusals 1 to 8 and 22. Zero bytes count as the file of version 1
/// with n 0 and m 0.
fn read_any_order(file: &[u8], versions: &[usize]) -> Result<Kinded, Refusal> {
    if file.is_empty() {
        return Ok(Kinded::from(&Network::new(0, &[])));
    }
    let (version, n, m) = read_head(file, versions)?;
    let links: Vec<Vouch> = (0..m).map(|e| link_at(file, version, e)).collect();
    let stranger = |&((a, b), _): &Vouch| a >= n || b >= n;
    if let Some(first) = links.iter().position(stranger) {
        return Err(Refusal::at(7, first));
    }
    if let Some(first) = links.iter().position(|&(_, kind)| kind > 7) {
        return Err(Refusal::at(22, first));
    }
    let mut earlier = HashSet::new();
    if let Some(first) = links.iter().position(|&(link, _)| !earlier.insert(link)) {
        return Err(Refusal::at(8, first));
    }
    Ok(Kinded { version, n, links })
}

/// A link of a file and its kind, which is 0 in version 1.
fn link_at(file: &[u8], version: usize, number: usize) -> Vouch {
    let start = 9 + link_length(version) * number;
    let link = (number_at(file, start), number_at(file, start + 2));
    let kind = if version == 2 { file[start + 4] } else { 0 };
    (link, kind)
}

/// The version, n and m of a file that has bytes, or the first of the refusals 1 to 6.
fn read_head(file: &[u8], versions: &[usize]) -> Result<(usize, usize, usize), Refusal> {
    refuse(&[(1, file.len() < 9)])?;
    let [version, n, m] = [3, 5, 7].map(|offset| number_at(file, offset));
    refuse(&[
        (2, file[0..3] != *b"VCH"),
        (3, !versions.contains(&version)),
        (4, n > MEMBERS),
        (5, m > LINKS),
        (6, file.len() != file_length(version, m)),
    ])?;
    Ok((version, n, m))
}

/// The check: n and m of an accepted file.
pub fn check(file: &[u8]) -> CheckNumbers {
    match read(file) {
        Ok(network) => CheckNumbers {
            refusal: 0,
            link: 0,
            n: network.n,
            m: network.links.len(),
        },
        Err(refusal) => Refused::refused(refusal),
    }
}

/// The writer: the accepted file with its links ascending by voucher, then vouched, in its version.
pub fn write(file: &[u8], out: &mut [u8]) -> WriteNumbers {
    try_write(read(file), out).unwrap_or_else(Refused::refused)
}

/// The conversion: the same for a file by the old rule.
pub fn order(file: &[u8], out: &mut [u8]) -> WriteNumbers {
    try_write(read_old(file), out).unwrap_or_else(Refused::refused)
}

fn try_write(read: Result<Kinded, Refusal>, out: &mut [u8]) -> Result<WriteNumbers, Refusal> {
    let mut network = read?;
    let m = network.links.len();
    let needed = file_length(network.version, m);
    refuse(&[(9, too_short(&[(out.len(), needed)]))])?;
    network.links.sort();
    out[..needed].copy_from_slice(&network.encode());
    Ok(WriteNumbers {
        refusal: 0,
        link: 0,
        m,
    })
}
