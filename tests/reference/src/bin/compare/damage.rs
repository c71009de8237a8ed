//! Files that are refused: each of the numbers 1 to 8, 22 and 15 alone and in pairs, and accepted files with changed bytes.
use crate::calls::{try_all, try_check, try_writes};
use crate::case::Case;
use crate::kinds::disorder;
use crate::link_kinds::{with_kinds, KINDS};
use crate::networks::{disorder_file, full_file, medium_file, roomy_network, small_file};
use cogsplice::lent;
use networks::{Draw, Kinded, Vouch};
use reference::first_of;

/// The numbers that a file's own bytes are refused with, those of links last.
pub const FILE_FAULTS: [u16; 10] = [1, 2, 3, 4, 5, 6, 7, 22, 8, 15];

/// The number for a file with these faults as the conversion takes it: links may stand in any order, and version 2 is refused.
pub fn by_old_rule(file: &[u8], faults: &[u16]) -> u16 {
    let others = faults.iter().copied().filter(|&fault| fault != 15);
    let mut applying: Vec<u16> = others.collect();
    if file.get(3..5) == Some(&[2, 0]) {
        applying.push(3);
    }
    first_of(&applying)
}

/// A file with n members and links that is faulty by these numbers. The first of them in order refuses it. Only version 2 has kinds, so
/// that 22 makes it of this version.
pub fn faulty_file(draw: &mut Draw, network: &Kinded, faults: &[u16]) -> Vec<u8> {
    let has = |number: u16| faults.contains(&number);
    let mut faulty = network.clone();
    if has(22) && faulty.version == 1 {
        faulty = with_kinds(draw, &network.plain());
    }
    if has(4) {
        faulty.n = draw.pick(&[2049, 2050, 4096, 65_535]);
    }
    if has(8) {
        repeat_link(draw, &mut faulty.links);
    }
    if has(7) {
        name_stranger(draw, faulty.n, &mut faulty.links);
    }
    if has(22) {
        name_kind(draw, &mut faulty.links);
    }
    if has(15) {
        disorder(draw, &mut faulty.links);
    } else {
        faulty.links.sort();
    }
    if has(5) {
        let m = draw.pick(&[8193, 8193, 8194, 16_384, 65_535]);
        faulty.links.resize(m, ((0, 0), 0));
    }
    let mut file = faulty.encode();
    if has(2) {
        file[draw.below(3)] ^= draw.among(1, 255) as u8;
    }
    if has(3) {
        let version: u16 = draw.pick(&[0, 3, 4, 0x0100, 0x0101, 0x0102, 0x0201, 0xffff]);
        file[3..5].copy_from_slice(&version.to_le_bytes());
    }
    if has(6) {
        change_length(draw, &mut file, has(3));
    }
    if has(1) {
        file.truncate(draw.among(1, 8));
    }
    file
}

/// Has a link repeat an earlier one, perhaps more than once. It keeps its kind.
fn repeat_link(draw: &mut Draw, links: &mut [Vouch]) {
    for _ in 0..draw.among(1, 2) {
        let later = draw.among(1, links.len() - 1);
        links[later].0 = links[draw.below(later)].0;
    }
}

/// Has a link name a member not below n: often the last one, so that a repeat stands before it where the order stays.
fn name_stranger(draw: &mut Draw, n: usize, links: &mut [Vouch]) {
    let last = links.len() - 1;
    let place = draw.pick(&[last, last, 0, last / 2]);
    let stranger = draw.pick(&[n, n, (n + 1).min(65_535), 65_535]);
    let link = &mut links[place].0;
    match draw.below(3) {
        0 => link.0 = stranger,
        1 => link.1 = stranger,
        _ => *link = (stranger, stranger),
    }
}

/// Has a link or two name a kind that is none: often the last one, so that a repeat stands before it where the order stays.
fn name_kind(draw: &mut Draw, links: &mut [Vouch]) {
    let last = links.len() - 1;
    for _ in 0..draw.among(1, 2) {
        let place = draw.pick(&[last, last, 0, last / 2]);
        links[place].1 = draw.pick(&[KINDS, KINDS, KINDS + 1, 16, 128, 255]);
    }
}

/// A length other than that of the file's version and m, of at least 9 bytes. Now and then the version is the other one instead, where it
/// is not faulty and there are links.
fn change_length(draw: &mut Draw, file: &mut Vec<u8>, faulty_version: bool) {
    if draw.one_in(5) && file.len() > 9 && !faulty_version {
        file[3] = 3 - file[3];
    } else if draw.one_in(2) && file.len() > 9 {
        file.truncate(draw.among(9.max(file.len().saturating_sub(9)), file.len() - 1));
    } else {
        let more = draw.among(1, 9);
        file.extend(draw.bytes(more));
    }
}

/// The pairs of faults by turns; a number paired with itself stands alone.
pub fn pairs(case: &mut Case) {
    let faults = FILE_FAULTS.iter().enumerate();
    let all: Vec<(u16, u16)> = faults
        .flat_map(|(place, &first)| {
            FILE_FAULTS[place..]
                .iter()
                .map(move |&later| (first, later))
        })
        .collect();
    let (first, later) = all[case.number as usize % all.len()];
    let network = roomy_network(case);
    case.kind += &format!(", faults {first} and {later}");
    case.file = faulty_file(&mut case.draw, &network, &[first, later]);
    let given = lent::check(&case.file).refusal;
    let expected = first_of(&[first, later]);
    case.compare(|| "check: the first in order".into(), expected, given);
    let mut out = vec![0; case.claimed_length()];
    let given = lent::order(&case.file, &mut out).refusal;
    let expected = by_old_rule(&case.file, &[first, later]);
    case.compare(|| "order: the first in order".into(), expected, given);
    try_all(case);
}

/// A file, accepted or with its links in another order, with some bytes or bits changed, taken out or put in.
pub fn changed_file(case: &mut Case) {
    match case.draw.below(300) {
        0 => full_file(case),
        1..=9 => medium_file(case),
        _ => small_file(case),
    }
    if case.draw.one_in(3) {
        disorder_file(case);
    }
    change_bytes(&mut case.draw, &mut case.file);
    case.kind += ", bytes changed";
}

/// Changes some bytes or bits, takes some out or puts some in.
pub fn change_bytes(draw: &mut Draw, file: &mut Vec<u8>) {
    for _ in 0..draw.among(1, 3) {
        let place = draw.below(file.len() + 1);
        match draw.below(6) {
            0 => file.truncate(place),
            1 => {
                let more = draw.among(1, 12);
                file.extend(draw.bytes(more));
            }
            2 => file.insert(place, draw.number() as u8),
            _ if place == file.len() => (),
            3 => file[place] ^= 1 << draw.below(8),
            4 => file[place] = draw.number() as u8,
            _ => file[place] = draw.below(10) as u8,
        }
    }
}

pub fn changes(case: &mut Case) {
    changed_file(case);
    try_all(case);
}

/// Every length from nothing to a few bytes too many, of a file in order or not.
pub fn lengths(case: &mut Case) {
    small_file(case);
    let descends = case.draw.one_in(2) && disorder_file(case);
    let whole = case.file.clone();
    for length in 0..whole.len() + 6 {
        case.file = whole.clone();
        case.file.resize(length, 0);
        let expected = match length {
            0 => 0,
            1..=8 => 1,
            _ if length != case.claimed_length() => 6,
            _ if descends => 15,
            _ => 0,
        };
        let given = lent::check(&case.file).refusal;
        case.compare(|| format!("check: length {length}"), expected, given);
        try_check(case);
        try_writes(case);
    }
}
