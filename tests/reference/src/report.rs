//! What the two programs write: the text of the report, and the file in order.
use crate::answers::names_link;
use crate::cores::{finding, work_length};
use crate::file::{file_length, order, LINKS, MEMBERS};

/// The most bytes that `vouch-report` reads.
pub const INPUT: usize = 40_970;

/// The most bytes that `vouch-order` reads.
pub const OLD_INPUT: usize = 32_778;

/// What `vouch-report` prints for an input.
pub fn report(input: &[u8]) -> String {
    let file = as_cut(input, INPUT);
    let everyone = [1; MEMBERS];
    let (mut s, mut t) = (vec![0; MEMBERS], vec![0; MEMBERS]);
    let work = work_length(MEMBERS, LINKS);
    let found = finding(file, [&everyone, &everyone], &mut s, &mut t, work);
    match found.refusal {
        0 => format!(
            "x {} y {} equal {}\nlinks {} vouchers {} vouched {}\nS{}\nT{}\n",
            found.x,
            found.y,
            found.equal,
            found.edges,
            found.sources,
            found.targets,
            members(&s),
            members(&t)
        ),
        number => refused(number, found.link),
    }
}

/// What `vouch-order` writes for an input: a network file, or the line for a refusal.
pub fn convert(input: &[u8]) -> Vec<u8> {
    let mut out = vec![0; file_length(1, LINKS)];
    let written = order(as_cut(input, OLD_INPUT), &mut out);
    match written.refusal {
        0 => out[..file_length(1, written.m)].to_vec(),
        number => refused(number, written.link).into_bytes(),
    }
}

/// What is read of an input.
fn as_cut(input: &[u8], most: usize) -> &[u8] {
    &input[..input.len().min(most)]
}

/// The line for a refusal.
fn refused(number: u16, link: u16) -> String {
    if names_link(number) {
        format!("refused {number} at {link}\n")
    } else {
        format!("refused {number}\n")
    }
}

/// The members of a group, ascending, each after a space.
fn members(group: &[u8]) -> String {
    let inside = (0..group.len()).filter(|&member| group[member] == 1);
    inside.map(|member| format!(" {member}")).collect()
}
