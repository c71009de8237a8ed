//! Whether two findings are equal.
use crate::answers::{refuse, too_short, Refusal, Refused};
use crate::file::MEMBERS;
use crate::groups::{faulty, held};
use cogsplice::lent::EqualNumbers;

/// A finding: x and y, n, and the tables of S and T.
pub struct Found<'a> {
    pub x: usize,
    pub y: usize,
    pub n: usize,
    pub groups: [&'a [u8]; 2],
}

/// Two findings are equal when x, y and both groups agree over the same n.
pub fn equal_findings(one: &Found, other: &Found) -> EqualNumbers {
    try_equal(one, other).unwrap_or_else(Refused::refused)
}

fn try_equal(one: &Found, other: &Found) -> Result<EqualNumbers, Refusal> {
    let both = [one, other];
    let short = |found: &Found| too_short(&found.groups.map(|table| (table.len(), found.n)));
    refuse(&[
        (4, both.iter().any(|found| found.n > MEMBERS)),
        (9, both.iter().any(|found| short(found))),
        (11, both.iter().any(|found| faulty(found.n, found.groups))),
    ])?;
    let same_numbers = one.x == other.x && one.y == other.y && one.n == other.n;
    Ok(EqualNumbers {
        refusal: 0,
        equal: same_numbers && same_members(one, other),
    })
}

/// Whether each member, of as many in both, is in S of both or of neither, and so in T.
fn same_members(one: &Found, other: &Found) -> bool {
    let [s, t] = held(one.n, one.groups);
    let [other_s, other_t] = held(other.n, other.groups);
    (0..one.n).all(|member| s[member] == other_s[member] && t[member] == other_t[member])
}
