//! The comparison of two findings.
use super::chunks::chunks;
use super::network::MOST_MEMBERS;
use super::Refusal;

/// A finding as it is lent: x, y and n, and the tables of both groups.
pub struct Lent<'a> {
    pub x: usize,
    pub y: usize,
    pub n: usize,
    pub s: &'a [u8],
    pub t: &'a [u8],
}

/// What makes two findings equal: x, y, and for each of the n members a byte in both groups.
#[derive(PartialEq, Eq)]
struct Finding<'a> {
    x: usize,
    y: usize,
    s: &'a [u8],
    t: &'a [u8],
}

impl<'a> Lent<'a> {
    fn is_short(&self) -> bool {
        self.s.len() < self.n || self.t.len() < self.n
    }

    /// Without the bytes past n.
    fn finding(&self) -> Finding<'a> {
        Finding {
            x: self.x,
            y: self.y,
            s: &self.s[..self.n],
            t: &self.t[..self.n],
        }
    }
}

impl Finding<'_> {
    fn fits(&self) -> bool {
        fits(self.s) && fits(self.t)
    }
}

/// Refusal 4 where an n is too large, 9 where a table is too short.
fn lengths([one, other]: &[Lent; 2]) -> Result<(), Refusal> {
    if one.n > MOST_MEMBERS || other.n > MOST_MEMBERS {
        return Err(Refusal::of(4));
    }
    if one.is_short() || other.is_short() {
        return Err(Refusal::of(9));
    }
    Ok(())
}

/// Whether two findings are equal: first the tests, then the comparison.
pub fn equal_findings(pair: &[Lent; 2]) -> Result<bool, Refusal> {
    lengths(pair)?;
    let [one, other] = [pair[0].finding(), pair[1].finding()];
    if !(one.fits() && other.fits()) {
        return Err(Refusal::of(11));
    }
    Ok(one == other)
}

/// The same, but that the groups are compared before their bytes are tested: where they agree, those of one finding are tested for both.
pub fn compared_first(pair: &[Lent; 2]) -> Result<bool, Refusal> {
    lengths(pair)?;
    let [one, other] = [pair[0].finding(), pair[1].finding()];
    let agree = one.s == other.s && one.t == other.t;
    if !(one.fits() && (agree || other.fits())) {
        return Err(Refusal::of(11));
    }
    Ok(agree && one.x == other.x && one.y == other.y)
}

/// Whether every byte of a group is 0 or 1: whether none has a bit but the lowest. No branch depends on a byte. The bits are gathered in
/// eight words, 64 bytes at a time: with fewer words more steps would wait for the one before.
fn fits(group: &[u8]) -> bool {
    let (blocks, rest) = chunks::<64>(group);
    let mut bits = [0; 8];
    for block in blocks {
        for (bits, &word) in bits.iter_mut().zip(chunks(block).0) {
            *bits |= u64::from_ne_bytes(word);
        }
    }
    let in_blocks = bits.iter().fold(0, |all, bits| all | bits);
    let in_rest = rest.iter().fold(0, |all, byte| all | byte);
    in_blocks & u64::from_ne_bytes([0xfe; 8]) == 0 && in_rest <= 1
}
