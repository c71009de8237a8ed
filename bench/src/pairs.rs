//! The findings that are compared, the same in every run.
use networks::Draw;

/// The numbers of members, the greatest first.
const SIZES: [usize; 4] = [2048, 1024, 256, 64];

/// A finding: x, y and n, and its groups, a byte for each member.
#[derive(Clone, PartialEq, Eq)]
pub struct Finding {
    pub x: usize,
    pub y: usize,
    pub n: usize,
    pub s: Vec<u8>,
    pub t: Vec<u8>,
}

/// Two findings.
pub struct Pair {
    /// What differs between the two.
    pub name: &'static str,
    pub findings: [Finding; 2],
    /// Whether the ratio on it is to keep the goal.
    pub has_goal: bool,
}

impl Pair {
    /// The number of members, the same for both.
    pub fn n(&self) -> usize {
        self.findings[0].n
    }
}

/// A finding of so many members beside itself, and beside such as differ from it. Each member is in a group with a chance of one half.
fn of_size(n: usize, random: &mut Draw) -> [Pair; 4] {
    let mut group = || (0..n).map(|_| random.below(2) as u8).collect();
    let one = Finding {
        x: 30,
        y: 40,
        n,
        s: group(),
        t: group(),
    };
    let pair = |name, is_all_compared, change: fn(&mut Finding)| {
        let mut findings = [one.clone(), one.clone()];
        change(&mut findings[1]);
        let has_goal = is_all_compared && n == SIZES[0];
        Pair {
            name,
            findings,
            has_goal,
        }
    };
    [
        pair("nothing", true, |_| ()),
        pair("the last member of T", true, |other| {
            other.t[other.n - 1] ^= 1
        }),
        pair("the first member of S", false, |other| other.s[0] ^= 1),
        pair("x", false, |other| other.x += 1),
    ]
}

/// Pairs of findings, equal and not, of each number of members.
pub fn pairs() -> Vec<Pair> {
    let random = &mut Draw::new(4);
    let sizes = SIZES.into_iter();
    sizes.flat_map(|n| of_size(n, random)).collect()
}
