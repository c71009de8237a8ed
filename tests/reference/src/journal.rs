//! The month as a journal: its entries are followed over a plain set of links and four named states.
use crate::answers::{refuse, too_short, Refusal, Refused};
use crate::file::{file_length, number_at, LINKS, MEMBERS};
use cogsplice::lent::WriteNumbers;
use networks::{encode, Link, Network};
use std::collections::BTreeSet;

/// The length of the output, that of the longest file of version 1.
pub const JOURNAL_OUT: usize = 32_777;

/// The length of the work table.
pub const JOURNAL_WORK: usize = 81_920;

/// The most vouches that a member may have given.
pub const GIVEN: usize = 64;

/// The vouches due to each member.
pub const DUE: usize = 4;

/// The mark, the version and n come before the entries.
const HEAD: usize = 7;

/// The bytes of an entry.
const ENTRY: usize = 5;

const ADD: u8 = 0;
const WITHDRAW: u8 = 1;
const SET: u8 = 2;
const RETURN: u8 = 3;

/// A set of links: for each member, those that it vouches for.
type Links = Vec<BTreeSet<usize>>;

/// What the rules speak of: the links present, and what each named state was set to last, if it ever was.
pub struct Month {
    links: Links,
    named: [Option<Links>; 4],
}

impl Month {
    /// A month without links, in which no state is set.
    pub fn new(n: usize) -> Month {
        Month {
            links: vec![BTreeSet::new(); n],
            named: Default::default(),
        }
    }

    /// n.
    fn members(&self) -> usize {
        self.links.len()
    }

    /// Whether both are members.
    pub fn has_members(&self, link: Link) -> bool {
        link.0 < self.members() && link.1 < self.members()
    }

    /// Whether a link is present.
    pub fn has(&self, link: Link) -> bool {
        self.has_members(link) && self.links[link.0].contains(&link.1)
    }

    /// How many links present have this voucher: none, where it is no member.
    pub fn given(&self, member: usize) -> usize {
        self.links.get(member).map_or(0, BTreeSet::len)
    }

    /// The most that a member has given.
    pub fn most_given(&self) -> usize {
        let given = (0..self.members()).map(|member| self.given(member));
        given.max().unwrap_or(0)
    }

    /// How many links are present.
    pub fn live(&self) -> usize {
        (0..self.members()).map(|member| self.given(member)).sum()
    }

    /// The total of what members lack to four.
    pub fn due(&self) -> usize {
        let lacks = |member| DUE.saturating_sub(self.given(member));
        (0..self.members()).map(lacks).sum()
    }

    /// The links present, ascending by voucher, then vouched.
    pub fn links(&self) -> Vec<Link> {
        let of_voucher = |(a, vouched): (usize, &BTreeSet<usize>)| -> Vec<Link> {
            vouched.iter().map(|&b| (a, b)).collect()
        };
        self.links.iter().enumerate().flat_map(of_voucher).collect()
    }

    /// 18: a kind or name that is not there, a last number that is not 0, or a return to a state never set.
    pub fn is_malformed(&self, kind: u8, (name, last): Link) -> bool {
        let no_name = name > 3 || last != 0;
        match kind {
            ADD | WITHDRAW => false,
            SET => no_name,
            RETURN => no_name || self.named[name].is_none(),
            _ => true,
        }
    }

    /// The number of an entry, the first that applies in the order of the tests, or 0. Only a link has members, and they are both tested
    /// before it is looked for.
    fn number_of(&self, kind: u8, link: Link) -> u8 {
        let is_link = kind == ADD || kind == WITHDRAW;
        let given = self.given(link.0);
        let tests = [
            (18, self.is_malformed(kind, link)),
            (10, is_link && !self.has_members(link)),
            (16, kind == ADD && self.has(link)),
            (17, kind == WITHDRAW && !self.has(link)),
            (19, kind == ADD && given == GIVEN),
            (
                20,
                kind == ADD && given >= DUE && self.live() + self.due() == LINKS,
            ),
        ];
        let first = tests.iter().find(|(_, applies)| *applies);
        first.map_or(0, |&(number, _)| number)
    }

    /// Follows an entry, which is skipped where it has a number; that number, or 0.
    fn follow(&mut self, kind: u8, link: Link) -> u8 {
        let number = self.number_of(kind, link);
        if number == 0 {
            self.step(kind, link);
        }
        number
    }

    /// What an entry without a number does. A named state holds until it is set again: a return leaves all four as they are.
    pub fn step(&mut self, kind: u8, (first, second): Link) {
        match kind {
            ADD => {
                self.links[first].insert(second);
            }
            WITHDRAW => {
                self.links[first].remove(&second);
            }
            SET => self.named[first] = Some(self.links.clone()),
            _ => self.links = self.named[first].clone().unwrap_or_default(),
        }
    }
}

/// The entries of a journal: the kind and the two numbers of each.
pub fn entries(journal: &[u8]) -> impl Iterator<Item = (u8, Link)> + '_ {
    let entries = journal[HEAD..].chunks(ENTRY);
    entries.map(|entry| (entry[0], (number_at(entry, 1), number_at(entry, 3))))
}

/// The journal call: follows the first entries, as many as asked or all, and writes the file of the links present and the number of each
/// entry followed, or 0.
pub fn journal(
    journal: &[u8],
    asked: usize,
    out: &mut [u8],
    numbers: &mut [u8],
    work: usize,
) -> WriteNumbers {
    try_journal(journal, asked, out, numbers, work).unwrap_or_else(Refused::refused)
}

fn try_journal(
    journal: &[u8],
    asked: usize,
    out: &mut [u8],
    numbers: &mut [u8],
    work: usize,
) -> Result<WriteNumbers, Refusal> {
    refuse(&[(1, journal.len() < HEAD)])?;
    let n = number_at(journal, 5);
    let length = journal.len() - HEAD;
    let followed = asked.min(length / ENTRY);
    let short = too_short(&[
        (out.len(), JOURNAL_OUT),
        (numbers.len(), followed),
        (work, JOURNAL_WORK),
    ]);
    refuse(&[
        (2, journal[0..3] != *b"VJN"),
        (3, number_at(journal, 3) != 1),
        (4, n > MEMBERS),
        (6, length % ENTRY != 0),
        (9, short),
    ])?;
    let mut month = Month::new(n);
    for (number, (kind, link)) in numbers.iter_mut().zip(entries(journal)).take(followed) {
        *number = month.follow(kind, link);
    }
    let links = month.links();
    let m = links.len();
    out[..file_length(1, m)].copy_from_slice(&encode(&Network { n, links }));
    Ok(WriteNumbers {
        refusal: 0,
        link: 0,
        m,
    })
}
