use std::error::Error;
use std::fmt;

/// Why a call was refused, in the order of the tests: where more than one number applies the first of 1 to 7, 22, 8, 15, 21, 9 to 12 and 14
/// is given. Of 7, 22, 8 and 15, which name a link, each is tested over all links before the next, and of two files 1 to 7, 22, 8 and 15
/// all on the first before any on the second. 13 is retired: it is never given again, nor used for something else.
///
/// ```
/// use cogsplice::{Network, Refusal};
/// let refusal = Network::from_links(2, &[(0, 1), (1, 2)]).unwrap_err();
/// assert_eq!(refusal, Refusal::End { link: 1 });
/// assert_eq!(refusal.number(), 7);
/// assert_eq!(refusal.to_string(), "refused 7 at 1");
/// assert_eq!(refusal.words(), "a link names a member not below n");
/// ```
#[derive(Clone, Copy, Debug, PartialEq, Eq)]
pub enum Refusal {
    /// 1: the file has 1 to 8 bytes; a journal has under 7.
    Short,
    /// 2: its mark is not `VCH`; a journal's is not `VJN`.
    Mark,
    /// 3: its version is neither 1 nor 2; of a file that is read by the old rule, and of a journal, it is not 1.
    Version,
    /// 4: n is above 2,048; of two findings that are compared, either n is.
    Members,
    /// 5: m is above 8,192.
    Links,
    /// 6: its length is not 9 + 4 × m, of version 2 not 9 + 5 × m; a journal's is 7 + 5 × k for no k.
    Length,
    /// 7: a link names a member not below n; the first such link.
    End { link: usize },
    /// 22: a link has a kind above 7; the first such link.
    Kind { link: usize },
    /// 8: a link repeats an earlier one, of whatever kinds they are; the first such link.
    Repeat { link: usize },
    /// 15: a link comes before the one preceding it, by voucher, then vouched; the first such link.
    Order { link: usize },
    /// 21: two files have different numbers of members.
    Mismatch,
    /// 9: a lent table is shorter than the call needs.
    Table,
    /// 10: the member of a row, or of a group, is not below n.
    Member,
    /// 11: a byte among the first n of a group that a call is lent to read, S or T of the count or of findings that are compared, A or B, is
    /// neither 0 nor 1.
    Group,
    /// 12: a level was asked for 0.
    Zero,
    /// 14: a row's start is above the next start, or that is above the length of the rows table.
    Row,
}

impl Refusal {
    /// All refusals in the order of the tests, those that name a link with this one.
    fn all(link: usize) -> [Refusal; 16] {
        use Refusal::*;
        let (end, kind, repeat, order) = (End { link }, Kind { link }, Repeat { link }, Order { link });
        [
            Short, Mark, Version, Members, Links, Length, end, kind, repeat, order, Mismatch, Table, Member, Group, Zero, Row,
        ]
    }

    /// The refusal of a call's numbers, where there is one.
    pub(crate) fn of(number: u16, link: u16) -> Result<(), Refusal> {
        if number == 0 {
            return Ok(());
        }
        let refusal = Refusal::all(link.into()).into_iter().find(|refusal| refusal.number() == number);
        Err(refusal.unwrap_or_else(|| unreachable!("the library has no refusal {number}")))
    }

    /// The refusal's number, the link that it names, and its words.
    fn told(self) -> (u16, Option<usize>, &'static str) {
        match self {
            Refusal::Short => (1, None, "the file has 1 to 8 bytes, or the journal under 7"),
            Refusal::Mark => (2, None, "the mark is not VCH, or of a journal VJN"),
            Refusal::Version => (3, None, "the version is not 1 or 2, or of an old file or a journal 1"),
            Refusal::Members => (4, None, "n is above 2048"),
            Refusal::Links => (5, None, "m is above 8192"),
            Refusal::Length => (
                6,
                None,
                "the length is not 9 + 4 * m, of version 2 9 + 5 * m, or of a journal 7 + 5 * k",
            ),
            Refusal::End { link } => (7, Some(link), "a link names a member not below n"),
            Refusal::Kind { link } => (22, Some(link), "a link has a kind above 7"),
            Refusal::Repeat { link } => (8, Some(link), "a link repeats an earlier one"),
            Refusal::Order { link } => (15, Some(link), "a link comes before the one preceding it"),
            Refusal::Mismatch => (21, None, "the two files have different numbers of members"),
            Refusal::Table => (9, None, "a table is too short"),
            Refusal::Member => (10, None, "a member is not below n"),
            Refusal::Group => (11, None, "a byte of a group is neither 0 nor 1"),
            Refusal::Zero => (12, None, "a level was asked for 0"),
            Refusal::Row => (14, None, "a row does not lie in its table"),
        }
    }

    /// The refusal's number, 1 to 15 without 13, 21 or 22.
    pub fn number(self) -> u16 {
        self.told().0
    }

    /// The number of the link that the refusal names.
    pub fn link(self) -> Option<usize> {
        self.told().1
    }

    /// The refusal in words.
    pub fn words(self) -> &'static str {
        self.told().2
    }
}

/// The line of the report program, without its end: `refused`, the number, and where it names a link `at` and the link's number.
impl fmt::Display for Refusal {
    fn fmt(&self, f: &mut fmt::Formatter<'_>) -> fmt::Result {
        write!(f, "refused {}", self.number())?;
        match self.link() {
            Some(link) => write!(f, " at {link}"),
            None => Ok(()),
        }
    }
}

impl Error for Refusal {}

/// Why an entry of a journal was refused, and skipped: where more than one number applies the first in the order of the tests, 18, 10, 16,
/// 17, 19, 20. The last two are only for an addition whose voucher has given four or more. Live is the number of links present, due the
/// total of what all members lack to four.
///
/// ```
/// use cogsplice::{EntryRefusal, Journal};
/// let mut journal = Journal::new(2).unwrap();
/// let refusal = journal.withdraw(0, 1).after_all().refusals[0].unwrap();
/// assert_eq!(refusal, EntryRefusal::Absent);
/// assert_eq!(refusal.number(), 17);
/// assert_eq!(refusal.to_string(), "refused 17");
/// assert_eq!(refusal.words(), "the link that is withdrawn is absent");
/// ```
#[derive(Clone, Copy, Debug, PartialEq, Eq)]
pub enum EntryRefusal {
    /// 18: its kind or its name is above 3, its name is not followed by 0, or it returns to a state never set.
    Entry,
    /// 10: a member of the link is not below n.
    Member,
    /// 16: the link that it adds is present.
    Present,
    /// 17: the link that it withdraws is absent.
    Absent,
    /// 19: the voucher of the link that it adds has given 64.
    Given,
    /// 20: the voucher of the link that it adds has given four or more, and live + due is 8,192.
    Place,
}

impl EntryRefusal {
    const ALL: [EntryRefusal; 6] = {
        use EntryRefusal::*;
        [Entry, Member, Present, Absent, Given, Place]
    };

    /// The refusal of an entry's number, where it is one.
    pub(crate) fn of(number: u8) -> Option<EntryRefusal> {
        if number == 0 {
            return None;
        }
        let refusal = EntryRefusal::ALL.into_iter().find(|refusal| refusal.number() == number.into());
        Some(refusal.unwrap_or_else(|| unreachable!("the library has no refusal {number} of an entry")))
    }

    /// The refusal's number and its words.
    fn told(self) -> (u16, &'static str) {
        match self {
            EntryRefusal::Entry => (18, "the entry is none that a journal has, or returns to a state never set"),
            EntryRefusal::Member => (10, "a member is not below n"),
            EntryRefusal::Present => (16, "the link that is added is present"),
            EntryRefusal::Absent => (17, "the link that is withdrawn is absent"),
            EntryRefusal::Given => (19, "the voucher has given 64"),
            EntryRefusal::Place => (20, "the voucher has given four or more, and every place is taken or due to others"),
        }
    }

    /// The refusal's number: 10 or 16 to 20.
    pub fn number(self) -> u16 {
        self.told().0
    }

    /// The refusal in words.
    pub fn words(self) -> &'static str {
        self.told().1
    }
}

/// As a [`Refusal`]'s: `refused` and the number.
impl fmt::Display for EntryRefusal {
    fn fmt(&self, f: &mut fmt::Formatter<'_>) -> fmt::Result {
        write!(f, "refused {}", self.number())
    }
}
