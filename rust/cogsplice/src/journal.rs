use crate::network::number;
use crate::{file_length, journal_length, lent, EntryRefusal, Network, Refusal, JOURNAL_OUT, JOURNAL_WORK};

/// The bytes of an entry.
const ENTRY: usize = journal_length(1) - journal_length(0);

/// A month entry by entry: links that are added and withdrawn, and named states that are set and returned to.
///
/// It begins without links and with no state set. Entries are numbered from 0, and whatever they hold they stay in the journal: one that
/// the rules do not allow is refused when it is followed, and skipped. [`Journal::after`] has the network after so many entries, and why
/// which of these were refused.
///
/// Each member is due four vouches given ([`DUE`](crate::DUE)) and may have up to 64 ([`GIVEN`](crate::GIVEN)). The number of links present
/// and the total of what all members lack to four, live and due, together never exceed 8,192 ([`LINKS`](crate::LINKS)): so each member has
/// a place for four vouches, whatever the others entered. Returning to a named state restores both.
///
/// ```
/// use cogsplice::{EntryRefusal, Journal, Name};
/// # fn main() -> Result<(), cogsplice::Refusal> {
/// let mut journal = Journal::new(6)?;
/// journal.add(0, 3).add(0, 4).add(1, 3).add(0, 3).add(1, 4);
/// // When did two members vouch for the same two? Entry 3 adds a link that is present, and with entry 4 they do.
/// let rings = |&entries: &usize| journal.after(entries).network.finding().equal_level == 2;
/// assert_eq!((0..=journal.len()).find(rings), Some(5));
/// let after = journal.after_all();
/// assert_eq!(after.refusals, [None, None, None, Some(EntryRefusal::Present), None]);
/// let finding = after.network.finding();
/// assert_eq!((finding.pair.s, finding.pair.t), (vec![0, 1], vec![3, 4]));
/// // The ring is kept under a name, and comes back after a link was withdrawn.
/// journal.set(Name::Zero).withdraw(0, 4).return_to(Name::Zero);
/// assert_eq!(journal.after(7).network.finding().equal_level, 1);
/// assert_eq!(journal.after(8).network, journal.after(5).network);
/// # Ok(())
/// # }
/// ```
#[derive(Clone, Debug, PartialEq, Eq)]
pub struct Journal {
    bytes: Vec<u8>,
}

/// The name of a state that a journal sets and returns to, 0 to 3 in its bytes.
#[derive(Clone, Copy, Debug, PartialEq, Eq)]
pub enum Name {
    Zero,
    One,
    Two,
    Three,
}

/// What an entry does, by the number that stands for it in the bytes.
#[derive(Clone, Copy)]
enum Kind {
    Add = 0,
    Withdraw = 1,
    Set = 2,
    Return = 3,
}

/// What the first entries of a journal come to.
#[derive(Clone, Debug, PartialEq, Eq)]
pub struct After {
    /// The links present after them, among the journal's members: a file of version 1.
    pub network: Network,
    /// Why each of them was refused; none where it did what it says.
    pub refusals: Vec<Option<EntryRefusal>>,
}

impl Journal {
    /// The journal without entries of so many members. Refused by 4.
    ///
    /// ```
    /// use cogsplice::{Journal, Refusal};
    /// assert!(Journal::new(2048).unwrap().is_empty());
    /// assert_eq!(Journal::new(2049), Err(Refusal::Members));
    /// ```
    pub fn new(members: usize) -> Result<Journal, Refusal> {
        Journal::read([&b"VJN\x01\x00"[..], &number(members)].concat())
    }

    /// The journal of these bytes. Refused by 1 to 4 and 6, for its header and its length alone: zero bytes too by 1, and no entry is a
    /// reason.
    ///
    /// ```
    /// use cogsplice::{Journal, Refusal};
    /// # fn main() -> Result<(), Refusal> {
    /// let mut journal = Journal::new(2)?;
    /// journal.add(1, 0);
    /// assert_eq!(journal.bytes(), b"VJN\x01\x00\x02\x00\x00\x01\x00\x00\x00");
    /// assert_eq!(Journal::read(journal.bytes().to_vec())?, journal);
    /// assert_eq!(Journal::read(Vec::new()), Err(Refusal::Short));
    /// assert_eq!(Journal::read(b"VJN\x01\x00\x02\x00\x00\x01".to_vec()), Err(Refusal::Length));
    /// # Ok(())
    /// # }
    /// ```
    pub fn read(bytes: Vec<u8>) -> Result<Journal, Refusal> {
        follow(&bytes, 0)?;
        Ok(Journal { bytes })
    }

    /// The journal's bytes.
    pub fn bytes(&self) -> &[u8] {
        &self.bytes
    }

    /// The number of entries, refused ones too.
    pub fn len(&self) -> usize {
        self.bytes[journal_length(0)..].chunks_exact(ENTRY).len()
    }

    /// Whether there is no entry.
    pub fn is_empty(&self) -> bool {
        self.len() == 0
    }

    /// Enters the addition of a link. It is refused by 10 where a member is not below n, by 16 where the link is present, by 19 where the
    /// voucher has given 64, and by 20 where it has given four or more and live + due is 8,192. Of a voucher that has given fewer than four
    /// it is never refused by 19 or 20.
    ///
    /// ```
    /// use cogsplice::{EntryRefusal, Journal, DUE, GIVEN, MEMBERS};
    /// # fn main() -> Result<(), cogsplice::Refusal> {
    /// // 2,048 members are due all 8,192 places: none can give a fifth vouch.
    /// let mut journal = Journal::new(MEMBERS)?;
    /// for vouched in 0..=DUE {
    ///     journal.add(7, vouched);
    /// }
    /// assert_eq!(journal.after_all().refusals[DUE], Some(EntryRefusal::Place)); // 20
    /// // Of 129 members all but the last try to give 65. Four places are kept for the last, and so member 127 finds none for a 61st vouch.
    /// let mut journal = Journal::new(129)?;
    /// for voucher in 0..128 {
    ///     for vouched in 0..=GIVEN {
    ///         journal.add(voucher, vouched);
    ///     }
    /// }
    /// for vouched in 0..DUE {
    ///     journal.add(128, vouched);
    /// }
    /// let refusals = journal.after_all().refusals;
    /// assert_eq!(refusals[GIVEN], Some(EntryRefusal::Given)); // 19, the 65th of member 0
    /// assert_eq!(refusals[127 * 65 + 60], Some(EntryRefusal::Place)); // 20, the 61st of member 127
    /// assert!(refusals.ends_with(&[None; DUE])); // the first four of member 128
    /// # Ok(())
    /// # }
    /// ```
    pub fn add(&mut self, voucher: usize, vouched: usize) -> &mut Journal {
        self.enter(Kind::Add, voucher, vouched)
    }

    /// Enters the withdrawal of a link. It is refused by 10 where a member is not below n, and by 17 where the link is absent. The link's
    /// place is used again: its voucher can add one next, and what a member with more than four gives back is there for everyone who has
    /// not given 64.
    pub fn withdraw(&mut self, voucher: usize, vouched: usize) -> &mut Journal {
        self.enter(Kind::Withdraw, voucher, vouched)
    }

    /// Enters that a named state becomes that of the links present. It holds until it is set again.
    pub fn set(&mut self, name: Name) -> &mut Journal {
        self.enter(Kind::Set, name as usize, 0)
    }

    /// Enters that the links of a named state become those present. All named states stay as they are, so that one may be returned to again
    /// and again. It is refused by 18 where the state was never set.
    pub fn return_to(&mut self, name: Name) -> &mut Journal {
        self.enter(Kind::Return, name as usize, 0)
    }

    fn enter(&mut self, kind: Kind, a: usize, b: usize) -> &mut Journal {
        self.bytes.push(kind as u8);
        self.bytes.extend(number(a));
        self.bytes.extend(number(b));
        self
    }

    /// The network after the first so many entries, all where there are fewer, and why which of these were refused.
    ///
    /// ```
    /// use cogsplice::{EntryRefusal, Journal, Name};
    /// # fn main() -> Result<(), cogsplice::Refusal> {
    /// let mut journal = Journal::new(2)?;
    /// journal.add(0, 1).return_to(Name::Three).withdraw(1, 0).add(1, 2);
    /// let after = journal.after(2);
    /// assert_eq!(after.network.links().collect::<Vec<_>>(), [(0, 1)]);
    /// assert_eq!(after.refusals, [None, Some(EntryRefusal::Entry)]);
    /// assert_eq!(journal.after(4).refusals[2..], [Some(EntryRefusal::Absent), Some(EntryRefusal::Member)]);
    /// assert_eq!(journal.after(5), journal.after_all());
    /// # Ok(())
    /// # }
    /// ```
    pub fn after(&self, entries: usize) -> After {
        follow(&self.bytes, entries.min(self.len())).expect("an accepted journal was refused")
    }

    /// The network after all entries, and why which of them were refused.
    pub fn after_all(&self) -> After {
        self.after(self.len())
    }
}

/// Follows the first so many entries; a journal that is accepted has as many.
fn follow(journal: &[u8], entries: usize) -> Result<After, Refusal> {
    let (mut file, mut numbers, mut work) = (vec![0; JOURNAL_OUT], vec![0; entries], vec![0; JOURNAL_WORK]);
    let told = lent::journal(journal, entries, &mut file, &mut numbers, &mut work);
    Refusal::of(told.refusal, told.link)?;
    file.truncate(file_length(told.m));
    Ok(After {
        network: Network::from_file(file)?,
        refusals: numbers.into_iter().map(EntryRefusal::of).collect(),
    })
}
