//! The journals that are measured, the same in every run.
use networks::{Draw, Link};

const MEMBERS: usize = 2048;
const LINKS: usize = 8192;
const NAMES: usize = 4;

const ADD: u8 = 0;
const WITHDRAW: u8 = 1;
const SET: u8 = 2;
const RETURN: u8 = 3;

/// A journal and what it is called in the tables.
pub struct Journal {
    pub name: &'static str,
    pub bytes: Vec<u8>,
    /// Whether the ratio on it is to keep the goal.
    pub has_goal: bool,
}

impl Journal {
    /// The number of entries.
    pub fn entries(&self) -> usize {
        self.bytes[7..].len() / 5
    }
}

/// How many of a hundred entries set named states or return to them, and how many are refused; the others add and withdraw links.
struct Shares {
    states: usize,
    refused: usize,
}

/// The members that each member vouches for.
type Vouched = Vec<Vec<usize>>;

/// A journal that is drawn, and the links that its entries leave present.
struct Draft {
    bytes: Vec<u8>,
    /// How many vouches each member has given where the network is full. Nobody gives more.
    most: usize,
    present: Vouched,
    named: [Vouched; NAMES],
}

impl Draft {
    /// The journal that fills the network, in random order and by as many vouches of each of so many members, and then sets every named
    /// state.
    fn full(members: usize, random: &mut Draw) -> Self {
        let mut draft = Self {
            bytes: b"VJN\x01\0".to_vec(),
            most: LINKS / members,
            present: vec![Vec::new(); members],
            named: Default::default(),
        };
        draft.bytes.extend((members as u16).to_le_bytes());
        let mut vouchers: Vec<usize> = (0..LINKS).map(|place| place % members).collect();
        random.shuffle(&mut vouchers);
        for voucher in vouchers {
            draft.add(voucher, random);
        }
        (0..NAMES).for_each(|name| draft.set(name));
        draft
    }

    fn is_full(&self) -> bool {
        self.present.iter().all(|row| row.len() == self.most)
    }

    fn enter(&mut self, kind: u8, (a, b): Link) {
        self.bytes.push(kind);
        let numbers = [a, b].map(|number| (number as u16).to_le_bytes());
        self.bytes.extend(numbers.concat());
    }

    /// Adds a link of this voucher that is absent.
    fn add(&mut self, voucher: usize, random: &mut Draw) {
        let link = self.absent(voucher, random);
        self.enter(ADD, link);
        self.present[voucher].push(link.1);
    }

    fn set(&mut self, name: usize) {
        self.enter(SET, (name, 0));
        self.named[name] = self.present.clone();
    }

    fn return_to(&mut self, name: usize) {
        self.enter(RETURN, (name, 0));
        self.present = self.named[name].clone();
    }

    /// A link of this voucher that is absent.
    fn absent(&self, voucher: usize, random: &mut Draw) -> Link {
        loop {
            let vouched = random.below(self.present.len());
            if !self.present[voucher].contains(&vouched) {
                return (voucher, vouched);
            }
        }
    }

    /// A voucher and the number of one of its vouches, of those that a full network has: one that is present, or one that is not.
    fn place(&self, is_present: bool, random: &mut Draw) -> (usize, usize) {
        loop {
            let (voucher, number) = (random.below(self.present.len()), random.below(self.most));
            if (number < self.present[voucher].len()) == is_present {
                return (voucher, number);
            }
        }
    }

    /// Adds a link or withdraws one, as often; in a full network it withdraws.
    fn change(&mut self, random: &mut Draw) {
        let adds = random.one_in(2) && !self.is_full();
        let (voucher, number) = self.place(!adds, random);
        if adds {
            self.add(voucher, random);
        } else {
            let vouched = self.present[voucher].swap_remove(number);
            self.enter(WITHDRAW, (voucher, vouched));
        }
    }

    /// Sets a named state or returns to one, as often.
    fn state(&mut self, random: &mut Draw) {
        let name = random.below(NAMES);
        if random.one_in(2) {
            self.set(name);
        } else {
            self.return_to(name);
        }
    }

    /// An entry for one of the numbers that refuse it; for 20, or for 19 where everyone has given 64, the network must be full.
    fn refused(&mut self, random: &mut Draw) {
        let voucher = random.below(self.present.len());
        let absent = self.absent(voucher, random);
        match random.below(4 + usize::from(self.is_full())) {
            0 => self.enter(4, absent),
            1 => self.enter(ADD, (voucher, MEMBERS)),
            2 => {
                let (voucher, number) = self.place(true, random);
                self.enter(ADD, (voucher, self.present[voucher][number]));
            }
            3 => self.enter(WITHDRAW, absent),
            _ => self.enter(ADD, absent),
        }
    }
}

/// So many entries from a full network of so many members on.
fn drawn(
    name: &'static str,
    members: usize,
    entries: usize,
    shares: Shares,
    random: &mut Draw,
) -> Journal {
    let mut draft = Draft::full(members, random);
    for _ in 0..entries {
        let share = random.below(100);
        if share < shares.states {
            draft.state(random);
        } else if share < shares.states + shares.refused {
            draft.refused(random);
        } else {
            draft.change(random);
        }
    }
    let bytes = draft.bytes;
    // Of entries that are all refused nothing but the search is timed.
    let has_goal = shares.refused < 100;
    Journal {
        name,
        bytes,
        has_goal,
    }
}

/// The first link of a full network is withdrawn and added again: whatever lies behind it moves each time.
fn at_the_front(name: &'static str, entries: usize, random: &mut Draw) -> Journal {
    let mut draft = Draft::full(MEMBERS, random);
    let first = draft.present[0].iter().min().copied();
    let first = first.expect("member 0 of a full network vouches for others");
    for kind in [WITHDRAW, ADD].into_iter().cycle().take(entries) {
        draft.enter(kind, (0, first));
    }
    let bytes = draft.bytes;
    Journal {
        name,
        bytes,
        has_goal: true,
    }
}

/// Journals of many kinds, each of a network that is full at first.
pub fn journals() -> Vec<Journal> {
    let random = &mut Draw::new(3);
    let shares = |states, refused| Shares { states, refused };
    vec![
        drawn(
            "additions, withdrawals, sets and returns",
            MEMBERS,
            100_000,
            shares(1, 5),
            random,
        ),
        drawn(
            "additions and withdrawals",
            MEMBERS,
            100_000,
            shares(0, 5),
            random,
        ),
        drawn(
            "additions and withdrawals of 128 members",
            128,
            100_000,
            shares(0, 5),
            random,
        ),
        at_the_front("the first link out and in", 100_000, random),
        drawn("refused entries", MEMBERS, 100_000, shares(0, 100), random),
        drawn("sets and returns", MEMBERS, 4_000, shares(90, 0), random),
    ]
}
