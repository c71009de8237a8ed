//! Journals worked out by hand, in which a member gives 64 vouches or live + due comes to 8,192.
use super::examples::{expect_followed, set_journal};
use super::try_journal;
use crate::case::Case;
use networks::{add, return_to, set, withdraw, Entry};
use reference::{Month, MEMBERS};
use std::ops::Range;

/// An entry and its number.
type Step = (Entry, u8);

/// Members, and entries with their numbers.
struct Told {
    n: usize,
    entries: Vec<Entry>,
    numbers: Vec<u8>,
}

impl Told {
    fn new(n: usize) -> Told {
        Told {
            n,
            entries: Vec::new(),
            numbers: Vec::new(),
        }
    }

    fn then(&mut self, steps: &[Step]) {
        self.entries.extend(steps.iter().map(|step| step.0));
        self.numbers.extend(steps.iter().map(|step| step.1));
    }

    /// A member vouches for each of these, and every entry has this number.
    fn vouches(&mut self, voucher: usize, vouched: Range<usize>, number: u8) {
        for vouched in vouched {
            self.then(&[(add((voucher, vouched)), number)]);
        }
    }

    /// What the call gives after none of the entries, and after each of the last ones: the entries without a number leave the links.
    fn expect(&self, case: &mut Case, last: usize) {
        set_journal(case, self.n, &self.entries);
        expect_followed(case, 0, &[], &[]);
        let mut month = Month::new(self.n);
        let all = self.entries.len();
        for (place, &(kind, first, second)) in self.entries.iter().enumerate() {
            if self.numbers[place] == 0 {
                month.step(kind, (first, second));
            }
            if place + last >= all {
                let numbers = &self.numbers[..=place];
                expect_followed(case, place + 1, numbers, &month.links());
            }
        }
        try_journal(case);
    }
}

pub fn places(case: &mut Case) {
    all_that_is_due(case);
    four_for_anyone(case);
    one_place_left(case);
    sixty_four(case);
    all_of_few(case);
    everyone_of_128(case);
    for n in [127, 129] {
        busy_first(case, n);
    }
}

/// Of 2,048 members each has four. An earlier state has no link.
const NO_PLACE: [Step; 18] = [
    (add((0, 3)), 16),
    (withdraw((0, 4)), 17),
    (add((0, 2048)), 10),
    (add((2048, 0)), 10),
    (set(1), 0),
    // What one withdraws is kept for it.
    (withdraw((7, 2)), 0),
    (add((8, 4)), 20),
    (add((7, 9)), 0),
    (add((7, 2)), 20),
    // Without links all are due again, and with all of them none.
    (return_to(0), 0),
    (add((7, 7)), 0),
    (return_to(1), 0),
    (add((7, 7)), 20),
    (withdraw((0, 0)), 0),
    (withdraw((0, 1)), 0),
    (add((1, 7)), 20),
    (set(1), 0),
    (return_to(0), 0),
];

/// Over 2,048 members all places are due: each enters four, and nobody a fifth, neither at the start nor at the end.
fn all_that_is_due(case: &mut Case) {
    let mut told = Told::new(MEMBERS);
    told.then(&[(set(0), 0)]);
    for member in (0..MEMBERS).rev() {
        told.vouches(member, 0..4, 0);
        told.vouches(member, 4..5, 20);
    }
    for member in 0..MEMBERS {
        told.vouches(member, 5..6, 20);
    }
    told.then(&NO_PLACE);
    told.vouches(9, 10..14, 0);
    told.vouches(9, 14..15, 20);
    told.then(&[(return_to(1), 0)]);
    told.vouches(0, 4..6, 0);
    told.vouches(0, 6..7, 20);
    told.expect(case, 30);
}

/// Of 2,047 members one has eight and all others have four. An earlier state has the links of the first two alone.
const FOUR_PLACES: [Step; 24] = [
    (set(1), 0),
    // From more than four: a place for anyone who is first.
    (withdraw((0, 0)), 0),
    (set(2), 0),
    (add((2046, 9)), 0),
    (add((0, 0)), 20),
    (withdraw((2046, 0)), 0),
    (add((0, 0)), 0),
    (add((2046, 0)), 20),
    // From four: kept for its voucher.
    (withdraw((2046, 9)), 0),
    (add((0, 9)), 20),
    (add((1, 9)), 20),
    (add((2046, 0)), 0),
    (add((2046, 9)), 20),
    // To few links and many due, back to all places, and to one left.
    (return_to(0), 0),
    (add((1, 9)), 20),
    (add((2, 9)), 0),
    (return_to(1), 0),
    (add((1, 9)), 20),
    (return_to(2), 0),
    (add((1, 9)), 0),
    (add((2, 9)), 20),
    (return_to(2), 0),
    (add((2, 9)), 0),
    (add((1, 9)), 20),
];

/// Over 2,047 members four places are anyone's. One takes them all, and all others enter four.
fn four_for_anyone(case: &mut Case) {
    let mut told = Told::new(MEMBERS - 1);
    told.vouches(0, 0..8, 0);
    told.vouches(0, 8..9, 20);
    told.vouches(1, 0..4, 0);
    told.vouches(1, 4..5, 20);
    told.then(&[(set(0), 0)]);
    for member in (2..MEMBERS - 1).rev() {
        told.vouches(member, 0..4, 0);
        told.vouches(member, 4..5, 20);
    }
    told.then(&FOUR_PLACES);
    told.expect(case, 26);
}

/// Of 2,033 members one has 63 and one four.
const SIXTY_PLACES: [Step; 32] = [
    (set(0), 0),
    (add((0, 63)), 0),
    (set(3), 0),
    (add((0, 64)), 19),
    (add((1, 4)), 20),
    // What comes before both, for either member.
    (add((0, 63)), 16),
    (add((1, 3)), 16),
    (add((0, 2033)), 10),
    (add((1, 2033)), 10),
    (add((2033, 0)), 10),
    (withdraw((0, 64)), 17),
    (withdraw((1, 4)), 17),
    (return_to(2), 18),
    (withdraw((0, 10)), 0),
    (add((1, 4)), 0),
    (add((0, 10)), 20),
    (withdraw((1, 0)), 0),
    (add((0, 10)), 0),
    (add((0, 64)), 19),
    (add((1, 0)), 20),
    // A place that is due stays so, and one at 64 stays there.
    (withdraw((1, 1)), 0),
    (add((0, 64)), 19),
    (add((1, 0)), 0),
    (return_to(0), 0),
    (add((1, 4)), 0),
    (add((0, 63)), 20),
    (return_to(0), 0),
    (add((0, 63)), 0),
    (add((0, 64)), 19),
    (return_to(3), 0),
    (add((0, 64)), 19),
    (add((1, 4)), 20),
];

/// Over 2,033 members the places that are anyone's are as many as one member can have: with 64 given, 19 comes before 20.
fn one_place_left(case: &mut Case) {
    let mut told = Told::new(2033);
    told.vouches(1, 0..4, 0);
    told.vouches(0, 0..63, 0);
    told.then(&SIXTY_PLACES);
    told.vouches(2032, 2029..2033, 0);
    told.vouches(2032, 0..1, 20);
    told.expect(case, 40);
}

/// Of 100 members one has 63, and many others one.
const PLACES_LEFT: [Step; 22] = [
    (set(2), 0),
    (add((99, 63)), 0),
    (set(3), 0),
    (add((99, 64)), 19),
    (add((99, 99)), 19),
    (add((99, 63)), 16),
    (withdraw((0, 99)), 0),
    (add((99, 64)), 19),
    (withdraw((99, 0)), 0),
    (add((99, 64)), 0),
    (add((99, 0)), 19),
    (return_to(2), 0),
    (add((99, 99)), 0),
    (add((99, 63)), 19),
    (return_to(3), 0),
    (add((99, 99)), 19),
    (withdraw((99, 63)), 0),
    (set(3), 0),
    (add((99, 98)), 0),
    (return_to(3), 0),
    (add((99, 97)), 0),
    (add((99, 98)), 19),
];

/// 64 given where places are left: what others enter, withdraw or are vouched for is nothing to it.
fn sixty_four(case: &mut Case) {
    let mut told = Told::new(100);
    for member in 0..70 {
        told.vouches(member, 99..100, 0);
    }
    told.vouches(99, 0..63, 0);
    told.then(&PLACES_LEFT);
    told.expect(case, 24);
}

/// Members so few that each vouches for all: with 64 too, every link is present, and 16 comes first.
fn all_of_few(case: &mut Case) {
    for n in [1, 2, 3, 4, 5, 64] {
        let mut told = Told::new(n);
        for number in [0, 16] {
            for member in 0..n {
                told.vouches(member, 0..n, number);
            }
        }
        told.vouches(n - 1, n..n + 1, 10);
        told.expect(case, 12);
    }
}

/// 128 members of 64 are 8,192 links, with nothing due.
fn everyone_of_128(case: &mut Case) {
    let mut told = Told::new(128);
    for member in 0..128 {
        told.vouches(member, 0..64, 0);
    }
    for member in 0..128 {
        told.vouches(member, 64..65, 19);
    }
    told.then(&[
        (set(0), 0),
        (add((5, 5)), 16),
        (withdraw((5, 5)), 0),
        (add((6, 64)), 19),
        (add((5, 64)), 0),
        (add((5, 5)), 19),
        (return_to(0), 0),
        (add((5, 64)), 19),
    ]);
    told.expect(case, 10);
}

/// Members who give 64 before the others act, until the places that are anyone's are taken: 127 are not enough for it, and of 129 one has
/// 60 and is refused the next. The last member has its four all the same.
fn busy_first(case: &mut Case, n: usize) {
    let mut told = Told::new(n);
    for member in 0..127 {
        told.vouches(member, 0..64, 0);
        told.vouches(member, 64..65, 19);
    }
    if n == 129 {
        told.vouches(127, 0..60, 0);
        told.vouches(127, 60..61, 20);
        told.vouches(128, 0..4, 0);
        told.vouches(128, 4..5, 20);
        told.then(&[(withdraw((127, 0)), 0), (add((128, 4)), 0)]);
        told.vouches(127, 0..1, 20);
        told.then(&[(withdraw((0, 0)), 0), (add((126, 64)), 19)]);
        told.vouches(127, 0..1, 0);
        told.vouches(0, 0..1, 20);
    }
    told.expect(case, 10);
}
