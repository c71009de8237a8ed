//! What is promised of every journal whatever its entries are, held to the numbers that the library gives: a set of links takes the entries
//! that it accepts, and its totals are added up anew after each.
use super::{members, present, Lent};
use crate::case::Case;
use networks::Link;
use reference::{entries, Month, DUE, GIVEN, JOURNAL_OUT, JOURNAL_WORK, LINKS};

const ADD: u8 = 0;
const WITHDRAW: u8 = 1;

/// The links that the entries accepted so far leave, and the last of these if it withdrew one.
struct Story {
    month: Month,
    withdrawn: Option<Withdrawn>,
}

/// Who gave the link that was withdrawn, and whether that member had more than its four.
struct Withdrawn {
    voucher: usize,
    had_more: bool,
}

/// All entries of the case's journal, which the library accepts or refuses by its own rules.
pub fn promises(case: &mut Case) {
    let lengths = [JOURNAL_OUT, present(case), JOURNAL_WORK];
    let mut tables = Lent::new(&mut case.draw, lengths);
    if tables.library(&case.file, usize::MAX).refusal == 0 {
        let month = Month::new(members(case));
        let broken = first_broken(month, &case.file, tables.numbers.lend());
        case.compare(|| "journal: what is promised".into(), None, broken);
    }
}

/// The first entry that breaks a promise, its number, and the promise.
fn first_broken(month: Month, journal: &[u8], numbers: &[u8]) -> Option<(usize, u8, &'static str)> {
    let withdrawn = None;
    let mut story = Story { month, withdrawn };
    for (place, ((kind, link), &number)) in entries(journal).zip(numbers).enumerate() {
        let broken = story.broken_by(kind, link, number);
        let broken = broken.or_else(|| story.broken_after(kind, link, number));
        if let Some(promise) = broken {
            return Some((place, number, promise));
        }
    }
    None
}

/// The name of the first promise that is not kept.
fn not_kept<const PROMISES: usize>(
    promises: [(&'static str, bool); PROMISES],
) -> Option<&'static str> {
    let first = promises.into_iter().find(|(_, kept)| !kept);
    first.map(|(promise, _)| promise)
}

impl Story {
    /// A promise that the number of this entry breaks.
    fn broken_by(&self, kind: u8, link: Link, number: u8) -> Option<&'static str> {
        let month = &self.month;
        let given = month.given(link.0);
        let is_link = kind == ADD || kind == WITHDRAW;
        let is_entry = !month.is_malformed(kind, link) && (!is_link || month.has_members(link));
        let is_new = kind == ADD && is_entry && !month.has(link);
        let has_place = match &self.withdrawn {
            Some(last) => last.voucher == link.0 || (last.had_more && given < GIVEN),
            None => false,
        };
        not_kept([
            ("what is accepted is an entry", is_entry || number != 0),
            ("no entry is refused by 5", number != 5),
            (
                "who has not given four is refused for no other reason than 10 and 16",
                kind != ADD || given >= DUE || matches!(number, 0 | 10 | 16),
            ),
            (
                "a withdrawn place is used again, by its voucher and, where that had more than four, by everyone below 64",
                !is_new || !has_place || number == 0,
            ),
        ])
    }

    /// A promise that is broken once this entry was followed.
    fn broken_after(&mut self, kind: u8, link: Link, number: u8) -> Option<&'static str> {
        if number == 0 {
            self.withdrawn = (kind == WITHDRAW).then(|| Withdrawn {
                voucher: link.0,
                had_more: self.month.given(link.0) > DUE,
            });
            self.month.step(kind, link);
        }
        let month = &self.month;
        not_kept([
            ("live + due", month.live() + month.due() <= LINKS),
            ("nobody has given more than 64", month.most_given() <= GIVEN),
        ])
    }
}
