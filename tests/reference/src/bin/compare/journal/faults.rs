//! Journals that are refused: each of the numbers 1, 2, 3, 4, 6 and 9 alone and with the others, and journals with changed bytes.
use super::kinds::small_journal;
use super::{present, try_journal, try_tables, Lent, ENTRY, HEAD};
use crate::case::Case;
use networks::Draw;
use reference::{first_of, JOURNAL_OUT, JOURNAL_WORK};

/// The numbers that a journal's own bytes are refused with.
const FAULTS: [u16; 5] = [1, 2, 3, 4, 6];

/// Makes a journal faulty by these numbers. The first of them in order refuses it.
fn spoil(draw: &mut Draw, journal: &mut Vec<u8>, faults: &[u16]) {
    let has = |number: u16| faults.contains(&number);
    if has(2) {
        journal[draw.below(3)] ^= draw.among(1, 255) as u8;
    }
    if has(3) {
        let version: u16 = draw.pick(&[0, 2, 3, 0x0100, 0x0101, 0xffff]);
        journal[3..5].copy_from_slice(&version.to_le_bytes());
    }
    if has(4) {
        let n: u16 = draw.pick(&[2049, 2050, 4096, 65_535]);
        journal[5..7].copy_from_slice(&n.to_le_bytes());
    }
    if has(6) {
        let more = draw.among(1, ENTRY - 1);
        if journal.len() > HEAD && draw.one_in(2) {
            journal.truncate(journal.len() - more);
        } else {
            journal.extend(draw.bytes(more));
        }
    }
    if has(1) {
        journal.truncate(draw.below(HEAD));
    }
}

/// A journal with every choice of faults, each with no table short and with each of them short.
pub fn faults(case: &mut Case) {
    small_journal(case);
    let (journal, kind) = (case.file.clone(), case.kind.clone());
    for choice in 0..1 << FAULTS.len() {
        let chosen = (0..FAULTS.len()).filter(|fault| choice >> fault & 1 == 1);
        let faults: Vec<u16> = chosen.map(|fault| FAULTS[fault]).collect();
        case.kind = format!("{kind}, faults {faults:?}");
        case.file = journal.clone();
        spoil(&mut case.draw, &mut case.file, &faults);
        for short in [None, Some(0), Some(1), Some(2)] {
            try_short(case, &faults, short);
        }
    }
    case.file = journal;
    case.kind = kind;
    change_bytes(case);
}

/// With a table one entry short, the first in order of the journal's faults and 9 is given. The table of numbers needs nothing where no
/// entry is followed, and is not short then.
fn try_short(case: &mut Case, faults: &[u16], short: Option<usize>) {
    let present = present(case);
    let asked = case.draw.pick(&[present, present / 2, usize::MAX]);
    let mut lengths = [JOURNAL_OUT, asked.min(present), JOURNAL_WORK];
    let mut applying = faults.to_vec();
    if let Some(table) = short.filter(|&table| lengths[table] > 0) {
        lengths[table] -= 1;
        applying.push(9);
    }
    let expected = first_of(&applying);
    let tables = Lent::new(&mut case.draw, lengths);
    let plain = tables.clone().reference(&case.file, asked).refusal;
    let call = |name: &str| format!("{name}, table {short:?} short, numbers {applying:?}");
    case.compare(|| call("journal: reference"), expected, plain);
    let given = tables.clone().library(&case.file, asked).refusal;
    case.compare(|| call("journal"), expected, given);
    try_tables(case, asked, tables);
}

/// Bytes and bits changed, taken out and put in.
fn change_bytes(case: &mut Case) {
    let (draw, file) = (&mut case.draw, &mut case.file);
    for _ in 0..draw.among(1, 3) {
        let place = draw.below(file.len() + 1);
        match draw.below(6) {
            0 => file.truncate(place),
            1 => {
                let more = draw.among(1, 12);
                file.extend(draw.bytes(more));
            }
            2 => file.insert(place, draw.number() as u8),
            _ if place == file.len() => (),
            3 => file[place] ^= 1 << draw.below(8),
            4 => file[place] = draw.number() as u8,
            _ => file[place] = draw.below(4) as u8,
        }
    }
    case.kind += ", bytes changed";
    try_journal(case);
}
