//! Journals: their entries, and their bytes.
use crate::Link;

/// An entry: its kind, then two numbers.
pub type Entry = (u8, usize, usize);

/// Adds a link.
pub const fn add((voucher, vouched): Link) -> Entry {
    (0, voucher, vouched)
}

/// Withdraws a link.
pub const fn withdraw((voucher, vouched): Link) -> Entry {
    (1, voucher, vouched)
}

/// Sets a named state.
pub const fn set(name: usize) -> Entry {
    (2, name, 0)
}

/// Returns to a named state.
pub const fn return_to(name: usize) -> Entry {
    (3, name, 0)
}

/// The bytes of a journal over n members. What no journal may hold is written as it is, in 16 bits.
pub fn encode_journal(n: usize, entries: &[Entry]) -> Vec<u8> {
    let mut journal = b"VJN".to_vec();
    put(&mut journal, [1, n]);
    for &(kind, first, second) in entries {
        journal.push(kind);
        put(&mut journal, [first, second]);
    }
    journal
}

fn put(journal: &mut Vec<u8>, numbers: [usize; 2]) {
    for number in numbers {
        journal.extend((number as u16).to_le_bytes());
    }
}
