//! Lent tables.
use networks::Draw;

/// Entries before and behind each lent table.
const GUARD: usize = 4;

/// A table of random content, lent to a call, with entries before and behind it that no call may touch.
#[derive(Clone, Debug, PartialEq)]
pub struct Table<T> {
    entries: Vec<T>,
    length: usize,
}

impl Table<u8> {
    pub fn bytes(draw: &mut Draw, length: usize) -> Table<u8> {
        let entries = draw.bytes(length + 2 * GUARD);
        Table { entries, length }
    }

    /// A table that lends these bytes, with random ones before and behind them.
    pub fn holding(draw: &mut Draw, lent: &[u8]) -> Table<u8> {
        let (before, behind) = (draw.bytes(GUARD), draw.bytes(GUARD));
        Table {
            entries: [&before, lent, &behind].concat(),
            length: lent.len(),
        }
    }
}

impl Table<u16> {
    pub fn words(draw: &mut Draw, length: usize) -> Table<u16> {
        let entries = draw.words(length + 2 * GUARD);
        Table { entries, length }
    }
}

impl<T: Clone + Default> Table<T> {
    /// The part that is lent.
    pub fn lend(&mut self) -> &mut [T] {
        &mut self.entries[GUARD..GUARD + self.length]
    }

    /// Clears the first so many lent entries, which a call was free to use.
    pub fn clear(&mut self, free: usize) {
        self.lend()[..free].fill(T::default());
    }
}

impl<T: Copy + PartialEq> Table<T> {
    /// The place of the first entry that is another in a table as long, counted from the first lent one, and both entries.
    pub fn difference(&self, other: &Table<T>) -> Option<(isize, T, T)> {
        // Long tables, mostly equal, are compared as a whole first.
        if self.entries == other.entries {
            return None;
        }
        let mut pairs = self.entries.iter().zip(&other.entries);
        let place = pairs.position(|(one, another)| one != another)?;
        let lent = place as isize - GUARD as isize;
        Some((lent, self.entries[place], other.entries[place]))
    }
}

/// Lengths to try for a call that needs these: exactly enough, more by a few, none at all, and each table in turn one short.
pub fn lengths_to_try<const TABLES: usize>(
    draw: &mut Draw,
    needed: [usize; TABLES],
) -> Vec<[usize; TABLES]> {
    let mut longer = || needed.map(|need| need + draw.below(5));
    let mut all = vec![needed, longer(), [0; TABLES]];
    for short in (0..TABLES).filter(|&table| needed[table] > 0) {
        let mut lengths = longer();
        lengths[short] = needed[short] - 1;
        all.push(lengths);
    }
    all
}
