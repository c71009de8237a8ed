//! The calls of the proved library as it has them: over tables that the caller lends, with an answer of plain numbers.
//!
//! Every call is safe on slices of any length and content: none has a precondition. `refusal` is 0 where a call was accepted; of a
//! refused call every other number is 0 but for `link`, two findings are not called equal, and no table has changed. What lies past the
//! entries that a call needs stays unchanged. Zero bytes count as the file of version 1 without members and links; they are no journal.
//!
//! `a` and `b` are the groups A and B that a call searches inside: one byte for each member, 1 in, 0 out. S lies in A and T in B, and so
//! does every pair that the call speaks of. With everyone in both the whole network is searched.
use crate::Side;

/// `n` and `m` of a file.
#[repr(C)]
#[derive(Clone, Copy, Debug, PartialEq, Eq)]
pub struct CheckNumbers {
    pub refusal: u16,
    pub link: u16,
    pub n: usize,
    pub m: usize,
}

/// `E(S,T)`, a sum of weights, `|S|` and `|T|`.
#[repr(C)]
#[derive(Clone, Copy, Debug, PartialEq, Eq)]
pub struct TotalsNumbers {
    pub refusal: u16,
    pub link: u16,
    pub edges: u32,
    pub sources: usize,
    pub targets: usize,
}

/// `m` of the written file.
#[repr(C)]
#[derive(Clone, Copy, Debug, PartialEq, Eq)]
pub struct WriteNumbers {
    pub refusal: u16,
    pub link: u16,
    pub m: usize,
}

/// The refusal of an index, or 0.
#[repr(C)]
#[derive(Clone, Copy, Debug, PartialEq, Eq)]
pub struct IndexNumbers {
    pub refusal: u16,
    pub link: u16,
}

/// The part of the rows table that is a row.
#[repr(C)]
#[derive(Clone, Copy, Debug, PartialEq, Eq)]
pub struct RowNumbers {
    pub start: usize,
    pub length: usize,
    pub refusal: u16,
}

/// A level of any kind.
#[repr(C)]
#[derive(Clone, Copy, Debug, PartialEq, Eq)]
pub struct LevelNumbers {
    pub refusal: u16,
    pub link: u16,
    pub level: usize,
}

/// The finding `[x,y]`, the equal level, `E(S,T)`, a sum of weights, `|S|` and `|T|`.
#[repr(C)]
#[derive(Clone, Copy, Debug, PartialEq, Eq)]
pub struct FindingNumbers {
    pub refusal: u16,
    pub link: u16,
    pub edges: u32,
    pub x: usize,
    pub y: usize,
    pub equal: usize,
    pub sources: usize,
    pub targets: usize,
}

/// The number of layers.
#[repr(C)]
#[derive(Clone, Copy, Debug, PartialEq, Eq)]
pub struct LayersNumbers {
    pub refusal: u16,
    pub link: u16,
    pub layers: usize,
}

/// Whether two findings are equal; not where the call was refused.
#[repr(C)]
#[derive(Clone, Copy, Debug, PartialEq, Eq)]
pub struct EqualNumbers {
    pub refusal: u16,
    pub equal: bool,
}

/// How many links are in both files, in the first only and in the second only.
#[repr(C)]
#[derive(Clone, Copy, Debug, PartialEq, Eq)]
pub struct CommonNumbers {
    pub refusal: u16,
    pub link: u16,
    pub both: usize,
    pub first_only: usize,
    pub second_only: usize,
}

// A table crosses as a pointer and a length.
#[rustfmt::skip]
extern "C" {
    fn cogsplice_check(file: *const u8, file_length: usize) -> CheckNumbers;
    fn cogsplice_count(file: *const u8, file_length: usize, s: *const u8, s_length: usize, t: *const u8, t_length: usize) -> TotalsNumbers;
    fn cogsplice_write(file: *const u8, file_length: usize, out: *mut u8, out_length: usize) -> WriteNumbers;
    fn cogsplice_order(file: *const u8, file_length: usize, out: *mut u8, out_length: usize) -> WriteNumbers;
    fn cogsplice_index(
        file: *const u8, file_length: usize,
        out_starts: *mut u16, out_starts_length: usize, out_rows: *mut u16, out_rows_length: usize,
        in_starts: *mut u16, in_starts_length: usize, in_rows: *mut u16, in_rows_length: usize,
    ) -> IndexNumbers;
    fn cogsplice_row(
        side: bool, member: usize,
        out_starts: *const u16, out_starts_length: usize, out_rows: *const u16, out_rows_length: usize,
        in_starts: *const u16, in_starts_length: usize, in_rows: *const u16, in_rows_length: usize,
    ) -> RowNumbers;
    fn cogsplice_row_refusal(
        side: bool, member: usize,
        out_starts: *const u16, out_starts_length: usize, out_rows: *const u16, out_rows_length: usize,
        in_starts: *const u16, in_starts_length: usize, in_rows: *const u16, in_rows_length: usize,
    ) -> u16;
    fn cogsplice_core(
        file: *const u8, file_length: usize, a: *const u8, a_length: usize, b: *const u8, b_length: usize, x: u16, y: u16,
        s: *mut u8, s_length: usize, t: *mut u8, t_length: usize, work: *mut u16, work_length: usize,
    ) -> TotalsNumbers;
    fn cogsplice_level(
        file: *const u8, file_length: usize, a: *const u8, a_length: usize, b: *const u8, b_length: usize, x: u16,
        work: *mut u16, work_length: usize,
    ) -> LevelNumbers;
    fn cogsplice_level_across(
        file: *const u8, file_length: usize, a: *const u8, a_length: usize, b: *const u8, b_length: usize, y: u16,
        work: *mut u16, work_length: usize,
    ) -> LevelNumbers;
    fn cogsplice_equal_level(
        file: *const u8, file_length: usize, a: *const u8, a_length: usize, b: *const u8, b_length: usize,
        work: *mut u16, work_length: usize,
    ) -> LevelNumbers;
    fn cogsplice_finding(
        file: *const u8, file_length: usize, a: *const u8, a_length: usize, b: *const u8, b_length: usize,
        s: *mut u8, s_length: usize, t: *mut u8, t_length: usize, work: *mut u16, work_length: usize,
    ) -> FindingNumbers;
    fn cogsplice_layers(
        file: *const u8, file_length: usize, a: *const u8, a_length: usize, b: *const u8, b_length: usize,
        layers: *mut u16, layers_length: usize, work: *mut u16, work_length: usize,
    ) -> LayersNumbers;
    fn cogsplice_harmonic(
        file: *const u8, file_length: usize,
        s: *mut u8, s_length: usize, t: *mut u8, t_length: usize, work: *mut u16, work_length: usize,
    ) -> TotalsNumbers;
    fn cogsplice_equal_findings(
        x1: usize, y1: usize, n1: usize, s1: *const u8, s1_length: usize, t1: *const u8, t1_length: usize,
        x2: usize, y2: usize, n2: usize, s2: *const u8, s2_length: usize, t2: *const u8, t2_length: usize,
    ) -> EqualNumbers;
    fn cogsplice_common(
        first: *const u8, first_length: usize, second: *const u8, second_length: usize, out: *mut u8, out_length: usize,
    ) -> CommonNumbers;
    fn cogsplice_journal(
        journal: *const u8, journal_length: usize, asked: usize,
        out: *mut u8, out_length: usize, numbers: *mut u8, numbers_length: usize, work: *mut u16, work_length: usize,
    ) -> WriteNumbers;
}

// In each call below the pointers and lengths are those of slices, and what the call writes is borrowed mutably, so that it
// overlaps nothing else: all that the proved call leaves to its caller.

/// `n` and `m` of a file.
pub fn check(file: &[u8]) -> CheckNumbers {
    unsafe { cogsplice_check(file.as_ptr(), file.len()) }
}

/// `E(S,T)`, `|S|` and `|T|` of two groups.
pub fn count(file: &[u8], s: &[u8], t: &[u8]) -> TotalsNumbers {
    unsafe { cogsplice_count(file.as_ptr(), file.len(), s.as_ptr(), s.len(), t.as_ptr(), t.len()) }
}

/// Writes the file with its links ascending by voucher, then vouched: as it stands, of the same version and with the same kinds, and zero
/// bytes as the file that they count as. `out` needs the [`file_length`](crate::file_length) of its links, for version 2 the
/// [`file_of_kinds_length`](crate::file_of_kinds_length).
pub fn write(file: &[u8], out: &mut [u8]) -> WriteNumbers {
    unsafe { cogsplice_write(file.as_ptr(), file.len(), out.as_mut_ptr(), out.len()) }
}

/// Writes a file by the old rule, of version 1 alone and with links in any order, with its links ascending by voucher, then vouched. `out`
/// needs the [`file_length`](crate::file_length) of its links.
pub fn order(file: &[u8], out: &mut [u8]) -> WriteNumbers {
    unsafe { cogsplice_order(file.as_ptr(), file.len(), out.as_mut_ptr(), out.len()) }
}

/// Fills the four tables of the index. Kinds do not show in them.
#[rustfmt::skip]
pub fn index(file: &[u8], out_starts: &mut [u16], out_rows: &mut [u16], in_starts: &mut [u16], in_rows: &mut [u16]) -> IndexNumbers {
    unsafe {
        cogsplice_index(
            file.as_ptr(), file.len(),
            out_starts.as_mut_ptr(), out_starts.len(), out_rows.as_mut_ptr(), out_rows.len(),
            in_starts.as_mut_ptr(), in_starts.len(), in_rows.as_mut_ptr(), in_rows.len(),
        )
    }
}

/// Where the row of a member starts in the rows table of that side, and its length.
#[rustfmt::skip]
pub fn row(side: Side, member: usize, out_starts: &[u16], out_rows: &[u16], in_starts: &[u16], in_rows: &[u16]) -> RowNumbers {
    unsafe {
        cogsplice_row(
            side == Side::Vouched, member,
            out_starts.as_ptr(), out_starts.len(), out_rows.as_ptr(), out_rows.len(),
            in_starts.as_ptr(), in_starts.len(), in_rows.as_ptr(), in_rows.len(),
        )
    }
}

/// The number that refuses that row, or 0.
#[rustfmt::skip]
pub fn row_refusal(side: Side, member: usize, out_starts: &[u16], out_rows: &[u16], in_starts: &[u16], in_rows: &[u16]) -> u16 {
    unsafe {
        cogsplice_row_refusal(
            side == Side::Vouched, member,
            out_starts.as_ptr(), out_starts.len(), out_rows.as_ptr(), out_rows.len(),
            in_starts.as_ptr(), in_starts.len(), in_rows.as_ptr(), in_rows.len(),
        )
    }
}

/// Writes the `[x,y]`-core inside A and B.
// The library's own list of arguments.
#[allow(clippy::too_many_arguments)]
#[rustfmt::skip]
pub fn core(file: &[u8], a: &[u8], b: &[u8], x: u16, y: u16, s: &mut [u8], t: &mut [u8], work: &mut [u16]) -> TotalsNumbers {
    unsafe {
        cogsplice_core(
            file.as_ptr(), file.len(), a.as_ptr(), a.len(), b.as_ptr(), b.len(), x, y,
            s.as_mut_ptr(), s.len(), t.as_mut_ptr(), t.len(), work.as_mut_ptr(), work.len(),
        )
    }
}

/// The level of `x` inside A and B.
#[rustfmt::skip]
pub fn level(file: &[u8], a: &[u8], b: &[u8], x: u16, work: &mut [u16]) -> LevelNumbers {
    unsafe {
        cogsplice_level(
            file.as_ptr(), file.len(), a.as_ptr(), a.len(), b.as_ptr(), b.len(), x,
            work.as_mut_ptr(), work.len(),
        )
    }
}

/// The level across, for `y`, inside A and B.
#[rustfmt::skip]
pub fn level_across(file: &[u8], a: &[u8], b: &[u8], y: u16, work: &mut [u16]) -> LevelNumbers {
    unsafe {
        cogsplice_level_across(
            file.as_ptr(), file.len(), a.as_ptr(), a.len(), b.as_ptr(), b.len(), y,
            work.as_mut_ptr(), work.len(),
        )
    }
}

/// The equal level inside A and B.
#[rustfmt::skip]
pub fn equal_level(file: &[u8], a: &[u8], b: &[u8], work: &mut [u16]) -> LevelNumbers {
    unsafe {
        cogsplice_equal_level(
            file.as_ptr(), file.len(), a.as_ptr(), a.len(), b.as_ptr(), b.len(),
            work.as_mut_ptr(), work.len(),
        )
    }
}

/// Writes the finding inside A and B; zeros and empty groups where no link goes from A to B.
#[rustfmt::skip]
pub fn finding(file: &[u8], a: &[u8], b: &[u8], s: &mut [u8], t: &mut [u8], work: &mut [u16]) -> FindingNumbers {
    unsafe {
        cogsplice_finding(
            file.as_ptr(), file.len(), a.as_ptr(), a.len(), b.as_ptr(), b.len(),
            s.as_mut_ptr(), s.len(), t.as_mut_ptr(), t.len(), work.as_mut_ptr(), work.len(),
        )
    }
}

/// Writes the layer of each link, in the order of the file: counted from 1 for the links from A to B, and 0 for every other link. There
/// are no layers where no link goes from A to B.
#[rustfmt::skip]
pub fn layers(file: &[u8], a: &[u8], b: &[u8], layers: &mut [u16], work: &mut [u16]) -> LayersNumbers {
    unsafe {
        cogsplice_layers(
            file.as_ptr(), file.len(), a.as_ptr(), a.len(), b.as_ptr(), b.len(),
            layers.as_mut_ptr(), layers.len(), work.as_mut_ptr(), work.len(),
        )
    }
}

/// Writes the pair of the harmonic measure among everyone, by the weights of links; zeros and empty groups where the file has no link.
#[rustfmt::skip]
pub fn harmonic(file: &[u8], s: &mut [u8], t: &mut [u8], work: &mut [u16]) -> TotalsNumbers {
    unsafe {
        cogsplice_harmonic(
            file.as_ptr(), file.len(),
            s.as_mut_ptr(), s.len(), t.as_mut_ptr(), t.len(), work.as_mut_ptr(), work.len(),
        )
    }
}

/// Whether two findings are equal, each given by its `x` and `y`, by n of the network that it was found in, and by S and T: where `x`, `y`
/// and n agree and both groups have the same members. Refused by 4 where either n is above 2,048, then by 9 where a group is shorter than
/// n, then by 11 where one of its first n bytes is neither 0 nor 1, each by n of its own finding. Only then do two n that differ mean
/// unequal.
// The library's own list of arguments.
#[allow(clippy::too_many_arguments)]
#[rustfmt::skip]
pub fn equal_findings(
    x1: usize, y1: usize, n1: usize, s1: &[u8], t1: &[u8],
    x2: usize, y2: usize, n2: usize, s2: &[u8], t2: &[u8],
) -> EqualNumbers {
    unsafe {
        cogsplice_equal_findings(
            x1, y1, n1, s1.as_ptr(), s1.len(), t1.as_ptr(), t1.len(),
            x2, y2, n2, s2.as_ptr(), s2.len(), t2.as_ptr(), t2.len(),
        )
    }
}

/// Writes the links that are in both of two files, of an equal weight in both, as a file of version 2 with the first file's kinds,
/// ascending by voucher, then vouched, to `out`, which needs the [`file_of_kinds_length`](crate::file_of_kinds_length) of so many. Refused
/// by what refuses the first file, then by what refuses the second, then by 21 where the two n differ, and then by 9. A link that a refusal
/// names is one of the file that is refused.
#[rustfmt::skip]
pub fn common(first: &[u8], second: &[u8], out: &mut [u8]) -> CommonNumbers {
    unsafe {
        cogsplice_common(
            first.as_ptr(), first.len(), second.as_ptr(), second.len(),
            out.as_mut_ptr(), out.len(),
        )
    }
}

/// Follows the first `asked` entries of a journal, all where there are fewer. Writes the file of version 1 of the links then present,
/// ascending by voucher, then vouched, to `out`, and to `numbers` one byte for each entry followed: 0 where it did what it says, else the
/// number that refuses it, the first that applies of 18, 10, 16, 17, 19 and 20. `out` needs [`JOURNAL_OUT`](crate::JOURNAL_OUT) bytes,
/// `work` [`JOURNAL_WORK`](crate::JOURNAL_WORK) entries.
#[rustfmt::skip]
pub fn journal(journal: &[u8], asked: usize, out: &mut [u8], numbers: &mut [u8], work: &mut [u16]) -> WriteNumbers {
    unsafe {
        cogsplice_journal(
            journal.as_ptr(), journal.len(), asked,
            out.as_mut_ptr(), out.len(), numbers.as_mut_ptr(), numbers.len(), work.as_mut_ptr(), work.len(),
        )
    }
}
