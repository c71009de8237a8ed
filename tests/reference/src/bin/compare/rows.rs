//! Rows of tables that no index filled.
use crate::case::Case;
use crate::indexes::{try_row, Index};
use cogsplice::{lent, Side};
use networks::Draw;

/// Starts, the length of the rows, a member, and the number that refuses its row.
type Example = (&'static [u16], usize, usize, u16);

/// The numbers 9, 10 and 14 alone and together: the first in order refuses.
const EXAMPLES: [Example; 18] = [
    (&[], 0, 0, 9),
    (&[], 4, 0, 9),
    (&[], 4, usize::MAX, 9),
    (&[0], 4, 0, 10),
    (&[9], 0, 0, 10),
    (&[0], 0, usize::MAX, 10),
    (&[0, 0], 0, 0, 0),
    (&[0, 4], 4, 0, 0),
    (&[4, 4], 4, 0, 0),
    (&[0, 5], 4, 0, 14),
    (&[5, 5], 4, 0, 14),
    (&[5, 4], 4, 0, 14),
    (&[2, 1], 4, 0, 14),
    (&[2, 1], 4, 1, 10),
    (&[2, 1], 0, 2, 10),
    (&[9, 1, 3, 0], 4, 1, 0),
    (&[65_535, 65_535], 65_534, 0, 14),
    (&[65_535, 65_535], 65_535, 0, 0),
];

/// Puts one side's tables where the calls look for them; the other side's two are something else.
fn on_side(side: Side, this: [Vec<u16>; 2], other: [Vec<u16>; 2]) -> Index {
    let ([starts, rows], [other_starts, other_rows]) = (this, other);
    match side {
        Side::Voucher => [starts, rows, other_starts, other_rows],
        Side::Vouched => [other_starts, other_rows, starts, rows],
    }
}

pub fn examples(case: &mut Case) {
    let (starts, rows, member, expected) = EXAMPLES[case.number as usize % EXAMPLES.len()];
    for side in [Side::Voucher, Side::Vouched] {
        for other in [
            [vec![], vec![]],
            [vec![0, 0], vec![]],
            [vec![3, 1], vec![7; 2]],
        ] {
            let tables = on_side(side, [starts.to_vec(), vec![7; rows]], other);
            let [out_starts, out_rows, in_starts, in_rows] = &tables;
            let given = lent::row_refusal(side, member, out_starts, out_rows, in_starts, in_rows);
            let call = || format!("row_refusal {side:?} {member} of {starts:?}, {rows} rows");
            case.compare(call, expected, given);
            try_row(case, side, member, &tables);
        }
    }
}

/// Starts of any length and mostly small values, and rows of any length.
fn random_side(draw: &mut Draw) -> [Vec<u16>; 2] {
    let lengths = [0, 1, 2, 3, 5, 8];
    let (starts_length, rows_length) = (draw.pick(&lengths), draw.pick(&lengths));
    let mut starts = draw.words(starts_length);
    if !draw.one_in(4) {
        starts.iter_mut().for_each(|start| *start %= 9);
    }
    if draw.one_in(2) {
        starts.sort();
    }
    [starts, draw.words(rows_length)]
}

/// Long tables, past what 16 bits can say.
fn long_side(draw: &mut Draw) -> [Vec<u16>; 2] {
    let starts_length = draw.among(2000, 4000);
    let rows_length = draw.pick(&[8192, 65_534, 65_535, 65_536, 70_000]);
    let mut starts = draw.words(starts_length);
    if draw.one_in(2) {
        starts.sort();
    }
    [starts, draw.words(rows_length)]
}

pub fn random(case: &mut Case) {
    let make = if case.number % 100 == 99 {
        long_side
    } else {
        random_side
    };
    let [out_starts, out_rows] = make(&mut case.draw);
    let [in_starts, in_rows] = make(&mut case.draw);
    let tables = [out_starts, out_rows, in_starts, in_rows];
    for side in [Side::Voucher, Side::Vouched] {
        for member in (0..10).chain([1999, 65_535, 65_536, usize::MAX - 1, usize::MAX]) {
            try_row(case, side, member, &tables);
        }
    }
}
