//! The index and its rows.
use crate::case::Case;
use crate::table::{lengths_to_try, Table};
use cogsplice::{lent, Side};
use networks::Network;

/// Out-starts, out-rows, in-starts and in-rows.
pub type Index = [Vec<u16>; 4];

pub fn try_indexes(case: &mut Case) {
    let (n, m) = case.claimed();
    for lengths in lengths_to_try(&mut case.draw, [n + 1, m, n + 1, m]) {
        let mut tables = lengths.map(|length| Table::words(&mut case.draw, length));
        let mut library_tables = tables.clone();
        let [out_starts, out_rows, in_starts, in_rows] = lend(&mut tables);
        let expected = reference::index(&case.file, out_starts, out_rows, in_starts, in_rows);
        let [out_starts, out_rows, in_starts, in_rows] = lend(&mut library_tables);
        let given = lent::index(&case.file, out_starts, out_rows, in_starts, in_rows);
        case.seen(expected.refusal);
        case.compare(
            || format!("index, lengths {lengths:?}"),
            (expected, tables),
            (given, library_tables),
        );
    }
    if let Ok(network) = reference::read(&case.file) {
        try_rows(case, &network.plain());
    }
}

fn lend(tables: &mut [Table<u16>; 4]) -> [&mut [u16]; 4] {
    let [out_starts, out_rows, in_starts, in_rows] = tables;
    [
        out_starts.lend(),
        out_rows.lend(),
        in_starts.lend(),
        in_rows.lend(),
    ]
}

/// All rows of an accepted file's index, on both sides, and members that are not there.
fn try_rows(case: &mut Case, network: &Network) {
    let (n, m) = (network.n, network.links.len());
    let mut tables = [n + 1, m, n + 1, m].map(|length| vec![0; length]);
    let [out_starts, out_rows, in_starts, in_rows] = &mut tables;
    lent::index(&case.file, out_starts, out_rows, in_starts, in_rows);
    for side in [Side::Voucher, Side::Vouched] {
        for member in (0..n + 2).chain([65_536, usize::MAX]) {
            try_row(case, side, member, &tables);
        }
        for member in 0..n {
            try_neighbours(case, network, side, member, &tables);
        }
    }
}

/// A row and its companion call, on tables of any content.
pub fn try_row(case: &mut Case, side: Side, member: usize, tables: &Index) {
    let [out_starts, out_rows, in_starts, in_rows] = tables;
    let expected = (
        reference::row(side, member, out_starts, out_rows, in_starts, in_rows),
        reference::row_refusal(side, member, out_starts, out_rows, in_starts, in_rows),
    );
    let given = (
        lent::row(side, member, out_starts, out_rows, in_starts, in_rows),
        lent::row_refusal(side, member, out_starts, out_rows, in_starts, in_rows),
    );
    case.seen(expected.1);
    case.compare(
        || format!("row {side:?} {member} {tables:?}"),
        expected,
        given,
    );
}

/// The row of a member holds the other ends of its links on that side, ascending.
fn try_neighbours(case: &mut Case, network: &Network, side: Side, member: usize, tables: &Index) {
    let ends = network.links.iter().map(|&(a, b)| match side {
        Side::Voucher => (a, b),
        Side::Vouched => (b, a),
    });
    let of_member = ends.filter(|end| end.0 == member);
    let mut expected: Vec<u16> = of_member.map(|end| end.1 as u16).collect();
    expected.sort();
    let [out_starts, out_rows, in_starts, in_rows] = tables;
    let row = lent::row(side, member, out_starts, out_rows, in_starts, in_rows);
    let rows = if side == Side::Voucher {
        out_rows
    } else {
        in_rows
    };
    let given = rows.get(row.start..row.start + row.length);
    case.compare(
        || format!("row {side:?} {member}: neighbours"),
        Some(&expected[..]),
        given,
    );
}
