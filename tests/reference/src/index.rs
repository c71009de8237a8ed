//! The index and its rows.
use crate::answers::{refuse, too_short, Refusal, Refused};
use crate::file::read;
use cogsplice::lent::{IndexNumbers, RowNumbers};
use cogsplice::Side;
use networks::Link;

/// The index: fills the starts and rows of both sides.
pub fn index(
    file: &[u8],
    out_starts: &mut [u16],
    out_rows: &mut [u16],
    in_starts: &mut [u16],
    in_rows: &mut [u16],
) -> IndexNumbers {
    let filled = try_index(file, [out_starts, in_starts], [out_rows, in_rows]);
    filled.unwrap_or_else(Refused::refused)
}

fn try_index(
    file: &[u8],
    [out_starts, in_starts]: [&mut [u16]; 2],
    [out_rows, in_rows]: [&mut [u16]; 2],
) -> Result<IndexNumbers, Refusal> {
    let network = read(file)?;
    let (n, m) = (network.n, network.links.len());
    let short = too_short(&[
        (out_starts.len(), n + 1),
        (out_rows.len(), m),
        (in_starts.len(), n + 1),
        (in_rows.len(), m),
    ]);
    refuse(&[(9, short)])?;
    let links = network.plain().links;
    let exchanged = links.iter().map(|&(a, b)| (b, a)).collect();
    fill_side(n, links, out_starts, out_rows);
    fill_side(n, exchanged, in_starts, in_rows);
    Ok(IndexNumbers {
        refusal: 0,
        link: 0,
    })
}

/// Entry a of the starts is the number of links that start below a; the rows are the ends, by ascending start, then ascending end.
fn fill_side(n: usize, mut links: Vec<Link>, starts: &mut [u16], rows: &mut [u16]) {
    links.sort();
    for (a, start) in starts.iter_mut().enumerate().take(n + 1) {
        *start = links.iter().filter(|link| link.0 < a).count() as u16;
    }
    for (row, link) in rows.iter_mut().zip(&links) {
        *row = link.1 as u16;
    }
}

/// The row of a member on a side, as a part of that side's rows table; the empty part where it is refused.
pub fn row(
    side: Side,
    member: usize,
    out_starts: &[u16],
    out_rows: &[u16],
    in_starts: &[u16],
    in_rows: &[u16],
) -> RowNumbers {
    let refusal = row_refusal(side, member, out_starts, out_rows, in_starts, in_rows);
    if refusal != 0 {
        return RowNumbers {
            start: 0,
            length: 0,
            refusal,
        };
    }
    let starts = if side == Side::Voucher {
        out_starts
    } else {
        in_starts
    };
    let (start, next) = (starts[member] as usize, starts[member + 1] as usize);
    RowNumbers {
        start,
        length: next - start,
        refusal,
    }
}

/// The refusal of a row, or 0. Here n is the length of the side's starts table less one.
pub fn row_refusal(
    side: Side,
    member: usize,
    out_starts: &[u16],
    out_rows: &[u16],
    in_starts: &[u16],
    in_rows: &[u16],
) -> u16 {
    let (starts, rows) = match side {
        Side::Voucher => (out_starts, out_rows),
        Side::Vouched => (in_starts, in_rows),
    };
    let ends = starts.windows(2).nth(member);
    let outside = |ends: &[u16]| ends[0] > ends[1] || ends[1] as usize > rows.len();
    let refused = refuse(&[
        (9, starts.is_empty()),
        (10, ends.is_none()),
        (14, ends.map_or(false, outside)),
    ]);
    refused.map_or_else(|refusal| refusal.number, |()| 0)
}
