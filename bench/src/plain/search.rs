//! The search for the finding: row by row and then column by column, up to the equal level. The row of x has the pairs [x,y] of all y, the
//! column of y those of all x.
use super::links::Entry;
use super::peel::{Need, Peel, Rise};
use std::cmp::Reverse;

/// The equal level and the best [x,y]. Rows and columns of 1 need no peel, and come first: the better the best is, the more is ruled out.
/// The others come from the top down, so that of equal products the even ones, which come first, are found first.
pub fn search<E: Entry>(peel: &mut Peel<E>) -> (u16, Need) {
    let equal = peel.climb(Rise::Both, 0, 1);
    let mut best = Need { x: equal, y: equal };
    if equal == 0 {
        return (0, best);
    }
    let heaviest = peel.heaviest();
    let sides = [(Rise::Y, heaviest.y), (Rise::X, heaviest.x)];
    for (rise, most) in sides {
        best = better(rise.need(1, most), best);
    }
    for (rise, most) in sides {
        let mut last = equal;
        // What begins past the heaviest place of the side that rises is empty, and so is all that begins later.
        while last > 1 && first_better(best, rise, last) <= most {
            last = try_block(peel, rise, last, &mut best);
        }
    }
    (equal, best)
}

/// Rules out a block of rows or columns that ends with `last`, or as many of its last as it can, takes what is better among them, and returns
/// the last that is not ruled out. Asked is the first of the block, beside the number at which the last of it is better than the best: no other of it
/// is better from an earlier number on. Where a core is left, its least degrees are a pair to be taken, and one more is asked of what is fixed.
fn try_block<E: Entry>(peel: &mut Peel<E>, rise: Rise, last: u16, best: &mut Need) -> u16 {
    let mut fixed = first_of_block::<E>(last);
    let mut need = rise.need(fixed, first_better(*best, rise, last));
    peel.begin(rise, need);
    while !peel.is_empty() {
        let pair = peel.least_pair(need);
        *best = better(pair, *best);
        fixed = last.min(rise.fixed_of(pair) + 1);
        let next = rise.need(fixed, first_better(*best, rise, last));
        peel.advance(need, next);
        need = next;
    }
    fixed - 1
}

/// The first of a block that ends with `last`: a third of all that are left. Where each link weighs 1 there are few of them, and each is a block.
fn first_of_block<E: Entry>(last: u16) -> u16 {
    if E::IS_SINGLE {
        last
    } else {
        last - last / 3
    }
}

/// The least number that, beside the fixed one, gives a pair that comes before the best.
fn first_better(best: Need, rise: Rise, fixed: u16) -> u16 {
    let quotient = (product(best) / u32::from(fixed)) as u16;
    if order(rise.need(fixed, quotient)) < order(best) {
        quotient
    } else {
        quotient + 1
    }
}

/// The one of two pairs that comes first.
fn better(pair: Need, best: Need) -> Need {
    if order(pair) < order(best) {
        pair
    } else {
        best
    }
}

fn product(pair: Need) -> u32 {
    u32::from(pair.x) * u32::from(pair.y)
}

/// What pairs are compared by: the greatest product comes first, then the smallest difference, then the smallest x.
fn order(pair: Need) -> (Reverse<u32>, u16, u16) {
    (Reverse(product(pair)), pair.x.abs_diff(pair.y), pair.x)
}
