//! Groups as they are lent: S and T of the count, and A and B that a call searches inside.
use crate::table::lengths_to_try;
use networks::Draw;

/// Two groups as lent tables, A and B or S and T.
pub type Groups = [Vec<u8>; 2];

/// The two tables as a call takes them.
pub fn lend(groups: &Groups) -> [&[u8]; 2] {
    [&groups[0], &groups[1]]
}

/// Everyone of n members in both groups.
pub fn everyone(n: usize) -> Groups {
    [vec![1; n], vec![1; n]]
}

/// A group of n members: everyone, nobody, one member, everyone but one, or each with a chance.
fn drawn_group(draw: &mut Draw, n: usize) -> Vec<u8> {
    let kind = draw.below(8);
    let (chosen, one_in) = (draw.below(n.max(1)), draw.among(2, 4));
    let mut inside = |member| match kind {
        0 => true,
        1 => false,
        2 => member == chosen,
        3 => member != chosen,
        4 => !draw.one_in(one_in),
        _ => draw.one_in(one_in),
    };
    (0..n).map(|member| inside(member) as u8).collect()
}

/// Two groups of n members: the second the same as the first, those outside it, or another.
fn drawn_groups(draw: &mut Draw, n: usize) -> Groups {
    let first = drawn_group(draw, n);
    let second = match draw.below(4) {
        0 => first.clone(),
        1 => first.iter().map(|byte| 1 - byte).collect(),
        _ => drawn_group(draw, n),
    };
    [first, second]
}

/// Two drawn groups of n members in tables of these lengths. A faulty one has a byte among the first n that is neither 0 nor 1; bytes
/// past these are random.
pub fn lent_groups(draw: &mut Draw, n: usize, lengths: [usize; 2], faulty: [bool; 2]) -> Groups {
    let mut groups = drawn_groups(draw, n);
    for ((group, length), faulty) in groups.iter_mut().zip(lengths).zip(faulty) {
        group.truncate(length);
        if faulty && !group.is_empty() {
            let random = draw.among(2, 255) as u8;
            let place = draw.below(group.len());
            group[place] = draw.pick(&[2, 3, 128, 255, random]);
        }
        group.extend(draw.bytes(length - group.len()));
    }
    groups
}

/// Tries of a call that searches inside A and B and needs tables of these lengths, A and B first: everyone with exactly these, drawn
/// groups with all lengths to try, now and then a faulty one among them, and a faulty A or B with exactly these.
pub fn tries_inside<const TABLES: usize>(
    draw: &mut Draw,
    n: usize,
    needed: [usize; TABLES],
) -> Vec<(Groups, [usize; TABLES])> {
    let mut tries = vec![(everyone(n), needed)];
    for lengths in lengths_to_try(draw, needed) {
        let faulty = [draw.one_in(8), draw.one_in(8)];
        let groups = lent_groups(draw, n, [lengths[0], lengths[1]], faulty);
        tries.push((groups, lengths));
    }
    let faulty_a = draw.one_in(2);
    let groups = lent_groups(draw, n, [n, n], [faulty_a, !faulty_a]);
    tries.push((groups, needed));
    tries
}
