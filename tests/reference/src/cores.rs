//! Cores, levels and the finding, inside A and B.
use crate::answers::{refuse, too_short, Refusal, Refused};
use crate::file::read;
use crate::groups::{between, faulty, held, totals, Group};
use crate::weights::weight;
use cogsplice::lent::{FindingNumbers, LevelNumbers, TotalsNumbers};
use networks::Kinded;

/// The length of the work table of core, level, equal level, finding, layers and harmonic.
pub fn work_length(n: usize, m: usize) -> usize {
    2 * m + 6 * n + 2
}

/// A network, and the groups A and B that S and T lie in.
pub(crate) struct Search {
    pub network: Kinded,
    pub a: Group,
    pub b: Group,
}

/// For each member, the weights of its links into T as a voucher in S, and of its links from S as a vouched member in T.
pub(crate) fn degrees(network: &Kinded, s: &Group, t: &Group) -> (Vec<usize>, Vec<usize>) {
    let (mut given, mut taken) = (vec![0; network.n], vec![0; network.n]);
    for &(link, kind) in &network.links {
        if between(s, t, link) {
            given[link.0] += weight(kind);
            taken[link.1] += weight(kind);
        }
    }
    (given, taken)
}

/// Takes the members out of a group whose links weigh less than asked for; whether there was one.
fn drop_short(group: &mut Group, weights: &[usize], asked: usize) -> bool {
    let mut dropped = false;
    for (inside, &weight) in group.iter_mut().zip(weights) {
        if *inside && weight < asked {
            *inside = false;
            dropped = true;
        }
    }
    dropped
}

/// The [x,y]-core: of A and B members are dropped until none is short, on either side.
pub(crate) fn core_of(search: &Search, x: usize, y: usize) -> (Group, Group) {
    let (mut s, mut t) = (search.a.clone(), search.b.clone());
    loop {
        let (given, taken) = degrees(&search.network, &s, &t);
        let dropped_s = drop_short(&mut s, &given, x);
        let dropped_t = drop_short(&mut t, &taken, y);
        if !dropped_s && !dropped_t {
            return (s, t);
        }
    }
}

/// The [x,y]-core as a search of its own: its groups as A and B, and the links between them. The cores of greater x and y lie inside.
fn inside_core(search: &Search, x: usize, y: usize) -> Search {
    let (a, b) = core_of(search, x, y);
    let links = search.network.links.iter();
    let links = links.filter(|vouch| between(&a, &b, vouch.0));
    let network = Kinded {
        version: search.network.version,
        n: search.network.n,
        links: links.copied().collect(),
    };
    Search { network, a, b }
}

/// The greatest numbers of which this core, as a search of its own, is the core: the least that the links of a member of S weigh, and those
/// of a member of T. None where it is empty, for x and y of at least 1: both groups are or neither is.
fn held_up_to(core: &Search) -> Option<(usize, usize)> {
    let (given, taken) = degrees(&core.network, &core.a, &core.b);
    Some((least(&core.a, &given)?, least(&core.b, &taken)?))
}

/// The least of the weights of a group's members.
fn least(group: &Group, weights: &[usize]) -> Option<usize> {
    let members = group.iter().zip(weights).filter(|(&inside, _)| inside);
    members.map(|(_, &weight)| weight).min()
}

/// A level of any kind: the number is raised from 1 until the core is empty, past those of the same core.
fn raise(held: impl Fn(usize) -> Option<usize>) -> usize {
    let mut level = 0;
    while let Some(same) = held(level + 1) {
        level = same;
    }
    level
}

/// Whether [x,y] comes before [a,b]: the greater product comes first, among equal products the smaller difference, then the smaller x.
fn comes_before((x, y): (usize, usize), (a, b): (usize, usize)) -> bool {
    if x * y != a * b {
        return x * y > a * b;
    }
    if x.abs_diff(y) != a.abs_diff(b) {
        return x.abs_diff(y) < a.abs_diff(b);
    }
    x < a
}

/// x and y of the finding: of all with a non-empty core those that come before the others; 0 and 0 where no link goes from A to B.
///
/// For each x the number y is raised until the core is empty, past those of the same core. An x of which every core was met with a smaller
/// one is passed over as well.
pub(crate) fn finding_of(search: &Search) -> (usize, usize) {
    let (mut best, mut x) = ((0, 0), 1);
    let mut first = inside_core(search, 1, 1);
    while let Some((mut met, _)) = held_up_to(&first) {
        let mut core = inside_core(&first, x, 1);
        while let Some((held_x, held_y)) = held_up_to(&core) {
            if comes_before((held_x, held_y), best) {
                best = (held_x, held_y);
            }
            met = met.min(held_x);
            core = inside_core(&core, x, held_y + 1);
        }
        x = met + 1;
        first = inside_core(&first, x, 1);
    }
    best
}

/// S and T of the finding: those of its core, and nobody in a quiet month, when no link goes from A to B.
fn groups_of(search: &Search, (x, y): (usize, usize)) -> (Group, Group) {
    if totals(&search.network, &search.a, &search.b).edges == 0 {
        let nobody = vec![false; search.network.n];
        return (nobody.clone(), nobody);
    }
    core_of(search, x, y)
}

/// Writes a group to the first n bytes of a table: 1 in, 0 out.
pub(crate) fn put(group: &Group, table: &mut [u8]) {
    for (byte, &inside) in table.iter_mut().zip(group) {
        *byte = inside as u8;
    }
}

/// For a call that has no refusal of its own.
pub(crate) const NO_OTHER: (u16, bool) = (0, false);

/// The network of a file with A and B, for a call that is lent a work table of this length and perhaps other tables, and that has
/// perhaps one more refusal. Of n and m the other tables are told, each as its length and the length needed.
pub(crate) fn read_with(
    file: &[u8],
    groups: [&[u8]; 2],
    others: impl Fn(usize, usize) -> Vec<(usize, usize)>,
    work: usize,
    other: (u16, bool),
) -> Result<Search, Refusal> {
    let network = read(file)?;
    let (n, m) = (network.n, network.links.len());
    let mut tables = others(n, m);
    tables.extend(groups.map(|table| (table.len(), n)));
    tables.push((work, work_length(n, m)));
    refuse(&[(9, too_short(&tables)), (11, faulty(n, groups)), other])?;
    let [a, b] = held(n, groups);
    Ok(Search { network, a, b })
}

/// The core call: writes S and T of the [x,y]-core inside A and B.
pub fn core(
    file: &[u8],
    groups: [&[u8]; 2],
    x: u16,
    y: u16,
    s: &mut [u8],
    t: &mut [u8],
    work: usize,
) -> TotalsNumbers {
    try_core(file, groups, [x, y], s, t, work).unwrap_or_else(Refused::refused)
}

fn try_core(
    file: &[u8],
    groups: [&[u8]; 2],
    [x, y]: [u16; 2],
    s: &mut [u8],
    t: &mut [u8],
    work: usize,
) -> Result<TotalsNumbers, Refusal> {
    let both = |n, _| vec![(s.len(), n), (t.len(), n)];
    let search = read_with(file, groups, both, work, NO_OTHER)?;
    let (core_s, core_t) = core_of(&search, x as usize, y as usize);
    put(&core_s, s);
    put(&core_t, t);
    Ok(totals(&search.network, &core_s, &core_t))
}

/// The level of x: the largest y of at least 1 with a non-empty [x,y]-core, or 0.
pub fn level(file: &[u8], groups: [&[u8]; 2], x: u16, work: usize) -> LevelNumbers {
    level_by(file, groups, work, x == 0, |search, y| {
        Some(held_up_to(&inside_core(search, x as usize, y))?.1)
    })
}

/// The level across, for y: the largest x of at least 1 with a non-empty [x,y]-core, or 0.
pub fn level_across(file: &[u8], groups: [&[u8]; 2], y: u16, work: usize) -> LevelNumbers {
    level_by(file, groups, work, y == 0, |search, x| {
        Some(held_up_to(&inside_core(search, x, y as usize))?.0)
    })
}

/// The equal level: the largest k with a non-empty [k,k]-core, or 0.
pub fn equal_level(file: &[u8], groups: [&[u8]; 2], work: usize) -> LevelNumbers {
    level_by(file, groups, work, false, held_equally)
}

/// The greatest k of which the core is this [k,k]-core as well.
fn held_equally(search: &Search, k: usize) -> Option<usize> {
    let (x, y) = held_up_to(&inside_core(search, k, k))?;
    Some(x.min(y))
}

/// A level of any kind, with refusal 12 where a level was asked for 0.
fn level_by(
    file: &[u8],
    groups: [&[u8]; 2],
    work: usize,
    zero: bool,
    held: impl Fn(&Search, usize) -> Option<usize>,
) -> LevelNumbers {
    match read_with(file, groups, |_, _| vec![], work, (12, zero)) {
        Err(refusal) => Refused::refused(refusal),
        Ok(search) => LevelNumbers {
            refusal: 0,
            link: 0,
            level: raise(|level| held(&search, level)),
        },
    }
}

/// The finding: writes S and T of the best core inside A and B, or empty groups in a quiet month.
pub fn finding(
    file: &[u8],
    groups: [&[u8]; 2],
    s: &mut [u8],
    t: &mut [u8],
    work: usize,
) -> FindingNumbers {
    try_finding(file, groups, s, t, work).unwrap_or_else(Refused::refused)
}

fn try_finding(
    file: &[u8],
    groups: [&[u8]; 2],
    s: &mut [u8],
    t: &mut [u8],
    work: usize,
) -> Result<FindingNumbers, Refusal> {
    let both = |n, _| vec![(s.len(), n), (t.len(), n)];
    let search = read_with(file, groups, both, work, NO_OTHER)?;
    let (x, y) = finding_of(&search);
    let (best_s, best_t) = groups_of(&search, (x, y));
    put(&best_s, s);
    put(&best_t, t);
    let TotalsNumbers {
        edges,
        sources,
        targets,
        ..
    } = totals(&search.network, &best_s, &best_t);
    let equal = raise(|k| held_equally(&search, k));
    Ok(FindingNumbers {
        refusal: 0,
        link: 0,
        edges,
        x,
        y,
        equal,
        sources,
        targets,
    })
}
