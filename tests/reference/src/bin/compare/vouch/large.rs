//! Medium and large networks, where a link is more likely to matter between those whom a level is about; and the most links.
use super::{groups_to_try, place_of, questions, try_links, with_link};
use crate::case::Case;
use crate::inside::everyone;
use crate::networks::drawn_light;
use crate::order::try_every_call;
use cogsplice::lent::{self, CommonNumbers};
use networks::{Draw, Kinded, Link};
use reference::{work_length, LINKS};
use std::mem;

/// Members of S, and of T.
type Members = [Vec<usize>; 2];

/// What the library finds in the case's file: x, y and the equal level, S and T of the finding, and those of the core of the equal level.
struct Found {
    numbers: [usize; 3],
    finding: Members,
    core: Members,
}

fn members(group: &[u8]) -> Vec<usize> {
    (0..group.len())
        .filter(|&member| group[member] == 1)
        .collect()
}

fn found(case: &Case) -> Found {
    let (n, m) = case.claimed();
    let [a, b] = everyone(n);
    let (mut s, mut t, mut work) = (vec![0; n], vec![0; n], vec![0; work_length(n, m)]);
    let told = lent::finding(&case.file, &a, &b, &mut s, &mut t, &mut work);
    let finding = [members(&s), members(&t)];
    let k = told.equal as u16;
    lent::core(&case.file, &a, &b, k, k, &mut s, &mut t, &mut work);
    Found {
        numbers: [told.x, told.y, told.equal],
        finding,
        core: [members(&s), members(&t)],
    }
}

impl Found {
    /// Numbers to ask levels for: 1, those found and those beside them, a drawn one and the greatest.
    fn asked(&self, draw: &mut Draw) -> Vec<u16> {
        let beside = |number: usize| [number.saturating_sub(1), number, number + 1];
        let mut numbers: Vec<usize> = self.numbers.into_iter().flat_map(beside).collect();
        let most = numbers.iter().copied().max().unwrap_or(0);
        numbers.extend([1, draw.among(1, most), u16::MAX.into()]);
        numbers.retain(|&number| number > 0);
        numbers.sort();
        numbers.dedup();
        numbers.into_iter().map(|number| number as u16).collect()
    }

    /// Absent links between any two members, and between members of the groups found and any.
    fn links_to_try(&self, draw: &mut Draw, network: &Kinded) -> Vec<Link> {
        let any = &(0..network.n).collect();
        let ([s, t], [core_s, core_t]) = (&self.finding, &self.core);
        let ends = [
            (any, any),
            (s, t),
            (s, any),
            (any, t),
            (core_s, core_t),
            (core_s, any),
            (any, core_t),
        ];
        let links = ends.into_iter();
        links
            .filter_map(|(s, t)| absent_between(draw, network, s, t))
            .collect()
    }
}

/// A drawn link that the network lacks, from one of these to one of those, where one is soon met.
fn absent_between(draw: &mut Draw, network: &Kinded, s: &[usize], t: &[usize]) -> Option<Link> {
    if s.is_empty() || t.is_empty() {
        return None;
    }
    let mut drawn = (0..50).map(|_| (draw.pick(s), draw.pick(t)));
    drawn.find(|&link| place_of(network, link).is_err())
}

/// Takes a drawn link of the core of the equal level out of the network of the case's file.
fn lose_link(case: &mut Case, network: &mut Kinded) -> Option<Link> {
    let [s, t] = found(case).core;
    let links = network.links.iter().map(|vouch| vouch.0);
    let inside: Vec<Link> = links
        .filter(|(a, b)| s.contains(a) && t.contains(b))
        .collect();
    if inside.is_empty() {
        return None;
    }
    let lost = case.draw.pick(&inside);
    network.links.retain(|vouch| vouch.0 != lost);
    case.kind += ", a link lost";
    case.file = network.encode();
    Some(lost)
}

/// Drawn absent links of a network; now and then, and where it has the most links, the one that it has just lost is among them.
pub fn try_large(case: &mut Case, set_file: fn(&mut Case)) {
    let mut network = drawn_light(case, set_file);
    let full = network.links.len() == LINKS;
    if full {
        try_no_room(case, &network);
    }
    let mut lost = None;
    if full || case.draw.one_in(2) {
        lost = lose_link(case, &mut network);
    }
    let found = found(case);
    let mut links = found.links_to_try(&mut case.draw, &network);
    links.extend(lost);
    let groups = groups_to_try(case, network.n);
    let numbers = found.asked(&mut case.draw);
    try_links(case, &network, &links, &questions(groups, &numbers));
}

/// With 8,192 links there is nothing to add: every call refuses the file of a link more by 5.
fn try_no_room(case: &mut Case, network: &Kinded) {
    let any: Vec<usize> = (0..network.n).collect();
    let link = absent_between(&mut case.draw, network, &any, &any);
    let link = link.expect("an absent link");
    let more = with_link(&mut case.draw, network, link);
    let accepted = mem::replace(&mut case.file, more.encode());
    try_every_call(case, &more, 5);
    let mut out = vec![0; case.file.len()];
    let files: [&[u8]; 2] = [&accepted, &case.file];
    let refusals = [[1, 0], [0, 1], [1, 1]]
        .map(|[first, second]| lent::common(files[first], files[second], &mut out))
        .map(|CommonNumbers { refusal, .. }| refusal);
    case.compare(|| "common: a link too many".into(), [5; 3], refusals);
    case.file = accepted;
}
