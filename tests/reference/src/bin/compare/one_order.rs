//! Orders of the links of a small network: one of them is a file, and its bytes tell which links it holds.
use crate::calls::try_check;
use crate::case::Case;
use crate::enumerate::of_picture;
use crate::kinds::disorder;
use crate::link_kinds::{with_kinds_of, KINDS};
use cogsplice::lent;
use networks::{Kinded, Vouch};
use std::collections::HashSet;

/// All orders of some links.
fn all_orders(links: &[Vouch]) -> Vec<Vec<Vouch>> {
    if links.is_empty() {
        return vec![Vec::new()];
    }
    let starting_with = |first: usize| {
        let mut others = links.to_vec();
        let link = others.remove(first);
        let later = all_orders(&others).into_iter();
        later.map(move |later| [vec![link], later].concat())
    };
    (0..links.len()).flat_map(starting_with).collect()
}

/// Orders of a network's links: all of them for up to 5 links, else the ascending one and 20 that descend.
fn orders(case: &mut Case, network: &Kinded) -> Vec<Kinded> {
    let mut orders = vec![network.links.clone(); 21];
    if network.links.len() <= 5 {
        orders = all_orders(&network.links);
    } else {
        let descending = orders.iter_mut().skip(1);
        descending.for_each(|links| disorder(&mut case.draw, links));
    }
    let orders = orders.into_iter();
    orders
        .map(|links| Kinded {
            links,
            ..network.clone()
        })
        .collect()
}

/// Of the orders of the links exactly the ascending one is accepted, and the conversion of each gives that one in version 1.
pub fn try_one_order(case: &mut Case, network: &Kinded) {
    let ascending = network.encode();
    let wanted = match network.version {
        1 => (0, ascending.clone()),
        _ => (3, vec![0; ascending.len()]),
    };
    let orders = orders(case, network);
    let mut accepted = Vec::new();
    for order in &orders {
        case.file = order.encode();
        try_check(case);
        let mut converted = vec![0; ascending.len()];
        let refusal = lent::order(&case.file, &mut converted).refusal;
        let given = (refusal, converted);
        case.compare(|| "order: ascending".into(), &wanted, &given);
        if lent::check(&case.file).refusal == 0 {
            accepted.push(case.file.clone());
        }
    }
    case.file = ascending.clone();
    case.compare(|| "accepted orders".into(), vec![ascending], accepted);
    try_equal_bytes(case, network, orders);
}

/// The network with each kind at each link in turn.
fn other_kinds(network: &Kinded) -> Vec<Kinded> {
    let with = |e: usize, kind| {
        let mut other = network.clone();
        other.links[e].1 = kind;
        other
    };
    let mut others = Vec::new();
    for e in 0..network.links.len() {
        others.extend((0..KINDS).map(|kind| with(e, kind)));
    }
    others
}

/// An accepted file of the same version with the same n holds the same links with the same kinds exactly when its bytes are equal: these
/// orders of the same links, the files of all pictures for n up to 3, else of 50 drawn ones, and in version 2 each link of each kind.
fn try_equal_bytes(case: &mut Case, network: &Kinded, mut others: Vec<Kinded>) {
    let n = network.n;
    let pictures = 1 << (n * n);
    let drawn: Vec<usize> = match n {
        0..=3 => (0..pictures).collect(),
        _ => (0..50).map(|_| case.draw.below(pictures)).collect(),
    };
    for picture in drawn {
        let other = of_picture(n, picture);
        others.push(match network.version {
            1 => Kinded::from(&other),
            _ => with_kinds_of(&mut case.draw, &other, network),
        });
    }
    if network.version == 2 {
        others.extend(other_kinds(network));
    }
    let held = |network: &Kinded| network.links.iter().copied().collect::<HashSet<Vouch>>();
    let links = held(network);
    let agrees = |other: &Kinded| {
        let file = other.encode();
        let accepted = lent::check(&file).refusal == 0;
        !accepted || (held(other) == links) == (file == case.file)
    };
    let agree = others.iter().all(agrees);
    case.compare(|| "equal bytes for equal links".into(), true, agree);
}
