//! Accepted files of three sizes, and the same links in another order.
use crate::calls::try_all;
use crate::case::Case;
use crate::kinds::{disorder, network, Kind, KINDS};
use crate::link_kinds::{light, perhaps_with_kinds};
use cogsplice::lent;
use networks::Kinded;
use reference::{read, LINKS, MEMBERS};

/// Makes the case's file: of a kind, with n members and at most m links, half of them of version 2. Every second one without members is of
/// no bytes.
fn set_file(case: &mut Case, kind: &Kind, n: usize, m: usize) -> Kinded {
    let network = network(&mut case.draw, kind, n, m);
    let network = perhaps_with_kinds(&mut case.draw, &network);
    let (version, m) = (network.version, network.links.len());
    case.kind = format!("{}, version {version}, n {n}, m {m}", kind.name);
    case.file = network.encode();
    if n == 0 && case.draw.one_in(2) {
        case.kind += ", as no bytes";
        case.file.clear();
    }
    network
}

/// The kinds by turns.
fn kind_of(case: &Case) -> &'static Kind {
    &KINDS[case.turn as usize % KINDS.len()]
}

pub fn small_file(case: &mut Case) {
    let n = case.draw.among(0, 9);
    set_file(case, kind_of(case), n, n * n);
}

pub fn medium_file(case: &mut Case) {
    let n = case.draw.among(10, 60);
    let m = case.draw.among(n, 400);
    set_file(case, kind_of(case), n, m);
}

/// The greatest n and m in every second round of the kinds, else somewhat fewer.
pub fn full_file(case: &mut Case) {
    let greatest = case.turn / (KINDS.len() as u64) % 2 == 0;
    let (fewest_n, fewest_m) = if greatest {
        (MEMBERS, LINKS)
    } else {
        (1000, 4000)
    };
    let n = case.draw.among(fewest_n, MEMBERS);
    let m = case.draw.among(fewest_m, LINKS);
    set_file(case, kind_of(case), n, m);
}

/// A file of 2,048 members and 8,192 links.
pub fn largest_file(case: &mut Case) {
    loop {
        let kind = &KINDS[case.draw.below(KINDS.len())];
        if set_file(case, kind, MEMBERS, LINKS).links.len() == LINKS {
            return;
        }
    }
}

/// Makes the case's file; its network.
pub fn drawn(case: &mut Case, set_file: fn(&mut Case)) -> Kinded {
    set_file(case);
    read(&case.file).expect("the file of a network")
}

/// Makes the case's file, in which every link weighs 1; its network.
pub fn drawn_light(case: &mut Case, set_file: fn(&mut Case)) -> Kinded {
    let network = light(drawn(case, set_file));
    if !case.file.is_empty() {
        case.file = network.encode();
    }
    network
}

/// Puts the links of the case's accepted file in an order that descends, where there are two; whether there are.
pub fn disorder_file(case: &mut Case) -> bool {
    match read(&case.file) {
        Ok(mut network) if network.links.len() >= 2 => {
            disorder(&mut case.draw, &mut network.links);
            case.kind += ", in another order";
            case.file = network.encode();
            true
        }
        _ => false,
    }
}

/// A network with at least 2 members and 4 links, so that every fault fits in; mostly small, now and then large.
pub fn roomy_network(case: &mut Case) -> Kinded {
    let large = case.draw.one_in(20);
    loop {
        let kind = &KINDS[case.draw.below(KINDS.len())];
        let small = case.draw.among(2, 9);
        let (n, m) = if large {
            (MEMBERS, LINKS)
        } else {
            (small, small * small)
        };
        let network = set_file(case, kind, n, m);
        if network.links.len() >= 4 {
            return network;
        }
    }
}

pub fn small(case: &mut Case) {
    small_file(case);
    try_orders(case);
}

pub fn medium(case: &mut Case) {
    medium_file(case);
    try_orders(case);
}

/// Another order of so many links takes the reference long: one in three is enough.
pub fn full(case: &mut Case) {
    full_file(case);
    if case.draw.one_in(3) {
        try_orders(case);
    } else {
        try_all(case);
    }
}

/// Every call on the case's accepted file, then on the same links in another order: 15 refuses it, and the conversion gives the accepted
/// file back, where that is of version 1.
fn try_orders(case: &mut Case) {
    try_all(case);
    let accepted = case.file.clone();
    if disorder_file(case) {
        let refusal = lent::check(&case.file).refusal;
        case.compare(|| "check: in another order".into(), 15, refusal);
        let mut converted = vec![0; accepted.len()];
        let refusal = lent::order(&case.file, &mut converted).refusal;
        let wanted = match case.version() {
            1 => (0, accepted),
            _ => (3, vec![0; accepted.len()]),
        };
        let given = (refusal, converted);
        case.compare(|| "order: the accepted file".into(), wanted, given);
        try_all(case);
    }
}
