//! Kinds for the links of a network.
use networks::{Draw, Kinded, Link, Network};
use std::collections::HashMap;

/// The number of kinds.
pub const KINDS: u8 = 8;

/// A kind that a file may hold.
pub fn drawn_kind(draw: &mut Draw) -> u8 {
    draw.below(KINDS.into()) as u8
}

/// The network as of version 1, or as of version 2 with drawn kinds: half of them each.
pub fn perhaps_with_kinds(draw: &mut Draw, network: &Network) -> Kinded {
    if draw.one_in(2) {
        Kinded::from(network)
    } else {
        with_kinds(draw, network)
    }
}

/// The network as of version 2, its links of one kind, of two, of those that weigh 1, of few that are not 0, or of any.
pub fn with_kinds(draw: &mut Draw, network: &Network) -> Kinded {
    let [one, other] = [(); 2].map(|()| drawn_kind(draw));
    let how = draw.below(6);
    let kind = |draw: &mut Draw| match how {
        0 => one,
        1 => draw.pick(&[one, other]),
        2 => draw.pick(&[0, 1]),
        3 if !draw.one_in(8) => 0,
        _ => drawn_kind(draw),
    };
    let links = network.links.iter().map(|&link| (link, kind(draw)));
    Kinded {
        version: 2,
        n: network.n,
        links: links.collect(),
    }
}

/// The network as of version 2: of links that another network has too the kinds are those, else they are drawn.
pub fn with_kinds_of(draw: &mut Draw, network: &Network, other: &Kinded) -> Kinded {
    let known: HashMap<Link, u8> = other.links.iter().copied().collect();
    let kind = |link| known.get(link).copied();
    let links = network.links.iter();
    Kinded {
        version: 2,
        n: network.n,
        links: links
            .map(|link| (*link, kind(link).unwrap_or_else(|| drawn_kind(draw))))
            .collect(),
    }
}

/// A network like this one in which every link weighs 1: of version 1, or of kinds 0 and 1.
pub fn light(mut network: Kinded) -> Kinded {
    for (_, kind) in &mut network.links {
        *kind %= 2;
    }
    network
}
