//! What the tests, the measurements and the samples make networks and journals of: random numbers that are the same on every run, and the
//! bytes of both. Nothing here calls the library.
mod draw;
mod journal;
mod kinded;

pub use draw::Draw;
pub use journal::{add, encode_journal, return_to, set, withdraw, Entry};
pub use kinded::{Kinded, Vouch};

/// A link: voucher, then vouched.
pub type Link = (usize, usize);

/// A network without kinds: the number of its members, and its links in the order of the file.
#[derive(Clone, Debug, PartialEq, Eq)]
pub struct Network {
    pub n: usize,
    pub links: Vec<Link>,
}

impl Network {
    pub fn new(n: usize, links: &[Link]) -> Network {
        Network {
            n,
            links: links.to_vec(),
        }
    }

    /// Network W.
    pub fn w() -> Network {
        Network::new(
            6,
            &[
                (0, 3),
                (0, 4),
                (1, 3),
                (1, 4),
                (2, 3),
                (2, 4),
                (4, 5),
                (5, 5),
            ],
        )
    }

    /// 02's example of a star beside a ring of the same product: four members vouch for member 4, and each of two for two others.
    pub fn star_and_ring() -> Network {
        let star = all_links(&[0, 1, 2, 3], &[4]);
        let ring = all_links(&[5, 6], &[7, 8]);
        Network::new(9, &[star, ring].concat())
    }

    /// A star that hides a ring: member 0 vouches for twelve members that nobody else vouches for, and each of three for three others.
    pub fn one_offs() -> Network {
        let members: Vec<usize> = (0..19).collect();
        let star = all_links(&members[..1], &members[1..13]);
        let ring = all_links(&members[13..16], &members[16..]);
        Network::new(members.len(), &[star, ring].concat())
    }

    /// A ring [x,y] for each x and y whose product is this one, by ascending x. No two share a voucher or a vouched member, and the
    /// vouchers come before the vouched members.
    pub fn rings(product: usize) -> Network {
        let numbers = || (1..=product).filter(|x| product % x == 0);
        let half: usize = numbers().sum();
        let (mut vouchers, mut vouched) = (0..half, half..2 * half);
        let mut links = Vec::new();
        for x in numbers() {
            let s: Vec<usize> = vouchers.by_ref().take(product / x).collect();
            let t: Vec<usize> = vouched.by_ref().take(x).collect();
            links.extend(all_links(&s, &t));
        }
        Network { n: 2 * half, links }
    }
}

/// All links from these vouchers to these vouched members.
pub fn all_links(vouchers: &[usize], vouched: &[usize]) -> Vec<Link> {
    let links_of = |&a| vouched.iter().map(move |&b| (a, b));
    vouchers.iter().flat_map(links_of).collect()
}

/// The bytes of a network's file of version 1, its links in the given order. What no file may hold is written as it is, in 16 bits.
pub fn encode(network: &Network) -> Vec<u8> {
    Kinded::from(network).encode()
}

/// The greatest number whose square is at most this one.
pub fn root(number: usize) -> usize {
    let mut root = (number as f64).sqrt() as usize;
    while root * root > number {
        root -= 1;
    }
    while (root + 1) * (root + 1) <= number {
        root += 1;
    }
    root
}
