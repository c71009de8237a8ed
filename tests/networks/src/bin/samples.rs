//! Writes the networks and the journals of the folder `samples`, and the conversions of networks that are not in order, into the folder that
//! is named:
//! `cargo run --manifest-path tests/networks/Cargo.toml samples`.
use networks::{
    add, all_links, encode, encode_journal, return_to, set, withdraw, Draw, Entry, Kinded, Link,
    Network,
};
use std::collections::HashSet;
use std::path::Path;
use std::{env, fs};

fn network(n: usize, links: &[Link]) -> Vec<u8> {
    encode(&Network::new(n, links))
}

/// Adds random links among n members until there are m links.
fn scatter(draw: &mut Draw, n: usize, m: usize, links: &mut Vec<Link>) {
    let mut seen: HashSet<_> = links.iter().copied().collect();
    while links.len() < m {
        let link = (draw.below(n), draw.below(n));
        if seen.insert(link) {
            links.push(link);
        }
    }
}

/// The file with its links in order.
fn in_order(n: usize, mut links: Vec<Link>) -> Vec<u8> {
    links.sort();
    network(n, &links)
}

/// A network of full size: each of 30 vouchers vouches for each of 40 members, and all other links are random.
fn planted_ring() -> Vec<u8> {
    let (n, m) = (2048, 8192);
    let vouchers: Vec<usize> = (0..30).map(|i| 61 * i + 7).collect();
    let vouched: Vec<usize> = (0..40).map(|j| 43 * j + 11).collect();
    let mut links = all_links(&vouchers, &vouched);
    scatter(&mut Draw::new(2026), n, m, &mut links);
    in_order(n, links)
}

/// Two rings among 30 members: each of 5 vouches for each of 6, and 5 others vouch for each other. 12 links are random. The file in
/// order, and one of the same links in random order.
fn two_rings() -> [Vec<u8>; 2] {
    let (n, m) = (30, 62);
    let circle = [0, 6, 11, 18, 28];
    let mut links = all_links(&circle, &circle);
    links.retain(|(a, b)| a != b);
    links.extend(all_links(&[2, 7, 12, 17, 22], &[5, 9, 13, 19, 21, 25]));
    let mut draw = Draw::new(2026);
    scatter(&mut draw, n, m, &mut links);
    draw.shuffle(&mut links);
    let shuffled = network(n, &links);
    [in_order(n, links), shuffled]
}

/// A month in which a ring forms: single vouches, then the ring of 3 vouchers and 3 vouched members, link by link. One of its links is
/// withdrawn, and the month returns to the ring, and at last to what was before it. Four entries are refused.
const RING_FORMS: [Entry; 22] = [
    add((0, 7)),
    add((3, 1)),
    add((5, 11)),
    add((0, 7)),
    set(0),
    add((2, 8)),
    add((4, 8)),
    add((2, 9)),
    add((4, 9)),
    add((6, 8)),
    add((6, 12)),
    add((6, 9)),
    withdraw((3, 1)),
    withdraw((3, 1)),
    add((2, 10)),
    add((4, 10)),
    add((6, 10)),
    set(1),
    withdraw((4, 9)),
    return_to(1),
    return_to(2),
    return_to(0),
];

/// A month of 2,033 members. Four are due to each, which leaves 60 places for anyone: a busy member takes them all beside its own four, and
/// is refused one more vouch, as is another member its fifth. Withdrawn places are used again, three members enter the four that are due to
/// them, and the month returns to the state in which the two were refused.
fn busy_member() -> Vec<u8> {
    let enter = |vouchers: &[usize], vouched: &[usize]| {
        let links = all_links(vouchers, vouched);
        links.into_iter().map(add)
    };
    let many: Vec<usize> = (1..=65).collect();
    let mut entries: Vec<Entry> = enter(&[0], &many).collect();
    entries.extend(enter(&[70], &[80, 81, 82, 83, 84]));
    entries.extend([set(0), withdraw((0, 1)), add((70, 84)), add((0, 65))]);
    entries.extend([withdraw((70, 80)), add((0, 65)), add((70, 80))]);
    entries.extend(enter(&[71, 72, 73], &[80, 81, 82, 83]));
    entries.extend([return_to(0), add((0, 65)), add((70, 84))]);
    encode_journal(2033, &entries)
}

/// Network W of other members: each stands three places further on, and the last three where the first did.
fn other_members() -> Vec<u8> {
    let Network { n, links } = Network::w();
    let moved = |member| (member + 3) % n;
    let links = links.into_iter().map(|(a, b)| (moved(a), moved(b)));
    in_order(n, links.collect())
}

/// A month of 24 members as the vouchers recorded it, as the vouched did, and the links in both records. In both each of 4 members vouches
/// for each of 4. By the first record two more vouch for these four, by the second the four vouch for two more. Of the random links 10 are in
/// both, 3 in the first only and 2 in the second only. What is in both is written in version 2.
fn two_records() -> [Vec<u8>; 3] {
    let n = 24;
    let (vouchers, vouched) = ([1, 6, 13, 20], [3, 9, 16, 22]);
    let mut both = all_links(&vouchers, &vouched);
    let first = all_links(&[4, 11], &vouched);
    let second = all_links(&vouchers, &[7, 18]);
    let mut links = [&both[..], &first, &second].concat();
    let sure = links.len();
    scatter(&mut Draw::new(2026), n, sure + 15, &mut links);
    let random = &links[sure..];
    both.extend(&random[..10]);
    let record = |own: &[Link], random: &[Link]| in_order(n, [&both[..], own, random].concat());
    let records = [
        record(&first, &random[10..13]),
        record(&second, &random[13..]),
    ];
    both.sort();
    let mut both = Kinded::from(&Network { n, links: both });
    both.version = 2;
    let [given, received] = records;
    [given, received, both.encode()]
}

/// The network of visits with a kind that is none at link 4.
fn kind_8() -> Vec<u8> {
    let mut network = Kinded::visits();
    network.links[4].1 = 8;
    network.encode()
}

/// Network W with links 2 and 3 exchanged.
fn exchanged() -> Vec<u8> {
    let mut network = Network::w();
    network.links.swap(2, 3);
    encode(&network)
}

/// Network W with one byte changed.
fn changed(at: usize, byte: u8) -> Vec<u8> {
    let mut file = encode(&Network::w());
    file[at] = byte;
    file
}

fn main() {
    let folder = env::args().nth(1).expect("the folder to write into");
    let write_as = |kind: &str, name: &str, file: &[u8]| {
        let path = Path::new(&folder).join(name).with_extension(kind);
        fs::write(path, file).expect("the folder can be written");
    };
    let write = |name: &str, file: &[u8]| write_as("vch", name, file);
    let w = encode(&Network::w());
    write("w", &w);
    write("other-members", &other_members());
    write("star", &network(4, &[(0, 1), (0, 2), (0, 3)]));
    write("tie", &network(6, &[(0, 1), (0, 2), (3, 5), (4, 5)]));
    write("star-and-ring", &encode(&Network::star_and_ring()));
    write("one-offs", &encode(&Network::one_offs()));
    write("twelve", &encode(&Network::rings(12)));
    write("planted-ring", &planted_ring());
    let [in_order, shuffled] = two_rings();
    write("two-rings", &in_order);
    write("old-order", &shuffled);
    write_as("ordered", "old-order", &in_order);
    let [given, received, confirmed] = two_records();
    write("given", &given);
    write("received", &received);
    write("confirmed", &confirmed);
    write("visits", &Kinded::visits().encode());
    write("visits-orders", &encode(&Kinded::visits().plain()));
    write("quiet", &network(5, &[]));
    write("empty", &network(0, &[]));
    write("nothing", &[]);
    write("damaged-short", &w[..8]);
    write("damaged-mark", &changed(2, b'K'));
    write("damaged-version", &changed(3, 3));
    write("damaged-length", &w[..40]);
    write("damaged-end", &changed(9 + 4 * 2 + 2, 6));
    write("damaged-kind", &kind_8());
    write("damaged-repeat", &changed(9 + 4 * 3 + 2, 3));
    write("damaged-order", &exchanged());
    write_as("ordered", "damaged-order", &w);
    write_as("vjn", "ring-forms", &encode_journal(12, &RING_FORMS));
    write_as("vjn", "busy-member", &busy_member());
}
