//! Links of kinds: both versions of the file, what refuses them, and what is counted by weights.
use cogsplice::{file_length, file_of_kinds_length, lent, Network, Refusal, KINDS, LINKS, MEMBERS, WEIGHTS};

type Link = (usize, usize, u8);

/// A ring of 0, 1 and 2, 3, whose links of kind 2 weigh 2, beside the star of those who vouch for 0.
const VISITS: [Link; 9] = [
    (0, 2, 2),
    (0, 3, 1),
    (1, 0, 0),
    (1, 2, 1),
    (1, 3, 2),
    (2, 0, 0),
    (3, 0, 1),
    (4, 0, 0),
    (5, 0, 0),
];

fn of_kinds(n: usize, links: &[Link]) -> Network {
    Network::from_links_of_kinds(n, links).unwrap()
}

fn without_kinds(links: &[Link]) -> Vec<(usize, usize)> {
    links.iter().map(|&(voucher, vouched, _)| (voucher, vouched)).collect()
}

/// The links of a network with their kinds.
fn links_of(network: &Network) -> Vec<Link> {
    let links = network.links().zip(network.kinds());
    links.map(|((voucher, vouched), kind)| (voucher, vouched, kind)).collect()
}

#[test]
fn links_keep_their_kinds_in_any_order() {
    let visits = of_kinds(6, &VISITS);
    assert_eq!((visits.version(), visits.members()), (2, 6));
    assert_eq!(links_of(&visits), VISITS);
    assert_eq!(visits.file()[9..14], [0, 0, 2, 0, 2]);
    let mut given = VISITS;
    given.rotate_left(4);
    given.swap(0, 2);
    assert_eq!(of_kinds(6, &given), visits);
    assert_eq!(Network::from_file(visits.file().to_vec()), Ok(visits));
    assert_eq!(of_kinds(0, &[]).file(), b"VCH\x02\x00\x00\x00\x00\x00");
}

#[test]
fn version_1_has_kind_0_throughout() {
    let links = without_kinds(&VISITS);
    let plain = Network::from_links(6, &links).unwrap();
    let of_kind_0 = of_kinds(6, &VISITS.map(|(voucher, vouched, _)| (voucher, vouched, 0)));
    assert_eq!(plain.version(), 1);
    assert_eq!(links_of(&plain), links_of(&of_kind_0));
    assert_eq!((plain.file().len(), of_kind_0.file().len()), (45, 54));
    // Other bytes, and so another network, with the same answers.
    assert_ne!(plain, of_kind_0);
    assert_eq!(plain.finding(), of_kind_0.finding());
    assert_eq!(plain.layers(), of_kind_0.layers());
    assert_eq!(plain.harmonic(), of_kind_0.harmonic());
    assert_eq!(Network::from_file(Vec::new()).unwrap().version(), 1);
}

#[test]
fn each_kind_has_its_weight() {
    // Each member vouches for one other, by the kind that has its number.
    let links: Vec<Link> = (0..KINDS).map(|kind| (kind, 7 - kind, kind as u8)).collect();
    let network = of_kinds(KINDS, &links);
    let all: Vec<usize> = (0..KINDS).collect();
    for (kind, &weight) in WEIGHTS.iter().enumerate() {
        assert_eq!(network.count(&[kind], &all).unwrap().edges, weight);
        let as_heavy = all.iter().copied().filter(|&other| WEIGHTS[other] >= weight);
        assert_eq!(network.core(weight as u16, 1).s, as_heavy.collect::<Vec<_>>());
    }
    assert_eq!(network.count(&all, &all).unwrap().edges, WEIGHTS.iter().sum());
    assert_eq!(network.level_across(1), Ok(12));
}

#[test]
fn a_ring_that_only_weights_make() {
    let visits = of_kinds(6, &VISITS);
    assert_eq!(
        visits.finding().to_string(),
        "x 3 y 3 equal 3\nlinks 6 vouchers 2 vouched 2\nS 0 1\nT 2 3"
    );
    let plain = Network::from_links(6, &without_kinds(&VISITS)).unwrap();
    assert_eq!(
        plain.finding().to_string(),
        "x 1 y 5 equal 2\nlinks 5 vouchers 5 vouched 1\nS 1 2 3 4 5\nT 0"
    );
    assert_eq!(visits.level(3), Ok(3));
    assert_eq!(plain.level(3), Ok(1));
    // The rows name members alone.
    assert_eq!(visits.index(), plain.index());
}

#[test]
fn layers_add_up_to_the_weights_of_all_links() {
    let visits = of_kinds(6, &VISITS);
    let layers = visits.layers();
    assert_eq!(layers.to_string(), "layer 1 0>2 0>3 1>2 1>3\nlayer 2 1>0 2>0 3>0 4>0 5>0");
    assert_eq!((layers.pair(1), layers.pair(2).edges), (visits.finding().pair, 5));
    // Inside A and B likewise, where a link outside them is in no layer.
    let region = visits.within(&[0, 4], &[0, 2, 3]).unwrap();
    let layers = region.layers();
    let edges = (1..=layers.count()).map(|layer| layers.pair(layer).edges);
    assert_eq!(edges.sum::<u32>(), 4);
    assert_eq!(layers.pair(1), region.finding().pair);
}

#[test]
fn the_harmonic_pair_goes_by_weights() {
    // A star of six links, and one link that outweighs it: 2 * 12 / 2 against 2 * 6 / 7.
    let links: Vec<Link> = (1..7).map(|vouched| (0, vouched, 0)).chain([(7, 8, 7)]).collect();
    let pair = of_kinds(9, &links).harmonic();
    assert_eq!((pair.s, pair.t, pair.edges), (vec![7], vec![8], 12));
}

/// The most links, each of the heaviest kind: E does not fit 16 bits.
#[test]
fn the_heaviest_file() {
    let given = LINKS / MEMBERS;
    let links: Vec<Link> = (0..LINKS).map(|link| (link / given, link % given, 7)).collect();
    let network = of_kinds(MEMBERS, &links);
    assert_eq!(network.file().len(), file_of_kinds_length(LINKS));
    let finding = network.finding();
    assert_eq!((finding.x, finding.y, finding.pair.edges), (48, 12 * 2048, 98_304));
}

/// What refuses these links of kinds among 3 members.
fn refused(links: &[Link]) -> Refusal {
    Network::from_links_of_kinds(3, links).unwrap_err()
}

#[test]
fn refusals_name_links_as_given() {
    assert_eq!(refused(&[(2, 1, 0), (0, 1, 8), (0, 2, 255)]), Refusal::Kind { link: 1 });
    // 7 over all links comes before 22, 22 before 8, and the same pair repeats with two kinds too.
    assert_eq!(refused(&[(2, 1, 8), (0, 3, 0)]), Refusal::End { link: 1 });
    assert_eq!(refused(&[(2, 1, 0), (2, 1, 0), (0, 1, 9)]), Refusal::Kind { link: 2 });
    assert_eq!(refused(&[(2, 1, 0), (0, 1, 5), (2, 1, 3), (0, 1, 5)]), Refusal::Repeat { link: 2 });
    assert_eq!(Network::from_links_of_kinds(MEMBERS + 1, &[(0, 0, 8)]), Err(Refusal::Members));
    assert_eq!(Network::from_links_of_kinds(3, &[(0, 0, 8); LINKS + 1]), Err(Refusal::Links));
    assert_eq!(refused(&[(65_536, 0, 0)]), Refusal::End { link: 0 });
    let kind = refused(&[(0, 1, 8)]);
    assert_eq!((kind.number(), kind.link()), (22, Some(0)));
    assert_eq!(kind.to_string(), "refused 22 at 0");
    assert_eq!(kind.words(), "a link has a kind above 7");
}

/// A file with another byte at a place.
fn with(file: &[u8], place: usize, byte: u8) -> Vec<u8> {
    let mut file = file.to_vec();
    file[place] = byte;
    file
}

#[test]
fn files_are_refused_by_version_length_and_kind() {
    let file = of_kinds(6, &VISITS).file().to_vec();
    let read = |file: &[u8]| Network::from_file(file.to_vec()).map(|network| network.version());
    assert_eq!(read(&file), Ok(2));
    for version in [0, 3, 255] {
        assert_eq!(read(&with(&file, 3, version)), Err(Refusal::Version));
    }
    assert_eq!(read(&with(&file, 4, 1)), Err(Refusal::Version));
    // A link has five bytes, and in version 1 four.
    assert_eq!(read(&file[..file.len() - 1]), Err(Refusal::Length));
    assert_eq!(read(&[&file[..], &[0]].concat()), Err(Refusal::Length));
    assert_eq!(read(&with(&file, 3, 1)), Err(Refusal::Length));
    assert_eq!(read(&file[..file_length(9)]), Err(Refusal::Length));
    assert_eq!(read(&with(&file, 9 + 5 * 8 + 4, 8)), Err(Refusal::Kind { link: 8 }));
    // 22 comes before 15 too: link 1 is 0>0, after 0>2.
    let fallen = with(&file, 9 + 5 + 2, 0);
    assert_eq!(read(&fallen), Err(Refusal::Order { link: 1 }));
    assert_eq!(read(&with(&fallen, 9 + 5 * 3 + 4, 255)), Err(Refusal::Kind { link: 3 }));
    // The same pair twice, whose kinds differ.
    assert_eq!(read(&with(&file, 9 + 5 + 2, 2)), Err(Refusal::Repeat { link: 1 }));
}

#[test]
fn the_old_rule_is_of_version_1() {
    for file in [of_kinds(6, &VISITS), of_kinds(0, &[])] {
        assert_eq!(Network::read_old(file.file()), Err(Refusal::Version));
    }
    let plain = Network::from_links(6, &without_kinds(&VISITS)).unwrap();
    assert_eq!(Network::read_old(plain.file()), Ok(plain));
}

#[test]
fn the_writer_keeps_version_and_kinds() {
    let plain = Network::from_links(6, &without_kinds(&VISITS)).unwrap();
    for network in [of_kinds(6, &VISITS), plain, of_kinds(3, &[])] {
        let length = network.file().len();
        let mut out = vec![9; length + 2];
        let told = lent::write(network.file(), &mut out);
        assert_eq!((told.refusal, told.m), (0, network.links().count()));
        assert_eq!(out.split_off(length), [9, 9]);
        assert_eq!(Network::from_file(out), Ok(network.clone()));
        let mut short = vec![9; length - 1];
        assert_eq!(lent::write(network.file(), &mut short).refusal, 9);
        assert_eq!(short, vec![9; length - 1]);
    }
}

/// Two networks have these links in common, with the kinds of the first, and so many alone.
fn assert_common(first: &[Link], second: &[Link], links: &[Link], alone: (usize, usize)) {
    let common = of_kinds(6, first).common(&of_kinds(6, second)).unwrap();
    assert_eq!(common.network, of_kinds(6, links));
    assert_eq!(
        (common.both, common.first_only, common.second_only),
        (links.len(), alone.0, alone.1)
    );
}

#[test]
fn links_in_both_are_of_equal_weight() {
    // Kinds 0 and 1 weigh the same, and no two others do.
    assert_common(&[(1, 2, 0)], &[(1, 2, 1)], &[(1, 2, 0)], (0, 0));
    assert_common(&[(1, 2, 1)], &[(1, 2, 0)], &[(1, 2, 1)], (0, 0));
    for (one, other) in (0..8).flat_map(|one| (0..8).map(move |other| (one, other))) {
        let equal = WEIGHTS[usize::from(one)] == WEIGHTS[usize::from(other)];
        let (links, alone) = if equal { (vec![(1, 2, one)], 0) } else { (vec![], 1) };
        assert_common(&[(1, 2, one)], &[(1, 2, other)], &links, (alone, alone));
    }
    let second = [(0, 2, 3), (0, 3, 0), (1, 0, 1), (1, 3, 2), (4, 1, 0), (5, 0, 0)];
    assert_common(&VISITS, &second, &[(0, 3, 1), (1, 0, 0), (1, 3, 2), (5, 0, 0)], (5, 2));
    assert_common(&VISITS, &VISITS, &VISITS, (0, 0));
}

#[test]
fn links_in_both_of_two_versions() {
    let (visits, plain) = (of_kinds(6, &VISITS), Network::from_links(6, &without_kinds(&VISITS)).unwrap());
    // All but the two of kind 2 weigh 1.
    let light: Vec<Link> = VISITS.iter().copied().filter(|&(_, _, kind)| kind < 2).collect();
    let of_first = visits.common(&plain).unwrap();
    assert_eq!((of_first.both, of_first.first_only, of_first.second_only), (7, 2, 2));
    assert_eq!(of_first.network, of_kinds(6, &light));
    let of_kind_0 = light.iter().map(|&(voucher, vouched, _)| (voucher, vouched, 0));
    let of_second = plain.common(&visits).unwrap();
    assert_eq!(of_second.network, of_kinds(6, &of_kind_0.collect::<Vec<_>>()));
    assert_eq!(of_first.network.finding(), of_second.network.finding());
}
