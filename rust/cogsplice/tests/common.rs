//! The links in two networks, how many are in both and in either alone, and what refuses the two.
use cogsplice::{file_of_kinds_length, lent, Common, Network, Refusal, LINKS, MEMBERS};

type Link = (usize, usize);

const W: [Link; 8] = [(0, 3), (0, 4), (1, 3), (1, 4), (2, 3), (2, 4), (4, 5), (5, 5)];

fn network(n: usize, links: &[Link]) -> Network {
    Network::from_links(n, links).unwrap()
}

/// The same links with kind 0: what two networks of version 1 have in common.
fn in_both(n: usize, links: &[Link]) -> Network {
    let of_kind_0: Vec<(usize, usize, u8)> = links.iter().map(|&(voucher, vouched)| (voucher, vouched, 0)).collect();
    Network::from_links_of_kinds(n, &of_kind_0).unwrap()
}

/// Two networks have these links in common, and so many alone, either way round.
fn assert_common(first: &Network, second: &Network, links: &[Link], [first_only, second_only]: [usize; 2]) {
    let wanted = |first_only, second_only| {
        Ok(Common {
            network: in_both(first.members(), links),
            both: links.len(),
            first_only,
            second_only,
        })
    };
    assert_eq!(first.common(second), wanted(first_only, second_only));
    assert_eq!(second.common(first), wanted(second_only, first_only));
}

#[test]
fn links_in_both_and_in_either_alone() {
    let w = network(6, &W);
    assert_common(&w, &network(6, &W[1..]), &W[1..], [1, 0]);
    assert_common(&w, &network(6, &W[..7]), &W[..7], [1, 0]);
    assert_common(&w, &network(6, &[&W[..], &[(3, 0)]].concat()), &W, [0, 1]);
    assert_common(&w, &network(6, &[(3, 0), (0, 4), (5, 5), (5, 4)]), &[(0, 4), (5, 5)], [6, 2]);
    // Turned round a link is another one.
    let turned = W[..6].iter().map(|&(voucher, vouched)| (vouched, voucher));
    assert_common(&w, &network(6, &turned.collect::<Vec<_>>()), &[], [8, 6]);
    assert_common(&w, &network(6, &[]), &[], [8, 0]);
}

#[test]
fn links_are_compared_by_both_bytes_of_both_numbers() {
    let first = [(1, 2), (1, 258), (44, 9), (300, 511)];
    let second = [(1, 258), (257, 2), (300, 9), (300, 255), (300, 511)];
    assert_common(&network(600, &first), &network(600, &second), &[(1, 258), (300, 511)], [2, 3]);
    assert_common(&network(600, &[(1, 2)]), &network(600, &[(1, 258)]), &[], [1, 1]);
    assert_common(&network(600, &[(1, 2)]), &network(600, &[(257, 2)]), &[], [1, 1]);
}

#[test]
fn with_itself() {
    for (n, links) in [(6, &W[..]), (7, &W[3..5]), (1, &[(0, 0)]), (3, &[]), (0, &[])] {
        let network = network(n, links);
        assert_common(&network, &network.clone(), links, [0, 0]);
    }
}

/// 2,048 members, of whom each from `first` to 2,047 vouches for so many others.
fn crowd(first: usize, given: usize) -> Network {
    let links_of = |voucher| (0..given).map(move |vouched| (voucher, vouched));
    network(MEMBERS, &(first..MEMBERS).flat_map(links_of).collect::<Vec<Link>>())
}

#[test]
fn the_most_members_and_links() {
    let full = crowd(0, 4);
    assert_eq!(full.links().count(), LINKS);
    let all: Vec<Link> = full.links().collect();
    assert_common(&full, &full.clone(), &all, [0, 0]);
    // Each of the later half vouches for eight: the first four of these are in both.
    assert_common(&full, &crowd(1024, 8), &all[LINKS / 2..], [LINKS / 2, LINKS / 2]);
}

#[test]
fn a_ring_that_both_bear_out() {
    // Each has a ring of four links, of which the other has three or one.
    let ring = [(0, 4), (0, 5), (1, 4), (1, 5)];
    let shared = [(2, 6), (2, 7), (3, 6)];
    let first = network(8, &[&shared[..], &ring].concat());
    let second = network(8, &[&shared[..], &ring[..1], &[(3, 7), (7, 7)]].concat());
    let common = first.common(&second).unwrap();
    assert_eq!(first.finding().pair.s, [0, 1]);
    assert_eq!(second.finding().pair.s, [2, 3]);
    assert_eq!((common.both, common.first_only, common.second_only), (4, 3, 2));
    let finding = common.network.finding();
    assert_eq!((finding.pair.s, finding.pair.t), (vec![2, 3], vec![6]));
}

#[test]
fn another_n_is_refused_by_21() {
    let w = network(6, &W);
    for other in [
        network(7, &W),
        network(6 + 256, &W),
        network(MEMBERS, &W),
        network(0, &[]),
        Network::from_file(Vec::new()).unwrap(),
    ] {
        assert_eq!(w.common(&other), Err(Refusal::Mismatch));
        assert_eq!(other.common(&w), Err(Refusal::Mismatch));
    }
    assert_eq!((Refusal::Mismatch.number(), Refusal::Mismatch.link()), (21, None));
    assert_eq!(Refusal::Mismatch.to_string(), "refused 21");
    assert_eq!(Refusal::Mismatch.words(), "the two files have different numbers of members");
}

/// The refusal and the link's number of a lent call, which is refused and changes nothing.
fn refused(first: &[u8], second: &[u8], length: usize) -> (u16, u16) {
    let mut out = vec![7; length];
    let told = lent::common(first, second, &mut out);
    assert_eq!((told.both, told.first_only, told.second_only), (0, 0, 0));
    assert_eq!(out, vec![7; length]);
    (told.refusal, told.link)
}

#[test]
fn lent_files_are_judged_in_order() {
    let w = network(6, &W);
    let damaged = |place: usize, byte| {
        let mut file = w.file().to_vec();
        file[place] = byte;
        file
    };
    // Another mark; 6 for the voucher of link 2; link 1 as link 0; link 3 before link 2.
    let (mark, end, repeat, descent) = (damaged(0, b'v'), damaged(17, 6), damaged(15, 3), damaged(23, 0));
    let enough = file_of_kinds_length(W.len());
    let seven = network(7, &W);
    for first in [(&mark, (2, 0)), (&end, (7, 2)), (&repeat, (8, 1)), (&descent, (15, 3))] {
        for second in [&mark, &end, &repeat, &descent, &Vec::new(), &w.file().to_vec()] {
            assert_eq!(refused(first.0, second, enough), first.1);
        }
        assert_eq!(refused(w.file(), first.0, 0), first.1);
        assert_eq!(refused(&[], first.0, enough), first.1);
        assert_eq!(refused(first.0, seven.file(), enough), first.1);
        assert_eq!(refused(seven.file(), first.0, enough), first.1);
    }
    assert_eq!(refused(w.file(), seven.file(), enough), (21, 0));
    assert_eq!(refused(w.file(), &[], 8), (21, 0));
    assert_eq!(refused(w.file(), w.file(), enough - 1), (9, 0));
    assert_eq!(refused(w.file(), network(6, &[]).file(), 8), (9, 0));
}

#[test]
fn a_lent_output_needs_the_links_in_both_alone() {
    let (w, few) = (network(6, &W), network(6, &[(0, 4), (3, 3), (5, 5)]));
    for length in [19, 20, 24, 49, 60] {
        let mut out = vec![7; length];
        let told = lent::common(w.file(), few.file(), &mut out);
        assert_eq!(
            (told.refusal, told.link, told.both, told.first_only, told.second_only),
            (0, 0, 2, 6, 1)
        );
        let (written, past) = out.split_at(19);
        assert_eq!(written, in_both(6, &[(0, 4), (5, 5)]).file());
        assert!(past.iter().all(|&byte| byte == 7));
    }
    assert_eq!(refused(w.file(), few.file(), 18), (9, 0));
}

/// The file of version 2 without members and links.
const NOBODY_OF_KINDS: &[u8] = b"VCH\x02\x00\x00\x00\x00\x00";

#[test]
fn no_bytes_are_nobody() {
    let nobody = network(0, &[]);
    let files = [&[][..], nobody.file(), NOBODY_OF_KINDS];
    for (first, second) in files.iter().flat_map(|&first| files.map(|second| (first, second))) {
        let mut out = [7; 10];
        let told = lent::common(first, second, &mut out);
        assert_eq!((told.refusal, told.both, told.first_only, told.second_only), (0, 0, 0, 0));
        assert_eq!((&out[..9], out[9]), (NOBODY_OF_KINDS, 7));
        assert_eq!(refused(first, second, 8), (9, 0));
    }
}
