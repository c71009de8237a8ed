//! What makes two findings equal: of networks, and of findings changed by hand.
use cogsplice::{Finding, Network};

/// W, whose finding is [2,3] with the members 0, 1 and 2 in S, 3 and 4 in T.
const W: [(usize, usize); 8] = [(0, 3), (0, 4), (1, 3), (1, 4), (2, 3), (2, 4), (4, 5), (5, 5)];

fn finding(members: usize, links: &[(usize, usize)]) -> Finding {
    Network::from_links(members, links).unwrap().finding()
}

/// Two findings are equal or not by `equals` and by `==`, either way round.
fn assert_equal(wanted: bool, one: &Finding, other: &Finding) {
    let told = [one.equals(other), other.equals(one), one == other, other == one];
    assert_eq!(told, [wanted; 4], "{one:?} {other:?}");
}

/// One finding, and the same with one thing changed.
fn assert_changed(wanted: bool, change: impl Fn(&mut Finding)) {
    let found = finding(6, &W);
    let mut changed = found.clone();
    change(&mut changed);
    assert_equal(wanted, &found, &changed);
    assert_equal(true, &changed, &changed);
}

#[test]
fn two_months_with_2_3_are_equal_only_for_the_same_members() {
    let found = finding(6, &W);
    assert_equal(true, &found, &finding(6, &W));
    // Without the links beside the ring.
    assert_equal(true, &found, &finding(6, &W[..6]));
    // Each member's number taken from 5.
    let other = finding(6, &W.map(|(voucher, vouched)| (5 - voucher, 5 - vouched)));
    assert_eq!((other.x, other.y), (2, 3));
    assert_equal(false, &found, &other);
}

#[test]
fn n_is_compared() {
    let found = finding(6, &W);
    assert_eq!((found.members(), finding(7, &W).members()), (6, 7));
    assert_equal(false, &found, &finding(7, &W));
    // Two quiet months, and two among nobody.
    assert_equal(false, &finding(0, &[]), &finding(1, &[]));
    assert_equal(true, &finding(3, &[]), &finding(3, &[]));
    assert_equal(true, &finding(0, &[]), &finding(0, &[]));
}

#[test]
fn x_y_and_each_group_are_compared() {
    assert_changed(true, |_| ());
    assert_changed(false, |found| found.x = 3);
    assert_changed(false, |found| found.y = usize::MAX);
    assert_changed(false, |found| found.pair.s = vec![0, 1]);
    assert_changed(false, |found| found.pair.t = vec![3, 5]);
    assert_changed(false, |found| std::mem::swap(&mut found.pair.s, &mut found.pair.t));
}

#[test]
fn the_equal_level_and_e_are_not_compared() {
    assert_changed(true, |found| found.equal_level = 1);
    assert_changed(true, |found| found.pair.edges = 5);
    // A star alone, and beside a ring [2,2].
    let star = [(0, 1), (0, 2), (0, 3), (0, 4), (0, 5)];
    let ring = [(6, 8), (6, 9), (7, 8), (7, 9)];
    let (alone, beside) = (finding(10, &star), finding(10, &[&star[..], &ring].concat()));
    assert_eq!((alone.equal_level, beside.equal_level), (1, 2));
    assert_equal(true, &alone, &beside);
}

#[test]
fn a_group_is_the_set_of_its_members() {
    assert_changed(true, |found| found.pair.s = vec![2, 0, 1, 0]);
    // What is not below n is no member.
    assert_changed(true, |found| found.pair.t.extend([6, 2048, usize::MAX]));
    assert_changed(false, |found| found.pair.t = vec![3, 6]);
}
