//! A journal's entries one by one: the links that they leave and the number that refuses each.
use cogsplice::{EntryRefusal, Journal, Name, Network, Refusal, DUE, GIVEN, LINKS, MEMBERS};
use std::ops::Range;

/// The numbers of all entries.
fn numbers(journal: &Journal) -> Vec<u16> {
    let refusals = journal.after_all().refusals.into_iter();
    refusals.map(|refusal| refusal.map_or(0, EntryRefusal::number)).collect()
}

#[test]
fn each_refusal_has_its_number_and_the_first_that_applies_is_given() {
    let mut journal = Journal::new(3).unwrap();
    journal.add(0, 1).add(0, 1).withdraw(1, 0).return_to(Name::One);
    // A member not below n, too large for 16 bits even, comes before present and absent.
    journal.add(3, 0).add(0, 3).withdraw(0, 65_536 + 1).add(usize::MAX, 0);
    let mut bytes = journal.bytes().to_vec();
    // A kind above 3, a name above 3, and a name that is not followed by 0.
    for entry in [[4, 0, 0, 1, 0], [2, 4, 0, 0, 0], [3, 0, 1, 0, 0], [2, 0, 0, 1, 0], [255; 5]] {
        bytes.extend(entry);
    }
    let journal = Journal::read(bytes).unwrap();
    assert_eq!(numbers(&journal), [0, 16, 17, 18, 10, 10, 10, 10, 18, 18, 18, 18, 18]);
    assert_eq!(Ok(journal.after_all().network), Network::from_links(3, &[(0, 1)]));
}

#[test]
fn named_states_hold_until_they_are_set_again() {
    let mut journal = Journal::new(4).unwrap();
    journal.set(Name::Zero).add(0, 1).set(Name::Three).add(2, 2).set(Name::One);
    // To the state without links and back: no other name is lost.
    journal
        .return_to(Name::Zero)
        .add(3, 3)
        .return_to(Name::Three)
        .return_to(Name::Three);
    assert_eq!(journal.after(6).network, Network::from_links(4, &[]).unwrap());
    assert_eq!(journal.after_all().network, Network::from_links(4, &[(0, 1)]).unwrap());
    journal.set(Name::Zero).return_to(Name::One).return_to(Name::Zero);
    assert_eq!(journal.after(11).network, Network::from_links(4, &[(0, 1), (2, 2)]).unwrap());
    assert_eq!(journal.after_all().network, journal.after(9).network);
    assert_eq!(numbers(&journal), [0; 12]);
}

/// Enters that each of these members vouches for the members below `end`.
fn add_below(journal: &mut Journal, vouchers: Range<usize>, end: usize) {
    for voucher in vouchers {
        (0..end).for_each(|vouched| {
            journal.add(voucher, vouched);
        });
    }
}

#[test]
fn over_2048_members_none_gives_a_fifth() {
    let mut journal = Journal::new(MEMBERS).unwrap();
    // Before anyone else has given one, and when all have given four.
    add_below(&mut journal, 0..1, DUE + 1);
    add_below(&mut journal, 1..MEMBERS, DUE);
    journal.add(0, DUE).add(MEMBERS - 1, DUE);
    let mut expected = [0; LINKS + 3];
    for entry in [DUE, LINKS + 1, LINKS + 2] {
        expected[entry] = 20;
    }
    assert_eq!(numbers(&journal), expected);
    assert_eq!(journal.after_all().network.links().count(), LINKS);
    // 16 comes before 20. The place that member 0 gives back is due to it, and to nobody else.
    journal.add(1, 0).withdraw(0, 0).add(1, DUE).add(0, DUE).add(0, 0);
    assert_eq!(numbers(&journal)[expected.len()..], [16, 0, 20, 0, 20]);
}

/// 129 members: 127 have given 64, member 127 as many as it found places for, and member 128 none.
fn busy_members() -> Journal {
    let mut journal = Journal::new(129).unwrap();
    add_below(&mut journal, 0..127, GIVEN);
    add_below(&mut journal, 127..128, GIVEN - DUE);
    journal
}

#[test]
fn a_member_with_fewer_than_four_has_a_place_whatever_the_others_entered() {
    let mut journal = busy_members();
    let busy = journal.len();
    assert_eq!(busy, LINKS - DUE);
    // 10 and 16 come before 19, and 19 before 20.
    journal.add(0, GIVEN).add(127, GIVEN).add(0, 0).add(0, 129);
    add_below(&mut journal, 128..129, DUE + 1);
    let mut expected = vec![0; busy];
    expected.extend([19, 20, 16, 10, 0, 0, 0, 0, 20]);
    assert_eq!(numbers(&journal), expected);
    assert_eq!(journal.after_all().network.links().count(), LINKS);
}

#[test]
fn a_withdrawn_place_is_used_again() {
    let mut journal = busy_members();
    let busy = journal.len();
    // By its own voucher; what a member with more than four gives back by another too, and then it is gone.
    journal.withdraw(0, 0).add(0, GIVEN).add(0, 0);
    journal.withdraw(0, GIVEN).add(127, GIVEN).add(0, GIVEN);
    // What member 128 gives back is due to it.
    journal.add(128, 0).withdraw(128, 0).add(0, GIVEN).add(128, 1);
    assert_eq!(numbers(&journal)[busy..], [0, 0, 19, 0, 0, 20, 0, 0, 20, 0]);
}

#[test]
fn returning_to_a_named_state_restores_what_is_given_live_and_due() {
    let mut journal = Journal::new(129).unwrap();
    journal.set(Name::Zero);
    add_below(&mut journal, 0..127, GIVEN);
    add_below(&mut journal, 127..128, GIVEN - DUE);
    journal.set(Name::One);
    let named = journal.len();
    // Of the state without links everyone has places; of the other one only member 128.
    journal.return_to(Name::Zero).add(0, GIVEN).add(127, GIVEN).return_to(Name::One);
    journal.add(0, GIVEN).add(127, GIVEN).add(128, 0).add(128, 1);
    journal.withdraw(0, 0).withdraw(1, 0).return_to(Name::One);
    journal.add(0, GIVEN).add(127, GIVEN);
    let expected = [0, 0, 0, 0, 19, 20, 0, 0, 0, 0, 0, 19, 20];
    assert_eq!(numbers(&journal)[named..], expected);
}

#[test]
fn fewer_than_four_members_have_a_place_for_every_link() {
    for n in 0..4 {
        let mut journal = Journal::new(n).unwrap();
        add_below(&mut journal, 0..n, n);
        assert_eq!(numbers(&journal), vec![0; n * n]);
    }
}

#[test]
fn a_header_is_refused_by_the_first_number_that_applies() {
    let refused = |bytes: &[u8]| Journal::read(bytes.to_vec()).unwrap_err();
    assert_eq!(refused(b"VJN\x01\x00\x02"), Refusal::Short);
    assert_eq!(refused(b"VCH\x02\x00\x02\x00\x00"), Refusal::Mark);
    assert_eq!(refused(b"VJN\x02\x00\x01\x08\x00"), Refusal::Version);
    assert_eq!(refused(b"VJN\x01\x00\x01\x08\x00"), Refusal::Members);
    assert_eq!(refused(b"VJN\x01\x00\x00\x08\x00"), Refusal::Length);
}
