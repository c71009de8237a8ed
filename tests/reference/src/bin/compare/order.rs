//! The numbers 9, 11 and 12 alone, together, and together with each of 1 to 8, 22 and 15: the first in order refuses.
use crate::case::Case;
use crate::damage::{by_old_rule, faulty_file, FILE_FAULTS};
use crate::inside::{everyone, lend, Groups};
use crate::networks::roomy_network;
use cogsplice::lent;
use networks::Kinded;
use reference::{file_length, first_of, work_length};

/// What a call is given beside the file of one network: the tables, each of exactly the length needed or one short, and a number.
struct Given {
    inside: Groups,
    groups: Groups,
    out: Vec<u8>,
    starts: [Vec<u16>; 2],
    rows: [Vec<u16>; 2],
    layers: Vec<u16>,
    work: Vec<u16>,
    asked: u16,
}

impl Given {
    fn new(network: &Kinded) -> Given {
        let (n, m) = (network.n, network.links.len());
        Given {
            inside: everyone(n),
            groups: everyone(n),
            out: vec![0; file_length(network.version, m)],
            starts: [vec![0; n + 1], vec![0; n + 1]],
            rows: [vec![0; m], vec![0; m]],
            layers: vec![0; m],
            work: vec![0; work_length(n, m)],
            asked: 1,
        }
    }
}

/// Makes one table one short, where it has an entry; whether it had.
type Shorten = fn(&mut Given) -> bool;

/// Makes something that the call is given faulty, and the number for it.
type Spoil = (u16, fn(&mut Given));

/// A call, the tables that it is lent as functions that make one of them one short, and what else it may be refused for.
struct Call {
    name: &'static str,
    shorten: &'static [Shorten],
    spoil: &'static [Spoil],
    refusal: fn(&[u8], &mut Given) -> u16,
}

fn shorten<T>(table: &mut Vec<T>) -> bool {
    table.pop().is_some()
}

const SHORT_A: Shorten = |given| shorten(&mut given.inside[0]);
const SHORT_B: Shorten = |given| shorten(&mut given.inside[1]);
const SHORT_S: Shorten = |given| shorten(&mut given.groups[0]);
const SHORT_T: Shorten = |given| shorten(&mut given.groups[1]);
const SHORT_OUT: Shorten = |given| shorten(&mut given.out);
const SHORT_WORK: Shorten = |given| shorten(&mut given.work);

/// The first byte of A, and the last of B that is there.
const FAULTY_A: Spoil = (11, |given| given.inside[0][0] = 2);
const FAULTY_B: Spoil = (11, |given| *given.inside[1].last_mut().unwrap() = 255);
const ZERO: Spoil = (12, |given| given.asked = 0);

/// A table that a call only writes may hold anything before: no number is for it.
const NOT_A_GROUP: Spoil = (0, |given| {
    given.groups[0].iter_mut().for_each(|byte| *byte = 7)
});

const CALLS: [Call; 11] = [
    Call {
        name: "check",
        shorten: &[],
        spoil: &[],
        refusal: |file, _| lent::check(file).refusal,
    },
    Call {
        name: "count",
        shorten: &[SHORT_S, SHORT_T],
        spoil: &[(11, |given| given.groups[1][0] = 2)],
        refusal: |file, given| lent::count(file, &given.groups[0], &given.groups[1]).refusal,
    },
    Call {
        name: "write",
        shorten: &[SHORT_OUT],
        spoil: &[],
        refusal: |file, given| lent::write(file, &mut given.out).refusal,
    },
    Call {
        name: "index",
        shorten: &[
            |given| shorten(&mut given.starts[0]),
            |given| shorten(&mut given.rows[0]),
            |given| shorten(&mut given.starts[1]),
            |given| shorten(&mut given.rows[1]),
        ],
        spoil: &[],
        refusal: index,
    },
    Call {
        name: "core",
        shorten: &[SHORT_A, SHORT_B, SHORT_S, SHORT_T, SHORT_WORK],
        spoil: &[FAULTY_A, FAULTY_B],
        refusal: core,
    },
    Call {
        name: "level",
        shorten: &[SHORT_A, SHORT_B, SHORT_WORK],
        spoil: &[FAULTY_A, FAULTY_B, ZERO],
        refusal: |file, given| {
            let [a, b] = lend(&given.inside);
            lent::level(file, a, b, given.asked, &mut given.work).refusal
        },
    },
    Call {
        name: "level_across",
        shorten: &[SHORT_A, SHORT_B, SHORT_WORK],
        spoil: &[FAULTY_A, FAULTY_B, ZERO],
        refusal: |file, given| {
            let [a, b] = lend(&given.inside);
            lent::level_across(file, a, b, given.asked, &mut given.work).refusal
        },
    },
    Call {
        name: "equal_level",
        shorten: &[SHORT_A, SHORT_B, SHORT_WORK],
        spoil: &[FAULTY_A, FAULTY_B],
        refusal: |file, given| {
            let [a, b] = lend(&given.inside);
            lent::equal_level(file, a, b, &mut given.work).refusal
        },
    },
    Call {
        name: "finding",
        shorten: &[SHORT_A, SHORT_B, SHORT_S, SHORT_T, SHORT_WORK],
        spoil: &[FAULTY_A, FAULTY_B],
        refusal: finding,
    },
    Call {
        name: "layers",
        shorten: &[
            SHORT_A,
            SHORT_B,
            |given| shorten(&mut given.layers),
            SHORT_WORK,
        ],
        spoil: &[FAULTY_A, FAULTY_B],
        refusal: |file, given| {
            let [a, b] = lend(&given.inside);
            lent::layers(file, a, b, &mut given.layers, &mut given.work).refusal
        },
    },
    Call {
        name: "harmonic",
        shorten: &[SHORT_S, SHORT_T, SHORT_WORK],
        spoil: &[NOT_A_GROUP],
        refusal: |file, given| {
            let [s, t] = &mut given.groups;
            lent::harmonic(file, s, t, &mut given.work).refusal
        },
    },
];

/// The conversion, for which 15 is no fault of a file, and version 2 is one.
const CONVERSION: Call = Call {
    name: "order",
    shorten: &[SHORT_OUT],
    spoil: &[],
    refusal: |file, given| lent::order(file, &mut given.out).refusal,
};

fn index(file: &[u8], given: &mut Given) -> u16 {
    let ([out_starts, in_starts], [out_rows, in_rows]) = (&mut given.starts, &mut given.rows);
    lent::index(file, out_starts, out_rows, in_starts, in_rows).refusal
}

fn core(file: &[u8], given: &mut Given) -> u16 {
    let ([a, b], [s, t]) = (lend(&given.inside), &mut given.groups);
    lent::core(file, a, b, 1, 1, s, t, &mut given.work).refusal
}

fn finding(file: &[u8], given: &mut Given) -> u16 {
    let ([a, b], [s, t]) = (lend(&given.inside), &mut given.groups);
    lent::finding(file, a, b, s, t, &mut given.work).refusal
}

/// Every call with each fault of the file or none, each table short or none, and each choice of what else may be faulty; then the same
/// without links, which no number refuses.
pub fn order(case: &mut Case) {
    let network = roomy_network(case);
    try_calls(case, &network, &FILE_FAULTS);
    // 7 and what comes after it are faults of links.
    let mut without = network;
    without.links.clear();
    try_calls(case, &without, &FILE_FAULTS[..6]);
}

/// Every call on the network's file, faulty by none or by each of the numbers.
fn try_calls(case: &mut Case, network: &Kinded, faults: &[u16]) {
    for &fault in [0].iter().chain(faults) {
        case.file = faulty_file(&mut case.draw, network, &[fault]);
        try_every_call(case, network, fault);
    }
}

/// Every call on the case's file, which is the network's but for this fault, or none.
pub fn try_every_call(case: &mut Case, network: &Kinded, fault: u16) {
    for call in &CALLS {
        try_call(case, network, call, fault);
    }
    let by_old_rule = by_old_rule(&case.file, &[fault]);
    try_call(case, network, &CONVERSION, by_old_rule);
}

/// One call: of the file's fault, 9 where a table is short, and the numbers for what else is faulty, the first in order is given.
fn try_call(case: &mut Case, network: &Kinded, call: &Call, fault: u16) {
    for choice in 0..1 << call.spoil.len() {
        let chosen = (0..call.spoil.len()).filter(|number| choice >> number & 1 == 1);
        let spoilt: Vec<Spoil> = chosen.map(|number| call.spoil[number]).collect();
        for short in 0..=call.shorten.len() {
            let mut given = Given::new(network);
            let is_short = short > 0 && call.shorten[short - 1](&mut given);
            let mut applying = vec![fault, if is_short { 9 } else { 0 }];
            for (number, spoil) in &spoilt {
                spoil(&mut given);
                applying.push(*number);
            }
            let expected = first_of(&applying);
            let refusal = (call.refusal)(&case.file, &mut given);
            let name = call.name;
            let call = || format!("{name}: table {short} short, numbers {applying:?}");
            case.compare(call, expected, refusal);
        }
    }
}
