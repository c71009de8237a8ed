//! The comparison of the two sides, and their times.
use crate::inputs::{Input, Links};
use crate::sides::{Call, Library, PlainRust, Side, Timed};
use std::time::{Duration, Instant};

/// How many times each side is timed, turn by turn. The least of the times counts: the rest is what else the machine was doing.
pub const ROUNDS: usize = 60;

/// How long one side runs in a round, at the least.
pub const ROUND: Duration = Duration::from_millis(2);

/// No round begins once the rounds took this long, but for the least number of them.
pub const ROUNDS_TIME: Duration = Duration::from_secs(2);

pub const LEAST_ROUNDS: usize = 8;

/// The time of one call, in microseconds.
pub struct Times {
    pub timed: Timed,
    pub library: f64,
    pub plain: f64,
}

impl Times {
    pub fn ratio(&self) -> f64 {
        self.library / self.plain
    }
}

/// A network, the number of its layers and the times of the calls on it.
pub struct Measured {
    pub input: Input,
    pub layers: usize,
    pub times: Vec<Times>,
}

impl Measured {
    pub fn of(&self, timed: Timed) -> &Times {
        let found = self.times.iter().find(|times| times.timed == timed);
        found.expect("the call was timed")
    }

    /// The times of a call, for each way in which the links stood.
    pub fn all_of(&self, call: Call) -> impl Iterator<Item = &Times> {
        let times = self.times.iter();
        times.filter(move |times| times.timed.call == call)
    }
}

/// A network searched among all of its members, and among half of them, where only the calls that search are timed.
pub struct Halved<'a> {
    pub whole: &'a Measured,
    pub half: Measured,
}

/// A network with kinds, beside the same links in version 1.
pub struct OfKinds<'a> {
    pub single: &'a Measured,
    /// Every link has kind 0, of weight 1.
    pub lightest: Measured,
    pub drawn: Measured,
    /// Every link has kind 7, of the greatest weight.
    pub heaviest: Measured,
}

impl OfKinds<'_> {
    /// Each with the kinds that its links have.
    pub fn all(&self) -> [(&'static str, &Measured); 3] {
        [
            ("all 0", &self.lightest),
            ("drawn", &self.drawn),
            ("all 7", &self.heaviest),
        ]
    }
}

/// The library's time of a call on the one, divided by that on the other.
pub fn library_ratio(call: Call, one: &Measured, other: &Measured) -> f64 {
    let timed = Timed::ascending(call);
    one.of(timed).library / other.of(timed).library
}

/// Compares the answers of both sides, then times these calls.
pub fn measure(input: Input, calls: &[Timed]) -> Measured {
    let mut library = Library::new(&input);
    let mut plain = PlainRust::new(&input);
    let file = input.file(Links::Ascending);
    let quiet = [&file[..7], &[0, 0]].concat();
    if input.version == 1 {
        // While no table holds the ascending file yet.
        compare_order(&mut library, &mut plain, &input);
    }
    // The whole file first: after it no entry of the tables is as it was lent.
    for file in [file, &quiet, &[]] {
        compare(&mut library, &mut plain, file, &input);
    }
    compare_refusals(&mut library, &mut plain, &input);
    compare_faulty_groups(&mut library, &mut plain, &input);
    let [_, _, layers, ..] = plain.call(Call::Layers, file, &input);
    let timed = calls.iter();
    let times = timed.map(|&timed| time(&mut library, &mut plain, timed, &input));
    Measured {
        times: times.collect(),
        input,
        layers,
    }
}

/// Both sides bring links in random order into the ascending file.
fn compare_order(library: &mut Library, plain: &mut PlainRust, input: &Input) {
    let shuffled = input.file(Links::Shuffled);
    let told = library.call(Call::Order, shuffled, input);
    assert_eq!(told[0], 0, "order refuses {}", input.name);
    assert_eq!(told, plain.call(Call::Order, shuffled, input));
    for tables in [library.tables(), plain.tables()] {
        let same = tables.ordered == input.file(Links::Ascending);
        assert!(same, "the order of {}", input.name);
    }
}

/// Every call on both sides: the same answer, and in the end the same tables. The file is the input's, that without links, or no bytes.
fn compare(library: &mut Library, plain: &mut PlainRust, file: &[u8], input: &Input) {
    // The core, the finding and the harmonic call write to the same groups: the tables are compared after each of the three.
    for last in [Call::Core, Call::Finding, Call::Harmonic] {
        let others = Call::ALL.into_iter().filter(|&call| call != last);
        let others = others.filter(|call| call.reads(input.version));
        for call in others.chain([last]) {
            let told = library.call(call, file, input);
            let (name, network) = (call.name(), &input.name);
            assert_eq!(told[0], 0, "{name} refuses {network}");
            let plain_told = plain.call(call, file, input);
            assert_eq!(told, plain_told, "{name} of {network}");
        }
        let same = library.tables() == plain.tables();
        assert!(same, "the tables of {}", input.name);
    }
}

/// A copy of a file with some bytes changed.
fn changed(file: &[u8], changes: &[(usize, u8)]) -> Vec<u8> {
    let mut copy = file.to_vec();
    for &(at, byte) in changes {
        copy[at] = byte;
    }
    copy
}

/// Damaged files, each with the refusal that it must get.
pub fn damaged(input: &Input) -> Vec<(usize, Vec<u8>)> {
    let file = input.file(Links::Ascending);
    let mut damaged = vec![
        (1, file[..8].to_vec()),
        (6, file[..file.len() - 1].to_vec()),
        (6, changed(file, &[(3, 3 - input.version)])),
        (8, input.file(Links::Repeating).to_vec()),
        (15, input.file(Links::Shuffled).to_vec()),
    ];
    damaged.extend(DAMAGES.map(|(number, at, byte)| (number, changed(file, &[(at, byte)]))));
    damaged.extend(disordered(file, input.stride()));
    if input.version == 2 {
        damaged.extend(damaged_kinds(file));
    }
    damaged
}

/// Refusals, each with a byte of a file that makes it.
const DAMAGES: [(usize, usize, u8); 7] = [
    (2, 2, 0),
    (3, 3, 0),
    (3, 3, 3),
    (3, 4, 1),
    (4, 6, 255),
    (5, 8, 255),
    (7, 12, 255),
];

/// Files whose last link is the same as the first, is the same as the one preceding it, and stands before the one preceding it.
fn disordered(file: &[u8], stride: usize) -> [(usize, Vec<u8>); 3] {
    let last = file.len() - stride;
    let mut copies = [(); 3].map(|_| file.to_vec());
    copies[0].copy_within(9..9 + stride, last);
    copies[1].copy_within(last - stride..last, last);
    copies[2][last - stride..].rotate_left(stride);
    let [first, preceding, turned] = copies;
    [(8, first), (8, preceding), (15, turned)]
}

/// Files of version 2 with kinds above 7, and one whose last link is the first with another kind.
fn damaged_kinds(file: &[u8]) -> [(usize, Vec<u8>); 5] {
    let (first, last) = (13, file.len() - 1);
    let [(_, repeating), ..] = disordered(file, 5);
    let another = (repeating[last] + 1) % 8;
    [
        (22, changed(file, &[(first, 8)])),
        (22, changed(file, &[(last, 255)])),
        (22, changed(&repeating, &[(last, 8)])),
        (7, changed(file, &[(first - 1, 255), (first, 8)])),
        (8, changed(&repeating, &[(last, another)])),
    ]
}

/// The refusal that a call gives for a file that gets this number. `order` reads version 1 only, and knows no 15.
fn refusal_of(call: Call, number: usize, file: &[u8]) -> usize {
    if call != Call::Order || number == 1 || number == 2 {
        return number;
    }
    if file[3..5] != [1, 0] {
        return 3;
    }
    if number == 15 {
        return 0;
    }
    number
}

/// Each damaged file gets its refusal from both sides, and no table changes.
fn compare_refusals(library: &mut Library, plain: &mut PlainRust, input: &Input) {
    let mut files = damaged(input);
    if input.version == 2 {
        // Only `order` refuses it.
        files.push((0, input.file(Links::Ascending).to_vec()));
    }
    for (number, file) in files {
        for call in Call::ALL {
            let told = library.call(call, &file, input);
            assert_eq!(told, plain.call(call, &file, input));
            let (name, network) = (call.name(), &input.name);
            let refusal = refusal_of(call, number, &file);
            assert_eq!(told[0], refusal, "{name} of a damaged {network}");
        }
    }
    let same = library.tables() == plain.tables();
    assert!(same, "the tables of {} after refusals", input.name);
}

/// A byte of A or of B that is neither 0 nor 1: both sides refuse every call that searches inside them.
fn compare_faulty_groups(library: &mut Library, plain: &mut PlainRust, input: &Input) {
    let mut faulty = [input.clone(), input.clone()];
    faulty[0].a[0] = 2;
    faulty[1].b[input.n - 1] = 255;
    for input in &faulty {
        let file = input.file(Links::Ascending);
        for call in Call::INSIDE {
            let told = library.call(call, file, input);
            assert_eq!(told, plain.call(call, file, input));
            assert_eq!(told[0], 11);
        }
    }
}

fn time(library: &mut Library, plain: &mut PlainRust, timed: Timed, input: &Input) -> Times {
    let (call, file) = (timed.call, input.file(timed.links));
    let [library, plain] = least_times([
        &mut || {
            opaque(library.call(opaque(call), opaque(file), input));
        },
        &mut || {
            opaque(plain.call(opaque(call), opaque(file), input));
        },
    ]);
    Times {
        timed,
        library,
        plain,
    }
}

/// The least time of one call of each side, in microseconds, the sides timed turn by turn.
pub fn least_times<const K: usize>(mut sides: [&mut dyn FnMut(); K]) -> [f64; K] {
    let in_a_round: Vec<u32> = sides
        .iter_mut()
        .map(|call| calls_in_a_round(call))
        .collect();
    let mut least = [f64::INFINITY; K];
    let start = Instant::now();
    for round in 0..ROUNDS {
        if round >= LEAST_ROUNDS && start.elapsed() >= ROUNDS_TIME {
            break;
        }
        for ((least, call), &calls) in least.iter_mut().zip(&mut sides).zip(&in_a_round) {
            *least = least.min(time_of(call, calls));
        }
    }
    least
}

/// The same value, of which the compiler knows nothing: `std::hint::black_box` is newer than the compiler that this package asks for.
pub fn opaque<T: Copy>(value: T) -> T {
    // The value is read from a reference to it, and has no drop of its own.
    unsafe { std::ptr::read_volatile(&value) }
}

/// How many calls fill a round.
fn calls_in_a_round(call: &mut dyn FnMut()) -> u32 {
    let mut calls = 1;
    while time_of(call, calls) * f64::from(calls) < ROUND.as_secs_f64() * 1e6 {
        calls *= 2;
    }
    calls
}

/// The time of one call, in microseconds, over as many calls as are asked for.
fn time_of(call: &mut dyn FnMut(), calls: u32) -> f64 {
    let start = Instant::now();
    for _ in 0..calls {
        call();
    }
    start.elapsed().as_secs_f64() * 1e6 / f64::from(calls)
}
