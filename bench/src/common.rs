//! The call on two files: its sides, the comparison of their answers, and their times.
use crate::inputs::{in_version_2, length_of_kinds, Input, Links};
use crate::measure::{damaged, least_times, opaque};
use crate::plain::{Merge, Plain};
use crate::records::Records;
use cogsplice::lent;

/// Two files, and the time of one call on each side, in microseconds.
pub struct Shared {
    pub records: Records,
    pub library: f64,
    pub plain: f64,
    /// Plain Rust that takes no blocks together.
    pub steps: f64,
    /// Plain Rust that branches at each link.
    pub branches: f64,
}

impl Shared {
    pub fn ratio(&self) -> f64 {
        self.library / self.plain
    }
}

/// The refusal, the link, and how many links are in both files, in the first only and in the second only.
type Told = [usize; 5];

/// The proved library, or plain Rust that finds the links in both so.
#[derive(Clone, Copy)]
enum Side {
    Library,
    Plain(Merge),
}

/// The sides, the library first.
const SIDES: [Side; 4] = [
    Side::Library,
    Side::Plain(Merge::Blocks),
    Side::Plain(Merge::Steps),
    Side::Plain(Merge::Branches),
];

impl Side {
    fn call(self, plain: &mut Plain, files: [&[u8]; 2], out: &mut [u8]) -> Told {
        match self {
            Side::Library => {
                let [first, second] = files;
                let told = lent::common(first, second, out);
                let [refusal, link] = [told.refusal, told.link].map(usize::from);
                [refusal, link, told.both, told.first_only, told.second_only]
            }
            Side::Plain(merge) => match plain.common(merge, files, out) {
                Ok([both, first, second]) => [0, 0, both, first, second],
                Err(refusal) => [refusal.number.into(), refusal.link, 0, 0, 0],
            },
        }
    }
}

/// What every side answers and leaves in an output of this length, which is full of one number before.
fn agreed(files: [&[u8]; 2], length: usize, full: u8) -> (Told, Vec<u8>) {
    let mut plain = Plain::default();
    let [library, others @ ..] = SIDES.map(|side| {
        let mut out = vec![full; length];
        (side.call(&mut plain, files, &mut out), out)
    });
    assert!(
        others.iter().all(|other| *other == library),
        "the sides differ"
    );
    library
}

/// Every side refuses the call by this number and leaves the output as it was.
fn compare_refusal(files: [&[u8]; 2], length: usize, number: usize) {
    let (told, out) = agreed(files, length, 255);
    assert_eq!(told[0], number);
    assert_eq!(told[2..], [0; 3]);
    assert!(out.iter().all(|&byte| byte == 255), "the refused output");
}

/// Compares the answers of all sides, then times them.
pub fn share(records: Records) -> Shared {
    compare(&records);
    compare_kinds(&records);
    compare_lengths(&records);
    compare_faults(&records);
    let [library, plain, steps, branches] = time(&records);
    Shared {
        records,
        library,
        plain,
        steps,
        branches,
    }
}

/// Both files, then exchanged; each with itself; and beside no bytes and the file that they count as.
fn compare(records: &Records) {
    let [first, second] = records.in_order();
    let (both, own, longest) = (records.both, records.own(), records.longest());
    // A byte that only one side writes differs from one of the two numbers.
    for full in [0, 255] {
        let (told, out) = agreed([first, second], longest, full);
        assert_eq!(told, [0, 0, both, own, own]);
        assert!(agreed([second, first], longest, full) == (told, out));
        for file in [first, second] {
            let (_, out) = agreed([file, file], longest, full);
            assert!(out == in_version_2(file), "a file with itself");
        }
    }
    let empty = [&first[..5], &[0; 4]].concat();
    for other in [&[][..], &empty] {
        let (_, out) = agreed([other, &[]], empty.len(), 255);
        assert!(out == in_version_2(&empty), "two files without members");
        compare_refusal([first, other], 0, 21);
        compare_refusal([other, second], 0, 21);
    }
}

/// The first file beside its links in other kinds: only kinds 0 and 1 are of equal weight. The kinds written are those of the first.
fn compare_kinds(records: &Records) {
    let (first, longest) = (in_version_2(records.in_order()[0]), records.longest());
    let with = |kind: fn(u8) -> u8| {
        let mut file = first.clone();
        for link in file[9..].chunks_mut(5) {
            link[4] = kind(link[4]);
        }
        file
    };
    for (file, is_one) in [
        (with(|kind| kind ^ u8::from(kind < 2)), true),
        (with(|kind| kind ^ 4), false),
    ] {
        let (told, out) = agreed([&first, &file], longest, 255);
        assert_eq!(told[0], 0);
        assert!((told[2] == records.links()) == is_one);
        assert!((out == first) == is_one);
    }
    // Links of version 1 are such of kind 0.
    let zero = with(|_| 0);
    let narrow = narrowed(&first);
    assert!(agreed([&first, &narrow], longest, 255) == agreed([&first, &zero], longest, 255));
    assert!(agreed([&narrow, &first], longest, 255) == agreed([&zero, &first], longest, 255));
}

/// The file of the same links in version 1.
fn narrowed(file: &[u8]) -> Vec<u8> {
    let mut narrow = file[..9].to_vec();
    narrow[3] = 1;
    narrow.extend(file[9..].chunks(5).flat_map(|link| &link[..4]));
    narrow
}

/// The output needs the length of the file that is written.
fn compare_lengths(records: &Records) {
    let (files, length) = (records.in_order(), length_of_kinds(records.both));
    for longer in [length, length + 5] {
        let (told, _) = agreed(files, longer, 255);
        assert_eq!(told[0], 0);
    }
    for short in [0, length - 1] {
        compare_refusal(files, short, 9);
    }
}

/// Each fault of the first file, or none, with each of the second: the first file's number is given, and the second's where it has none.
fn compare_faults(records: &Records) {
    let faults = |file: &Input| {
        let sound = (0, file.file(Links::Ascending).to_vec());
        let mut all = damaged(file);
        all.push(sound);
        all
    };
    let [first, second] = &records.files;
    for (number, first) in faults(first) {
        for (of_second, second) in faults(second) {
            let number = if number > 0 { number } else { of_second };
            if number > 0 {
                compare_refusal([&first, &second], records.longest(), number);
            }
        }
    }
}

/// The time of one call on each side, the output as long as the files.
fn time(records: &Records) -> [f64; 4] {
    let files = records.in_order();
    let mut calls = SIDES.map(|side| {
        let (mut plain, mut out) = (Plain::default(), vec![0; records.longest()]);
        move || {
            opaque(side.call(&mut plain, opaque(files), &mut out));
        }
    });
    let [library, plain, steps, branches] = &mut calls;
    least_times([library, plain, steps, branches])
}
