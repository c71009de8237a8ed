//! Files that are refused: each fault of the first, or none, with each of the second, over one n and over two, and files with changed bytes.
use super::{expect, refused, try_files};
use crate::case::Case;
use crate::damage::{change_bytes, faulty_file, FILE_FAULTS};
use crate::networks::{roomy_network, small_file};
use networks::{Draw, Kinded};
use reference::{check, first_of};

/// A network's file, and the number that refuses it, or 0.
type Spoilt = (Vec<u8>, u16);

/// The file of a network with this fault, now and then with another one too; without any for 0.
fn spoilt(draw: &mut Draw, network: &Kinded, fault: u16) -> Spoilt {
    let mut faults = vec![fault];
    if fault > 0 && draw.one_in(3) {
        faults.push(draw.pick(&FILE_FAULTS));
    }
    (faulty_file(draw, network, &faults), first_of(&faults))
}

fn over_another_n(case: &mut Case, n: usize) -> Kinded {
    loop {
        let network = roomy_network(case);
        if network.n != n {
            return network;
        }
    }
}

/// The first file's number comes first, with its link, then the second's, then 21, then 9.
fn expect_first(case: &mut Case, files: [&Spoilt; 2], same_n: bool) {
    let refusing = files.into_iter().find(|(_, number)| *number > 0);
    let wanted = match refusing {
        Some((file, number)) => refused(*number, check(file).link),
        None if same_n => refused(9, 0),
        None => refused(21, 0),
    };
    let what = format!("numbers {:?}", files.map(|(_, number)| number));
    let files = files.map(|(file, _)| &file[..]);
    for length in [0, 8] {
        expect(case, &what, files, length, wanted);
    }
    match wanted.refusal {
        9 => try_files(case, &what, files),
        _ => {
            let enough = files[0].len().max(files[1].len());
            expect(case, &what, files, enough, wanted);
        }
    }
}

/// A file against the same with changed bytes, this against itself, and against no bytes.
fn try_changes(case: &mut Case) {
    small_file(case);
    let whole = case.file.clone();
    let mut changed = whole.clone();
    change_bytes(&mut case.draw, &mut changed);
    for files in [
        [&whole[..], &changed],
        [&changed, &changed],
        [&changed, &[]],
    ] {
        try_files(case, "changed bytes", files);
    }
}

/// The faults of the first file by turns, and no fault, each with every one of the second and with none.
pub fn try_faults(case: &mut Case) {
    let faults = [&[0], &FILE_FAULTS[..]].concat();
    let fault = faults[case.number as usize % faults.len()];
    let network = roomy_network(case);
    let other = over_another_n(case, network.n);
    let first = spoilt(&mut case.draw, &network, fault);
    for &fault in &faults {
        let second = spoilt(&mut case.draw, &network, fault);
        expect_first(case, [&first, &second], true);
        let second = spoilt(&mut case.draw, &other, fault);
        expect_first(case, [&first, &second], false);
        expect_first(case, [&second, &first], false);
    }
    try_changes(case);
}
