//! The call on two findings: its sides, the comparison of their answers, and their times.
use crate::measure::{least_times, opaque};
use crate::pairs::{Finding, Pair};
use crate::plain::{self, Lent, Refusal};
use cogsplice::lent;

/// Two findings, and the time of one call on each side, in microseconds.
pub struct Compared {
    pub pair: Pair,
    pub library: f64,
    pub plain: f64,
    /// Plain Rust that compares before it tests.
    pub first: f64,
}

impl Compared {
    pub fn ratio(&self) -> f64 {
        self.library / self.plain
    }
}

/// The refusal, and whether the findings are equal.
type Told = (u16, bool);

type Side = fn(&[Finding; 2]) -> Told;

/// The sides, the library first.
const SIDES: [Side; 3] = [library, plain, compared_first];

fn library([one, other]: &[Finding; 2]) -> Told {
    let told = lent::equal_findings(
        one.x, one.y, one.n, &one.s, &one.t, other.x, other.y, other.n, &other.s, &other.t,
    );
    (told.refusal, told.equal)
}

fn plain(findings: &[Finding; 2]) -> Told {
    told(plain::equal_findings(&lent(findings)))
}

fn compared_first(findings: &[Finding; 2]) -> Told {
    told(plain::compared_first(&lent(findings)))
}

fn lent([one, other]: &[Finding; 2]) -> [Lent<'_>; 2] {
    [one, other].map(|one| Lent {
        x: one.x,
        y: one.y,
        n: one.n,
        s: &one.s,
        t: &one.t,
    })
}

fn told(answer: Result<bool, Refusal>) -> Told {
    match answer {
        Ok(equal) => (0, equal),
        Err(refusal) => (refusal.number, false),
    }
}

/// What every side answers.
fn agreed(findings: &[Finding; 2]) -> Told {
    let [library, others @ ..] = SIDES.map(|side| side(findings));
    assert!(others == [library; 2], "the sides differ");
    library
}

/// Compares the answers of all sides, then times them.
pub fn compare(pair: Pair) -> Compared {
    let [one, other] = &pair.findings;
    assert_eq!(agreed(&pair.findings), (0, one == other));
    compare_numbers(&pair);
    compare_refusals(&pair);
    let [library, plain, first] = time(&pair.findings);
    Compared {
        pair,
        library,
        plain,
        first,
    }
}

/// Findings of two y are not equal, nor are those of two n. The bytes past a finding's own n are not read, and need not be there.
fn compare_numbers(pair: &Pair) {
    let last = pair.n() - 1;
    let mut longer = pair.findings.clone();
    for (one, past) in longer.iter_mut().zip([2, 255]) {
        one.s.push(past);
        one.t.push(past);
    }
    assert_eq!(agreed(&longer), agreed(&pair.findings));
    for which in [0, 1] {
        let mut higher = longer.clone();
        higher[which].y += 1;
        assert_eq!(agreed(&higher), (0, false));
        let mut shorter = longer.clone();
        shorter[which].n = last;
        shorter[which].s[last] = 2;
        assert_eq!(agreed(&shorter), (0, false));
        shorter[which].s.truncate(last);
        shorter[which].t.truncate(last);
        assert_eq!(agreed(&shorter), (0, false));
        shorter[1 - which].s[last] = 2;
        assert_eq!(agreed(&shorter), (11, false));
    }
}

/// What a finding is refused for.
type Fault = fn(&mut Finding);

/// Faults, each with the number for it.
const FAULTS: [(u16, Fault); 7] = [
    (4, |one| one.n = usize::MAX),
    (4, |one| {
        one.n = 2049;
        one.s.resize(2049, 0);
        one.t.resize(2049, 0);
    }),
    (9, |one| one.s.truncate(one.n - 1)),
    (9, |one| one.t.truncate(one.n - 1)),
    (11, |one| one.s[0] = 2),
    (11, |one| one.t[0] = 255),
    (11, |one| {
        one.t.pop();
        one.t.push(3);
    }),
];

/// Each two faults, of one finding or of both, get the refusal that comes first from every side: the least.
fn compare_refusals(pair: &Pair) {
    let faults = || {
        [0, 1]
            .into_iter()
            .flat_map(|which| FAULTS.map(|fault| (which, fault)))
    };
    for (which, (number, fault)) in faults() {
        let mut findings = pair.findings.clone();
        fault(&mut findings[which]);
        for (which, (second, fault)) in faults() {
            let mut findings = findings.clone();
            fault(&mut findings[which]);
            assert_eq!(agreed(&findings), (number.min(second), false));
        }
    }
}

/// The time of one call on each side.
fn time(findings: &[Finding; 2]) -> [f64; 3] {
    let mut calls = SIDES.map(|side| {
        move || {
            opaque(side(opaque(findings)));
        }
    });
    let [library, plain, first] = &mut calls;
    least_times([library, plain, first])
}
