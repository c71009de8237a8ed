//! The finder of the harmonic measure, 2 × E(S,T) / (|S| + |T|).
use crate::answers::{refuse, too_short, Refusal, Refused};
use crate::cores::{degrees, put, work_length};
use crate::file::read;
use crate::groups::{totals, Group};
use cogsplice::lent::TotalsNumbers;
use networks::Kinded;

/// The voucher side comes first.
#[derive(Clone, Copy, PartialEq, Eq, PartialOrd, Ord)]
enum Side {
    Voucher,
    Vouched,
}

/// A side and a member. Places are in order by the side, then by the member.
#[derive(Clone, Copy, PartialEq, Eq, PartialOrd, Ord)]
struct Place {
    side: Side,
    member: usize,
}

/// The places not yet dropped: S those of the voucher side, T those of the other.
#[derive(Clone)]
struct State {
    s: Group,
    t: Group,
}

impl State {
    /// Everyone in both groups, or nobody.
    fn of_all(n: usize, inside: bool) -> State {
        State {
            s: vec![inside; n],
            t: vec![inside; n],
        }
    }

    fn is_empty(&self) -> bool {
        !self.s.contains(&true) && !self.t.contains(&true)
    }

    /// Each place not yet dropped, with the weight of its links to places not yet dropped.
    fn places(&self, network: &Kinded) -> Vec<(usize, Place)> {
        let (given, taken) = degrees(network, &self.s, &self.t);
        let sides = [
            (Side::Voucher, &self.s, given),
            (Side::Vouched, &self.t, taken),
        ];
        let mut places = Vec::new();
        for (side, group, weights) in sides {
            for member in (0..network.n).filter(|&member| group[member]) {
                places.push((weights[member], Place { side, member }));
            }
        }
        places
    }

    /// The state without the place whose links weigh least, of those that weigh as little the first.
    fn drop_one(mut self, network: &Kinded) -> State {
        if let Some((_, Place { side, member })) = self.places(network).into_iter().min() {
            match side {
                Side::Voucher => self.s[member] = false,
                Side::Vouched => self.t[member] = false,
            }
        }
        self
    }
}

/// Whether the measure of one pair is greater than that of another.
fn is_denser(one: TotalsNumbers, other: TotalsNumbers) -> bool {
    let size = |pair: TotalsNumbers| pair.sources + pair.targets;
    one.edges as usize * size(other) > other.edges as usize * size(one)
}

/// Of all states before the empty one the earliest with the greatest measure, and its E, |S| and |T|; nobody where there is no link.
fn best_state(network: &Kinded) -> (State, TotalsNumbers) {
    let counted = |state: &State| totals(network, &state.s, &state.t);
    if network.links.is_empty() {
        let nobody = State::of_all(network.n, false);
        let numbers = counted(&nobody);
        return (nobody, numbers);
    }
    let mut state = State::of_all(network.n, true);
    let mut best = (state.clone(), counted(&state));
    loop {
        state = state.drop_one(network);
        if state.is_empty() {
            return best;
        }
        let numbers = counted(&state);
        if is_denser(numbers, best.1) {
            best = (state.clone(), numbers);
        }
    }
}

/// The harmonic call: writes S and T of the best state.
pub fn harmonic(file: &[u8], s: &mut [u8], t: &mut [u8], work: usize) -> TotalsNumbers {
    try_harmonic(file, s, t, work).unwrap_or_else(Refused::refused)
}

fn try_harmonic(
    file: &[u8],
    s: &mut [u8],
    t: &mut [u8],
    work: usize,
) -> Result<TotalsNumbers, Refusal> {
    let network = read(file)?;
    let (n, m) = (network.n, network.links.len());
    let short = too_short(&[(s.len(), n), (t.len(), n), (work, work_length(n, m))]);
    refuse(&[(9, short)])?;
    let (best, numbers) = best_state(&network);
    put(&best.s, s);
    put(&best.t, t);
    Ok(numbers)
}
