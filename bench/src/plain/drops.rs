//! The harmonic measure: the place whose links to places not yet dropped weigh least is dropped, again and again. Places are numbered as in
//! the peel, so that of equal degrees the smaller place goes first.
use super::links::Entry;
use super::peel::Peel;

/// A place has its degree as its key until it is dropped, and then this number and how many were dropped before it. No degree is as great.
const DROPPED: u16 = 32_768;

/// The keys of the places, and a tree of matches between them: the leaves are the places, and at each node the place with the smaller key
/// of the two below it stands, or of equal keys the smaller place. The tables are kept from call to call and grow once.
#[derive(Default)]
pub struct Drops {
    keys: Vec<u16>,
    /// The root is node 1, and below node i are 2 × i and 2 × i + 1: with k places the leaves are the nodes from k on.
    winners: Vec<u16>,
}

/// A state that was met: after how many drops, the weight of its links, and its places.
struct State {
    drops: usize,
    edges: usize,
    places: usize,
}

impl Drops {
    /// Drops the places of a network with links one by one, and writes the groups of the earliest state with the greatest measure. Returns
    /// the weight of its links.
    pub fn harmonic<E: Entry>(&mut self, peel: &Peel<E>, s: &mut [u8], t: &mut [u8]) -> usize {
        self.start(peel.whole());
        let best = self.run(peel);
        let (vouchers, vouched) = self.keys.split_at(s.len());
        write_state(vouchers, best.drops, s);
        write_state(vouched, best.drops, t);
        best.edges
    }

    /// Everyone on both sides.
    fn start(&mut self, whole: &[u16]) {
        self.keys.clear();
        self.keys.extend_from_slice(whole);
        let places = self.keys.len();
        self.winners.resize(2 * places, 0);
        let (keys, winners) = (&self.keys[..], &mut self.winners[..]);
        for (place, leaf) in winners[places..].iter_mut().enumerate() {
            *leaf = place as u16;
        }
        for node in (1..places).rev() {
            winners[node] =
                rank(keys, winners[2 * node]).min(rank(keys, winners[2 * node + 1])) as u16;
        }
    }

    /// Drops places until no link is left: every later state has the measure 0, which is not the greatest.
    fn run<E: Entry>(&mut self, peel: &Peel<E>) -> State {
        // As slices, so that their lengths and places in memory are known to stay as they are.
        let (keys, winners) = (&mut self.keys[..], &mut self.winners[..]);
        let (places, mut edges) = (keys.len(), peel.edges());
        let mut best = State {
            drops: 0,
            edges,
            places,
        };
        let mut drops = 0;
        while edges > 0 {
            let first = winners[1];
            let place = usize::from(first);
            edges -= usize::from(keys[place]);
            keys[place] = DROPPED + drops as u16;
            drops += 1;
            replay(keys, winners, first);
            for entry in peel.row(place) {
                let other = entry.place();
                if keys[usize::from(other)] < DROPPED {
                    keys[usize::from(other)] -= entry.weight();
                    rise(keys, winners, other);
                }
            }
            let left = places - drops;
            if edges * best.places > best.edges * left {
                best = State {
                    drops,
                    edges,
                    places: left,
                };
            }
        }
        best
    }
}

/// The place with the smaller rank wins a match: the one with the smaller key, or of equal keys the smaller place.
fn rank(keys: &[u16], place: u16) -> u32 {
    u32::from(keys[usize::from(place)]) << 16 | u32::from(place)
}

/// Plays the matches of a place whose key rose again, up to the root: it had won them all.
fn replay(keys: &[u16], winners: &mut [u16], place: u16) {
    let mut node = keys.len() + usize::from(place);
    let mut best = rank(keys, place);
    while node > 1 {
        best = best.min(rank(keys, winners[node ^ 1]));
        node /= 2;
        winners[node] = best as u16;
    }
}

/// Plays the matches of a place whose key fell, up to the first that it still loses: above that one nothing changes.
fn rise(keys: &[u16], winners: &mut [u16], place: u16) {
    let mut node = keys.len() + usize::from(place);
    let own = rank(keys, place);
    while node > 1 && own < rank(keys, winners[node ^ 1]) {
        node /= 2;
        winners[node] = place;
    }
}

/// Whoever was not among the first so many that were dropped.
fn write_state(keys: &[u16], drops: usize, group: &mut [u8]) {
    for (byte, &key) in group.iter_mut().zip(keys) {
        *byte = u8::from(key < DROPPED || usize::from(key - DROPPED) >= drops);
    }
}
