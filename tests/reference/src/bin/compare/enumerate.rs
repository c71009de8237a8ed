//! Networks of up to four members, where every pair of groups can be looked at.
use crate::calls::try_all;
use crate::case::Case;
use crate::inside::Groups;
use crate::link_kinds::{perhaps_with_kinds, with_kinds, KINDS};
use crate::one_order::try_one_order;
use cogsplice::lent;
use networks::{Kinded, Link, Network, Vouch};
use reference::{weight, work_length};
use std::cmp::Reverse;

/// Groups as sets of bits, one for each member.
type Pair = (usize, usize);

/// A network, the groups A and B that every pair lies in, and every such pair with the least that a member's links weigh on either side.
struct Search {
    network: Kinded,
    within: Pair,
    pairs: Vec<(Pair, [usize; 2])>,
}

/// The network of a picture, whose bit a × n + b stands for the link from a to b; its links are in order.
pub fn of_picture(n: usize, picture: usize) -> Network {
    let places = (0..n * n).filter(|place| picture >> place & 1 == 1);
    let links = places.map(|place| (place / n, place % n)).collect();
    Network { n, links }
}

/// n and a picture: all for n up to 3 come first, then random ones for 4.
pub fn pictured(case: &mut Case) -> (usize, usize) {
    let mut number = case.number as usize;
    let mut n = 0;
    while n < 4 && number >= 1 << (n * n) {
        number -= 1 << (n * n);
        n += 1;
    }
    let picture = if n < 4 {
        number
    } else {
        case.draw.below(1 << 16)
    };
    (n, picture)
}

/// A and B to search inside: all of them for n up to 2, else everyone and three drawn pairs.
fn withins(case: &mut Case, n: usize) -> Vec<Pair> {
    let everyone = (1 << n) - 1;
    if n <= 2 {
        return all_pairs((everyone, everyone)).collect();
    }
    let mut drawn = || case.draw.below(1 << n);
    let mut withins = vec![(everyone, everyone)];
    withins.extend([(); 3].map(|()| (drawn(), drawn())));
    withins
}

fn inside(group: usize, member: usize) -> bool {
    group >> member & 1 == 1
}

fn is_part(group: usize, of: usize) -> bool {
    group & !of == 0
}

/// Whether a link goes from S to T.
fn between((s, t): Pair, (voucher, vouched): Link) -> bool {
    inside(s, voucher) && inside(t, vouched)
}

/// E(S,T), the sum of the weights.
fn edges(network: &Kinded, pair: Pair) -> usize {
    let links = network.links.iter().filter(|vouch| between(pair, vouch.0));
    links.map(|vouch| weight(vouch.1)).sum()
}

/// The least that the links of a member of S into T weigh, and those of a member of T from S; the greatest number where nobody is there.
fn least(network: &Kinded, (s, t): Pair) -> [usize; 2] {
    let members = |group| (0..network.n).filter(move |&member| inside(group, member));
    let given = members(s).map(|member| edges(network, (1 << member, t)));
    let taken = members(t).map(|member| edges(network, (s, 1 << member)));
    [given.min(), taken.min()].map(|least| least.unwrap_or(usize::MAX))
}

/// Whether the links of each member of S into T weigh at least x and those of each member of T from S at least y.
fn satisfies(network: &Kinded, pair: Pair, x: usize, y: usize) -> bool {
    let [given, taken] = least(network, pair);
    given >= x && taken >= y
}

/// Every pair of groups inside A and B.
fn all_pairs((a, b): Pair) -> impl Iterator<Item = Pair> {
    let parts = |of: usize| (0..=of).filter(move |&group| is_part(group, of));
    parts(a).flat_map(move |s| parts(b).map(move |t| (s, t)))
}

impl Search {
    fn new(network: Kinded, within: Pair) -> Search {
        let pairs = all_pairs(within).map(|pair| (pair, least(&network, pair)));
        Search {
            pairs: pairs.collect(),
            network,
            within,
        }
    }

    /// A, B and a work table as they are lent.
    fn tables(&self) -> (Groups, Vec<u16>) {
        let (n, m) = (self.network.n, self.network.links.len());
        let bytes = |group| (0..n).map(|member| inside(group, member) as u8).collect();
        let (a, b) = self.within;
        ([bytes(a), bytes(b)], vec![0; work_length(n, m)])
    }

    /// The network of the links whose numbers are kept.
    fn only(&self, keep: impl Fn(usize) -> bool) -> Kinded {
        let links = self.network.links.iter().enumerate();
        let kept = links.filter(|&(e, _)| keep(e)).map(|(_, &vouch)| vouch);
        Kinded {
            links: kept.collect(),
            ..self.network.clone()
        }
    }

    /// Every pair of groups inside A and B in which the links of each member of S into T weigh at least x and those of each member of T
    /// from S at least y.
    fn satisfying(&self, x: usize, y: usize) -> impl Iterator<Item = Pair> + '_ {
        let pairs = self.pairs.iter();
        let enough = move |&&(_, [given, taken]): &&(Pair, [usize; 2])| given >= x && taken >= y;
        pairs.filter(enough).map(|&(pair, _)| pair)
    }

    /// The greatest x and y of at least 1 that each pair of non-empty groups satisfies.
    fn alive(&self) -> Vec<(usize, usize)> {
        let non_empty = self.pairs.iter().filter(|((s, t), _)| *s > 0 && *t > 0);
        let numbers = non_empty.map(|&(_, [given, taken])| (given, taken));
        numbers.filter(|&(x, y)| x > 0 && y > 0).collect()
    }

    /// Numbers to ask for: all up to n + 1, or with kinds 0, 1 and those up to which a pair satisfies and where it does no more, so many
    /// of them.
    fn numbers(&self, case: &mut Case) -> Vec<usize> {
        let top = self.network.n + 2;
        let mut numbers: Vec<usize> = (0..top).collect();
        if self.network.version == 2 {
            let least = self.alive().into_iter().flat_map(|(x, y)| [x, y]);
            numbers = least.flat_map(|least| [least, least + 1]).collect();
            numbers.extend([0, 1]);
            numbers.sort();
            numbers.dedup();
            while numbers.len() > top + 1 {
                numbers.remove(case.draw.among(1, numbers.len() - 1));
            }
        }
        numbers
    }
}

/// The library's [x,y]-core, and E, |S| and |T| with it.
fn library_core(case: &Case, search: &Search, x: usize, y: usize) -> (Pair, [usize; 3]) {
    let n = search.network.n;
    let (mut s, mut t) = (vec![0; n], vec![0; n]);
    let ([a, b], mut work) = search.tables();
    let [asked_x, asked_y] = [x, y].map(|asked| asked as u16);
    let core = lent::core(
        &case.file, &a, &b, asked_x, asked_y, &mut s, &mut t, &mut work,
    );
    (
        (bits(&s), bits(&t)),
        [core.edges as usize, core.sources, core.targets],
    )
}

fn bits(group: &[u8]) -> usize {
    (0..group.len())
        .map(|member| (group[member] as usize) << member)
        .sum()
}

fn size(group: usize) -> usize {
    group.count_ones() as usize
}

pub fn enumerate(case: &mut Case) {
    let (n, picture) = pictured(case);
    let network = of_picture(n, picture);
    if n == 4 {
        let network = perhaps_with_kinds(&mut case.draw, &network);
        return try_network(case, &network);
    }
    let of_kinds = with_kinds(&mut case.draw, &network);
    try_network(case, &Kinded::from(&network));
    try_network(case, &of_kinds);
    if n <= 2 {
        try_weights(case, &network);
    }
}

/// Every call, and what is promised of it by the definitions.
fn try_network(case: &mut Case, network: &Kinded) {
    let kind = picture_kind(network);
    case.kind = kind.clone();
    case.file = network.encode();
    try_all(case);
    try_one_order(case, network);
    for within in withins(case, network.n) {
        case.kind = format!("{kind}, inside {:#b} and {:#b}", within.0, within.1);
        try_search(case, &Search::new(network.clone(), within));
    }
    case.kind = kind;
    try_harmonic(case, network);
}

fn picture_kind(network: &Kinded) -> String {
    let (version, m) = (network.version, network.links.len());
    format!("picture, version {version}, n {}, m {m}", network.n)
}

/// What is promised by the definitions, for all kinds of different weight at all links.
fn try_weights(case: &mut Case, network: &Network) {
    let everyone = (1 << network.n) - 1;
    for kinds in all_kinds(network.links.len()) {
        let links: Vec<Vouch> = network.links.iter().copied().zip(kinds).collect();
        let network = Kinded::new(network.n, &links);
        case.kind = picture_kind(&network);
        case.file = network.encode();
        try_search(case, &Search::new(network.clone(), (everyone, everyone)));
        try_harmonic(case, &network);
    }
}

/// All ways to give so many links the kinds 1 to 7, of which no two weigh the same.
fn all_kinds(links: usize) -> Vec<Vec<u8>> {
    let mut all = vec![Vec::new()];
    for _ in 0..links {
        let longer = |kinds: Vec<u8>| (1..KINDS).map(move |kind| [&kinds[..], &[kind]].concat());
        all = all.into_iter().flat_map(longer).collect();
    }
    all
}

/// Every call that searches inside A and B.
fn try_search(case: &mut Case, search: &Search) {
    let numbers = search.numbers(case);
    let pairs = numbers
        .iter()
        .flat_map(|x| numbers.iter().map(move |y| (x, y)));
    for (&x, &y) in pairs {
        try_core_by_definition(case, search, x, y);
    }
    try_levels(case, search, &numbers[1..]);
    try_finding(case, search);
    try_layers(case, search);
}

/// x and y of the finding by the definition: the greatest product, then the smallest difference, then the smallest x; 0 and 0 where
/// there is none. With smaller numbers a pair has a smaller product.
fn best_of(alive: &[(usize, usize)]) -> (usize, usize) {
    let first = |&&(x, y): &&(usize, usize)| (Reverse(x * y), x.abs_diff(y), x);
    let best = alive.iter().min_by_key(first);
    best.copied().unwrap_or((0, 0))
}

/// The core lies inside A and B and satisfies the definition, and every other such pair has its S inside this S and its T inside this T.
/// For x = 0 S is A, for y = 0 T is B.
fn try_core_by_definition(case: &mut Case, search: &Search, x: usize, y: usize) {
    let Search {
        network, within, ..
    } = search;
    let (core, numbers) = library_core(case, search, x, y);
    let expected = [edges(network, core), size(core.0), size(core.1)];
    case.compare(|| format!("core {x} {y}: numbers"), expected, numbers);
    let lies = is_part(core.0, within.0) && is_part(core.1, within.1);
    case.compare(|| format!("core {x} {y}: inside"), true, lies);
    let satisfied = satisfies(network, core, x, y);
    case.compare(|| format!("core {x} {y}: satisfies"), true, satisfied);
    let largest = search
        .satisfying(x, y)
        .all(|(s, t)| is_part(s, core.0) && is_part(t, core.1));
    case.compare(|| format!("core {x} {y}: largest"), true, largest);
    let whole = (x > 0 || core.0 == within.0) && (y > 0 || core.1 == within.1);
    case.compare(|| format!("core {x} {y}: whole for 0"), true, whole);
}

/// Levels by the definition: the largest number of at least 1 with a non-empty core, or 0.
fn try_levels(case: &mut Case, search: &Search, numbers: &[usize]) {
    let alive = search.alive();
    let largest = |level: &dyn Fn(usize, usize) -> Option<usize>| {
        let levels = alive.iter().filter_map(|&(x, y)| level(x, y));
        levels.max().unwrap_or(0)
    };
    let ([a, b], mut work) = search.tables();
    for &asked in numbers {
        let level = lent::level(&case.file, &a, &b, asked as u16, &mut work).level;
        let expected = largest(&|x, y| (x >= asked).then_some(y));
        case.compare(|| format!("level {asked}"), expected, level);
        let across = lent::level_across(&case.file, &a, &b, asked as u16, &mut work).level;
        let expected = largest(&|x, y| (y >= asked).then_some(x));
        case.compare(|| format!("level_across {asked}"), expected, across);
    }
    let equal = lent::equal_level(&case.file, &a, &b, &mut work).level;
    let expected = largest(&|x, y| Some(x.min(y)));
    case.compare(|| "equal_level".into(), expected, equal);
}

/// The finding by the definition, and its bounds; its x × y is 0 exactly when no link goes from A to B.
fn try_finding(case: &mut Case, search: &Search) {
    let Search {
        network, within, ..
    } = search;
    let best = best_of(&search.alive());
    let (mut s, mut t) = (vec![0; network.n], vec![0; network.n]);
    let ([a, b], mut work) = search.tables();
    let found = lent::finding(&case.file, &a, &b, &mut s, &mut t, &mut work);
    case.compare(|| "finding: x and y".into(), best, (found.x, found.y));
    let quiet = edges(network, *within) == 0;
    let zero = found.x * found.y == 0;
    case.compare(|| "finding: x × y is 0".into(), quiet, zero);
    try_bounds(case, "finding", search, best, (bits(&s), bits(&t)));
}

/// The layers by the definition, and the bounds of each over the links still in at its start. Every link that does not go from A to B
/// has 0.
fn try_layers(case: &mut Case, search: &Search) {
    let Search {
        network, within, ..
    } = search;
    let m = network.links.len();
    let mut layers = vec![0; m];
    let ([a, b], mut work) = search.tables();
    let count = lent::layers(&case.file, &a, &b, &mut layers, &mut work).layers;
    let layer_of = |e: usize| usize::from(layers[e]);
    let is_told = |e: usize| {
        if between(*within, network.links[e].0) {
            (1..=count).contains(&layer_of(e))
        } else {
            layer_of(e) == 0
        }
    };
    let told = (0..m).all(is_told) && count <= m;
    case.compare(|| "layers: from 1 to their number, or 0".into(), true, told);
    let (mut product, mut sum) = (usize::MAX, 0);
    for layer in 1..=count.min(m) {
        let name = format!("layer {layer}");
        let still_in = search.only(|e| layer_of(e) >= layer);
        let still_in = Search::new(still_in, *within);
        let taken = search.only(|e| layer_of(e) == layer);
        let best = best_of(&still_in.alive());
        let pair = core_by_definition(&still_in, best);
        let mut expected = still_in.network.clone();
        expected.links.retain(|vouch| between(pair, vouch.0));
        case.compare(|| format!("{name}: links"), &expected, &taken);
        let falls = best.0 * best.1 <= product;
        case.compare(|| format!("{name}: its product does not rise"), true, falls);
        // The groups as the library's links name them.
        let named = taken
            .links
            .iter()
            .fold((0, 0), |(s, t), &((a, b), _)| (s | 1 << a, t | 1 << b));
        try_bounds(case, &name, &still_in, best, named);
        product = best.0 * best.1;
        sum += edges(&still_in.network, named);
    }
    let from_a_to_b = edges(network, *within);
    case.compare(|| "layers: the sum of their E".into(), from_a_to_b, sum);
}

/// The harmonic call: its numbers are those of the pair written, both groups are empty exactly when there is no link, and no pair of
/// non-empty groups has more than twice the measure of the pair written.
fn try_harmonic(case: &mut Case, network: &Kinded) {
    let (n, m) = (network.n, network.links.len());
    let (mut s, mut t, mut work) = (vec![0; n], vec![0; n], vec![0; work_length(n, m)]);
    let told = lent::harmonic(&case.file, &mut s, &mut t, &mut work);
    let found = (bits(&s), bits(&t));
    let numbers = [told.edges as usize, told.sources, told.targets];
    let counted = [edges(network, found), size(found.0), size(found.1)];
    case.compare(|| "harmonic: numbers".into(), counted, numbers);
    let groups = match m {
        0 => found == (0, 0),
        _ => found.0 > 0 && found.1 > 0,
    };
    case.compare(|| "harmonic: groups".into(), true, groups);
    let sizes = |(s, t): Pair| size(s) + size(t);
    let everyone = (1 << n) - 1;
    let twice = all_pairs((everyone, everyone))
        .filter(|&(s, t)| s > 0 && t > 0)
        .all(|pair| edges(network, pair) * sizes(found) <= 2 * edges(network, found) * sizes(pair));
    case.compare(|| "harmonic: factor two".into(), true, twice);
}

/// The [x,y]-core by the definition: the union of all pairs that satisfy it.
fn core_by_definition(search: &Search, (x, y): (usize, usize)) -> Pair {
    search
        .satisfying(x, y)
        .fold((0, 0), |(s, t), pair| (s | pair.0, t | pair.1))
}

/// No pair of non-empty groups inside A and B has more than twice the density of the pair found. Its groups are non-empty, or both empty
/// where x × y is 0.
fn try_bounds(case: &mut Case, name: &str, search: &Search, (x, y): (usize, usize), found: Pair) {
    let squared = |pair| edges(&search.network, pair).pow(2);
    let area = |(s, t): Pair| size(s) * size(t);
    let groups = match x * y {
        0 => found == (0, 0),
        _ => area(found) > 0,
    };
    let below = squared(found) >= x * y * area(found) && groups;
    let pairs = search.pairs.iter().map(|&(pair, _)| pair);
    let non_empty = || pairs.clone().filter(|&pair| area(pair) > 0);
    let above = non_empty().all(|pair| squared(pair) <= 4 * x * y * area(pair));
    let twice =
        non_empty().all(|pair| squared(pair) * area(found) <= 4 * squared(found) * area(pair));
    case.compare(|| format!("{name}: bound from below"), true, below);
    case.compare(|| format!("{name}: bound from above"), true, above);
    case.compare(|| format!("{name}: factor two"), true, twice);
}
