//! The networks that are measured, the same in every run.
use networks::{Draw, Link, Network};

/// How the links of a file stand.
#[derive(Clone, Copy, PartialEq, Eq)]
pub enum Links {
    /// In order: every call accepts the file.
    Ascending,
    /// In random order: every call but `order` refuses the file by 15.
    Shuffled,
    /// In random order, the last the same as the first: every call refuses the file by 8.
    Repeating,
}

impl Links {
    pub fn name(self) -> &'static str {
        match self {
            Links::Ascending => "ascending",
            Links::Shuffled => "in random order",
            Links::Repeating => "in random order, the last a repeat",
        }
    }

    /// A call or a network by its name, and how the links stand where they do not ascend.
    pub fn of(self, name: &str) -> String {
        match self {
            Links::Ascending => name.to_string(),
            Links::Shuffled | Links::Repeating => format!("{name}, links {}", self.name()),
        }
    }
}

/// A network, its files and what it is called in the tables.
#[derive(Clone)]
pub struct Input {
    pub name: String,
    /// The version of its files.
    pub version: u8,
    pub n: usize,
    pub m: usize,
    /// The links, in random order.
    links: Vec<Link>,
    ascending: Vec<u8>,
    shuffled: Vec<u8>,
    repeating: Vec<u8>,
    /// The groups A and B that the calls search inside.
    pub a: Vec<u8>,
    pub b: Vec<u8>,
    /// Two groups for the count, each member in with a chance of one half.
    pub s: Vec<u8>,
    pub t: Vec<u8>,
}

impl Input {
    /// The network of links in random order, of version 1, searched with everyone in A and B.
    pub fn new(name: &str, n: usize, links: Vec<Link>, random: &mut Draw) -> Self {
        let mut group = || (0..n).map(|_| random.below(2) as u8).collect();
        let of_kind_0 = links.iter().map(|&link| (link, 0));
        let [ascending, shuffled, repeating] = files(1, n, of_kind_0.collect());
        Self {
            name: name.to_string(),
            version: 1,
            n,
            m: links.len(),
            links,
            ascending,
            shuffled,
            repeating,
            a: vec![1; n],
            b: vec![1; n],
            s: group(),
            t: group(),
        }
    }

    /// The same network with a kind for each link, of version 2.
    pub fn with_kinds(&self, mut kind: impl FnMut() -> u8) -> Self {
        let links = self.links.iter().map(|&link| (link, kind()));
        let [ascending, shuffled, repeating] = files(2, self.n, links.collect());
        Self {
            version: 2,
            ascending,
            shuffled,
            repeating,
            ..self.clone()
        }
    }

    /// How many bytes a link has in the files.
    pub fn stride(&self) -> usize {
        stride(self.version)
    }

    /// The file in which the links stand so.
    pub fn file(&self, links: Links) -> &[u8] {
        match links {
            Links::Ascending => &self.ascending,
            Links::Shuffled => &self.shuffled,
            Links::Repeating => &self.repeating,
        }
    }

    /// The same network, searched with every other member in A and B.
    pub fn half(&self) -> Self {
        let group: Vec<u8> = (0..self.n).map(|member| (member % 2 == 0) as u8).collect();
        Self {
            name: format!("{}, half of the members", self.name),
            a: group.clone(),
            b: group,
            ..self.clone()
        }
    }
}

/// The file of links in order, that in which they stand as they do here, and that in which the last is the same as the first.
fn files(version: u8, n: usize, mut links: Vec<(Link, u8)>) -> [Vec<u8>; 3] {
    let shuffled = encode(version, n, &links);
    let (mut repeating, stride) = (shuffled.clone(), stride(version));
    repeating.copy_within(9..9 + stride, shuffled.len() - stride);
    links.sort_unstable();
    [encode(version, n, &links), shuffled, repeating]
}

/// The bytes of a file of links with their kinds, which only version 2 has.
fn encode(version: u8, n: usize, links: &[(Link, u8)]) -> Vec<u8> {
    let number = |number: usize| (number as u16).to_le_bytes();
    let mut file = b"VCH".to_vec();
    for number in [usize::from(version), n, links.len()].map(number) {
        file.extend(number);
    }
    for &((voucher, vouched), kind) in links {
        file.extend(number(voucher));
        file.extend(number(vouched));
        file.extend((version == 2).then_some(kind));
    }
    file
}

fn stride(version: u8) -> usize {
    3 + usize::from(version)
}

/// The length in bytes of a file of version 2 of m links.
pub fn length_of_kinds(m: usize) -> usize {
    9 + stride(2) * m
}

/// The file of the same links in version 2, where those of version 1 have kind 0.
pub fn in_version_2(file: &[u8]) -> Vec<u8> {
    if file[3] == 2 {
        return file.to_vec();
    }
    let mut wide = file[..9].to_vec();
    wide[3] = 2;
    for link in file[9..].chunks(4) {
        wide.extend(link);
        wide.push(0);
    }
    wide
}

/// A member below `end`, member a with a chance that falls as a^(-2/3).
fn leaning(random: &mut Draw, end: usize) -> usize {
    let uniform = random.number() as f64 / (u64::MAX as f64 + 1.0);
    ((uniform.powi(3) * end as f64) as usize).min(end - 1)
}

/// Adds drawn links that are not there yet, up to m in all.
fn fill(links: &mut Vec<Link>, n: usize, m: usize, mut draw: impl FnMut() -> Link) {
    let mut present = vec![false; n * n];
    for &(source, target) in links.iter() {
        present[source * n + target] = true;
    }
    while links.len() < m {
        let (source, target) = draw();
        if !std::mem::replace(&mut present[source * n + target], true) {
            links.push((source, target));
        }
    }
}

/// So many different links, in random order.
pub fn uniform(n: usize, m: usize, random: &mut Draw) -> Vec<Link> {
    let mut links = Vec::new();
    fill(&mut links, n, m, || (random.below(n), random.below(n)));
    links
}

fn power_law(n: usize, m: usize, random: &mut Draw) -> Vec<Link> {
    let mut links = Vec::new();
    fill(&mut links, n, m, || {
        (leaning(random, n), leaning(random, n))
    });
    random.shuffle(&mut links);
    links
}

/// Every member of the first half vouches for every member of the second.
fn block(half: usize, random: &mut Draw) -> Vec<Link> {
    let row = |source| (half..2 * half).map(move |target| (source, target));
    let mut links: Vec<Link> = (0..half).flat_map(row).collect();
    random.shuffle(&mut links);
    links
}

/// Member i, counted from 1, vouches for the first area / i members: for every x up to the root of the area no core of a greater
/// y is non-empty than that of about area / x, and all these products are nearly equal.
fn staircase(area: usize, random: &mut Draw) -> Vec<Link> {
    let row = |source| (0..area / (source + 1)).map(move |target| (source, target));
    let mut links: Vec<Link> = (0..area).flat_map(row).collect();
    random.shuffle(&mut links);
    links
}

/// Members 0 to 39 vouch for nearly all of the members 100 to 129, and the other links are random.
fn planted(n: usize, m: usize, random: &mut Draw) -> Vec<Link> {
    let pairs = (0..40).flat_map(|source| (100..130).map(move |target| (source, target)));
    let mut links: Vec<Link> = pairs.filter(|_| random.below(10) > 0).collect();
    fill(&mut links, n, m, || (random.below(n), random.below(n)));
    random.shuffle(&mut links);
    links
}

fn star_out(n: usize, random: &mut Draw) -> Vec<Link> {
    let mut links: Vec<Link> = (1..n).map(|target| (0, target)).collect();
    random.shuffle(&mut links);
    links
}

fn reversed(links: &[Link]) -> Vec<Link> {
    let turn = |&(source, target): &Link| (target, source);
    links.iter().map(turn).collect()
}

/// Stars of every size up to `most`, one out and one in of each, that share no place: two layers for each size from 2 on.
fn stars(most: usize, random: &mut Draw) -> Vec<Link> {
    let leaves = most * (most + 1) / 2;
    let star = |size: usize| {
        let first = size * (size - 1) / 2;
        (first..first + size).map(move |leaf| (leaves + size - 1, leaf))
    };
    let mut links: Vec<Link> = (1..=most).flat_map(star).collect();
    links.extend(reversed(&links));
    random.shuffle(&mut links);
    links
}

/// A ring for each x and y of one product: all of them tie in the search.
fn rings(product: usize, random: &mut Draw) -> Vec<Link> {
    let mut links = Network::rings(product).links;
    random.shuffle(&mut links);
    links
}

/// The shapes that are searched among half of their members too.
pub const HALVED: [&str; 2] = ["random", "planted pair of 40 and 30"];

/// The shapes that are measured with kinds too.
pub const OF_KINDS: [&str; 4] = [
    "random",
    "power law",
    "planted pair of 40 and 30",
    "block of 90 by 90",
];

/// Networks of many shapes.
pub fn shapes() -> Vec<Input> {
    let random = &mut Draw::new(1);
    let links = uniform(2048, 8192, random);
    let star = star_out(2048, random);
    let networks = [
        ("random", 2048, links),
        ("power law", 2048, power_law(2048, 8192, random)),
        ("star out", 2048, star.clone()),
        ("star in", 2048, reversed(&star)),
        ("staircase", 1139, staircase(1139, random)),
        (
            "planted pair of 40 and 30",
            2048,
            planted(2048, 8192, random),
        ),
        ("stars of 1 to 62, out and in", 2015, stars(62, random)),
        ("rings of product 336", 1984, rings(336, random)),
        ("block of 90 by 90", 180, block(90, random)),
    ];
    let inputs = networks.into_iter();
    inputs
        .map(|(name, n, links)| Input::new(name, n, links, random))
        .collect()
}

/// Random networks, each of twice the size of the one before.
pub fn growing() -> Vec<Input> {
    let random = &mut Draw::new(2);
    let sizes = [512, 1024, 2048, 4096, 8192];
    sizes
        .map(|m| {
            let n = m / 4;
            let links = uniform(n, m, random);
            Input::new(&format!("random, m = {m}"), n, links, random)
        })
        .into()
}
