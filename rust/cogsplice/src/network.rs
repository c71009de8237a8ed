use crate::{file_length, lent, work_length, Common, Layers, Refusal, Side, Within};
use std::fmt;

/// A network file that was accepted.
///
/// It is of version 1, in which every link has kind 0, or of version 2, in which each has its own; by its kind a link weighs as
/// [`WEIGHTS`](crate::WEIGHTS) says.
///
/// Two networks are equal, by `==`, exactly when their files have the same bytes: when they have the same version, the same number of
/// members, and the same links with the same kinds, for the links of a file ascend. So a network of version 1 and one of version 2 are never
/// equal, whatever their links.
///
/// ```
/// use cogsplice::Network;
/// assert_eq!(Network::from_links(3, &[(2, 0), (0, 1)]), Network::from_links(3, &[(0, 1), (2, 0)]));
/// assert_ne!(Network::from_links(3, &[(0, 1)]), Network::from_links(4, &[(0, 1)]));
/// assert_ne!(Network::from_links(3, &[(0, 1)]), Network::from_links_of_kinds(3, &[(0, 1, 0)]));
/// // Kinds 0 and 1 weigh the same, and are two kinds.
/// assert_ne!(Network::from_links_of_kinds(3, &[(0, 1, 1)]), Network::from_links_of_kinds(3, &[(0, 1, 0)]));
/// ```
#[derive(Clone, Debug, PartialEq, Eq)]
pub struct Network {
    file: Vec<u8>,
    members: usize,
    links: usize,
}

/// `E(S,T)`, the sum of the weights of the links from S to T, `|S|` and `|T|`.
#[derive(Clone, Copy, Debug, PartialEq, Eq)]
pub struct Totals {
    pub edges: u32,
    pub sources: usize,
    pub targets: usize,
}

/// Two groups, each ascending, and the sum of the weights of the links from one to the other: their number, where each weighs 1.
#[derive(Clone, Debug, PartialEq, Eq)]
pub struct Pair {
    pub s: Vec<usize>,
    pub t: Vec<usize>,
    pub edges: u32,
}

impl Pair {
    /// The pair of two groups as tables of bytes.
    pub(crate) fn of(s: &[u8], t: &[u8], edges: u32) -> Pair {
        let members_of = |group: &[u8]| (0..group.len()).filter(|&member| group[member] == 1).collect();
        Pair {
            s: members_of(s),
            t: members_of(t),
            edges,
        }
    }
}

/// Three lines, without the end of the last: E and the sizes of both groups, then the members of S and of T.
///
/// ```
/// let star = cogsplice::Network::from_links(4, &[(0, 1), (0, 2), (0, 3)]).unwrap();
/// assert_eq!(star.core(2, 1).to_string(), "links 3 vouchers 1 vouched 3\nS 0\nT 1 2 3");
/// ```
impl fmt::Display for Pair {
    fn fmt(&self, f: &mut fmt::Formatter<'_>) -> fmt::Result {
        let Pair { s, t, edges } = self;
        writeln!(f, "links {edges} vouchers {} vouched {}", s.len(), t.len())?;
        write_group(f, "S", s)?;
        writeln!(f)?;
        write_group(f, "T", t)
    }
}

/// The non-empty `[x,y]`-core with the greatest `x * y`; among equal products the smallest difference between `x` and `y` comes first, then
/// the smallest `x`.
///
/// No pair of groups is more than twice as dense. `pair.edges` is E, the sum of the weights of the links from S to T. In a quiet month,
/// when the network has no link, all numbers are 0 and both groups are empty. Of a finding [`Network::within`] A and B all this holds of
/// the cores and pairs inside them, and of the links from A to B. Two findings are equal, by `==`, as [`Finding::equals`] says.
#[derive(Clone, Debug)]
pub struct Finding {
    pub x: usize,
    pub y: usize,
    pub equal_level: usize,
    pub pair: Pair,
    members: usize,
}

impl Finding {
    /// The finding of a call's numbers and the groups that it wrote, one byte for each member.
    pub(crate) fn of(numbers: lent::FindingNumbers, s: &[u8], t: &[u8]) -> Finding {
        Finding {
            x: numbers.x,
            y: numbers.y,
            equal_level: numbers.equal,
            pair: Pair::of(s, t, numbers.edges),
            members: s.len(),
        }
    }

    /// n, the number of members of the network that it was found in.
    pub fn members(&self) -> usize {
        self.members
    }

    /// Whether two findings, of the same network or not, are equal, that is the same people: `x`, `y` and n agree, and both groups have the
    /// same members. `==` is the same.
    ///
    /// The equal level and E are not compared: two months with the same people may differ in them. A group is a set of members, in any
    /// order. What is not below n, which only a hand can put into a group, is no member and does not count.
    ///
    /// ```
    /// use cogsplice::Network;
    /// // Each of three vouches for two of three others; in the next month one of them vouches for the third too.
    /// let ring = [(0, 3), (0, 4), (1, 4), (1, 5), (2, 3), (2, 5)];
    /// let first = Network::from_links(6, &ring).unwrap().finding();
    /// let next = Network::from_links(6, &[&ring[..], &[(0, 5)]].concat()).unwrap().finding();
    /// assert_eq!((first.pair.edges, next.pair.edges), (6, 7));
    /// assert!(first.equals(&next));
    /// assert_eq!(first, next);
    /// // The same ring among one member more, and another ring of the same x and y.
    /// assert_ne!(first, Network::from_links(7, &ring).unwrap().finding());
    /// let other = Network::from_links(6, &ring.map(|(voucher, vouched)| (vouched, voucher))).unwrap().finding();
    /// assert_eq!((first.x, first.y), (other.x, other.y));
    /// assert_ne!(first, other);
    /// ```
    pub fn equals(&self, other: &Finding) -> bool {
        let ([s1, t1], [s2, t2]) = (self.groups(), other.groups());
        let numbers = lent::equal_findings(self.x, self.y, self.members, &s1, &t1, other.x, other.y, other.members, &s2, &t2);
        accepted(numbers.refusal);
        numbers.equal
    }

    /// S and T as tables, one byte for each member.
    fn groups(&self) -> [Vec<u8>; 2] {
        [&self.pair.s, &self.pair.t].map(|members| {
            let mut group = vec![0; self.members];
            let below = members.iter().filter(|&&member| member < self.members);
            below.for_each(|&member| group[member] = 1);
            group
        })
    }

    /// Whether the month was quiet: `x * y` is 0 exactly when there was no link to search, none in the network or none from A to B.
    pub fn is_quiet(&self) -> bool {
        self.x * self.y == 0
    }
}

/// As [`Finding::equals`].
impl PartialEq for Finding {
    fn eq(&self, other: &Finding) -> bool {
        self.equals(other)
    }
}

// Numbers and sets of members are compared, so that each finding equals itself.
impl Eq for Finding {}

/// The four lines of the report program, without the end of the last.
///
/// ```
/// let star = cogsplice::Network::from_links(4, &[(0, 1), (0, 2), (0, 3)]).unwrap();
/// let report = "x 3 y 1 equal 1\nlinks 3 vouchers 1 vouched 3\nS 0\nT 1 2 3";
/// assert_eq!(star.finding().to_string(), report);
/// let quiet = cogsplice::Network::from_links(4, &[]).unwrap();
/// assert_eq!(quiet.finding().to_string(), "x 0 y 0 equal 0\nlinks 0 vouchers 0 vouched 0\nS\nT");
/// ```
impl fmt::Display for Finding {
    fn fmt(&self, f: &mut fmt::Formatter<'_>) -> fmt::Result {
        writeln!(f, "x {} y {} equal {}", self.x, self.y, self.equal_level)?;
        write!(f, "{}", self.pair)
    }
}

fn write_group(f: &mut fmt::Formatter<'_>, letter: &str, members: &[usize]) -> fmt::Result {
    f.write_str(letter)?;
    members.iter().try_for_each(|member| write!(f, " {member}"))
}

/// The members at the other end of each member's links, by side.
#[derive(Clone, Debug, PartialEq, Eq)]
pub struct Index {
    out_starts: Vec<u16>,
    out_rows: Vec<u16>,
    in_starts: Vec<u16>,
    in_rows: Vec<u16>,
}

impl Index {
    /// On the voucher's side the members that `member` vouches for, on the other those that vouch for it, ascending.
    ///
    /// ```
    /// use cogsplice::{Network, Refusal, Side};
    /// # fn main() -> Result<(), Refusal> {
    /// let index = Network::from_links(3, &[(0, 2), (0, 1), (1, 2)])?.index();
    /// assert_eq!(index.row(Side::Voucher, 0)?, [1, 2]);
    /// assert_eq!(index.row(Side::Vouched, 2)?, [0, 1]);
    /// assert_eq!(index.row(Side::Voucher, 3), Err(Refusal::Member));
    /// # Ok(())
    /// # }
    /// ```
    pub fn row(&self, side: Side, member: usize) -> Result<&[u16], Refusal> {
        let part = lent::row(side, member, &self.out_starts, &self.out_rows, &self.in_starts, &self.in_rows);
        Refusal::of(part.refusal, 0)?;
        let rows = match side {
            Side::Voucher => &self.out_rows,
            Side::Vouched => &self.in_rows,
        };
        Ok(&rows[part.start..part.start + part.length])
    }
}

impl Network {
    /// The network of a file's bytes, of version 1 or 2. Zero bytes are the network of version 1 without members and links, whose file they
    /// count as. Refused by 1 to 7, 22, 8 and 15.
    ///
    /// ```
    /// use cogsplice::{Network, Refusal};
    /// assert_eq!(Network::from_file(b"VCH\x01\x00\x02\x00\x00\x00".to_vec()).unwrap().members(), 2);
    /// assert_eq!(Network::from_file(b"VCH\x03\x00\x02\x00\x00\x00".to_vec()), Err(Refusal::Version));
    /// assert_eq!(Network::from_file(Vec::new()), Network::from_links(0, &[]));
    /// let of_kinds = b"VCH\x02\x00\x02\x00\x01\x00\x00\x00\x01\x00\x05".to_vec();
    /// assert_eq!(Network::from_file(of_kinds), Network::from_links_of_kinds(2, &[(0, 1, 5)]));
    /// ```
    pub fn from_file(file: Vec<u8>) -> Result<Network, Refusal> {
        if file.is_empty() {
            return Network::from_links(0, &[]);
        }
        let numbers = lent::check(&file);
        Refusal::of(numbers.refusal, numbers.link)?;
        Ok(Network {
            file,
            members: numbers.n,
            links: numbers.m,
        })
    }

    /// The network of a file by the old rule, which is of version 1 and whose links may stand in any order: [`Network::file`] then has them
    /// in order, and a file that is in order as it stands. Zero bytes count as in [`Network::from_file`]. Refused by 1 to 8: by 3
    /// where it is of version 2.
    ///
    /// ```
    /// use cogsplice::{Network, Refusal};
    /// // Member 1 vouches for member 0, which vouches for member 1.
    /// let old = b"VCH\x01\x00\x02\x00\x02\x00\x01\x00\x00\x00\x00\x00\x01\x00";
    /// assert_eq!(Network::from_file(old.to_vec()), Err(Refusal::Order { link: 1 }));
    /// let network = Network::read_old(old).unwrap();
    /// assert_eq!(network.links().collect::<Vec<_>>(), [(0, 1), (1, 0)]);
    /// assert_eq!(Network::from_file(network.file().to_vec()), Ok(network));
    /// assert_eq!(Network::read_old(b"VCH"), Err(Refusal::Short));
    /// ```
    pub fn read_old(file: &[u8]) -> Result<Network, Refusal> {
        // Zero bytes too become a file with a header.
        let mut ordered = vec![0; file.len().max(file_length(0))];
        let numbers = lent::order(file, &mut ordered);
        Refusal::of(numbers.refusal, numbers.link)?;
        Network::from_file(ordered)
    }

    /// The network of version 1 of so many members and these links in any order, each from the voucher to the vouched. Refused by 4, 5, 7
    /// and 8; a link that a refusal names is numbered as it was given.
    ///
    /// ```
    /// use cogsplice::{Network, Refusal};
    /// assert_eq!(Network::from_links(2, &[(1, 1), (0, 1), (1, 1)]), Err(Refusal::Repeat { link: 2 }));
    /// ```
    pub fn from_links(members: usize, links: &[(usize, usize)]) -> Result<Network, Refusal> {
        let mut file = b"VCH\x01\x00".to_vec();
        file.extend(number(members));
        file.extend(number(links.len()));
        for &(voucher, vouched) in links {
            file.extend(number(voucher));
            file.extend(number(vouched));
        }
        Network::read_old(&file)
    }

    /// The network of version 2 of so many members and these links in any order, each the voucher, the vouched and the kind. Refused by 4,
    /// 5, 7, 22 and 8; a link that a refusal names is numbered as it was given.
    ///
    /// ```
    /// use cogsplice::{Network, Refusal};
    /// # fn main() -> Result<(), Refusal> {
    /// // Kind 2 weighs 2, kinds 0 and 1 weigh 1: a ring that only the weights of its links make.
    /// let links = [(0, 2, 2), (0, 3, 1), (1, 0, 0), (1, 2, 1), (1, 3, 2), (2, 0, 0), (3, 0, 1), (4, 0, 0), (5, 0, 0)];
    /// let finding = Network::from_links_of_kinds(6, &links)?.finding();
    /// assert_eq!((finding.x, finding.y, finding.pair.edges), (3, 3, 6));
    /// assert_eq!((finding.pair.s, finding.pair.t), (vec![0, 1], vec![2, 3]));
    /// // Without kinds it is the star of those who vouch for member 0.
    /// let star = Network::from_links(6, &links.map(|(voucher, vouched, _)| (voucher, vouched)))?.finding();
    /// assert_eq!((star.x, star.y), (1, 5));
    /// assert_eq!(Network::from_links_of_kinds(2, &[(1, 1, 3), (0, 1, 8)]), Err(Refusal::Kind { link: 1 }));
    /// assert_eq!(Network::from_links_of_kinds(2, &[(1, 1, 3), (0, 1, 4), (1, 1, 5)]), Err(Refusal::Repeat { link: 2 }));
    /// # Ok(())
    /// # }
    /// ```
    pub fn from_links_of_kinds(members: usize, links: &[(usize, usize, u8)]) -> Result<Network, Refusal> {
        match Network::from_file(file_of_kinds(members, links)) {
            // Nothing but the order is wrong, which is tested last: so the library has judged the links as they were given.
            Err(Refusal::Order { .. }) => {
                let mut ascending = links.to_vec();
                ascending.sort_unstable();
                Network::from_file(file_of_kinds(members, &ascending))
            }
            judged => judged,
        }
    }

    /// The file's bytes, also where the network was made from none.
    ///
    /// ```
    /// assert_eq!(cogsplice::Network::from_file(Vec::new()).unwrap().file(), b"VCH\x01\x00\x00\x00\x00\x00");
    /// ```
    pub fn file(&self) -> &[u8] {
        &self.file
    }

    /// The version of the file: 1, or 2 where its links have kinds.
    ///
    /// ```
    /// use cogsplice::Network;
    /// assert_eq!(Network::from_links(2, &[(0, 1)]).unwrap().version(), 1);
    /// assert_eq!(Network::from_links_of_kinds(2, &[(0, 1, 0)]).unwrap().version(), 2);
    /// ```
    pub fn version(&self) -> u16 {
        u16::from_le_bytes([self.file[3], self.file[4]])
    }

    /// n, the number of members.
    pub fn members(&self) -> usize {
        self.members
    }

    /// The links as they stand in the file: ascending by voucher, then vouched. [`Network::kinds`] has their kinds.
    ///
    /// ```
    /// let network = cogsplice::Network::from_links(3, &[(2, 0), (0, 2), (0, 1)]).unwrap();
    /// assert_eq!(network.links().collect::<Vec<_>>(), [(0, 1), (0, 2), (2, 0)]);
    /// ```
    pub fn links(&self) -> impl Iterator<Item = (usize, usize)> + '_ {
        self.link_bytes().map(|link| {
            let voucher = u16::from_le_bytes([link[0], link[1]]);
            let vouched = u16::from_le_bytes([link[2], link[3]]);
            (voucher.into(), vouched.into())
        })
    }

    /// The kinds of the links, in the order of [`Network::links`]; each is 0 where the file is of version 1.
    ///
    /// ```
    /// use cogsplice::Network;
    /// let network = Network::from_links_of_kinds(3, &[(2, 0, 7), (0, 1, 3)]).unwrap();
    /// assert_eq!(network.links().zip(network.kinds()).collect::<Vec<_>>(), [((0, 1), 3), ((2, 0), 7)]);
    /// assert_eq!(Network::from_links(3, &[(2, 0), (0, 1)]).unwrap().kinds().collect::<Vec<_>>(), [0, 0]);
    /// ```
    pub fn kinds(&self) -> impl Iterator<Item = u8> + '_ {
        self.link_bytes().map(|link| link.get(4).copied().unwrap_or(0))
    }

    /// The bytes of each link: voucher, vouched, and in version 2 the kind.
    fn link_bytes(&self) -> impl Iterator<Item = &[u8]> {
        let length = if self.version() == 2 { 5 } else { 4 };
        self.file[9..].chunks_exact(length)
    }

    /// The index of the network. Kinds do not show in it.
    pub fn index(&self) -> Index {
        let mut index = Index {
            out_starts: vec![0; self.members + 1],
            out_rows: vec![0; self.links],
            in_starts: vec![0; self.members + 1],
            in_rows: vec![0; self.links],
        };
        let numbers = lent::index(
            &self.file,
            &mut index.out_starts,
            &mut index.out_rows,
            &mut index.in_starts,
            &mut index.in_rows,
        );
        accepted(numbers.refusal);
        index
    }

    /// `E(S,T)`, the sum of the weights of the links from S to T, `|S|` and `|T|` of two groups, given by their members in any order.
    /// Refused by 10 where a member is not below n.
    ///
    /// ```
    /// # fn main() -> Result<(), cogsplice::Refusal> {
    /// let network = cogsplice::Network::from_links(3, &[(0, 1), (0, 2), (1, 2)])?;
    /// let totals = network.count(&[0, 1], &[2])?;
    /// assert_eq!((totals.edges, totals.sources, totals.targets), (2, 2, 1));
    /// # Ok(())
    /// # }
    /// ```
    pub fn count(&self, s: &[usize], t: &[usize]) -> Result<Totals, Refusal> {
        let numbers = lent::count(&self.file, &self.group(s)?, &self.group(t)?);
        Refusal::of(numbers.refusal, numbers.link)?;
        Ok(Totals {
            edges: numbers.edges,
            sources: numbers.sources,
            targets: numbers.targets,
        })
    }

    /// The `[x,y]`-core: the largest pair in which each member of S has at least `x` into T, and each of T at least `y` from S, by the
    /// weights of links.
    ///
    /// ```
    /// let star = cogsplice::Network::from_links(3, &[(0, 1), (0, 2)]).unwrap();
    /// let core = star.core(2, 1);
    /// assert_eq!((core.s, core.t, core.edges), (vec![0], vec![1, 2], 2));
    /// assert!(star.core(1, 2).s.is_empty());
    /// ```
    pub fn core(&self, x: u16, y: u16) -> Pair {
        self.everyone().core(x, y)
    }

    /// The level of `x`: the largest `y` of at least 1 with a non-empty `[x,y]`-core, or 0. Refused by 12 where `x` is 0.
    ///
    /// ```
    /// let star = cogsplice::Network::from_links(3, &[(0, 1), (0, 2)]).unwrap();
    /// assert_eq!(star.level(2), Ok(1));
    /// assert_eq!(star.level(3), Ok(0));
    /// assert_eq!(star.level(0), Err(cogsplice::Refusal::Zero));
    /// ```
    pub fn level(&self, x: u16) -> Result<usize, Refusal> {
        self.everyone().level(x)
    }

    /// The level across, for `y`: the largest `x` of at least 1 with a non-empty `[x,y]`-core, or 0. Refused by 12 where `y` is 0.
    ///
    /// ```
    /// let star = cogsplice::Network::from_links(3, &[(0, 1), (0, 2)]).unwrap();
    /// assert_eq!(star.level_across(1), Ok(2));
    /// ```
    pub fn level_across(&self, y: u16) -> Result<usize, Refusal> {
        self.everyone().level_across(y)
    }

    /// The equal level: the largest `k` with a non-empty `[k,k]`-core, or 0.
    ///
    /// ```
    /// let star = cogsplice::Network::from_links(3, &[(0, 1), (0, 2)]).unwrap();
    /// assert_eq!(star.equal_level(), 1);
    /// ```
    pub fn equal_level(&self) -> usize {
        self.everyone().equal_level()
    }

    /// The finding; zeros and empty groups where the network has no link.
    ///
    /// ```
    /// use cogsplice::Network;
    /// let star = Network::from_links(4, &[(0, 1), (0, 2), (0, 3)]).unwrap();
    /// let finding = star.finding();
    /// assert_eq!((finding.x, finding.y), (3, 1));
    /// // A star of another member is another finding, though x and y are the same.
    /// let other = Network::from_links(4, &[(3, 0), (3, 1), (3, 2)]).unwrap();
    /// assert_ne!(finding, other.finding());
    /// // A star does not hide a ring of the same product: here [4,1] and [2,2].
    /// let both = [(0, 1), (0, 2), (0, 3), (0, 4), (5, 7), (5, 8), (6, 7), (6, 8)];
    /// assert_eq!(Network::from_links(9, &both).unwrap().finding().pair.s, [5, 6]);
    /// assert!(!finding.is_quiet());
    /// assert!(Network::from_links(4, &[]).unwrap().finding().is_quiet());
    /// ```
    pub fn finding(&self) -> Finding {
        self.everyone().finding()
    }

    /// The layers; none where the network has no link.
    ///
    /// ```
    /// use cogsplice::Network;
    /// let star = Network::from_links(4, &[(0, 1), (0, 2), (0, 3)]).unwrap();
    /// assert_eq!(star.layers().count(), 1);
    /// assert_eq!(Network::from_links(4, &[]).unwrap().layers().count(), 0);
    /// ```
    pub fn layers(&self) -> Layers {
        self.everyone().layers()
    }

    /// The pair of the harmonic measure, `2 * E(S,T) / (|S| + |T|)`; empty groups where the network has no link.
    ///
    /// From everyone in both groups the place, a side and a member, whose links to places not yet dropped weigh least together is dropped,
    /// again and again; ties go to the voucher side, then to the smaller member. Of the pairs met so, but for the last, of which both
    /// groups are empty, this is the earliest with the greatest measure. No pair of non-empty groups has more than twice its measure.
    ///
    /// ```
    /// use cogsplice::Network;
    /// // A member with five one-off links, and a ring of four links: the finding is the star, this the ring.
    /// let links = [(0, 1), (0, 2), (0, 3), (0, 4), (0, 5), (6, 8), (6, 9), (7, 8), (7, 9)];
    /// let network = Network::from_links(10, &links).unwrap();
    /// assert_eq!(network.finding().pair.s, [0]);
    /// let ring = network.harmonic();
    /// assert_eq!((ring.s, ring.t, ring.edges), (vec![6, 7], vec![8, 9], 4));
    /// assert!(Network::from_links(4, &[]).unwrap().harmonic().s.is_empty());
    /// ```
    pub fn harmonic(&self) -> Pair {
        let (mut s, mut t, mut work) = self.tables();
        let numbers = lent::harmonic(&self.file, &mut s, &mut t, &mut work);
        accepted(numbers.refusal);
        Pair::of(&s, &t, numbers.edges)
    }

    /// Cores, levels, the finding and the layers among some members only: S lies in A and T in B, two groups given by their members in any
    /// order. Refused by 10 where a member is not below n.
    ///
    /// ```
    /// use cogsplice::{Network, Refusal};
    /// # fn main() -> Result<(), Refusal> {
    /// let network = Network::from_links(6, &[(0, 3), (0, 4), (1, 3), (1, 4), (2, 3), (2, 4), (4, 5), (5, 5)])?;
    /// assert_eq!(network.finding().pair.s, [0, 1, 2]);
    /// let finding = network.within(&[0, 1, 4], &[3, 4, 5])?.finding();
    /// assert_eq!((finding.x, finding.y), (2, 2));
    /// assert_eq!((finding.pair.s, finding.pair.t), (vec![0, 1], vec![3, 4]));
    /// assert!(network.within(&[0, 1], &[5])?.finding().is_quiet());
    /// assert_eq!(network.within(&[6], &[]).unwrap_err(), Refusal::Member);
    /// # Ok(())
    /// # }
    /// ```
    pub fn within(&self, a: &[usize], b: &[usize]) -> Result<Within<'_>, Refusal> {
        Ok(Within::new(self, self.group(a)?, self.group(b)?))
    }

    /// The links that are in this network, the first, and in another, the second, the same voucher, the same vouched and an equal weight;
    /// and how many links are in both, in the first only and in the second only. Refused by 21 where the two n differ.
    ///
    /// The network of the links in both is of version 2, with the first one's kinds. A link that both have with different weights is in
    /// each of them only. With the two exchanged the same links are in both, with the second one's kinds, and the other two numbers are
    /// exchanged. A network has all its links in common with itself.
    ///
    /// ```
    /// use cogsplice::{Network, Refusal};
    /// # fn main() -> Result<(), Refusal> {
    /// // Vouchers and vouched keep records of the same events: 0>4 is in the first only, 2>4 and 4>2 in the second only.
    /// let given = Network::from_links(5, &[(0, 2), (0, 3), (0, 4), (1, 2), (1, 3)])?;
    /// let received = Network::from_links(5, &[(0, 2), (0, 3), (1, 2), (1, 3), (2, 4), (4, 2)])?;
    /// let common = given.common(&received)?;
    /// assert_eq!((common.both, common.first_only, common.second_only), (4, 1, 2));
    /// // The ring that both bear out.
    /// let finding = common.network.finding();
    /// assert_eq!((finding.pair.s, finding.pair.t), (vec![0, 1], vec![2, 3]));
    /// // Kind 1 weighs as much as kind 0, and kind 2 more.
    /// let visited = Network::from_links_of_kinds(5, &[(0, 2, 1), (0, 3, 2)])?;
    /// assert_eq!(visited.common(&given)?.network, Network::from_links_of_kinds(5, &[(0, 2, 1)])?);
    /// assert_eq!(visited.common(&visited)?.network, visited);
    /// assert_eq!(given.common(&Network::from_links(4, &[])?), Err(Refusal::Mismatch));
    /// # Ok(())
    /// # }
    /// ```
    pub fn common(&self, other: &Network) -> Result<Common, Refusal> {
        Common::of(self, other)
    }

    /// With everyone in both groups the whole network is searched.
    fn everyone(&self) -> Within<'_> {
        Within::new(self, vec![1; self.members], vec![1; self.members])
    }

    /// A work table.
    pub(crate) fn work(&self) -> Vec<u16> {
        vec![0; work_length(self.members, self.links)]
    }

    /// Two groups to write to, and a work table.
    pub(crate) fn tables(&self) -> (Vec<u8>, Vec<u8>, Vec<u16>) {
        (vec![0; self.members], vec![0; self.members], self.work())
    }

    fn group(&self, members: &[usize]) -> Result<Vec<u8>, Refusal> {
        let mut group = vec![0; self.members];
        for &member in members {
            *group.get_mut(member).ok_or(Refusal::Member)? = 1;
        }
        Ok(group)
    }
}

/// The file of version 2 of these links as they stand.
fn file_of_kinds(members: usize, links: &[(usize, usize, u8)]) -> Vec<u8> {
    let mut file = b"VCH\x02\x00".to_vec();
    file.extend(number(members));
    file.extend(number(links.len()));
    for &(voucher, vouched, kind) in links {
        file.extend(number(voucher));
        file.extend(number(vouched));
        file.push(kind);
    }
    file
}

/// A number of a file or of a journal. What 16 bits do not hold becomes the largest number, which is refused as the number itself would be.
pub(crate) fn number(value: usize) -> [u8; 2] {
    u16::try_from(value).unwrap_or(u16::MAX).to_le_bytes()
}

/// A network was accepted when it was made, its tables are as long as the calls need, and its groups hold 0 and 1 alone, so that no call is
/// refused but for a number that it is given. The same holds of its findings, which have its n.
pub(crate) fn accepted(refusal: u16) {
    assert_eq!(refusal, 0, "an accepted network was refused");
}
