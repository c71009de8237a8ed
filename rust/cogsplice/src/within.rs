use crate::network::accepted;
use crate::{lent, Finding, Layers, Network, Pair, Refusal, WEIGHTS};

/// A network, searched only among some members: S lies in A and T in B. Made by [`Network::within`].
///
/// The groups may overlap, and either may be empty. Every pair that the calls compare lies inside A and B too, and the only links that
/// count are those from A to B.
#[derive(Clone, Debug, PartialEq, Eq)]
pub struct Within<'a> {
    network: &'a Network,
    /// One byte for each member: 1 in, 0 out.
    a: Vec<u8>,
    b: Vec<u8>,
}

impl<'a> Within<'a> {
    pub(crate) fn new(network: &'a Network, a: Vec<u8>, b: Vec<u8>) -> Within<'a> {
        Within { network, a, b }
    }

    /// The `[x,y]`-core inside A and B: the largest pair in them in which each member of S has at least `x` into T, and each of T at least
    /// `y` from S, by the weights of links. For `x` of 0 S is A, for `y` of 0 T is B.
    ///
    /// ```
    /// let star = cogsplice::Network::from_links(4, &[(0, 1), (0, 2), (0, 3)]).unwrap();
    /// let region = star.within(&[0, 3], &[1, 2]).unwrap();
    /// let core = region.core(2, 1);
    /// assert_eq!((core.s, core.t, core.edges), (vec![0], vec![1, 2], 2));
    /// assert_eq!(region.core(0, 1).s, [0, 3]);
    /// assert!(region.core(3, 1).s.is_empty());
    /// ```
    pub fn core(&self, x: u16, y: u16) -> Pair {
        let (mut s, mut t, mut work) = self.network.tables();
        let numbers = lent::core(self.network.file(), &self.a, &self.b, x, y, &mut s, &mut t, &mut work);
        accepted(numbers.refusal);
        Pair::of(&s, &t, numbers.edges)
    }

    /// The level of `x`: the largest `y` of at least 1 with a non-empty `[x,y]`-core inside A and B, or 0. Refused by 12 where `x` is 0.
    ///
    /// ```
    /// let star = cogsplice::Network::from_links(4, &[(0, 1), (0, 2), (0, 3)]).unwrap();
    /// let region = star.within(&[0, 3], &[1, 2]).unwrap();
    /// assert_eq!(region.level(2), Ok(1));
    /// assert_eq!(region.level(3), Ok(0));
    /// assert_eq!(region.level(0), Err(cogsplice::Refusal::Zero));
    /// ```
    pub fn level(&self, x: u16) -> Result<usize, Refusal> {
        let mut work = self.network.work();
        level_of(lent::level(self.network.file(), &self.a, &self.b, x, &mut work))
    }

    /// The level across, for `y`: the largest `x` of at least 1 with a non-empty `[x,y]`-core inside A and B, or 0. Refused by 12 where `y`
    /// is 0.
    ///
    /// ```
    /// let star = cogsplice::Network::from_links(4, &[(0, 1), (0, 2), (0, 3)]).unwrap();
    /// assert_eq!(star.within(&[0, 3], &[1, 2]).unwrap().level_across(1), Ok(2));
    /// ```
    pub fn level_across(&self, y: u16) -> Result<usize, Refusal> {
        let mut work = self.network.work();
        level_of(lent::level_across(self.network.file(), &self.a, &self.b, y, &mut work))
    }

    /// The equal level: the largest `k` with a non-empty `[k,k]`-core inside A and B, or 0.
    ///
    /// ```
    /// let star = cogsplice::Network::from_links(4, &[(0, 1), (0, 2), (0, 3)]).unwrap();
    /// assert_eq!(star.within(&[0, 3], &[1, 2]).unwrap().equal_level(), 1);
    /// assert_eq!(star.within(&[1, 3], &[1, 2]).unwrap().equal_level(), 0);
    /// ```
    pub fn equal_level(&self) -> usize {
        let numbers = lent::equal_level(self.network.file(), &self.a, &self.b, &mut self.network.work());
        accepted(numbers.refusal);
        numbers.level
    }

    /// The finding inside A and B; zeros and empty groups where no link goes from A to B.
    ///
    /// ```
    /// use cogsplice::Network;
    /// // Among all members the ring [2,2] comes before the star [1,3], and without its second voucher the star does.
    /// let links = [(0, 3), (0, 4), (1, 3), (1, 4), (5, 7), (6, 7), (8, 7)];
    /// let network = Network::from_links(9, &links).unwrap();
    /// assert_eq!(network.finding().pair.s, [0, 1]);
    /// let region = network.within(&[0, 5, 6, 8], &[3, 4, 7]).unwrap();
    /// assert_eq!(region.finding().to_string(), "x 1 y 3 equal 1\nlinks 3 vouchers 3 vouched 1\nS 5 6 8\nT 7");
    /// assert!(network.within(&[0, 1], &[7]).unwrap().finding().is_quiet());
    /// ```
    pub fn finding(&self) -> Finding {
        let (mut s, mut t, mut work) = self.network.tables();
        let numbers = lent::finding(self.network.file(), &self.a, &self.b, &mut s, &mut t, &mut work);
        accepted(numbers.refusal);
        Finding::of(numbers, &s, &t)
    }

    /// The layers of the links from A to B; none where there is no such link. Every other link is in no layer.
    ///
    /// ```
    /// let network = cogsplice::Network::from_links(6, &[(0, 1), (0, 2), (3, 5), (4, 5)]).unwrap();
    /// let layers = network.within(&[0, 3], &[1, 2, 5]).unwrap().layers();
    /// assert_eq!(layers.to_string(), "layer 1 0>1 0>2\nlayer 2 3>5");
    /// assert_eq!(layers.of_links(), [1, 1, 2, 0]);
    /// assert_eq!(layers.links(0).count(), 0);
    /// assert_eq!(network.within(&[0], &[5]).unwrap().layers().count(), 0);
    /// ```
    pub fn layers(&self) -> Layers {
        let links: Vec<(usize, usize)> = self.network.links().collect();
        let weights = self.network.kinds().map(|kind| WEIGHTS[usize::from(kind)]).collect();
        let mut of_links = vec![0; links.len()];
        let numbers = lent::layers(self.network.file(), &self.a, &self.b, &mut of_links, &mut self.network.work());
        accepted(numbers.refusal);
        Layers {
            count: numbers.layers,
            links,
            weights,
            of_links,
        }
    }
}

fn level_of(numbers: lent::LevelNumbers) -> Result<usize, Refusal> {
    Refusal::of(numbers.refusal, numbers.link)?;
    Ok(numbers.level)
}
