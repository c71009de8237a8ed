use crate::Pair;
use std::collections::BTreeSet;
use std::fmt;

/// The layers of a network: every ring, not only the first.
///
/// Layer 1 is the links between the two groups of the finding. They are taken out, and layer 2 is the links between the two groups of
/// the finding of what remains; so it goes on until no link remains. Each link has one layer, and `x * y` never rises from a layer to the
/// next. The layers' E add up to the weights of all links. A network without links has no layers.
///
/// Of the layers [`Network::within`](crate::Network::within) A and B all this holds of the links from A to B: every other link is in no
/// layer.
#[derive(Clone, Debug, PartialEq, Eq)]
pub struct Layers {
    pub(crate) count: usize,
    pub(crate) links: Vec<(usize, usize)>,
    pub(crate) weights: Vec<u32>,
    pub(crate) of_links: Vec<u16>,
}

impl Layers {
    /// The number of layers.
    pub fn count(&self) -> usize {
        self.count
    }

    /// The layer of each link, counted from 1, in the order of [`Network::links`](crate::Network::links); 0 for a link that does not go from
    /// A to B.
    ///
    /// ```
    /// let network = cogsplice::Network::from_links(6, &[(0, 1), (0, 2), (3, 5), (4, 5)]).unwrap();
    /// assert_eq!(network.layers().of_links(), [2, 2, 1, 1]);
    /// ```
    pub fn of_links(&self) -> &[u16] {
        &self.of_links
    }

    /// The links of a layer, each from the voucher to the vouched, ascending; none where there is no such layer.
    ///
    /// ```
    /// let network = cogsplice::Network::from_links(6, &[(0, 1), (0, 2), (3, 5), (4, 5)]).unwrap();
    /// let layers = network.layers();
    /// assert_eq!(layers.links(2).collect::<Vec<_>>(), [(0, 1), (0, 2)]);
    /// assert_eq!(layers.links(3).count(), 0);
    /// ```
    pub fn links(&self, layer: usize) -> impl Iterator<Item = (usize, usize)> + '_ {
        self.places(layer).map(|place| self.links[place])
    }

    /// Where the links of a layer stand among all links.
    fn places(&self, layer: usize) -> impl Iterator<Item = usize> + '_ {
        let layered = self.of_links.iter().enumerate();
        layered
            // 0 is no layer: it stands for the links that are in none.
            .filter(move |&(_, &of_link)| of_link > 0 && usize::from(of_link) == layer)
            .map(|(place, _)| place)
    }

    /// The two groups of a layer, and the sum of the weights of its links; empty where there is no such layer.
    ///
    /// ```
    /// let network = cogsplice::Network::from_links(6, &[(0, 1), (0, 2), (3, 5), (4, 5)]).unwrap();
    /// let layers = network.layers();
    /// assert_eq!(layers.pair(1), network.finding().pair);
    /// let second = layers.pair(2);
    /// assert_eq!((second.s, second.t, second.edges), (vec![0], vec![1, 2], 2));
    /// ```
    pub fn pair(&self, layer: usize) -> Pair {
        // x and y of a layer are at least 1: each member of S has a link into T, and each of T one from S, so that the links name
        // all of both groups.
        let (s, t): (BTreeSet<usize>, BTreeSet<usize>) = self.links(layer).unzip();
        Pair {
            s: s.into_iter().collect(),
            t: t.into_iter().collect(),
            edges: self.places(layer).map(|place| self.weights[place]).sum(),
        }
    }
}

/// A line for each layer, without the end of the last: `layer`, its number, and its links, ascending.
///
/// ```
/// let network = cogsplice::Network::from_links(6, &[(0, 1), (0, 2), (3, 5), (4, 5)]).unwrap();
/// assert_eq!(network.layers().to_string(), "layer 1 3>5 4>5\nlayer 2 0>1 0>2");
/// ```
impl fmt::Display for Layers {
    fn fmt(&self, f: &mut fmt::Formatter<'_>) -> fmt::Result {
        for layer in 1..=self.count {
            if layer > 1 {
                writeln!(f)?;
            }
            write!(f, "layer {layer}")?;
            self.links(layer)
                .try_for_each(|(voucher, vouched)| write!(f, " {voucher}>{vouched}"))?;
        }
        Ok(())
    }
}
