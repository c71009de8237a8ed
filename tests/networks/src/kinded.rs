//! Networks whose links have kinds, and the bytes of their files.
use crate::{Link, Network};

/// A link, and its kind.
pub type Vouch = (Link, u8);

/// A network whose links have kinds, in the order of the file, and the version of its file. In version 1 every kind is 0.
#[derive(Clone, Debug, PartialEq, Eq)]
pub struct Kinded {
    pub version: usize,
    pub n: usize,
    pub links: Vec<Vouch>,
}

impl Kinded {
    /// A network of version 2.
    pub fn new(n: usize, links: &[Vouch]) -> Kinded {
        Kinded {
            version: 2,
            n,
            links: links.to_vec(),
        }
    }

    /// A ring that only weights make: members 0 and 1 vouch for 2 and 3, and for each of the four these links weigh 3. Without kinds the
    /// five who vouch for member 0 come first.
    pub fn visits() -> Kinded {
        let links = [
            ((0, 2), 2),
            ((0, 3), 1),
            ((1, 0), 0),
            ((1, 2), 1),
            ((1, 3), 2),
            ((2, 0), 0),
            ((3, 0), 1),
            ((4, 0), 0),
            ((5, 0), 0),
        ];
        Kinded::new(6, &links)
    }

    /// The same network without kinds.
    pub fn plain(&self) -> Network {
        Network {
            n: self.n,
            links: self.links.iter().map(|&(link, _)| link).collect(),
        }
    }

    /// The bytes of its file. What no file may hold is written as it is, in 16 bits, and a kind in 8.
    pub fn encode(&self) -> Vec<u8> {
        let mut file = b"VCH".to_vec();
        put(&mut file, &[self.version, self.n, self.links.len()]);
        for &((voucher, vouched), kind) in &self.links {
            put(&mut file, &[voucher, vouched]);
            if self.version == 2 {
                file.push(kind);
            }
        }
        file
    }
}

/// Numbers of 16 bits, low byte first.
fn put(file: &mut Vec<u8>, numbers: &[usize]) {
    for &number in numbers {
        file.extend((number as u16).to_le_bytes());
    }
}

/// Of version 1.
impl From<&Network> for Kinded {
    fn from(network: &Network) -> Kinded {
        Kinded {
            version: 1,
            n: network.n,
            links: network.links.iter().map(|&link| (link, 0)).collect(),
        }
    }
}
