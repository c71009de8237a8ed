//! Layers: every ring, not only the first.
use crate::answers::{Refusal, Refused};
use crate::cores::{core_of, finding_of, read_with, Search, NO_OTHER};
use crate::groups::between;
use cogsplice::lent::LayersNumbers;
use networks::Kinded;

/// The layer of each link, and the number of layers. Of the links from A to B those between the two groups of the finding are taken out
/// and what remains is searched, until no link remains; these layers are counted from 1, and every other link has 0.
fn layers_of(Search { network, a, b }: Search) -> (Vec<u16>, usize) {
    let mut layers = vec![0; network.links.len()];
    let mut still_in: Vec<usize> = (0..network.links.len())
        .filter(|&e| between(&a, &b, network.links[e].0))
        .collect();
    let mut layer = 0;
    while !still_in.is_empty() {
        layer += 1;
        let links = still_in.iter().map(|&e| network.links[e]).collect();
        let remaining = Search {
            network: Kinded {
                version: network.version,
                n: network.n,
                links,
            },
            a: a.clone(),
            b: b.clone(),
        };
        let (x, y) = finding_of(&remaining);
        let (s, t) = core_of(&remaining, x, y);
        still_in.retain(|&e| {
            let taken = between(&s, &t, network.links[e].0);
            if taken {
                layers[e] = layer;
            }
            !taken
        });
    }
    (layers, layer as usize)
}

/// The layers call: writes the layer of each link.
pub fn layers(file: &[u8], groups: [&[u8]; 2], layers: &mut [u16], work: usize) -> LayersNumbers {
    try_layers(file, groups, layers, work).unwrap_or_else(Refused::refused)
}

fn try_layers(
    file: &[u8],
    groups: [&[u8]; 2],
    layers: &mut [u16],
    work: usize,
) -> Result<LayersNumbers, Refusal> {
    let table = |_, m| vec![(layers.len(), m)];
    let search = read_with(file, groups, table, work, NO_OTHER)?;
    let (of_links, count) = layers_of(search);
    layers[..of_links.len()].copy_from_slice(&of_links);
    Ok(LayersNumbers {
        refusal: 0,
        link: 0,
        layers: count,
    })
}
