//! Refusals, and the answers of refused calls.
use cogsplice::lent::{
    CheckNumbers, CommonNumbers, EqualNumbers, FindingNumbers, IndexNumbers, LayersNumbers,
    LevelNumbers, TotalsNumbers, WriteNumbers,
};

/// The order in which refusals are tested: the first that applies is given. Of two files every number on the first comes before any on the
/// second.
pub const ORDER: [u16; 16] = [1, 2, 3, 4, 5, 6, 7, 22, 8, 15, 21, 9, 10, 11, 12, 14];

/// The number that is given where these apply, or 0 where none does.
pub fn first_of(applying: &[u16]) -> u16 {
    let first = ORDER.iter().find(|number| applying.contains(number));
    first.copied().unwrap_or(0)
}

/// Whether a refusal by this number names a link.
pub fn names_link(number: u16) -> bool {
    matches!(number, 7 | 22 | 8 | 15)
}

/// A number of 01's table, with the link's number where it names one, else 0.
#[derive(Clone, Copy, Debug, PartialEq, Eq)]
pub struct Refusal {
    pub number: u16,
    pub link: u16,
}

impl Refusal {
    /// A refusal without a link's number.
    pub fn plain(number: u16) -> Refusal {
        Refusal { number, link: 0 }
    }

    /// A refusal with a link's number.
    pub fn at(number: u16, link: usize) -> Refusal {
        Refusal {
            number,
            link: link as u16,
        }
    }
}

/// Refused by the first, in order, of the numbers whose condition holds.
pub fn refuse(conditions: &[(u16, bool)]) -> Result<(), Refusal> {
    let applying = conditions.iter().filter(|(_, holds)| *holds);
    let applying: Vec<u16> = applying.map(|&(number, _)| number).collect();
    match first_of(&applying) {
        0 => Ok(()),
        number => Err(Refusal::plain(number)),
    }
}

/// Whether a lent table is shorter than the call needs. Each pair is a table's length and the length needed.
pub fn too_short(tables: &[(usize, usize)]) -> bool {
    tables.iter().any(|&(length, needed)| length < needed)
}

/// The answer of a refused call: every other number is 0, and two findings are not equal.
pub trait Refused {
    fn refused(refusal: Refusal) -> Self;
}

impl Refused for CheckNumbers {
    fn refused(Refusal { number, link }: Refusal) -> Self {
        CheckNumbers {
            refusal: number,
            link,
            n: 0,
            m: 0,
        }
    }
}

impl Refused for TotalsNumbers {
    fn refused(Refusal { number, link }: Refusal) -> Self {
        TotalsNumbers {
            refusal: number,
            link,
            edges: 0,
            sources: 0,
            targets: 0,
        }
    }
}

impl Refused for WriteNumbers {
    fn refused(Refusal { number, link }: Refusal) -> Self {
        WriteNumbers {
            refusal: number,
            link,
            m: 0,
        }
    }
}

impl Refused for IndexNumbers {
    fn refused(Refusal { number, link }: Refusal) -> Self {
        IndexNumbers {
            refusal: number,
            link,
        }
    }
}

impl Refused for LevelNumbers {
    fn refused(Refusal { number, link }: Refusal) -> Self {
        LevelNumbers {
            refusal: number,
            link,
            level: 0,
        }
    }
}

impl Refused for FindingNumbers {
    fn refused(Refusal { number, link }: Refusal) -> Self {
        FindingNumbers {
            refusal: number,
            link,
            edges: 0,
            x: 0,
            y: 0,
            equal: 0,
            sources: 0,
            targets: 0,
        }
    }
}

impl Refused for LayersNumbers {
    fn refused(Refusal { number, link }: Refusal) -> Self {
        LayersNumbers {
            refusal: number,
            link,
            layers: 0,
        }
    }
}

impl Refused for EqualNumbers {
    fn refused(Refusal { number, .. }: Refusal) -> Self {
        EqualNumbers {
            refusal: number,
            equal: false,
        }
    }
}

impl Refused for CommonNumbers {
    fn refused(Refusal { number, link }: Refusal) -> Self {
        CommonNumbers {
            refusal: number,
            link,
            both: 0,
            first_only: 0,
            second_only: 0,
        }
    }
}
