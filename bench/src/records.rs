//! The pairs of files whose common links are looked for, the same in every run.
use crate::inputs::{length_of_kinds, uniform, Input, Links};
use networks::Draw;

const MEMBERS: usize = 2048;
const LINKS: usize = 8192;

/// Two records of a month.
pub struct Records {
    /// Which links are in both.
    pub name: &'static str,
    pub both: usize,
    pub files: [Input; 2],
}

impl Records {
    /// Files of random links, so many of them in both.
    fn new(name: &'static str, both: usize, random: &mut Draw) -> Self {
        let links = uniform(MEMBERS, 2 * LINKS - both, random);
        let (first, second) = (&links[..LINKS], &links[LINKS - both..]);
        let files = [first, second].map(|links| Input::new(name, MEMBERS, links.to_vec(), random));
        Self { name, both, files }
    }

    /// The same links with drawn kinds, those in both files with the same kind in both.
    fn with_kinds(self, random: &mut Draw) -> Self {
        let own = self.own();
        let kinds: Vec<u8> = (0..LINKS + own).map(|_| random.below(8) as u8).collect();
        let [first, second] = self.files;
        let files = [(first, 0), (second, own)].map(|(file, from)| {
            let mut kinds = kinds[from..].iter();
            file.with_kinds(|| *kinds.next().expect("there is a kind for each link"))
        });
        Self { files, ..self }
    }

    pub fn in_order(&self) -> [&[u8]; 2] {
        let [first, second] = &self.files;
        [first, second].map(|file| file.file(Links::Ascending))
    }

    /// The number of links in one file only, the same for both.
    pub fn own(&self) -> usize {
        LINKS - self.both
    }

    /// The number of links in either file.
    pub fn links(&self) -> usize {
        LINKS
    }

    /// The length of either file in version 2.
    pub fn longest(&self) -> usize {
        length_of_kinds(LINKS)
    }

    /// The version of both files.
    pub fn version(&self) -> u8 {
        self.files[0].version
    }
}

/// Pairs of files of full size, from such as agree to such as share nothing, and one with kinds.
pub fn records() -> Vec<Records> {
    let random = &mut Draw::new(5);
    let pairs = [
        ("all", LINKS),
        ("all but eight", LINKS - 8),
        ("half of them", LINKS / 2),
        ("none", 0),
    ];
    let pairs = pairs.into_iter();
    let mut records: Vec<_> = pairs
        .map(|(name, both)| Records::new(name, both, random))
        .collect();
    let half = Records::new("half of them", LINKS / 2, random);
    records.push(half.with_kinds(random));
    records
}
