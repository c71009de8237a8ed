use crate::{file_of_kinds_length, lent, Network, Refusal};

/// What two networks over the same n have in common, and what either has alone. Made by [`Network::common`].
#[derive(Clone, Debug, PartialEq, Eq)]
pub struct Common {
    /// The links in both, among the members of either: a file of version 2, with the first one's kinds.
    pub network: Network,
    /// How many links are in both.
    pub both: usize,
    /// How many links are in the first only.
    pub first_only: usize,
    /// How many links are in the second only.
    pub second_only: usize,
}

impl Common {
    pub(crate) fn of(first: &Network, second: &Network) -> Result<Common, Refusal> {
        // In both are no more links than in either.
        let most = first.links().count().min(second.links().count());
        let mut file = vec![0; file_of_kinds_length(most)];
        let numbers = lent::common(first.file(), second.file(), &mut file);
        Refusal::of(numbers.refusal, numbers.link)?;
        file.truncate(file_of_kinds_length(numbers.both));
        Ok(Common {
            network: Network::from_file(file)?,
            both: numbers.both,
            first_only: numbers.first_only,
            second_only: numbers.second_only,
        })
    }
}
