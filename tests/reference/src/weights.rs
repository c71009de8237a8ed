//! Kinds of vouch, and what each weighs.

/// The weights of the kinds 0 to 7.
pub const WEIGHTS: [usize; 8] = [1, 1, 2, 3, 4, 6, 8, 12];

/// The weight of a link of this kind.
pub fn weight(kind: u8) -> usize {
    WEIGHTS[usize::from(kind)]
}
