//! The weights that the caller lends: request C-17. "128 weights of 1 to 255, indexed by the low seven bits."

use crate::word::slot;

/// Number 18's place, if the weights are turned away: "a weight count other than 128, or a weight of 0 [...] the place is
/// the lowest zero weight, or 0 for the count".
pub fn refused(weights: &[u8]) -> Option<usize> {
    if weights.len() != 128 {
        return Some(0);
    }
    weights.iter().position(|&w| w == 0)
}

/// What word p weighs, by weights that are not turned away.
pub fn weight(words: &[u32], weights: &[u8], p: usize) -> u32 {
    u32::from(weights[slot(words[p])])
}
