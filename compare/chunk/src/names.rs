//! The name shown, from the words: number 5 over both sets of places, the chunk's first; the chunk's name, else the list's, else an empty
//! part of the list.

/// Number, place, in the chunk (1) or the list (0), start, size.
pub type Shown = [u64; 5];

fn fifth(places: &[u64], bytes: usize) -> Option<u64> {
    if places.len() > 255 {
        return Some(0);
    }
    places.iter().position(|&p| p != u64::MAX && (p & 0xffff_ffff) + (p >> 32) > bytes as u64).map(|i| i as u64)
}

pub fn shown(chunk: &[u8], own: &[u64], list: &[u8], other: &[u64], index: usize) -> Shown {
    if let Some(place) = fifth(own, chunk.len()).or_else(|| fifth(other, list.len())) {
        return [5, place, 0, 0, 0];
    }
    let name = |places: &[u64]| places.get(index).copied().filter(|&p| p != u64::MAX);
    match (name(own), name(other)) {
        (Some(p), _) => [0, 0, 1, p & 0xffff_ffff, p >> 32],
        (None, Some(p)) => [0, 0, 0, p & 0xffff_ffff, p >> 32],
        (None, None) => [0; 5],
    }
}
