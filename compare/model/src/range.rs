//! The longest run by a lowest and by a highest weight for each opcode: request C-18.

use crate::run::run;
use crate::weights;
use crate::WORDS;

/// Number and place of the refusal; L and its first word by the low table, and by the high one.
#[repr(C)]
#[derive(Clone, Copy, Debug, PartialEq, Eq, Default)]
pub struct RangeAnswer {
    pub number: u64,
    pub place: u64,
    pub low_longest: u64,
    pub low_first: u64,
    pub high_longest: u64,
    pub high_first: u64,
}

fn refused(number: u64, place: usize) -> RangeAnswer {
    RangeAnswer { number, place: place as u64, ..RangeAnswer::default() }
}

/// "Report the longest run for both tables; the work slices end as the high table's run leaves them. [...] Turned away: 19 a
/// low above its high; after 18 on both tables, low first; the place is the lowest such opcode."
pub fn runs(words: &[u32], low: &[u8], high: &[u8], marks: &mut [u8], lengths: &mut [u32]) -> RangeAnswer {
    let n = words.len();
    if n > WORDS {
        return refused(1, 0);
    }
    if marks.len() < n || lengths.len() < n {
        return refused(6, 0);
    }
    for table in [low, high] {
        if let Some(place) = weights::refused(table) {
            return refused(18, place);
        }
    }
    if let Some(place) = (0..128).find(|&i| low[i] > high[i]) {
        return refused(19, place);
    }
    // What is left is what the run itself checks, by either table: each is run by itself, on slices of its own.
    let by_low = run(words, low, &mut vec![0; n], &mut vec![0; n]);
    let by_high = run(words, high, marks, lengths);
    assert_eq!((by_low.number, by_low.place), (by_high.number, by_high.place), "what is refused now does not depend on weights");
    RangeAnswer {
        number: by_high.number,
        place: by_high.place,
        low_longest: by_low.longest,
        low_first: by_low.first,
        high_longest: by_high.longest,
        high_first: by_high.first,
    }
}
