//! The table of document 01, row by row.

use crate::word::{fields, opcode};

const JMP: u32 = 56;
const TFORCALL: u32 = 76;
const TFORLOOP: u32 = 77;
const EXTRAARG: u32 = 82;

/// The opcode of word p, if there is such a word.
fn at(words: &[u32], p: i64) -> Option<u32> {
    usize::try_from(p).ok().and_then(|p| words.get(p)).map(|&w| opcode(w))
}

/// Where word p leads, and whether it is good by what stands next to it: the columns "Next word" and "Bad unless".
pub fn row(words: &[u32], p: usize) -> ([Option<i64>; 2], bool) {
    let f = fields(words[p]);
    let p = p as i64;
    let next = at(words, p + 1);
    let within = |o: Option<u32>, low, high| o.is_some_and(|o| low <= o && o <= high);
    let bx = i64::from(f.bx);
    match f.opcode {
        69..=72 => ([None, None], true),
        21..=45 => ([Some(p + 1), Some(p + 2)], within(next, 46, 48)),
        46..=48 => ([Some(p + 1), None], p > 0 && within(at(words, p - 1), 21, 45)),
        57..=67 => ([Some(p + 1), Some(p + 2)], next == Some(JMP)),
        6 => ([Some(p + 2), None], true),
        4 | 19 => ([Some(p + 2), None], next == Some(EXTRAARG)),
        78 if f.k == 1 => ([Some(p + 2), None], next == Some(EXTRAARG)),
        56 => ([Some(p + 1 + i64::from(f.sj)), None], true),
        73 | 77 => ([Some(p + 1 - bx), Some(p + 1)], true),
        74 => ([Some(p + 1), Some(p + 2 + bx)], true),
        75 => ([Some(p + 1 + bx), None], at(words, p + 1 + bx) == Some(TFORCALL)),
        76 => ([Some(p + 1), None], next == Some(TFORLOOP)),
        82.. => ([None, None], false),
        _ => ([Some(p + 1), None], true),
    }
}
