//! What lifting is lent, its refusals, and what an index into its tables means.

use crate::{Answer, WORDS};

/// Words, the constants' tags and payloads, the string bytes, the upvalues' names, and how many records are lent: with so many
/// numbers more, fewer than a record has, where a side is lent numbers.
#[derive(Clone, Debug, PartialEq, Eq, Default)]
pub struct Input {
    pub words: Vec<u32>,
    pub tags: Vec<u8>,
    pub payloads: Vec<u64>,
    pub bytes: Vec<u8>,
    pub names: Vec<u64>,
    pub records: usize,
    pub spare: usize,
}

pub const UNNAMED: u64 = u64::MAX;

/// A string's place: start in the low 32 bits, length in the high 32.
pub fn place(start: u32, length: u32) -> u64 {
    u64::from(start) + (u64::from(length) << 32)
}

/// The bytes of a place, if it ends within them.
pub fn part(bytes: &[u8], place: u64) -> Option<&[u8]> {
    let start = place % (1 << 32);
    let end = start + (place >> 32);
    if end > bytes.len() as u64 {
        return None;
    }
    Some(&bytes[start as usize..end as usize])
}

/// Refusals 1 to 6, in the document's order.
pub fn check(input: &Input) -> Answer {
    let refused = |number, place: usize| Answer { number, place: place as u64 };
    if input.words.len() > WORDS {
        return refused(1, 0);
    }
    if input.tags.len() != input.payloads.len() || input.tags.len() > 65_536 {
        return refused(2, 0);
    }
    if let Some(i) = input.tags.iter().position(|t| ![0, 1, 17, 3, 19, 4, 20].contains(t)) {
        return refused(3, i);
    }
    let past = |p: &u64| part(&input.bytes, *p).is_none();
    let string = |i: &usize| input.tags[*i] == 4 || input.tags[*i] == 20;
    if let Some(i) = (0..input.tags.len()).find(|i| string(i) && past(&input.payloads[*i])) {
        return refused(4, i);
    }
    if input.names.len() > 255 {
        return refused(5, 0);
    }
    if let Some(i) = input.names.iter().position(|p| *p != UNNAMED && past(p)) {
        return refused(5, i);
    }
    if input.records < input.words.len() {
        return refused(6, 0);
    }
    refused(0, 0)
}
