//! Word fields of Lua 5.3: request C-24, from lopcodes.h and lopcodes.c of Lua 5.3.6.

use crate::wrong::{tried, Wrong};

/// Bits low to high of a word, bit 0 lowest.
fn bits(word: u32, low: u32, high: u32) -> u32 {
    let all = u64::from(word) / (1u64 << low) % (1u64 << (high - low + 1));
    all as u32
}

/// "All instructions have an opcode in the first 6 bits", then A of 8, C of 9 and B of 9; Bx is C and B together, Ax all three.
#[derive(Clone, Copy, Debug, PartialEq, Eq)]
pub struct Fields {
    pub opcode: u32,
    pub a: u32,
    pub b: u32,
    pub c: u32,
    pub bx: u32,
    /// "represented in excess K", where K is half the largest Bx, rounded down.
    pub sbx: i32,
    pub ax: u32,
}

pub fn fields(word: u32) -> Fields {
    let bx = bits(word, 14, 31);
    Fields {
        opcode: opcode(word),
        a: bits(word, 6, 13),
        b: bits(word, 23, 31),
        c: bits(word, 14, 22),
        bx,
        sbx: bx as i32 - 131_071,
        ax: bits(word, 6, 31),
    }
}

pub fn opcode(word: u32) -> u32 {
    bits(word, 0, 5)
}

/// "A 5.3 word takes its weight by its low six bits."
pub fn slot(word: u32) -> usize {
    word as usize % if tried(Wrong::SevenBits) { 128 } else { 64 }
}

/// The mode of each opcode value, as luaP_opmodes has it: 1 iABC, 2 iABx, 3 iAsBx, 4 iAx; 0 for 47 to 63, which have none.
pub fn mode(opcode: u32) -> u32 {
    match opcode {
        1 | 2 | 44 => 2,
        30 | 39 | 40 | 42 => 3,
        46 => 4,
        0..=45 => 1,
        _ => 0,
    }
}
