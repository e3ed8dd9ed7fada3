//! Word fields, and how an opcode's operands are laid out in them.

/// Bits low to high of a word, bit 0 lowest.
fn bits(word: u32, low: u32, high: u32) -> u32 {
    let all = u64::from(word) / (1u64 << low) % (1u64 << (high - low + 1));
    all as u32
}

#[repr(C)]
#[derive(Clone, Copy, Debug, PartialEq, Eq)]
pub struct Fields {
    pub opcode: u32,
    pub a: u32,
    pub k: u32,
    pub b: u32,
    pub sb: i32,
    pub c: u32,
    pub sc: i32,
    pub bx: u32,
    pub sbx: i32,
    pub ax: u32,
    pub sj: i32,
}

pub fn fields(word: u32) -> Fields {
    let (b, c) = (bits(word, 16, 23), bits(word, 24, 31));
    let (bx, ax) = (bits(word, 15, 31), bits(word, 7, 31));
    Fields {
        opcode: opcode(word),
        a: bits(word, 7, 14),
        k: bits(word, 15, 15),
        b,
        sb: b as i32 - 127,
        c,
        sc: c as i32 - 127,
        bx,
        sbx: bx as i32 - 65_535,
        ax,
        sj: ax as i32 - 16_777_215,
    }
}

pub fn opcode(word: u32) -> u32 {
    bits(word, 0, 6)
}

/// The entry of the weights that a word weighs by: "indexed by the low seven bits".
pub fn slot(word: u32) -> usize {
    word as usize % 128
}

/// The mode of each opcode value, as the opmodes of lopcodes.c of Lua 5.4.8 have it: 1 iABC, 2 iABx,
/// 3 iAsBx, 4 iAx, 5 isJ; 0 for 83 to 127, which have none.
pub fn mode(opcode: u32) -> u32 {
    match opcode {
        1 | 2 => 3,
        3 | 4 | 73 | 74 | 75 | 77 | 79 => 2,
        56 => 5,
        82 => 4,
        0..=81 => 1,
        _ => 0,
    }
}
