//! A record as 53 numbers: include/RECORD.md.

/// A kind and up to three numbers.
#[repr(C)]
#[derive(Clone, Copy, Debug, PartialEq, Eq, Default)]
pub struct Slot {
    pub kind: u64,
    pub numbers: [u64; 3],
}

#[repr(C)]
#[derive(Clone, Copy, Debug, PartialEq, Eq, Default)]
pub struct Record {
    pub pc: u64,
    pub raw_word: u64,
    pub opcode: u64,
    pub confidence: u64,
    pub has_target: u64,
    pub target: u64,
    pub has_companion: u64,
    pub companion: u64,
    pub has_fallback: u64,
    pub fallback: u64,
    pub effect: Slot,
    pub operand_count: u64,
    pub operands: [Slot; 4],
    pub read_count: u64,
    pub reads: [Slot; 3],
    pub write_count: u64,
    pub writes: [Slot; 2],
}

/// How many numbers a record has.
pub const NUMBERS: usize = 53;
const _: () = assert!(std::mem::size_of::<Record>() == 8 * NUMBERS);

impl Record {
    pub fn numbers(&self) -> [u64; NUMBERS] {
        // Both types are plain 64-bit numbers of the same total size.
        unsafe { std::mem::transmute(*self) }
    }

    pub fn from_numbers(numbers: [u64; NUMBERS]) -> Record {
        unsafe { std::mem::transmute(numbers) }
    }
}

/// Names for a mismatch report, by index.
pub fn name(i: usize) -> String {
    const HEAD: [&str; 15] = [
        "pc",
        "raw_word",
        "opcode",
        "confidence",
        "has_target",
        "target",
        "has_companion",
        "companion",
        "has_fallback",
        "fallback",
        "effect.kind",
        "effect.0",
        "effect.1",
        "effect.2",
        "operand_count",
    ];
    let slot = |of: &str, i: usize| match i % 4 {
        0 => format!("{of}[{}].kind", i / 4),
        k => format!("{of}[{}].{}", i / 4, k - 1),
    };
    match i {
        0..=14 => HEAD[i].to_string(),
        15..=30 => slot("operands", i - 15),
        31 => "read_count".to_string(),
        32..=43 => slot("reads", i - 32),
        44 => "write_count".to_string(),
        _ => slot("writes", i - 45),
    }
}
