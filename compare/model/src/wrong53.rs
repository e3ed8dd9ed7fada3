//! Readings of request C-24 that are wrong on purpose: each takes a word for another. One is tried at a time; the comparison must
//! tell it from the library.

use std::cell::Cell;

#[derive(Clone, Copy, Debug, PartialEq, Eq)]
pub enum Wrong {
    SevenBits,
    TailcallReturns,
    LoadboolNeverSkips,
    LoadboolSkipsByEightBits,
    BothStepsAboveA1,
    JumpAloneAboveA1,
    TestByAllOfC,
    TestWithoutJump,
    TforcallAlone,
    TforcallFetchesOnward,
    LoadkxAlone,
    SetlistNeverTakesTheWord,
    SetlistAlwaysTakesTheWord,
    NewtableTakesTheWord,
    ForprepFallsThrough,
    ForloopAndForprepExchanged,
    TforloopAsIn54,
    JumpOneOff,
    JumpBySeventeenBits,
    ExtraargGoesOn,
    UnknownGoesOn,
}

impl Wrong {
    pub const ALL: [Wrong; 21] = [
        Wrong::SevenBits,
        Wrong::TailcallReturns,
        Wrong::LoadboolNeverSkips,
        Wrong::LoadboolSkipsByEightBits,
        Wrong::BothStepsAboveA1,
        Wrong::JumpAloneAboveA1,
        Wrong::TestByAllOfC,
        Wrong::TestWithoutJump,
        Wrong::TforcallAlone,
        Wrong::TforcallFetchesOnward,
        Wrong::LoadkxAlone,
        Wrong::SetlistNeverTakesTheWord,
        Wrong::SetlistAlwaysTakesTheWord,
        Wrong::NewtableTakesTheWord,
        Wrong::ForprepFallsThrough,
        Wrong::ForloopAndForprepExchanged,
        Wrong::TforloopAsIn54,
        Wrong::JumpOneOff,
        Wrong::JumpBySeventeenBits,
        Wrong::ExtraargGoesOn,
        Wrong::UnknownGoesOn,
    ];
}

thread_local! {
    static TRIED: Cell<Option<Wrong>> = const { Cell::new(None) };
}

/// From here on this one is tried, or none.
pub fn try_one(wrong: Option<Wrong>) {
    TRIED.set(wrong);
}

pub fn tried(wrong: Wrong) -> bool {
    TRIED.get() == Some(wrong)
}

const MOVE: u32 = 0;
const LOADKX: u32 = 2;
const JMP: u32 = 30;
const TESTSET: u32 = 35;
const RETURN: u32 = 38;
const FORLOOP: u32 = 39;
const FORPREP: u32 = 40;
const TFORLOOP: u32 = 42;
const EXTRAARG: u32 = 46;

/// The word and the one after it, as they are unless a wrong reading takes them for others.
pub fn misread(word: u32, next: Option<u32>) -> (u32, Option<u32>) {
    let Some(wrong) = TRIED.get() else { return (word, next) };
    let opcode = word & 63;
    let as_opcode = |o: u32| word & !63 | o;
    let with = |o: u32| next.map(|w| w & !63 | o);
    match (wrong, opcode) {
        (Wrong::TailcallReturns, 37) => (as_opcode(RETURN), next),
        (Wrong::LoadboolNeverSkips, 3) => (as_opcode(MOVE), next),
        (Wrong::LoadboolSkipsByEightBits, 3) => (word & !(1 << 22), next),
        (Wrong::BothStepsAboveA1, 31..=33) => (as_opcode(TESTSET), next),
        // To p + 1 alone, if JMP follows.
        (Wrong::JumpAloneAboveA1, 31..=33) if word >> 7 & 127 != 0 => {
            if next.is_some_and(|w| w & 63 == JMP) { (MOVE, next) } else { (EXTRAARG, next) }
        }
        (Wrong::TestByAllOfC, 34 | 35) if word >> 15 & 255 != 0 => (31 | 255 << 6, next),
        (Wrong::TestWithoutJump, 31..=35) => (word, with(JMP)),
        (Wrong::TforcallAlone, 41) => (as_opcode(MOVE), next),
        (Wrong::TforcallFetchesOnward, 41) => (as_opcode(LOADKX), next.filter(|w| w & 63 == TFORLOOP).and(with(EXTRAARG))),
        (Wrong::LoadkxAlone, 2) => (word, with(EXTRAARG)),
        (Wrong::SetlistNeverTakesTheWord, 43) => (as_opcode(MOVE), next),
        (Wrong::SetlistAlwaysTakesTheWord, 43) | (Wrong::NewtableTakesTheWord, 11) => (as_opcode(LOADKX), next),
        (Wrong::ForprepFallsThrough, 40) => (as_opcode(FORLOOP), next),
        (Wrong::ForloopAndForprepExchanged, 39) => (as_opcode(FORPREP), next),
        (Wrong::ForloopAndForprepExchanged, 40) => (as_opcode(FORLOOP), next),
        // p + 1 - Bx and p + 1: the jump by 131,071 - Bx.
        (Wrong::TforloopAsIn54, 42) => (word & 0x3fff | (131_071 - (word >> 14) as i32).max(0) as u32 % (1 << 18) << 14, next),
        (Wrong::JumpOneOff, 30 | 39 | 40 | 42) => ((word & 0x3fff) | ((word >> 14) + 1) % (1 << 18) << 14, next),
        (Wrong::JumpBySeventeenBits, 30 | 39 | 40 | 42) => (word & 0x7fff_ffff, next),
        (Wrong::ExtraargGoesOn, 46) | (Wrong::UnknownGoesOn, 47..) => (as_opcode(MOVE), next),
        _ => (word, next),
    }
}
