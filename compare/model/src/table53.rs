//! Where words of Lua 5.3 lead: request C-24 and lvm.c of Lua 5.3.6, opcode by opcode.

use crate::word::{fields, opcode};
use crate::wrong::misread;

const LOADKX: u32 = 2;
const LOADBOOL: u32 = 3;
const JMP: u32 = 30;
const EQ: u32 = 31;
const LE: u32 = 33;
const TEST: u32 = 34;
const TESTSET: u32 = 35;
const RETURN: u32 = 38;
const FORLOOP: u32 = 39;
const FORPREP: u32 = 40;
const TFORCALL: u32 = 41;
const TFORLOOP: u32 = 42;
const SETLIST: u32 = 43;
const EXTRAARG: u32 = 46;

/// Where word p leads, and whether it is good by the word after it.
pub fn row(words: &[u32], p: usize) -> ([Option<i64>; 2], bool) {
    let (word, next) = misread(words[p], words.get(p + 1).copied());
    let f = fields(word);
    let followed_by = |o: u32| next.is_some_and(|w| opcode(w) == o);
    let p = p as i64;
    let jump = p + 1 + i64::from(f.sbx);
    // Where lvm.c goes on, by how far it has moved `savedpc` when the next word is fetched or taken along, and what the request
    // wants of the word after.
    match f.opcode {
        LOADBOOL if f.c != 0 => ([Some(p + 2), None], true),
        // A result of 0 or 1 is compared with all of A: "if (luaV_equalobj(L, rb, rc) != GETARG_A(i)) ci->u.l.savedpc++".
        EQ..=LE if f.a > 1 => ([Some(p + 2), None], followed_by(JMP)),
        EQ..=LE | TEST | TESTSET => ([Some(p + 1), Some(p + 2)], followed_by(JMP)),
        LOADKX => ([Some(p + 2), None], followed_by(EXTRAARG)),
        SETLIST if f.c == 0 => ([Some(p + 2), None], followed_by(EXTRAARG)),
        JMP | FORPREP => ([Some(jump), None], true),
        FORLOOP | TFORLOOP => ([Some(jump), Some(p + 1)], true),
        TFORCALL => ([Some(p + 1), None], followed_by(TFORLOOP)),
        RETURN => ([None, None], true),
        // "EXTRAARG, opcodes 47 to 63"
        EXTRAARG.. => ([None, None], false),
        // Among them TAILCALL, "where a C function returns".
        _ => ([Some(p + 1), None], true),
    }
}
