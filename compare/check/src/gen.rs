//! Generators: words at the boundaries of their fields, functions of whole groups, damaged ones, tables.

use crate::rng::Rng;
use model::flat::NUMBERS;
use model::input::{place, Input, UNNAMED};

pub const FIELD_A: [u32; 8] = [0, 1, 2, 126, 127, 253, 254, 255];
pub const FIELD_B: [u32; 9] = [0, 1, 2, 3, 126, 127, 128, 254, 255];
/// Beside the ends, C's events: 16 is the last of C + 6, 17 and 18 are apart, 19 is none.
pub const FIELD_C: [u32; 12] = [0, 1, 2, 3, 15, 16, 17, 18, 19, 127, 128, 255];
pub const FIELD_BX: [u32; 12] = [0, 1, 2, 3, 5, 254, 65_534, 65_535, 65_536, 65_537, 131_070, 131_071];
pub const FIELD_AX: [u32; 14] = [
    0, 1, 2, 255, 65_535, 65_536, 16_777_213, 16_777_214, 16_777_215, 16_777_216, 16_777_217, 16_777_218, 33_554_430, 33_554_431,
];

pub fn abc(op: u32, a: u32, k: u32, b: u32, c: u32) -> u32 {
    op | a << 7 | k << 15 | b << 16 | c << 24
}

pub fn abx(op: u32, a: u32, bx: u32) -> u32 {
    op | a << 7 | bx << 15
}

pub fn ax(op: u32, ax: u32) -> u32 {
    op | ax << 7
}

pub fn jump(offset: i64) -> u32 {
    ax(56, (16_777_215 + offset) as u32)
}

/// Opcode values, known or not.
pub const OPCODES: u32 = 128;
/// A return: RETURN0.
pub const END: u32 = 71 | 1 << 16;
/// What a report tries to leave of a word: the opcode, all but one field, nothing.
pub const PLAINER: [u32; 6] = [0x0000_007f, 0x00ff_ffff, 0xff00_ffff, 0xffff_7fff, 0xffff_807f, 0x0000_0000];

/// Two words of these opcode values, with each of the fields that decide what is wanted of the second.
pub fn pairs(first: u32, second: u32) -> [[u32; 2]; 2] {
    [0, 1].map(|k| [abc(first, 3, k, 1, 2), abc(second, 1, k, 0, 0)])
}

/// A word that weighs by entry i.
pub fn of_slot(i: u32) -> u32 {
    abc(i, 3, 0, 1, 2)
}

/// FORPREP and, so many words on, its FORLOOP.
pub fn loop_of(n: usize) -> [u32; 2] {
    [abx(74, 0, n as u32 - 1), abx(73, 0, n as u32)]
}

/// Every opcode value with every boundary of its fields.
pub fn boundaries() -> Vec<u32> {
    let mut all = vec![];
    for op in 0..128 {
        for a in FIELD_A {
            for k in 0..2 {
                for b in FIELD_B {
                    all.extend(FIELD_C.map(|c| abc(op, a, k, b, c)));
                }
            }
            all.extend(FIELD_BX.map(|bx| abx(op, a, bx)));
        }
        all.extend(FIELD_AX.map(|x| ax(op, x)));
    }
    all
}

/// One opcode of each row of the table, of each companion, and of their neighbours.
pub fn telling() -> Vec<u32> {
    let plain = [0, 3, 4, 5, 6, 7, 19, 20, 21, 34, 45, 46, 47, 48, 49, 56, 57, 60, 61, 67, 68, 69, 72, 79, 82, 83, 127];
    let mut all: Vec<u32> = plain.map(|op| abc(op, 1, 0, 2, 1)).to_vec();
    all[15] = jump(0);
    all.extend([jump(1), jump(-1), jump(-2)]);
    all.extend([abx(73, 0, 0), abx(73, 0, 1), abx(73, 0, 2), abx(74, 0, 0), abx(74, 0, 1)]);
    all.extend([abx(75, 0, 0), abx(75, 0, 1), abc(76, 0, 0, 0, 1), abx(77, 0, 1), abc(78, 1, 0, 1, 0), abc(78, 1, 1, 1, 0)]);
    all
}

/// Any word, with fields that are small more often than not.
pub fn word(rng: &mut Rng, n: usize) -> u32 {
    let op = if rng.once_in(20) { rng.below(128) } else { rng.below(83) } as u32;
    if rng.once_in(6) {
        return op | (rng.next() as u32) << 7;
    }
    let near = rng.below(n + 2) as u32;
    match op {
        56 => jump(i64::from(near) - rng.below(n + 2) as i64),
        73..=75 | 77 => abx(op, rng.below(6) as u32, near),
        82 => ax(op, rng.below(9) as u32),
        _ => {
            let (a, b, c) = (rng.pick(&FIELD_A), rng.pick(&FIELD_B), rng.pick(&FIELD_C));
            abc(op, a, rng.below(2) as u32, b, c)
        }
    }
}

/// A word that goes on to p + 1 and wants no companion.
fn plain(rng: &mut Rng) -> u32 {
    let op = rng.pick(&[0, 1, 2, 3, 5, 7, 8, 9, 10, 11, 12, 13, 14, 15, 16, 17, 18, 20, 49, 50, 51, 52, 53, 54, 55, 79, 80, 81]);
    op | ((rng.next() as u32) << 7)
}

/// One group of words at p of about n, as a compiler would leave it.
fn group(rng: &mut Rng, p: usize, n: usize, out: &mut Vec<u32>) {
    let fields = |rng: &mut Rng, op: u32| op | (rng.next() as u32) << 7;
    match rng.below(16) {
        0..=3 => out.push(plain(rng)),
        4 | 5 => {
            let (op, mm) = (21 + rng.below(25) as u32, 46 + rng.below(3) as u32);
            out.extend([fields(rng, op), fields(rng, mm)]);
        }
        6 | 7 => {
            let op = 57 + rng.below(11) as u32;
            let ahead = rng.below(4) as i64;
            out.extend([fields(rng, op), jump(ahead)]);
        }
        8 => {
            let op = rng.pick(&[4, 19]);
            out.extend([fields(rng, op), fields(rng, 82)]);
        }
        9 => {
            let k = rng.below(2) as u32;
            out.push(abc(78, 1, k, 2, 3));
            if k == 1 {
                out.push(fields(rng, 82));
            }
        }
        10 => {
            let op = 6;
            out.extend([fields(rng, op), plain(rng)]);
        }
        11 => out.push(fields(rng, 68)),
        12 => {
            let to = rng.below(n) as i64;
            out.push(jump(to - p as i64 - 1));
        }
        13 => {
            let body = rng.below(3);
            out.push(abx(74, 0, body as u32));
            for _ in 0..body {
                out.push(plain(rng));
            }
            out.push(abx(73, 0, body as u32 + 1));
        }
        14 => {
            let body = rng.below(3);
            out.push(abx(75, 0, body as u32));
            for _ in 0..body {
                out.push(plain(rng));
            }
            out.push(abc(76, 0, 0, 0, 2));
            out.push(abx(77, 0, body as u32 + 2));
        }
        _ => {
            if rng.once_in(3) {
                let op = 69 + rng.below(4) as u32;
                out.push(fields(rng, op));
            } else {
                out.push(abx(73, 0, rng.below(p + 2) as u32));
            }
        }
    }
}

/// A function of about n words made of whole groups, with a return at its end.
pub fn whole(rng: &mut Rng, n: usize) -> Vec<u32> {
    let mut out = vec![];
    while out.len() + 1 < n {
        let p = out.len();
        group(rng, p, n, &mut out);
    }
    out.push(abc(71, 0, 0, 1, 0));
    out
}

/// One change that a fault in transit might make.
pub fn damage(rng: &mut Rng, words: &mut Vec<u32>) {
    if words.is_empty() {
        return;
    }
    let i = rng.below(words.len());
    match rng.below(6) {
        0 => words[i] ^= 1 << rng.below(32),
        1 => words[i] = rng.next() as u32,
        2 => words[i] = (words[i] & !127) | rng.below(128) as u32,
        3 => {
            words.remove(i);
        }
        4 => words.truncate(i),
        _ => {
            let copy = words[rng.below(i + 1)];
            words.insert(i, copy);
        }
    }
}

/// A function of any kind with at most about `most` words.
pub fn function(rng: &mut Rng, most: usize) -> Vec<u32> {
    let n = rng.below(most + 1);
    match rng.below(8) {
        0 => (0..n).map(|_| rng.next() as u32).collect(),
        1 | 2 => (0..n).map(|_| word(rng, n)).collect(),
        3 | 4 => {
            let mut words = whole(rng, n);
            for _ in 0..=rng.below(3) {
                damage(rng, &mut words);
            }
            words
        }
        _ => whole(rng, n),
    }
}

/// Text whose every place is valid UTF-8, for names, after bytes of any kind, for constants.
const TEXT: &str = "_ENVprintselfxéüλ→𝄞";

/// Tables for words; sound unless damaged.
pub fn tables(rng: &mut Rng, words: Vec<u32>, constants: usize, names: usize) -> Input {
    let any = rng.below(24);
    let mut bytes: Vec<u8> = (0..any).map(|_| rng.next() as u8).collect();
    bytes.extend(TEXT.bytes());
    let boundaries: Vec<usize> = (0..=TEXT.len()).filter(|&i| TEXT.is_char_boundary(i)).collect();
    let spare = if rng.once_in(2) { rng.below(NUMBERS) } else { 0 };
    let mut input = Input { records: words.len() + rng.below(3), spare, words, ..Input::default() };
    for _ in 0..constants {
        let tag = rng.pick(&[0u8, 1, 17, 3, 19, 4, 20]);
        let payload = match tag {
            4 | 20 => {
                let start = rng.below(bytes.len() + 1);
                place(start as u32, rng.below(bytes.len() - start + 1) as u32)
            }
            19 => match rng.below(4) {
                0 => rng.pick(&[0, 1 << 63, 0x7ff0 << 48, 0xfff0 << 48, 0x7ff8 << 48, 0x7ff0_0000_0000_0001, u64::MAX, 1]),
                _ => rng.next(),
            },
            3 => match rng.below(3) {
                0 => rng.pick(&[0, 1, u64::MAX, 1 << 63, (1 << 63) - 1]),
                _ => rng.next(),
            },
            _ => rng.next(),
        };
        input.tags.push(tag);
        input.payloads.push(payload);
    }
    for _ in 0..names {
        let (x, y) = (rng.pick(&boundaries), rng.pick(&boundaries));
        let (from, to) = (any + x.min(y), any + x.max(y));
        input.names.push(if rng.once_in(4) { UNNAMED } else { place(from as u32, (to - from) as u32) });
    }
    input.bytes = bytes;
    input
}

/// A random prototype of at most about `most` words.
pub fn prototype(rng: &mut Rng, most: usize) -> Input {
    let words = function(rng, most);
    let constants = if rng.once_in(3) { rng.below(300) } else { rng.below(6) };
    let names = if rng.once_in(3) { rng.below(256) } else { rng.below(5) };
    tables(rng, words, constants, names)
}

/// A fault in the tables or in what is lent, so that refusals 2 to 6 are met, several at once too.
pub fn spoil(rng: &mut Rng, input: &mut Input) {
    let some = |rng: &mut Rng, n: usize| rng.below(n.max(1));
    match rng.below(8) {
        0 => {
            input.tags.pop();
        }
        1 => input.payloads.push(rng.next()),
        2 | 3 if !input.tags.is_empty() => {
            let i = some(rng, input.tags.len());
            input.tags[i] = rng.next() as u8;
        }
        4 if !input.payloads.is_empty() => {
            let i = some(rng, input.payloads.len());
            let over = input.bytes.len() as u32 + 1;
            input.payloads[i] =
                rng.pick(&[place(over, 0), place(0, over), place(u32::MAX, u32::MAX), place(over - 1, 1), place(over - 1, 0)]);
        }
        5 if !input.names.is_empty() => {
            let i = some(rng, input.names.len());
            let over = input.bytes.len() as u32 + 1;
            input.names[i] = rng.pick(&[place(over, 0), place(0, over), u64::MAX - 1, place(over - 1, 1)]);
        }
        6 => input.names.resize(255 + rng.below(3), UNNAMED),
        _ => input.records = input.words.len().saturating_sub(rng.below(3)),
    }
}
