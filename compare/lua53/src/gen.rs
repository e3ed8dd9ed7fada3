//! Generators for Lua 5.3: words at the boundaries of their fields, functions of whole groups, damaged ones. The same names as in
//! check/src/gen.rs, whose place this module takes in the comparisons.

use crate::rng::Rng;

const FIELD_A: [u32; 8] = [0, 1, 2, 3, 127, 128, 254, 255];
const FIELD_BC: [u32; 11] = [0, 1, 2, 3, 127, 128, 254, 255, 256, 257, 511];
const FIELD_BX: [u32; 12] = [0, 1, 2, 255, 131_068, 131_069, 131_070, 131_071, 131_072, 131_073, 131_074, 262_143];
const FIELD_AX: [u32; 8] = [0, 1, 255, 256, 131_071, 33_554_432, 67_108_862, 67_108_863];

fn abc(op: u32, a: u32, b: u32, c: u32) -> u32 {
    op | a << 6 | c << 14 | b << 23
}

fn asbx(op: u32, a: u32, offset: i64) -> u32 {
    op | a << 6 | ((131_071 + offset) as u32) << 14
}

pub fn jump(offset: i64) -> u32 {
    asbx(JMP, 0, offset)
}

const JMP: u32 = 30;
const EXTRAARG: u32 = 46;

/// Opcode values, known or not.
pub const OPCODES: u32 = 64;
/// A return.
pub const END: u32 = 38 | 1 << 23;
/// What a report tries to leave of a word: the opcode, all but one field, nothing.
pub const PLAINER: [u32; 6] = [0x0000_003f, 0x007f_ffff, 0xff80_3fff, 0xffff_c03f, 0xffff_ffff, 0x0000_0000];

/// Two words of these opcode values: with C 0 and not, and A 0, 1, 2 and 255.
pub fn pairs(first: u32, second: u32) -> [[u32; 2]; 8] {
    [0, 1, 2, 3, 4, 5, 6, 7].map(|i| {
        let (a, c) = ([0, 1, 2, 255][i / 2], [0, 1][i % 2]);
        [abc(first, a, 1, c), abc(second, 1, 0, c)]
    })
}

/// A word whose low seven bits are i.
pub fn of_slot(i: u32) -> u32 {
    i | abc(0, 2, 1, 2)
}

/// FORPREP and, so many words on, its FORLOOP.
pub fn loop_of(n: usize) -> [u32; 2] {
    [asbx(40, 0, n as i64 - 1), asbx(39, 0, -(n as i64))]
}

/// Every opcode value with every boundary of its fields.
pub fn boundaries() -> Vec<u32> {
    let mut all = vec![];
    for op in 0..OPCODES {
        for a in FIELD_A {
            for b in FIELD_BC {
                all.extend(FIELD_BC.map(|c| abc(op, a, b, c)));
            }
            all.extend(FIELD_BX.map(|bx| op | a << 6 | bx << 14));
        }
        all.extend(FIELD_AX.map(|ax| op | ax << 6));
    }
    all
}

/// One word of each kind of step, of each companion, and of their neighbours.
pub fn telling() -> Vec<u32> {
    let mut all: Vec<u32> = [0, 1, 2, 4, 11, 13, 29, 36, 37, 38, 41, 44, 45, 46, 47, 63].map(|op| abc(op, 1, 2, 1)).to_vec();
    all.extend([abc(3, 0, 1, 0), abc(3, 0, 0, 1), abc(3, 0, 0, 256), abc(43, 1, 1, 0), abc(43, 1, 0, 1)]);
    all.extend([abc(31, 0, 0, 1), abc(32, 1, 0, 1), abc(33, 2, 0, 1), abc(31, 255, 0, 1), abc(34, 2, 0, 0), abc(35, 2, 0, 511)]);
    all.extend([jump(0), jump(1), jump(-1), jump(-2), asbx(JMP, 3, 0)]);
    all.extend([asbx(39, 0, 0), asbx(39, 0, 1), asbx(39, 0, -1), asbx(39, 0, -2), asbx(40, 0, 0), asbx(40, 0, 1), asbx(40, 0, -2)]);
    all.extend([asbx(42, 0, 0), asbx(42, 0, -2), asbx(42, 1, 1)]);
    all
}

/// Any word, with fields that are small more often than not.
pub fn word(rng: &mut Rng, n: usize) -> u32 {
    let op = if rng.once_in(20) { rng.below(64) } else { rng.below(47) } as u32;
    if rng.once_in(6) {
        return op | (rng.next() as u32) << 6;
    }
    let by = rng.below(n + 2) as i64 - rng.below(n + 2) as i64;
    match op {
        JMP | 39 | 40 | 42 => asbx(op, rng.below(4) as u32, by),
        EXTRAARG => op | (rng.below(9) as u32) << 6,
        _ => abc(op, rng.pick(&FIELD_A), rng.pick(&FIELD_BC), rng.pick(&FIELD_BC)),
    }
}

/// A word that goes on to p + 1 and wants no companion.
fn plain(rng: &mut Rng) -> u32 {
    let op = rng.pick(&[0, 1, 4, 5, 6, 7, 8, 9, 10, 11, 12, 13, 14, 17, 20, 24, 25, 26, 27, 28, 29, 36, 37, 44, 45]);
    op | (rng.next() as u32) << 6
}

/// One group of words at p of about n, as a compiler would leave it.
fn group(rng: &mut Rng, p: usize, n: usize, out: &mut Vec<u32>) {
    let fields = |rng: &mut Rng, op: u32| op | (rng.next() as u32) << 6;
    let to = |rng: &mut Rng| rng.below(n) as i64 - p as i64 - 1;
    match rng.below(16) {
        0..=4 => out.push(plain(rng)),
        5..=7 => {
            let a = rng.pick(&[0, 0, 1, 1, 2, 255]);
            let test = abc(31 + rng.below(5) as u32, a, rng.pick(&FIELD_BC), rng.pick(&FIELD_BC));
            out.extend([test, asbx(JMP, rng.below(2) as u32, rng.below(4) as i64)]);
        }
        8 => out.extend([fields(rng, 2), fields(rng, EXTRAARG)]),
        9 => {
            let c = rng.below(2) as u32;
            out.push(abc(43, 1, rng.below(3) as u32, c));
            if c == 0 {
                out.push(fields(rng, EXTRAARG));
            }
        }
        10 => out.extend([abc(3, 0, 0, rng.pick(&[0, 1, 256])), plain(rng)]),
        11 => out.push(jump(to(rng))),
        12 => {
            let body = rng.below(3);
            out.push(asbx(40, 0, body as i64));
            for _ in 0..body {
                out.push(plain(rng));
            }
            out.push(asbx(39, 0, -(body as i64) - 1));
        }
        13 => {
            let body = rng.below(3);
            out.push(jump(body as i64));
            for _ in 0..body {
                out.push(plain(rng));
            }
            out.extend([abc(41, 0, 0, 2), asbx(42, 2, -(body as i64) - 2)]);
        }
        14 => out.push(asbx(rng.pick(&[39, 40, 42]), 0, to(rng))),
        _ => out.push(if rng.once_in(3) { fields(rng, 38) } else { plain(rng) }),
    }
}

/// A function of about n words made of whole groups, with a return at its end.
pub fn whole(rng: &mut Rng, n: usize) -> Vec<u32> {
    let mut out = vec![];
    while out.len() + 1 < n {
        let p = out.len();
        group(rng, p, n, &mut out);
    }
    out.push(END);
    out
}

/// One change that a fault in transit might make.
pub fn damage(rng: &mut Rng, words: &mut Vec<u32>) {
    if words.is_empty() {
        return;
    }
    let i = rng.below(words.len());
    match rng.below(6) {
        0 | 1 => words[i] ^= 1 << rng.below(32),
        2 => words[i] = rng.next() as u32,
        3 => words[i] = words[i] & !63 | rng.below(64) as u32,
        4 => {
            words.remove(i);
        }
        _ => words.truncate(i),
    }
}

/// A function of any kind with at most about `most` words.
pub fn function(rng: &mut Rng, most: usize) -> Vec<u32> {
    let n = rng.below(most + 1);
    match rng.below(8) {
        0 => (0..n).map(|_| rng.next() as u32).collect(),
        1 | 2 => (0..n).map(|_| word(rng, n)).collect(),
        3 | 4 => {
            let mut words = whole(rng, n);
            for _ in 0..=rng.below(3) {
                damage(rng, &mut words);
            }
            words
        }
        _ => whole(rng, n),
    }
}
