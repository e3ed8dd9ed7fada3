//! Sets of scripts to rehearse: of whole groups as a compiler leaves them, most of them accepted; damaged; of any words; real code.

use crate::reading::Set;

/// splitmix64: small, seeded, the same everywhere.
pub struct Rng(u64);

impl Rng {
    pub fn new(seed: u64) -> Rng {
        Rng(seed)
    }

    pub fn next(&mut self) -> u64 {
        self.0 = self.0.wrapping_add(0x9e37_79b9_7f4a_7c15);
        let mut z = self.0;
        z = (z ^ (z >> 30)).wrapping_mul(0xbf58_476d_1ce4_e5b9);
        z = (z ^ (z >> 27)).wrapping_mul(0x94d0_49bb_1331_11eb);
        z ^ (z >> 31)
    }

    /// A number below n, which is above 0.
    pub fn below(&mut self, n: usize) -> usize {
        ((u128::from(self.next()) * n as u128) >> 64) as usize
    }

    pub fn once_in(&mut self, n: usize) -> bool {
        self.below(n) == 0
    }
}

pub const RETURN0: u32 = 71;

pub fn abx(op: u32, bx: usize) -> u32 {
    op | (bx as u32) << 15
}

/// JMP by an offset.
pub fn jump(offset: i64) -> u32 {
    56 | ((16_777_215 + offset) as u32) << 7
}

/// JMP at p to a word.
fn jump_to(p: usize, to: usize) -> u32 {
    jump(to as i64 - p as i64 - 1)
}

/// A group of words at the end of a script, whole, that goes nowhere but to words that the script has or to the word after it.
fn group(rng: &mut Rng, out: &mut Vec<u32>) {
    let p = out.len();
    let back = rng.below(p + 2);
    match rng.below(14) {
        0..=3 => out.push([0, 1, 11, 49, 53, 68][rng.below(6)]),
        // arithmetic and its metamethod word
        4 | 5 => out.extend([21 + rng.below(25) as u32, 46 + rng.below(3) as u32]),
        // a test, its JMP, and the word that the JMP passes
        6 | 7 => out.extend([57 + rng.below(11) as u32, jump(rng.below(2) as i64), 0]),
        // loops: back by any number that stays inside, 0 and 1 more often
        8 | 9 => out.push(abx(73, [0, 1, back.min(p + 1)][rng.below(3)])),
        10 => out.extend([abx(74, 1), 0, abx(73, 1)]),
        11 => out.extend([abx(75, 1), 0, 76, abx(77, 3)]),
        12 => out.extend([6, 83]),
        _ => {
            let to = rng.below(p + 1);
            out.push(jump_to(p, to));
            // what follows a JMP back is not reached but by others: leave it whole
            out.push(0);
        }
    }
}

fn whole(rng: &mut Rng, size: usize) -> Vec<u32> {
    let mut out = vec![];
    while out.len() < size {
        group(rng, &mut out);
    }
    out.push(if rng.once_in(3) { jump_to(out.len(), 0) } else { RETURN0 });
    out
}

/// A script: mostly whole, at times damaged, of any words, or of none.
pub fn script(rng: &mut Rng, real: &[Vec<u32>]) -> Vec<u32> {
    match rng.below(60) {
        0 => vec![],
        1 => (0..1 + rng.below(6)).map(|_| (rng.below(90) as u32) | (rng.next() as u32) << 7).collect(),
        2 => {
            let mut words = whole(rng, 6);
            let i = rng.below(words.len());
            words[i] ^= 1 << rng.below(32);
            words
        }
        3..=8 => real[rng.below(real.len())].clone(),
        _ => {
            let size = rng.below(9);
            whole(rng, size)
        }
    }
}

/// Scripts, choices, q and a limit; few of them out of range.
pub fn set(rng: &mut Rng, real: &[Vec<u32>]) -> Set {
    let scripts = [(); 4].map(|()| script(rng, real));
    let count = if rng.once_in(60) { [0, 5, 6, usize::MAX][rng.below(4)] } else { 1 + rng.below(4) };
    let quantum = match rng.below(40) {
        0 => [0, 1001, u32::MAX][rng.below(3)],
        1 => 1000,
        2..=9 => 1 + rng.below(1000) as u32,
        _ => 1 + rng.below(9) as u32,
    };
    let how_many = if rng.once_in(4) { rng.below(400) } else { rng.below(40) };
    let mut choices: Vec<u8> = (0..how_many).map(|_| rng.below(2) as u8).collect();
    if how_many > 0 && rng.once_in(50) {
        let i = if rng.once_in(2) { how_many - 1 } else { rng.below(how_many) };
        choices[i] = [2, 3, 128, 255][rng.below(4)];
    }
    let limit = [0, 1, 2, 3, 7, 40, 200, 3000][rng.below(8)] + rng.below(30) as u32;
    Set { scripts, count, quantum, choices, limit }
}
