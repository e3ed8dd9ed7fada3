//! Chunks to read: compiled scripts where Lua is there, functions within functions, and chunks written byte by byte, sound and damaged.

/// xorshift64*: the same chunks from the same seed.
pub struct Rng(u64);

impl Rng {
    pub fn new(seed: u64) -> Rng {
        Rng(seed.wrapping_mul(0x9e37_79b9_7f4a_7c15) | 1)
    }

    pub fn next(&mut self) -> u64 {
        self.0 ^= self.0 >> 12;
        self.0 ^= self.0 << 25;
        self.0 ^= self.0 >> 27;
        self.0.wrapping_mul(0x2545_f491_4f6c_dd1d)
    }

    pub fn below(&mut self, n: u64) -> u64 {
        self.next() % n
    }

    pub fn one_in(&mut self, n: u64) -> bool {
        self.below(n) == 0
    }
}

pub const HEADER: &[u8] = b"\x1bLua\x54\x00\x19\x93\r\n\x1a\n\x04\x08\x08\x78\x56\0\0\0\0\0\0\0\0\0\0\0\x28\x77\x40";

/// A number as ldump.c writes it, after so many needless zero bytes.
pub fn number(out: &mut Vec<u8>, v: u64, zeros: usize) {
    out.extend(std::iter::repeat(0).take(zeros));
    let mut digits = vec![(v & 0x7f) as u8 | 0x80];
    let mut rest = v >> 7;
    while rest != 0 {
        digits.push((rest & 0x7f) as u8);
        rest >>= 7;
    }
    out.extend(digits.iter().rev());
}

/// Chunks from nothing: sound ones with what luac never writes, and ones with a fault in an odd place.
pub struct Writer {
    pub rng: Rng,
    pub bytes: Vec<u8>,
    /// one in so many things is at fault; 0: nothing is
    pub faults: u64,
}

impl Writer {
    fn fault(&mut self) -> bool {
        self.faults != 0 && self.rng.one_in(self.faults)
    }

    fn int(&mut self, v: u64) {
        let zeros = if self.rng.one_in(6) { self.rng.below(20) as usize } else { 0 };
        if self.fault() {
            // around INT_MAX and the shifted limit
            let odd = [v + 1, 1 << 21, (1 << 24) - 1, 1 << 24, 2147483519, 2147483520, 2147483647, 1 << 31, u64::MAX];
            let pick = self.rng.below(odd.len() as u64) as usize;
            number(&mut self.bytes, odd[pick], zeros);
        } else {
            number(&mut self.bytes, v, zeros);
        }
    }

    fn string(&mut self, optional: bool) {
        if optional && self.rng.one_in(3) {
            self.int(0);
            return;
        }
        let n = [0, 1, 5, 39, 40, 41, 200][self.rng.below(7) as usize];
        if self.fault() {
            let odd = [0, (1 << 57) - 1, 1 << 57, u64::MAX - 128, u64::MAX, n + 1000];
            let pick = self.rng.below(odd.len() as u64) as usize;
            number(&mut self.bytes, odd[pick], 0);
        } else {
            number(&mut self.bytes, n + 1, 0);
        }
        for _ in 0..n {
            let b = self.rng.next() as u8;
            self.bytes.push(b);
        }
    }

    fn some(&mut self, n: u64) {
        for _ in 0..n {
            let b = self.rng.next() as u8;
            self.bytes.push(b);
        }
    }

    fn constants(&mut self) {
        let n = self.rng.below(6);
        self.int(n);
        for _ in 0..n {
            let tag = if self.fault() { self.rng.next() as u8 } else { [0, 1, 17, 3, 19, 4, 20][self.rng.below(7) as usize] };
            self.bytes.push(tag);
            match tag {
                3 | 19 => self.some(8),
                4 | 20 => {
                    let absent = self.fault();
                    if absent {
                        self.int(0);
                    } else {
                        self.string(false);
                    }
                }
                _ => {}
            }
        }
    }

    fn function(&mut self, level: u64, deepest: u64) {
        self.string(true);
        let line = self.rng.below(300);
        self.int(line);
        self.int(line);
        self.some(3);
        let words = self.rng.below(12);
        self.int(words);
        self.some(4 * words);
        self.constants();
        let upvalues = self.rng.below(5);
        self.int(upvalues);
        self.some(3 * upvalues);
        let inner = if level < deepest { 1 + self.rng.below(2) * self.rng.below(2) } else { 0 };
        self.int(inner);
        for i in 0..inner {
            self.function(level + 1, if i == 0 { deepest } else { level + 1 });
        }
        let infos = if self.rng.one_in(2) { words } else { self.rng.below(9) };
        self.int(infos);
        self.some(infos);
        let lines = self.rng.below(3);
        self.int(lines);
        for _ in 0..2 * lines {
            self.int(7);
        }
        let locals = self.rng.below(3);
        self.int(locals);
        for _ in 0..locals {
            self.string(true);
            self.int(1);
            self.int(2);
        }
        // the count of names: none, as many as upvalues, or any other number, which 5.4.8 takes for all of them
        let named = [0, upvalues, upvalues + 1, 1][self.rng.below(4) as usize];
        self.int(named);
        if named != 0 {
            for _ in 0..upvalues {
                self.string(true);
            }
        }
    }

    pub fn chunk(rng: Rng, deepest: u64, faults: u64) -> Vec<u8> {
        let mut w = Writer { rng, bytes: HEADER.to_vec(), faults };
        let b = w.rng.next() as u8;
        w.bytes.push(b);
        w.function(1, deepest);
        let trailing = w.rng.below(4);
        w.some(trailing);
        w.bytes
    }
}

/// A chunk whose counts stand at a limit: so many words, constants and upvalues.
pub fn large(words: u64, constants: u64, upvalues: u64) -> Vec<u8> {
    large_of(words, constants, upvalues, &[&[0], &[1], &[17]])
}

/// The same, with these constants in turn.
pub fn large_of(words: u64, constants: u64, upvalues: u64, each: &[&[u8]]) -> Vec<u8> {
    let mut out = HEADER.to_vec();
    out.push(1);
    number(&mut out, 0, 0);
    number(&mut out, 0, 0);
    number(&mut out, 0, 0);
    out.extend([0, 0, 2]);
    number(&mut out, words, 0);
    out.extend((0..words).flat_map(|w| (w as u32).to_le_bytes()));
    number(&mut out, constants, 0);
    out.extend((0..constants as usize).flat_map(|i| each[i % each.len()]));
    number(&mut out, upvalues, 0);
    out.extend((0..3 * upvalues).map(|i| i as u8));
    for _ in 0..5 {
        number(&mut out, 0, 0);
    }
    out
}

/// Functions within functions, so many levels with main, as a script.
pub fn nested(levels: usize) -> Vec<u8> {
    let mut text = String::from("local a, b = 1, 'x' ");
    for i in 1..levels {
        text += &format!("function f{i}() local c = a .. b .. {i} ");
    }
    text += "return a";
    text += &" end".repeat(levels - 1);
    text.into_bytes()
}

/// The same, written byte by byte.
pub fn bare_levels(levels: usize) -> Vec<u8> {
    let mut out = HEADER.to_vec();
    out.push(0);
    for _ in 0..levels {
        // no source, lines 0, three bytes, no words, constants and upvalues, one function within
        out.extend([0x80, 0x80, 0x80, 0, 0, 2, 0x80, 0x80, 0x80, 0x81]);
    }
    *out.last_mut().unwrap() = 0x80;
    out.extend(std::iter::repeat(0x80).take(4 * levels));
    out
}
