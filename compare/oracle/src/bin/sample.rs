//! sample: luad's answers for a fixed set of inputs, one record a line, 53 numbers each; `sample sums`: the lines that a Rattle program
//! writes of them. SAMPLE.md says what the inputs are, so that the program can build the same ones and the gate can compare without Rust.

use model::flat::{Record, NUMBERS};
use model::input::{check, place, Input, UNNAMED};

/// A, k, B, C of the eight patterns.
const PATTERNS: [[u32; 4]; 8] = [
    [0, 0, 0, 0],
    [1, 1, 1, 1],
    [2, 0, 3, 4],
    [255, 1, 2, 1],
    [254, 0, 255, 255],
    [3, 1, 127, 16],
    [127, 0, 128, 17],
    [5, 1, 0, 18],
];

fn word(op: u32, pattern: usize) -> u32 {
    let [a, k, b, c] = PATTERNS[pattern];
    op + 128 * a + 32_768 * k + 65_536 * b + 16_777_216 * c
}

fn tables(words: Vec<u32>) -> Input {
    Input {
        records: words.len(),
        spare: 0,
        words,
        tags: vec![4, 3, 19, 17, 20, 0, 1, 19],
        payloads: vec![place(0, 4), u64::MAX, 0x4009_21fb_5444_2d18, 7, place(4, 5), 9, 11, 0x7ff8_0000_0000_0001],
        bytes: b"_ENVprint".to_vec(),
        names: vec![place(0, 4), UNNAMED, place(4, 5), place(9, 0)],
    }
}

fn by_opcode() -> Input {
    tables((0..1_024).map(|i| word(i / 8, i as usize % 8)).collect())
}

/// Document 01's bench cases and corners: pairs, jumps below 0, sums that saturate, the ends of the signed fields.
fn corners() -> Input {
    tables(vec![
        46,
        4,
        82 + 128 * 2,
        4,
        82 + 128 * 7,
        2_147_483_649,
        2_147_483_192,
        16_940_996,
        163_913,
        74,
        83,
        82,
        56,
        56 + 128 * 33_554_431,
        1,
        1 + 32_768 * 131_071,
        2 + 32_768 * 131_071,
        3 + 32_768 * 4,
        3 + 32_768 * 7,
        79 + 32_768 * 131_071,
        73 + 32_768 * 20,
        77 + 32_768 * 21,
        77 + 32_768 * 22,
        74 + 32_768 * 131_071,
        75 + 32_768 * 131_071,
        82 + 128 * 33_554_431,
        53,
        53 + 128 * 255 + 65_536 * 255,
        127,
        48 + 16_777_216 * 16,
        4,
    ])
}

/// How many records each list holds.
const FEW: usize = 8;

/// Functions for a list of eight records: fewer words, an unknown tag, as many words, one more.
fn lists() -> [(&'static str, Input); 4] {
    let sheet = vec![2_147_483_649, 2_147_483_669, 109_051_951, 2_147_483_192];
    let mut unknown = tables(sheet.clone());
    unknown.tags[2] = 2;
    let mut words: Vec<u32> = vec![67_108_875, 65_667, 16_908_356, 16_843_042, 100_728_878, 4, 466, 65_606];
    let eight = tables(words.clone());
    words.push(71);
    let nine = tables(words);
    let mut all = [("4 words", tables(sheet)), ("unknown tag", unknown), ("8 words", eight), ("9 words", nine)];
    all.iter_mut().for_each(|(_, input)| input.records = FEW);
    all
}

/// The record that stands in every place of a list before: one that no word has.
fn unwritten() -> [u64; NUMBERS] {
    let mut n = vec![999, 4_294_967_295, 127, 1, 1, 999, 1, 999, 1, 25, 4, 255, 0, 0];
    n.push(4);
    (0..4).for_each(|_| n.extend([9, 999, 0, 0]));
    n.push(3);
    (0..3).for_each(|_| n.extend([6, 999, 0, 0]));
    n.push(2);
    (0..2).for_each(|_| n.extend([6, 999, 0, 0]));
    n.try_into().expect("53 numbers")
}

fn sum(numbers: impl IntoIterator<Item = u64>) -> u64 {
    numbers.into_iter().fold(0, |s, x| (s * 31 + x % 4_294_967_291) % 2_147_483_647)
}

/// Places below n hold luad's records if the model accepts; all others hold what was lent.
fn list(label: &str, input: &Input) {
    let answer = check(input);
    let written = if answer.number == 0 { oracle::records(input) } else { vec![] };
    println!("{label} {} {}", answer.number, answer.place);
    for i in 0..FEW {
        let n = written.get(i).map_or(unwritten(), Record::numbers);
        println!("place {i} {} {} {}", n[0], n[1], sum(n));
    }
}

fn sums() {
    for (opcode, eight) in oracle::records(&by_opcode()).chunks(8).enumerate() {
        println!("opcode {opcode} {}", sum(eight.iter().flat_map(Record::numbers)));
    }
    for (i, record) in oracle::records(&corners()).iter().enumerate() {
        println!("corner {i} {}", sum(record.numbers()));
    }
    lists().iter().for_each(|(label, input)| list(label, input));
}

fn main() {
    if std::env::args().nth(1).as_deref() == Some("sums") {
        return sums();
    }
    for input in [by_opcode(), corners()] {
        for record in oracle::records(&input) {
            let numbers: Vec<String> = record.numbers().iter().map(u64::to_string).collect();
            println!("{}", numbers.join(" "));
        }
    }
}
