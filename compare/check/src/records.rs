//! Records: luad's lifter against every side, and the refusals against the model.

use crate::gen;
use crate::rng::Rng;
use crate::shrink::{shorter, shrink, words as smaller_words};
use model::flat::{name, Record, NUMBERS};
use model::input::{check, Input};
use sides::Side;
use std::collections::BTreeMap;

#[derive(Default)]
pub struct Counts {
    pub records: u64,
    pub inputs: u64,
    /// How often each number was answered.
    pub answers: BTreeMap<u64, u64>,
}

/// What the lent record at a place holds before the call: numbers that no record has, each another.
fn untouched(place: usize) -> Record {
    Record::from_numbers(std::array::from_fn(|i| 0xdead_beef_0000_0000 + (place * NUMBERS + i) as u64))
}

/// Holds one side against luad and the model on one input; the text says where they part.
pub fn compare(side: &Side, input: &Input, lifted: Option<&[Record]>) -> Result<u64, String> {
    let expected = check(input);
    let mut records: Vec<Record> = (0..input.records.max(input.words.len()) + 2).map(untouched).collect();
    let lift = side.lift.expect("a side that lifts");
    let answer = lift(input, &mut records);
    if answer != expected {
        return Err(format!("answer {answer:?}, by document 01 {expected:?}"));
    }
    let own;
    let wanted = match lifted {
        _ if answer.number != 0 => &[][..],
        Some(given) => given,
        None => {
            own = oracle::records(input);
            &own
        }
    };
    for (pc, (got, want)) in records.iter().zip(wanted).enumerate() {
        if got != want {
            let parts = got.numbers().into_iter().zip(want.numbers()).enumerate().filter(|(_, (g, w))| g != w);
            let parts: Vec<String> = parts.map(|(i, (g, w))| format!("{} is {g}, luad's is {w}", name(i))).collect();
            return Err(format!("word {pc}: {}", parts.join("; ")));
        }
    }
    for (place, got) in records.iter().enumerate().skip(wanted.len()) {
        let lent = untouched(place);
        if *got != lent {
            let altered = got.numbers().iter().zip(lent.numbers()).position(|(g, l)| *g != l).unwrap();
            return Err(format!("{} of the lent record {place} was altered", name(altered)));
        }
    }
    Ok(answer.number)
}

fn smaller(input: &Input) -> Vec<Input> {
    // Room that is too little stays so.
    let too_few = input.words.len().saturating_sub(input.records);
    let records = |n: usize| if too_few > 0 { n.saturating_sub(too_few) } else { input.records.min(n + 1) };
    let mut all: Vec<Input> = smaller_words(&input.words)
        .into_iter()
        .map(|words| Input { records: records(words.len()), words, ..input.clone() })
        .collect();
    all.extend((input.spare > 0).then(|| Input { spare: 0, ..input.clone() }));
    all.extend(shorter(&input.names).into_iter().map(|names| Input { names, ..input.clone() }));
    let pairs: Vec<(u8, u64)> = input.tags.iter().copied().zip(input.payloads.iter().copied()).collect();
    if input.tags.len() == input.payloads.len() {
        all.extend(shorter(&pairs).into_iter().map(|pairs| {
            let (tags, payloads) = pairs.into_iter().unzip();
            Input { tags, payloads, ..input.clone() }
        }));
    }
    if input.names.is_empty() {
        all.extend(shorter(&input.bytes).into_iter().map(|bytes| Input { bytes, ..input.clone() }));
    }
    all
}

/// Compares every side on one input; a mismatch is made small and printed, and ends the program.
pub fn hold(sides: &[Side], input: &Input, counts: &mut Counts) {
    let accepted = check(input).number == 0;
    let lifted = accepted.then(|| oracle::records(input));
    for side in sides {
        if compare(side, input, lifted.as_deref()).is_err() {
            println!("MISMATCH of {}", report(side, input));
            std::process::exit(1);
        }
    }
    *counts.answers.entry(check(input).number).or_default() += 1;
    counts.inputs += 1;
    counts.records += lifted.map_or(0, |l| l.len() as u64);
}

/// The smallest input on which a side parts from luad, with what is different.
pub fn report(side: &Side, input: &Input) -> String {
    let small = shrink(input.clone(), smaller, |i| compare(side, i, None).is_err());
    let why = compare(side, &small, None).unwrap_err();
    format!("records, {} against luad: {why}\n  smallest input: {small:?}", side.name)
}

/// Every opcode value with every boundary of its fields, alone and among others.
fn boundaries(sides: &[Side], rng: &mut Rng, counts: &mut Counts) {
    let all = gen::boundaries();
    for part in all.chunks(997) {
        let input = gen::tables(rng, part.to_vec(), 260, 255);
        hold(sides, &input, counts);
    }
    for word in all.iter().step_by(7) {
        let input = gen::tables(rng, vec![*word], 3, 3);
        hold(sides, &input, counts);
    }
}

/// All pairs of opcodes, and all triples of those that matter to companions.
fn neighbours(sides: &[Side], rng: &mut Rng, counts: &mut Counts) {
    for first in 0..128 {
        for second in 0..128 {
            let words = vec![gen::abc(first, 3, 1, 1, 2), gen::abc(second, 1, 0, 2, 0)];
            let input = gen::tables(rng, words, 4, 3);
            hold(sides, &input, counts);
        }
    }
    let telling = gen::telling();
    for &first in &telling {
        for &second in &telling {
            for &third in &telling {
                let input = gen::tables(rng, vec![first, second, third], 2, 2);
                hold(sides, &input, counts);
            }
        }
    }
}

/// n around every limit.
fn limits(sides: &[Side], rng: &mut Rng, counts: &mut Counts) {
    for n in [0, 1, 2, 32_767, 32_768, 32_769] {
        for constants in [0, 1, 65_535, 65_536, 65_537] {
            for names in [0, 254, 255, 256] {
                let words = (0..n).map(|_| gen::word(rng, n)).collect();
                let mut input = gen::tables(rng, words, constants, names);
                input.records = (n + rng.below(3)).saturating_sub(1);
                if constants < 2 || rng.once_in(6) {
                    hold(sides, &input, counts);
                }
                // Lengths alone: few words, so that luad is not asked for millions of records.
                input.words.truncate(40);
                input.records = 40 - rng.below(2);
                hold(sides, &input, counts);
            }
        }
    }
    for n in [1, 2, 300, 32_768] {
        for (lent, spare) in [(n - 1, 0), (n - 1, 1), (n - 1, NUMBERS - 1), (n, 0), (n, 1), (n, NUMBERS - 1), (n + 1, 0)] {
            let words = (0..n).map(|_| gen::word(rng, n)).collect();
            let mut input = gen::tables(rng, words, 5, 5);
            (input.records, input.spare) = (lent, spare);
            hold(sides, &input, counts);
        }
    }
}

/// Everything, with `wanted` records of random prototypes, damaged ones among them.
pub fn all(sides: &[Side], seed: u64, wanted: u64) -> Counts {
    let mut counts = Counts::default();
    let mut rng = Rng::new(seed);
    boundaries(sides, &mut rng, &mut counts);
    neighbours(sides, &mut rng, &mut counts);
    limits(sides, &mut rng, &mut counts);
    for (_, input) in model::real::functions() {
        hold(sides, &input, &mut counts);
    }
    let until = counts.records + wanted;
    while counts.records < until {
        let most = if rng.once_in(50) { 3_000 } else { 40 };
        let mut input = gen::prototype(&mut rng, most);
        if rng.once_in(4) {
            for _ in 0..=rng.below(3) {
                gen::spoil(&mut rng, &mut input);
            }
        }
        hold(sides, &input, &mut counts);
    }
    counts
}
