//! Steps, serving steps and the longest run by weights: the model, held to the definitions by brute force, against every side.

use crate::gen;
use crate::rng::Rng;
use crate::shrink::{shrink, words as smaller_words};
use crate::weights::{self, Weights};
use model::run::{brute, run, RunAnswer};
use sides::{model_side, Side};
use std::collections::BTreeMap;

#[derive(Default)]
pub struct Counts {
    pub functions: u64,
    pub brute: u64,
    pub words: u64,
    pub edges: u64,
    pub answers: BTreeMap<u64, u64>,
}

/// Words and the weights lent with them.
#[derive(Clone, Debug)]
pub struct Function {
    pub words: Vec<u32>,
    pub weights: Weights,
}

fn function(words: &[u32], weights: &Weights) -> Function {
    Function { words: words.to_vec(), weights: weights.clone() }
}

/// Slices that are longer than the words by these, or shorter if negative.
pub type Spare = (isize, isize);

const MARK: u8 = 0xa5;
const LENGTH: u32 = 0xa5a5_a5a5;

pub fn lent(n: usize, spare: Spare) -> (Vec<u8>, Vec<u32>) {
    let len = |s: isize| (n as isize + s).max(0) as usize;
    (vec![MARK; len(spare.0)], vec![LENGTH; len(spare.1)])
}

/// Steps of word p.
fn compare_steps(side: &Side, words: &[u32], p: usize) -> Result<u64, String> {
    let want = (model_side().successors)(words, p);
    let got = (side.successors)(words, p);
    if got.list != want.list || (p < words.len() && got.bad != want.bad) {
        return Err(format!("steps of word {p}: {got:?}, by document 01 {want:?}"));
    }
    Ok(want.list.iter().flatten().count() as u64)
}

/// The run on one function with these slices.
fn compare_run(side: &Side, f: &Function, spare: Spare) -> Result<RunAnswer, String> {
    let (words, weights) = (&f.words, &f.weights.0);
    let (mut marks, mut lengths) = lent(words.len(), spare);
    let (mut own_marks, mut own_lengths) = lent(words.len(), spare);
    let want = run(words, weights, &mut own_marks, &mut own_lengths);
    let got = (side.run)(words, weights, &mut marks, &mut lengths);
    if got != want {
        return Err(format!("{got:?}, by document 01 {want:?}"));
    }
    if marks != own_marks {
        return Err(format!("marks {marks:?}, by document 01 {own_marks:?}"));
    }
    if lengths != own_lengths {
        return Err(format!("lengths {lengths:?}, by document 01 {own_lengths:?}"));
    }
    Ok(got)
}

/// The model's linear run against the definitions.
fn compare_brute(f: &Function) -> Result<(), String> {
    let (words, weights) = (&f.words, &f.weights.0);
    let (mut marks, mut lengths) = (vec![0; words.len()], vec![0; words.len()]);
    let got = run(words, weights, &mut marks, &mut lengths);
    let want = brute(words, weights);
    if (got, marks, lengths) != want {
        return Err(format!("{got:?}, by the definitions {want:?}"));
    }
    Ok(())
}

/// By document 01 the function is accepted with these weights.
pub fn accepted(words: &[u32], weights: &Weights) -> bool {
    run(words, &weights.0, &mut vec![0; words.len()], &mut vec![0; words.len()]).number == 0
}

fn smaller(f: &Function) -> Vec<Function> {
    let mut all: Vec<Function> = smaller_words(&f.words).into_iter().map(|words| Function { words, ..f.clone() }).collect();
    all.extend(weights::smaller(&f.weights).into_iter().map(|weights| Function { weights, ..f.clone() }));
    all
}

fn fail(side: &str, f: &Function, test: impl Fn(&Function) -> Result<(), String>) -> ! {
    println!("MISMATCH of {}", report(side, f, test));
    std::process::exit(1);
}

pub fn report(side: &str, f: &Function, test: impl Fn(&Function) -> Result<(), String>) -> String {
    let small = shrink(f.clone(), smaller, |f| test(f).is_err());
    format!("steps or runs, {side}: {}\n  smallest function: {small:?}", test(&small).unwrap_err())
}

/// Steps of every word and the run, for one side.
pub fn compare(side: &Side, f: &Function, spare: Spare) -> Result<(RunAnswer, u64), String> {
    let mut edges = 0;
    for p in 0..f.words.len() + 2 {
        edges += compare_steps(side, &f.words, p)?;
    }
    let answer = compare_run(side, f, spare)?;
    Ok((answer, edges))
}

fn hold(sides: &[Side], f: &Function, spare: Spare, counts: &mut Counts) {
    let mut all = (RunAnswer::default(), 0);
    for side in sides {
        all = compare(side, f, spare).unwrap_or_else(|_| fail(side.name, f, |f| compare(side, f, spare).map(|_| ())));
    }
    *counts.answers.entry(all.0.number).or_default() += 1;
    counts.edges += all.1;
    if f.words.len() <= 12 {
        counts.brute += 1;
        if compare_brute(f).is_err() {
            fail("the model's own run", f, compare_brute);
        }
    }
    counts.functions += 1;
    counts.words += f.words.len() as u64;
}

/// All pairs of opcodes, and all triples of those that matter to companions, before a return.
fn neighbours(sides: &[Side], weights: &Weights, counts: &mut Counts) {
    let end = gen::END;
    for first in 0..gen::OPCODES {
        for second in 0..gen::OPCODES {
            for pair in gen::pairs(first, second) {
                hold(sides, &function(&pair, weights), (0, 0), counts);
                hold(sides, &function(&[pair[0], pair[1], end], weights), (0, 0), counts);
            }
        }
    }
    let telling = gen::telling();
    for &first in &telling {
        for &second in &telling {
            for &third in &telling {
                hold(sides, &function(&[first, second, third], weights), (0, 0), counts);
                hold(sides, &function(&[first, second, third, end, end], weights), (1, 1), counts);
            }
        }
    }
}

/// Word 0 of every boundary, with a landing place for short jumps.
fn boundaries(sides: &[Side], weights: &Weights, counts: &mut Counts) {
    for word in gen::boundaries() {
        let end = gen::END;
        hold(sides, &function(&[end, word, end, end], weights), (0, 0), counts);
    }
}

/// Functions of the longest kind, and slices of every telling length.
fn limits(sides: &[Side], rng: &mut Rng, counts: &mut Counts) {
    for n in [0usize, 1, 2, 3, 100, 32_767, 32_768, 32_769] {
        for spare in [(0, 0), (-1, 0), (0, -1), (-1, -1), (3, 5), (0, 1)] {
            let straight = vec![0; n];
            let mut back = straight.clone();
            if n > 0 {
                back[n - 1] = gen::jump(-(n as i64));
            }
            let mixed = gen::whole(rng, n.max(1));
            let mut cut = gen::whole(rng, n.max(1));
            cut.resize(n, gen::END);
            for words in [straight, back, mixed, cut] {
                for weights in [weights::all(255), weights::any(rng), weights::zeros(rng, 2), weights::miscounted(rng)] {
                    hold(sides, &function(&words, &weights), spare, counts);
                }
            }
        }
    }
    // Jumps that cross all of the largest function.
    for n in [32_767usize, 32_768] {
        let mut words = vec![0; n];
        [words[0], words[n - 2]] = gen::loop_of(n - 2);
        words[n - 1] = gen::END;
        hold(sides, &function(&words, &weights::distinct()), (0, 0), counts);
        words[0] = gen::jump(n as i64 - 2);
        hold(sides, &function(&words, &weights::distinct()), (0, 0), counts);
    }
}

/// Each weight alone a zero, and every count around 128; each weight alone another than the rest, for each opcode value.
fn each_weight(sides: &[Side], counts: &mut Counts) {
    let end = gen::END;
    for i in 0..128 {
        let words = [0, gen::of_slot(i as u32), end, end];
        for weight in [0, 1, 2, 255] {
            let mut weights = weights::all(7);
            weights.0[i] = weight;
            hold(sides, &function(&words, &weights), (0, 0), counts);
            hold(sides, &function(&words[1..], &weights), (0, 0), counts);
            hold(sides, &function(&[], &weights), (0, 0), counts);
        }
    }
    for n in 0..260 {
        for weight in [0, 1, 255] {
            let weights = Weights(vec![weight; n]);
            hold(sides, &function(&[end], &weights), (0, 0), counts);
            hold(sides, &function(&[end], &weights), (0, -1), counts);
            hold(sides, &function(&[], &weights), (0, 0), counts);
        }
    }
}

/// Everything, with `wanted` random functions, damaged ones among them.
pub fn all(sides: &[Side], seed: u64, wanted: u64) -> Counts {
    let mut counts = Counts::default();
    let mut rng = Rng::new(seed);
    for weights in [weights::all(1), weights::distinct()] {
        neighbours(sides, &weights, &mut counts);
        boundaries(sides, &weights, &mut counts);
    }
    each_weight(sides, &mut counts);
    limits(sides, &mut rng, &mut counts);
    for (name, input) in model::real::functions() {
        let n = input.words.len();
        for weights in [weights::all(1), weights::all(255), weights::distinct(), weights::random(&mut rng)] {
            hold(sides, &function(&input.words, &weights), (0, 0), &mut counts);
            let answer = run(&input.words, &weights.0, &mut vec![0; n], &mut vec![0; n]);
            assert_eq!(answer.number, 0, "{name}, which luac made, is accepted");
        }
    }
    let until = counts.functions + wanted;
    while counts.functions < until {
        let most = match rng.below(400) {
            0 => 2_000,
            1..=8 => 100,
            9..=150 => 24,
            _ => 11,
        };
        let words = gen::function(&mut rng, most);
        let spare = if rng.once_in(8) { (rng.below(4) as isize - 1, rng.below(4) as isize - 1) } else { (0, 0) };
        let weights = weights::any(&mut rng);
        hold(sides, &Function { words, weights }, spare, &mut counts);
    }
    counts
}
