//! Request C-23, "Dead words may change": accepted functions, real and random, are patched in words that are neither reachable
//! nor next to a reachable one, and every side must answer the same. Patched next to reachable words they must differ at times,
//! or the comparison is blind.

use crate::rng::Rng;
use crate::shrink::{shorter_both, shrink};
use crate::weights::{self, Weights};
use crate::{gen, runs};
use model::run::RunAnswer;
use model::steps::steps;
use sides::Side;

#[derive(Default)]
pub struct Counts {
    /// Functions with a dead word, and those of them that hold code that luac made.
    pub functions: u64,
    pub real: u64,
    /// Patched lists that were held against their first, and words that differ in them.
    pub lists: u64,
    pub words: u64,
    /// Lists patched next to a reachable word, and those that were answered otherwise: with the patch between two, or before one.
    pub near: u64,
    pub between: u64,
    pub before: u64,
}

/// Two equally long lists and the weights lent with both.
#[derive(Clone, Debug)]
pub struct Pair {
    first: Vec<u32>,
    second: Vec<u32>,
    weights: Weights,
}

/// "A word on some course is reachable."
fn reachable(words: &[u32]) -> Vec<bool> {
    let mut met = vec![false; words.len()];
    let mut found: Vec<usize> = (0..words.len().min(1)).collect();
    while let Some(p) = found.pop() {
        if !met[p] {
            met[p] = true;
            found.extend(steps(words, p).list());
        }
    }
    met
}

fn after_one(met: &[bool], q: usize) -> bool {
    q > 0 && met[q - 1]
}

fn before_one(met: &[bool], q: usize) -> bool {
    met.get(q + 1) == Some(&true)
}

/// "neither reachable in the first nor next to a reachable word"
fn dead(met: &[bool], q: usize) -> bool {
    !met[q] && !after_one(met, q) && !before_one(met, q)
}

/// What a run leaves: the answer, and both slices. Each list is lent slices with content of its own.
fn outcome(side: &Side, words: &[u32], weights: &Weights, fill: u8, spare: usize) -> (RunAnswer, Vec<u8>, Vec<u32>) {
    let n = words.len() + spare;
    let (mut marks, mut lengths) = (vec![fill; n], vec![u32::from(fill); n]);
    let answer = (side.run)(words, &weights.0, &mut marks, &mut lengths);
    assert!(marks[words.len()..].iter().all(|&m| m == fill), "marks past n keep what they held");
    assert!(lengths[words.len()..].iter().all(|&l| l == u32::from(fill)), "lengths past n keep what they held");
    marks.truncate(words.len());
    lengths.truncate(words.len());
    (answer, marks, lengths)
}

/// Both lists on one side: "the second is accepted too, with the same marks, stretches, L and first word".
fn compare(side: &Side, pair: &Pair, spare: usize) -> Result<(), String> {
    let first = outcome(side, &pair.first, &pair.weights, 0xa5, spare);
    let second = outcome(side, &pair.second, &pair.weights, 0x5a, spare);
    if first.0.number == 0 && first != second {
        return Err(format!("the first is answered {first:?}, the second {second:?}"));
    }
    Ok(())
}

/// Whether the lists differ only in words that the rule lets change.
fn by_rule(pair: &Pair, rule: Rule) -> bool {
    let (first, second) = (reachable(&pair.first), reachable(&pair.second));
    (0..pair.first.len()).all(|q| pair.first[q] == pair.second[q] || rule(&first, &second, q))
}

/// Of the reachable words of both lists, and a word number.
type Rule = fn(&[bool], &[bool], usize) -> bool;

fn report(side: &Side, name: &str, pair: &Pair, rule: Rule) -> String {
    let fails = |p: &Pair| by_rule(p, rule) && compare(side, p, 0).is_err();
    let small = shrink(pair.clone(), smaller, fails);
    format!("patches, {name}, {}: {}\n  smallest pair: {small:?}", side.name, compare(side, &small, 0).unwrap_err())
}

fn smaller(pair: &Pair) -> Vec<Pair> {
    let mut all: Vec<Pair> = shorter_both(&pair.first, &pair.second)
        .into_iter()
        .map(|(first, second)| Pair { first, second, ..pair.clone() })
        .collect();
    all.extend(weights::smaller(&pair.weights).into_iter().map(|weights| Pair { weights, ..pair.clone() }));
    all
}

/// Code with a table in words that no course meets: behind the end, or jumped over, or another function's words.
fn with_table(rng: &mut Rng, code: &[u32], other: &[u32]) -> Vec<u32> {
    let many = 1 + rng.below(12);
    let table: Vec<u32> = (0..many).map(|_| rng.next() as u32).collect();
    match rng.below(4) {
        0 => code.to_vec(),
        1 => [code, &table].concat(),
        2 => [&[gen::jump(many as i64)], &table[..], code].concat(),
        _ => [code, other].concat(),
    }
}

/// The words with those that the test takes, or some of them, at least one, replaced; how many differ now.
fn patch(rng: &mut Rng, words: &[u32], takes: impl Fn(usize) -> bool) -> (Vec<u32>, u64) {
    loop {
        let all = rng.once_in(2);
        let mut patched = words.to_vec();
        for q in (0..words.len()).filter(|&q| takes(q)) {
            if all || rng.once_in(2) {
                patched[q] = if rng.once_in(2) { rng.next() as u32 } else { gen::word(rng, words.len()) };
            }
        }
        let many = (0..words.len()).filter(|&q| patched[q] != words[q]).count() as u64;
        if many > 0 {
            return (patched, many);
        }
    }
}

fn hold(sides: &[Side], rng: &mut Rng, words: &[u32], real: bool, counts: &mut Counts) {
    let weights = weights::sound(rng);
    if !runs::accepted(words, &weights) {
        return;
    }
    let met = reachable(words);
    if (0..words.len()).any(|q| dead(&met, q)) {
        counts.functions += 1;
        counts.real += u64::from(real);
        for _ in 0..4 {
            let (second, many) = patch(rng, words, |q| dead(&met, q));
            let pair = Pair { first: words.to_vec(), second, weights: weights.clone() };
            let spare = rng.below(3);
            for side in sides {
                if compare(side, &pair, spare).is_err() {
                    println!("MISMATCH of {}", report(side, "dead words", &pair, |first, _, q| dead(first, q)));
                    std::process::exit(1);
                }
            }
            counts.lists += 1;
            counts.words += many;
        }
    }
    near(sides, rng, words, &weights, &met, counts);
}

/// One word that is not reachable, next to one that is: the answers of all sides are the same or not, as they may be.
fn near(sides: &[Side], rng: &mut Rng, words: &[u32], weights: &Weights, met: &[bool], counts: &mut Counts) {
    let beside: Vec<usize> = (0..words.len()).filter(|&q| !met[q] && !dead(met, q)).collect();
    if beside.is_empty() {
        return;
    }
    let q = rng.pick(&beside);
    let (second, _) = patch(rng, words, |i| i == q);
    let pair = Pair { first: words.to_vec(), second, weights: weights.clone() };
    counts.near += 1;
    let differ = sides.iter().filter(|side| compare(side, &pair, 0).is_err()).count();
    assert!(differ == 0 || differ == sides.len(), "sides disagree on {pair:?}");
    if differ > 0 {
        assert!(before_one(met, q), "a word after a reachable one alone is free to change: {pair:?}");
        *(if after_one(met, q) { &mut counts.between } else { &mut counts.before }) += 1;
    }
}

/// Everything, with `wanted` random functions.
pub fn all(sides: &[Side], seed: u64, wanted: u64) -> Counts {
    let mut counts = Counts::default();
    let mut rng = Rng::new(seed);
    let real: Vec<Vec<u32>> = model::real::functions().into_iter().map(|(_, input)| input.words).collect();
    for code in &real {
        for _ in 0..16 {
            let other = &real[rng.below(real.len())];
            let words = with_table(&mut rng, code, other);
            hold(sides, &mut rng, &words, true, &mut counts);
        }
    }
    for _ in 0..wanted {
        let most = if rng.once_in(100) { 300 } else { 24 };
        let code = gen::function(&mut rng, most);
        let other = gen::function(&mut rng, 12);
        let words = with_table(&mut rng, &code, &other);
        hold(sides, &mut rng, &words, false, &mut counts);
    }
    counts
}

/// Rules that let too much change, each with the smallest pair that shows it; panics if one was not caught.
pub fn wrong(side: &Side, seed: u64) -> Vec<String> {
    let rules: [(&str, Rule); 3] = [
        ("wrong rule, words next to reachable ones too", |first, _, q| !first[q]),
        ("wrong rule, words before reachable ones too", |first, _, q| !first[q] && !after_one(first, q)),
        ("wrong rule, reachable in the second list", |_, second, q| dead(second, q)),
    ];
    rules.iter().map(|&(name, rule)| by_pairs(side, seed, name, rule)).collect()
}

/// A wrong rule is tried on random functions, each patched in one word.
fn by_pairs(side: &Side, seed: u64, name: &str, rule: Rule) -> String {
    let mut rng = Rng::new(seed);
    for _ in 0..4_000_000 {
        let first = gen::function(&mut rng, 24);
        if first.is_empty() {
            continue;
        }
        let at = rng.below(first.len());
        let (second, _) = patch(&mut rng, &first, |q| q == at);
        let pair = Pair { first, second, weights: weights::all(1) };
        if by_rule(&pair, rule) && compare(side, &pair, 0).is_err() {
            return report(side, name, &pair, rule);
        }
    }
    panic!("{name} was not caught");
}
