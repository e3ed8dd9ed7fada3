//! Request C-22's three questions: the model, held to every stretch where a function is short, against every side.

use crate::gen;
use crate::rng::Rng;
use crate::shrink::{shrink, words as smaller_words};
use model::service::{brute, crossed, nearest, taken, within};
use model::Answer;
use sides::Side;
use std::collections::BTreeMap;

#[derive(Default)]
pub struct Counts {
    pub functions: u64,
    pub questions: u64,
    pub brute: u64,
    pub answers: BTreeMap<u64, u64>,
}

/// A function, and slices for marks, lengths and list that are longer than the words by these, or shorter if negative; the
/// words that are asked of and the d.
#[derive(Clone, Debug)]
pub struct Case {
    pub words: Vec<u32>,
    pub spare: (isize, isize, isize),
    pub asked: Vec<usize>,
}

#[derive(Clone, PartialEq)]
struct Lent {
    marks: Vec<u8>,
    lengths: Vec<u32>,
    list: Vec<u8>,
}

fn lent(c: &Case) -> Lent {
    let len = |s: isize| (c.words.len() as isize + s).max(0) as usize;
    Lent { marks: vec![0xa5; len(c.spare.0)], lengths: vec![0xa5a5_a5a5; len(c.spare.1)], list: vec![0xa5; len(c.spare.2)] }
}

/// The same call on two sets of slices; answers and slices are to be the same.
fn same<T: PartialEq + std::fmt::Debug>(
    c: &Case,
    what: &str,
    want: impl Fn(&mut Lent) -> T,
    got: impl Fn(&mut Lent) -> T,
) -> Result<T, String> {
    let (mut ours, mut theirs) = (lent(c), lent(c));
    let (want, got) = (want(&mut ours), got(&mut theirs));
    if got != want {
        return Err(format!("{what}: {got:?}, by document 02 {want:?}"));
    }
    for (name, same) in [("marks", ours.marks == theirs.marks), ("lengths", ours.lengths == theirs.lengths), ("list", ours.list == theirs.list)] {
        if !same {
            return Err(format!("{what}: {name} are not what document 02 says"));
        }
    }
    Ok(want)
}

/// All three questions of one side; each number asked of is a word and a d. How many were asked, and the list's answer.
pub fn compare(side: &Side, c: &Case) -> Result<(u64, Answer), String> {
    let words = &c.words;
    let mut answer = Answer::default();
    for &x in &c.asked {
        same(
            c,
            &format!("fewest from {x}"),
            |l| nearest(words, x, &mut l.marks, &mut l.lengths),
            |l| (side.nearest)(words, x, &mut l.marks, &mut l.lengths),
        )?;
        same(
            c,
            &format!("steps over {x}"),
            |l| crossed(words, x, &mut l.marks, &mut l.lengths),
            |l| (side.crossed)(words, x, &mut l.marks, &mut l.lengths),
        )?;
        answer = same(
            c,
            &format!("list within {x}"),
            |l| within(words, x, &mut l.marks, &mut l.lengths, &mut l.list),
            |l| (side.within)(words, x, &mut l.marks, &mut l.lengths, &mut l.list),
        )?;
    }
    Ok((3 * c.asked.len() as u64, answer))
}

/// All three questions of the model, of an accepted function, against every stretch from its reachable words and every step that a
/// course takes; whether it is one.
fn compare_brute(c: &Case) -> Result<bool, String> {
    let n = c.words.len();
    let (mut marks, mut lengths, mut list) = (vec![0; n], vec![0; n], vec![0; n]);
    if nearest(&c.words, 0, &mut marks, &mut lengths).number != 0 {
        return Ok(false);
    }
    let steps = taken(&c.words);
    let met = |p: usize| p == 0 || steps.iter().any(|&(_, q)| q == p);
    let fewest: Vec<Option<u64>> = (0..n).map(|p| if met(p) { brute(&c.words, p) } else { None }).collect();
    for w in 0..=n {
        let got = nearest(&c.words, w, &mut marks, &mut lengths);
        let want = fewest.get(w).copied().flatten();
        if (got.found == 1).then_some(got.fewest) != want {
            return Err(format!("{got:?} from {w}, by every stretch {want:?}"));
        }
        let got = crossed(&c.words, w, &mut marks, &mut lengths).count;
        let want = steps.iter().filter(|&&(p, q)| p.min(q) < w && w < p.max(q)).count() as u64;
        if got != want {
            return Err(format!("{got} steps over {w}, by every course {want}"));
        }
    }
    for &d in &c.asked {
        within(&c.words, d, &mut marks, &mut lengths, &mut list);
        let want: Vec<u8> = fewest.iter().map(|k| u8::from(k.is_some_and(|k| k <= d as u64))).collect();
        if list != want {
            return Err(format!("{list:?} within {d}, by every stretch {want:?}"));
        }
    }
    Ok(true)
}

fn smaller(c: &Case) -> Vec<Case> {
    let mut all: Vec<Case> = smaller_words(&c.words).into_iter().map(|words| Case { words, ..c.clone() }).collect();
    if c.asked.len() > 1 {
        all.extend(c.asked.iter().map(|&x| Case { asked: vec![x], ..c.clone() }));
    }
    all
}

pub fn report(side: &str, c: &Case, test: impl Fn(&Case) -> Result<(), String>) -> String {
    let small = shrink(c.clone(), smaller, |c| test(c).is_err());
    format!("nearest service or crossing steps, {side}: {}\n  smallest function: {small:?}", test(&small).unwrap_err())
}

fn fail(side: &str, c: &Case, test: impl Fn(&Case) -> Result<(), String>) -> ! {
    println!("MISMATCH of {}", report(side, c, test));
    std::process::exit(1);
}

fn hold(sides: &[Side], c: &Case, counts: &mut Counts) {
    let mut all = (0, Answer::default());
    for side in sides {
        all = compare(side, c).unwrap_or_else(|_| fail(side.name, c, |c| compare(side, c).map(|_| ())));
    }
    counts.questions += all.0;
    *counts.answers.entry(all.1.number).or_default() += 1;
    if c.words.len() <= 12 {
        let compared = compare_brute(c).unwrap_or_else(|_| fail("the model", c, |c| compare_brute(c).map(|_| ())));
        counts.brute += u64::from(compared);
    }
    counts.functions += 1;
}

/// Every word of a short function and two past it; of a long one some. The same numbers serve as d.
fn asked(rng: &mut Rng, n: usize) -> Vec<usize> {
    let mut all: Vec<usize> = if n <= 24 { (0..n + 2).collect() } else { (0..6).map(|_| rng.below(n + 1)).collect() };
    all.push(usize::MAX);
    all
}

pub fn case(rng: &mut Rng, most: usize) -> Case {
    let words = gen::function(rng, most);
    let mut off = || if rng.once_in(12) { rng.below(4) as isize - 1 } else { 0 };
    let spare = (off(), off(), off());
    let asked = asked(rng, words.len());
    Case { words, spare, asked }
}

/// Everything, with `wanted` random functions, damaged ones among them.
pub fn all(sides: &[Side], seed: u64, wanted: u64) -> Counts {
    let mut counts = Counts::default();
    let mut rng = Rng::new(seed);
    let telling = gen::telling();
    let end = gen::END;
    for &first in &telling {
        for &second in &telling {
            for &third in &telling {
                let words = vec![first, second, third, end, end];
                hold(sides, &Case { words, spare: (0, 1, 2), asked: vec![0, 1, 2, 3, 4] }, &mut counts);
            }
        }
    }
    for n in [0usize, 1, 2, 3, 100, 32_767, 32_768, 32_769] {
        for spare in [(0, 0, 0), (-1, 0, 0), (0, -1, 0), (0, 0, -1), (-1, -1, -1), (3, 5, 7)] {
            let mut words = vec![0; n];
            if n > 0 {
                words[n - 1] = end;
            }
            let mut mixed = gen::whole(&mut rng, n.max(1));
            mixed.resize(n, end);
            for words in [words, mixed] {
                hold(sides, &Case { words, spare, asked: vec![0, 1, n / 2, n, usize::MAX] }, &mut counts);
            }
        }
    }
    for (_, input) in model::real::functions() {
        let asked = asked(&mut rng, input.words.len());
        hold(sides, &Case { words: input.words, spare: (0, 0, 0), asked }, &mut counts);
    }
    let until = counts.functions + wanted;
    while counts.functions < until {
        let most = match rng.below(400) {
            0 => 2_000,
            1..=8 => 100,
            9..=150 => 24,
            _ => 11,
        };
        let c = case(&mut rng, most);
        hold(sides, &c, &mut counts);
    }
    counts
}
