//! Two tables of weights, low and high, against the model; and tables drawn between them, whose run must lie between the two
//! reports: request C-18.

use crate::gen;
use crate::rng::Rng;
use crate::runs::{lent, Spare};
use crate::shrink::{shrink, words as smaller_words};
use crate::weights::{self, Weights};
use model::range::{runs, RangeAnswer};
use sides::Side;
use std::collections::BTreeMap;

#[derive(Default)]
pub struct Counts {
    pub functions: u64,
    pub between: u64,
    /// Whose low and high runs begin at other words.
    pub elsewhere: u64,
    pub answers: BTreeMap<u64, u64>,
}

/// Words, both tables, and tables between them, entry by entry, if they are such.
#[derive(Clone, Debug)]
pub struct Range {
    pub words: Vec<u32>,
    pub low: Weights,
    pub high: Weights,
    pub between: Vec<Weights>,
}

/// Both runs on slices of these lengths.
fn compare_runs(side: &Side, r: &Range, spare: Spare) -> Result<RangeAnswer, String> {
    let (mut marks, mut lengths) = lent(r.words.len(), spare);
    let (mut own_marks, mut own_lengths) = lent(r.words.len(), spare);
    let want = runs(&r.words, &r.low.0, &r.high.0, &mut own_marks, &mut own_lengths);
    let got = (side.runs)(&r.words, &r.low.0, &r.high.0, &mut marks, &mut lengths);
    if got != want {
        return Err(format!("{got:?}, by document 02 {want:?}"));
    }
    if marks != own_marks {
        return Err(format!("marks {marks:?}, by document 02 {own_marks:?}"));
    }
    if lengths != own_lengths {
        return Err(format!("lengths {lengths:?}, by document 02 {own_lengths:?}"));
    }
    Ok(got)
}

/// "every table between them, entry by entry, gives a run between the two reports, and [...] both ends are reached": by the
/// side's own run. Both answers are without a refusal of the tables.
fn compare_between(side: &Side, r: &Range, spare: Spare, answer: RangeAnswer) -> Result<u64, String> {
    let run = |table: &Weights| {
        let (mut marks, mut lengths) = lent(r.words.len(), spare);
        (side.run)(&r.words, &table.0, &mut marks, &mut lengths)
    };
    for table in &r.between {
        let one = run(table);
        let inside = answer.low_longest <= one.longest && one.longest <= answer.high_longest;
        if (one.number, one.place) != (answer.number, answer.place) || !inside {
            return Err(format!("{one:?} by {table:?}, not between {answer:?}"));
        }
    }
    let ends = [(&r.low, answer.low_longest, answer.low_first), (&r.high, answer.high_longest, answer.high_first)];
    for (table, longest, first) in ends {
        let one = run(table);
        if (one.number, one.place, one.longest, one.first) != (answer.number, answer.place, longest, first) {
            return Err(format!("{one:?} by {table:?}, an end of {answer:?}"));
        }
    }
    Ok(r.between.len() as u64)
}

/// How many tables were held between, beside the answer.
pub fn compare(side: &Side, r: &Range, spare: Spare) -> Result<(RangeAnswer, u64), String> {
    let answer = compare_runs(side, r, spare)?;
    let between = if [18, 19].contains(&answer.number) { 0 } else { compare_between(side, r, spare, answer)? };
    Ok((answer, between))
}

/// With fewer or plainer words, or with a weight made 1 in every table at once, so that what is between stays so.
fn smaller(r: &Range) -> Vec<Range> {
    let mut all: Vec<Range> = smaller_words(&r.words).into_iter().map(|words| Range { words, ..r.clone() }).collect();
    all.extend((0..r.low.0.len().max(r.high.0.len())).map(|i| {
        let plain = |w: &Weights| weights::plain(w, |j| i == j);
        Range { words: r.words.clone(), low: plain(&r.low), high: plain(&r.high), between: r.between.iter().map(plain).collect() }
    }));
    all.retain(|s| s.words != r.words || s.low != r.low || s.high != r.high);
    all
}

pub fn report(side: &str, r: &Range, spare: Spare, test: impl Fn(&Range, Spare) -> Result<(), String>) -> String {
    let small = shrink(r.clone(), smaller, |r| test(r, spare).is_err());
    let Range { words, low, high, .. } = &small;
    format!("ranges, {side}: {}\n  smallest function: {words:?}, low {low:?}, high {high:?}", test(&small, spare).unwrap_err())
}

fn hold(sides: &[Side], r: &Range, spare: Spare, counts: &mut Counts) {
    let mut answer = RangeAnswer::default();
    for side in sides {
        let held = compare(side, r, spare).unwrap_or_else(|_| {
            println!("MISMATCH of {}", report(side.name, r, spare, |r, spare| compare(side, r, spare).map(|_| ())));
            std::process::exit(1);
        });
        answer = held.0;
        counts.between += held.1;
    }
    *counts.answers.entry(answer.number).or_default() += 1;
    counts.functions += 1;
    counts.elsewhere += u64::from(answer.low_first != answer.high_first);
}

/// The lower and the higher of two tables, entry by entry.
fn ordered(a: &Weights, b: &Weights) -> (Weights, Weights) {
    let each = |pick: fn(u8, u8) -> u8| Weights(a.0.iter().zip(&b.0).map(|(&x, &y)| pick(x, y)).collect());
    (each(u8::min), each(u8::max))
}

/// A table between two, at either end one time in three.
fn drawn(rng: &mut Rng, low: &Weights, high: &Weights) -> Weights {
    let each = |(&l, &h): (&u8, &u8)| match rng.below(3) {
        0 => l,
        1 => h,
        _ => l + rng.below(usize::from(h - l) + 1) as u8,
    };
    Weights(low.0.iter().zip(&high.0).map(each).collect())
}

/// Two tables and, where none is refused, tables between them.
pub fn range(rng: &mut Rng, words: Vec<u32>) -> Range {
    let (mut low, mut high) = ordered(&weights::sound(rng), &weights::sound(rng));
    match rng.below(16) {
        // equal tables
        0..=1 => high = low.clone(),
        // one entry apart, often that of a word
        2..=4 => {
            high = low.clone();
            let of_word = |rng: &mut Rng| model::word::slot(words[rng.below(words.len())]);
            let i = if words.is_empty() || rng.once_in(4) { rng.below(128) } else { of_word(rng) };
            high.0[i] = low.0[i] + rng.below(256 - usize::from(low.0[i])) as u8;
        }
        // some lows above their highs
        5 => {
            for _ in 0..1 + rng.below(3) {
                let i = if rng.once_in(4) { rng.pick(&[0, 1, 126, 127]) } else { rng.below(128) };
                (low.0[i], high.0[i]) = (high.0[i], low.0[i]);
            }
        }
        // two tables in no order
        6 => (low, high) = (weights::any(rng), weights::any(rng)),
        // one of them turned away, or both
        7 => (low, high) = (weights::zeros(rng, 2), weights::sound(rng)),
        8 => (low, high) = (weights::sound(rng), weights::zeros(rng, 2)),
        9 => (low, high) = (weights::miscounted(rng), weights::any(rng)),
        _ => {}
    }
    let fits = low.0.len() == 128 && high.0.len() == 128 && low.0.iter().zip(&high.0).all(|(&l, &h)| 0 < l && l <= h);
    let many = if fits { 1 + rng.below(3) } else { 0 };
    let between = (0..many).map(|_| drawn(rng, &low, &high)).collect();
    Range { words, low, high, between }
}

/// Each entry alone apart, by so much up or down; and each alone a zero of either table, before an entry that is out of order.
fn each_entry(sides: &[Side], counts: &mut Counts) {
    let end = gen::END;
    for i in 0..128 {
        let words = [0, gen::of_slot(i as u32), end, end];
        for (l, h) in [(7, 8), (7, 255), (8, 7), (255, 7), (0, 7), (7, 0), (0, 0)] {
            for last in [7, 6] {
                let (mut low, mut high) = (weights::all(7), weights::all(7));
                high.0[127] = last;
                (low.0[i], high.0[i]) = (l, h);
                for from in 0..3 {
                    let r = Range { words: words[from..].to_vec(), low: low.clone(), high: high.clone(), between: vec![] };
                    hold(sides, &r, (0, 0), counts);
                    hold(sides, &Range { words: vec![], ..r }, (1, 0), counts);
                }
            }
        }
    }
}

/// Everything, with `wanted` random functions, and every real one with 16 ranges.
pub fn all(sides: &[Side], seed: u64, wanted: u64) -> Counts {
    let mut counts = Counts::default();
    let mut rng = Rng::new(seed);
    each_entry(sides, &mut counts);
    for (_, input) in model::real::functions() {
        for _ in 0..16 {
            hold(sides, &range(&mut rng, input.words.clone()), (0, 0), &mut counts);
        }
    }
    for n in [32_767usize, 32_768, 32_769] {
        for spare in [(0, 0), (-1, 0), (0, -1), (3, 5)] {
            let mut words = gen::whole(&mut rng, n);
            words.resize(n, gen::END);
            hold(sides, &range(&mut rng, words), spare, &mut counts);
        }
    }
    let until = counts.functions + wanted;
    while counts.functions < until {
        let most = if rng.once_in(400) { 1_000 } else { 24 };
        let words = gen::function(&mut rng, most);
        let spare = if rng.once_in(8) { (rng.below(4) as isize - 1, rng.below(4) as isize - 1) } else { (0, 0) };
        hold(sides, &range(&mut rng, words), spare, &mut counts);
    }
    counts
}
