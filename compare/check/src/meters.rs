//! The meter: lists of calls against the feeding book, and single feeds of any meter against the model.

use crate::gen;
use crate::rng::Rng;
use crate::shrink::{shorter, shrink, words as smaller_words};
use crate::weights::{self, Weights};
use model::book::{Book, Call};
use model::meter::{begin, feed, reset, Meter};
use model::run::run;
use model::steps::steps;
use model::Answer;
use sides::Side;
use std::collections::BTreeMap;

#[derive(Default)]
pub struct Counts {
    pub lists: u64,
    pub feeds: u64,
    pub resets: u64,
    pub singles: u64,
    /// Single calls on a meter with a highest below its count.
    pub low: u64,
    /// Lists on an accepted function with the same weights at each feed: held against L.
    pub below: u64,
    /// Answers of single calls.
    pub answers: BTreeMap<u64, u64>,
}

/// A meter, a function and calls on it. The calls take the weights in turn.
#[derive(Clone, Debug)]
pub struct Case {
    pub words: Vec<u32>,
    pub weights: Vec<Weights>,
    pub start: Meter,
    pub calls: Vec<Call>,
}

impl Case {
    /// What call i is lent.
    fn weights(&self, i: usize) -> &[u8] {
        &self.weights[i % self.weights.len()].0
    }

    /// The longest run that no count may pass: if the function is accepted, and the weights are the same at each feed.
    fn longest(&self) -> Option<u64> {
        let n = self.words.len();
        let answer = run(&self.words, self.weights(0), &mut vec![0; n], &mut vec![0; n]);
        (self.weights.len() == 1 && answer.number == 0).then_some(answer.longest)
    }
}

fn call(side: &Side, words: &[u32], weights: &[u8], m: &mut Meter, c: Call) -> Answer {
    match c {
        Call::Begin => {
            (side.begin)(m);
            Answer::default()
        }
        Call::Feed(q) => (side.feed)(words, weights, m, q),
        Call::Reset => {
            (side.reset)(m);
            Answer::default()
        }
    }
}

/// After a begin, every prefix of the list is a list: the side's meter against the book, answers and places too, its highest
/// against the counts that it showed, and its count against L; its highest, too, once it was reset.
pub fn compare_list(side: &Side, case: &Case) -> Result<(), String> {
    let mut m = case.start;
    (side.begin)(&mut m);
    let mut book = Book::new(&case.words, case.start.services);
    if m != book.meter(case.start.highest) {
        return Err(format!("after the begin: {m:?}, by the documents {:?}", book.meter(case.start.highest)));
    }
    let longest = case.longest();
    // The larger of the highest at the last reset, or at the start, and the largest count shown since.
    let mut worst = case.start.highest;
    let mut was_reset = false;
    for (i, &c) in case.calls.iter().enumerate() {
        let (got, want) = (call(side, &case.words, case.weights(i), &mut m, c), book.call(case.weights(i), c));
        if got != want {
            return Err(format!("call {i}, {c:?}: {got:?}, by the feeding book {want:?}"));
        }
        // The book counts its course anew each time: on a list of thousands look at times only. It knows of no highest.
        if (i < 1_000 || i + 1 == case.calls.len() || i % 64 == 0) && m != book.meter(m.highest) {
            return Err(format!("after call {i}, {c:?}: {m:?}, by the feeding book {:?}", book.meter(m.highest)));
        }
        was_reset |= c == Call::Reset;
        worst = if c == Call::Reset { m.since } else { worst.max(m.since) };
        if m.highest != worst {
            return Err(format!("after call {i}, {c:?}: {m:?}, by the counts shown its highest is {worst}"));
        }
        if longest.is_some_and(|l| u64::from(m.since) > l || was_reset && u64::from(m.highest) > l) {
            return Err(format!("after call {i}, {c:?}: {m:?}, above L {longest:?}"));
        }
    }
    Ok(())
}

/// One call on any meter, of this function or not, against the model.
pub fn compare_single(side: &Side, case: &Case) -> Result<u64, String> {
    let (mut got, mut want) = (case.start, case.start);
    for (i, &c) in case.calls.iter().enumerate() {
        let answer = call(side, &case.words, case.weights(i), &mut got, c);
        let wanted = match c {
            Call::Begin => {
                begin(&mut want);
                Answer::default()
            }
            Call::Feed(q) => feed(&case.words, case.weights(i), &mut want, q),
            Call::Reset => {
                reset(&mut want);
                Answer::default()
            }
        };
        if answer != wanted || got != want {
            return Err(format!("{c:?} of {:?}: {answer:?}, {got:?}; by the documents {wanted:?}, {want:?}", case.start));
        }
        if let Call::Feed(_) = c {
            return Ok(answer.number);
        }
    }
    Ok(0)
}

fn smaller(case: &Case) -> Vec<Case> {
    let mut all: Vec<Case> = shorter(&case.calls).into_iter().map(|calls| Case { calls, ..case.clone() }).collect();
    all.extend(smaller_words(&case.words).into_iter().map(|words| Case { words, ..case.clone() }));
    all.extend((case.weights.len() > 1).then(|| Case { weights: case.weights[..1].to_vec(), ..case.clone() }));
    for (i, table) in case.weights.iter().enumerate() {
        all.extend(weights::smaller(table).into_iter().map(|table| {
            let mut copy = case.clone();
            copy.weights[i] = table;
            copy
        }));
    }
    if case.start.services > 0 {
        let start = Meter { services: 0, ..case.start };
        all.push(Case { start, ..case.clone() });
    }
    if case.start.highest > 0 {
        let start = Meter { highest: 0, ..case.start };
        all.push(Case { start, ..case.clone() });
    }
    all
}

pub fn report<T: std::fmt::Debug>(side: &Side, case: &Case, test: impl Fn(&Side, &Case) -> Result<T, String>) -> String {
    let small = shrink(case.clone(), smaller, |c| test(side, c).is_err());
    format!("meters, {}: {}\n  smallest case: {small:?}", side.name, test(side, &small).unwrap_err())
}

fn hold(sides: &[Side], case: &Case, counts: &mut Counts) {
    for side in sides {
        if compare_list(side, case).is_err() {
            println!("MISMATCH of {}", report(side, case, compare_list));
            std::process::exit(1);
        }
    }
    counts.below += u64::from(case.longest().is_some());
    counts.feeds += case.calls.iter().filter(|c| matches!(c, Call::Feed(_))).count() as u64;
    counts.resets += case.calls.iter().filter(|&&c| c == Call::Reset).count() as u64;
    counts.lists += 1;
}

/// A word to feed after p, mostly one that a step leads to.
pub fn next_word(rng: &mut Rng, words: &[u32], at: Option<usize>) -> usize {
    let list = at.map(|p| steps(words, p));
    let list = list.as_ref().map_or(&[][..], |s| s.list());
    match rng.below(12) {
        0 => rng.below(words.len() + 3),
        1 => rng.pick(&[0, usize::MAX, 1 << 32, 32_768, 65_536]),
        _ if at.is_none() => 0,
        _ if list.is_empty() => rng.below(words.len() + 1),
        _ => rng.pick(list),
    }
}

/// Calls that mostly follow a course, with wrong feeds, begins and resets among them.
fn calls(rng: &mut Rng, words: &[u32], many: usize) -> Vec<Call> {
    let mut out = vec![];
    let mut at: Option<usize> = None;
    for _ in 0..many {
        if rng.once_in(24) {
            out.push(Call::Begin);
            at = None;
            continue;
        }
        if rng.once_in(16) {
            out.push(Call::Reset);
            continue;
        }
        let q = next_word(rng, words, at);
        out.push(Call::Feed(q));
        if at.is_some_and(|p| steps(words, p).list().contains(&q)) || (at.is_none() && q == 0 && !words.is_empty()) {
            at = Some(q);
        }
    }
    out
}

/// The weights of a list: mostly the same at each feed, else several in turn, some of them turned away.
fn tables(rng: &mut Rng) -> Vec<Weights> {
    if !rng.once_in(4) {
        return vec![weights::sound(rng)];
    }
    (0..2 + rng.below(3)).map(|_| weights::any(rng)).collect()
}

/// A highest for this count: mostly above it, at times it, or below it, or any.
fn any_highest(rng: &mut Rng, since: u32) -> u32 {
    match rng.below(8) {
        0 => since.saturating_sub(1 + rng.below(2) as u32),
        1 => since,
        2 => rng.next() as u32,
        _ => since.saturating_add(rng.below(1_000) as u32),
    }
}

/// A meter of a function of n words, with a count at its limit or just above it among them, or at times any.
pub fn any_meter(rng: &mut Rng, n: usize) -> Meter {
    if n > 0 && !rng.once_in(4) {
        let last = rng.below(n) as u32;
        let services = if rng.once_in(3) { u32::MAX - rng.below(2) as u32 } else { rng.next() as u32 };
        let most = 255 * (last + 1);
        let since = match rng.below(8) {
            0 => most - rng.below(3) as u32,
            1 => most + 1 + rng.below(2) as u32,
            2 | 3 => 1 + rng.below(last as usize + 1) as u32,
            _ => 1 + rng.below(most as usize) as u32,
        };
        return Meter { begun: true, last, since, services, highest: any_highest(rng, since) };
    }
    let near = |rng: &mut Rng| if rng.once_in(8) { rng.next() as u32 } else { rng.below(n + 3) as u32 };
    let (last, since) = (near(rng), near(rng));
    let services = if rng.once_in(3) { u32::MAX - rng.below(3) as u32 } else { rng.next() as u32 };
    Meter { begun: rng.once_in(2), last, since, services, highest: any_highest(rng, since) }
}

/// One call on any meter of these words.
pub fn single_case(rng: &mut Rng, words: Vec<u32>) -> Case {
    let start = any_meter(rng, words.len());
    let list = steps(&words, start.last as usize);
    let q = if !list.list().is_empty() && !rng.once_in(3) { rng.pick(list.list()) } else { rng.below(words.len() + 3) };
    let call = match rng.below(16) {
        0 => Call::Begin,
        1 => Call::Reset,
        _ => Call::Feed(q),
    };
    Case { words, weights: vec![weights::any(rng)], start, calls: vec![call] }
}

fn single(sides: &[Side], rng: &mut Rng, words: Vec<u32>, counts: &mut Counts) {
    hold_single(sides, &single_case(rng, words), counts);
}

fn hold_single(sides: &[Side], case: &Case, counts: &mut Counts) {
    let mut number = 0;
    for side in sides {
        number = compare_single(side, case).unwrap_or_else(|_| {
            println!("MISMATCH of {}", report(side, case, compare_single));
            std::process::exit(1);
        });
    }
    *counts.answers.entry(number).or_default() += 1;
    counts.singles += 1;
    counts.low += u64::from(case.start.highest < case.start.since);
}

/// Each weight alone a zero and every count around 128, with meters that 11 or 10 would refuse among them.
fn each_weight(sides: &[Side], rng: &mut Rng, counts: &mut Counts) {
    let words = [0, gen::END];
    let zeros = (0..128).map(|i| Weights((0..128).map(|j| u8::from(i != j)).collect()));
    let miscounted = (0..260).map(|n| Weights(vec![255; n]));
    for weights in zeros.chain(miscounted) {
        for q in 0..3 {
            let case = Case { words: words.to_vec(), weights: vec![weights.clone()], start: any_meter(rng, 2), calls: vec![Call::Feed(q)] };
            hold_single(sides, &case, counts);
        }
    }
}

/// Everything, until `wanted` lists and as many single calls were compared.
pub fn all(sides: &[Side], seed: u64, wanted: u64) -> Counts {
    let mut counts = Counts::default();
    let mut rng = Rng::new(seed);
    for n in [32_767usize, 32_768, 32_769] {
        for _ in 0..200 {
            single(sides, &mut rng, vec![0; n], &mut counts);
        }
    }
    let mut straight = vec![0; 32_768];
    straight[32_767] = gen::jump(-32_768);
    let round: Vec<Call> = (0..70_000).map(|i| Call::Feed(i % 32_768)).collect();
    let start = Meter { services: u32::MAX - 1, ..Meter::default() };
    for weights in [vec![weights::all(1)], vec![weights::all(255)], vec![weights::random(&mut rng), weights::all(255)]] {
        hold(sides, &Case { words: straight.clone(), weights, start, calls: round.clone() }, &mut counts);
    }
    each_weight(sides, &mut rng, &mut counts);
    while counts.lists < wanted {
        let most = if rng.once_in(100) { 300 } else { 14 };
        let words = gen::function(&mut rng, most);
        let many = if rng.once_in(100) { 400 } else { rng.below(24) };
        let calls = calls(&mut rng, &words, many);
        let start = any_meter(&mut rng, words.len());
        let weights = tables(&mut rng);
        single(sides, &mut rng, words.clone(), &mut counts);
        hold(sides, &Case { words, weights, start, calls }, &mut counts);
    }
    counts
}

/// One random list.
pub fn case(rng: &mut Rng) -> Case {
    let words = gen::function(rng, 14);
    let many = rng.below(24);
    let calls = calls(rng, &words, many);
    let start = any_meter(rng, words.len());
    Case { words, weights: tables(rng), start, calls }
}
