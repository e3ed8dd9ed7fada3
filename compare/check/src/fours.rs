//! Request C-20: interleaved lists of calls on four meters, against the model and each script's own feeding book; and single calls
//! on any four meters.

use crate::gen;
use crate::meters::{any_meter, next_word};
use crate::rng::Rng;
use crate::shrink::{shorter, shrink, words as smaller_words};
use crate::weights::{self, Weights};
use model::book::{Book, Call};
use model::four::{begin_four, feed_four, reset_four, Meters, ALLOWANCE};
use model::meter::{feed, Meter};
use model::run::run;
use model::steps::serves;
use model::Answer;
use sides::Side;
use std::collections::BTreeMap;

#[derive(Default)]
pub struct Counts {
    pub lists: u64,
    pub feeds: u64,
    /// Calls held against a script's own feeding book.
    pub booked: u64,
    /// Lists of four accepted scripts whose L are within a quarter of S: no 22 may come.
    pub quarters: u64,
    pub singles: u64,
    /// Single feeds that 1, 18, 11 or 10 refuses, with the others' counts alone above S.
    pub beside: u64,
    /// Serving steps, answered 0 or 22, with S at the sum after them, or one below it.
    pub serving: u64,
    /// Feeds, answered 0 or 22, with S at one of its ends, and the sum after them at S or one above it.
    pub ends: u64,
    /// Single feeds that 22 turns back beside a count of 2^32 - 1 in another meter.
    pub full: u64,
    /// Answers of single calls.
    pub answers: BTreeMap<u64, u64>,
}

/// A call of a script, with S.
#[derive(Clone, Copy, Debug)]
pub struct FourCall {
    script: u32,
    budget: u32,
    call: Call,
}

#[derive(Clone, Debug)]
pub struct Case {
    words: [Vec<u32>; 4],
    weights: [Weights; 4],
    start: Meters,
    calls: Vec<FourCall>,
}

impl Case {
    /// What a call of this script is lent; one of no script is lent the axis's.
    fn lent(&self, script: u32) -> (&[u32], &[u8]) {
        let i = if script < 4 { script as usize } else { 0 };
        (&self.words[i], &self.weights[i].0)
    }

    fn by(&self, side: &Side, ms: &mut Meters, c: FourCall) -> Answer {
        let (words, weights) = self.lent(c.script);
        match c.call {
            Call::Begin => (side.begin_four)(ms, c.script),
            Call::Reset => (side.reset_four)(ms, c.script),
            Call::Feed(q) => (side.feed_four)(words, weights, ms, c.script, c.budget, q),
        }
    }

    fn by_model(&self, ms: &mut Meters, c: FourCall) -> Answer {
        let (words, weights) = self.lent(c.script);
        match c.call {
            Call::Begin => begin_four(ms, c.script),
            Call::Reset => reset_four(ms, c.script),
            Call::Feed(q) => feed_four(words, weights, ms, c.script, c.budget, q),
        }
    }

    /// The longest run of each script, if all are accepted.
    fn longest(&self) -> Option<u64> {
        let of = |i: usize| {
            let n = self.words[i].len();
            let answer = run(&self.words[i], &self.weights[i].0, &mut vec![0; n], &mut vec![0; n]);
            (answer.number == 0).then_some(answer.longest)
        };
        (0..4).map(of).collect::<Option<Vec<u64>>>().map(|all| all.into_iter().max().unwrap())
    }

    /// "If all four scripts are accepted, each one's L is at most S divided by 4, rounded down, every meter was just begun, S stays
    /// the same, and words and weights stay those of the accepted runs".
    /// Begins and resets before the first feed may be what begins them, whatever S these name.
    fn is_free(&self) -> bool {
        let opening = self.calls.iter().take_while(|c| !matches!(c.call, Call::Feed(_))).count();
        let (before, later) = self.calls.split_at(opening);
        let begun = |i: usize| {
            let m = self.start[i];
            (!m.begun && m.last == 0 && m.since == 0) || before.iter().any(|c| c.script == i as u32 && c.call == Call::Begin)
        };
        let Some(first) = later.first() else { return false };
        (0..4).all(begun)
            && later.iter().all(|c| c.budget == first.budget)
            && self.longest().is_some_and(|l| l <= u64::from(first.budget / 4))
    }
}

/// After every call: the answer and all four meters are the model's, and from a script's first begin on what its own feeding book
/// says, which hears of no call that 20, 21 or 22 turned back. Answers how many calls a book heard of.
pub fn compare_list(side: &Side, case: &Case) -> Result<u64, String> {
    let (mut got, mut want) = (case.start, case.start);
    let mut books: [Option<Book>; 4] = [None, None, None, None];
    let mut booked = 0;
    let free = case.is_free();
    for (k, &c) in case.calls.iter().enumerate() {
        let (a, b) = (case.by(side, &mut got, c), case.by_model(&mut want, c));
        if a != b || got != want {
            return Err(format!("call {k}, {c:?}: {a:?}, {got:?}; by the documents {b:?}, {want:?}"));
        }
        if free && a.number == 22 {
            return Err(format!("call {k}, {c:?}: {a:?}, with each L within a quarter of S"));
        }
        if [20, 21, 22].contains(&a.number) {
            continue;
        }
        let i = c.script as usize;
        let (words, weights) = case.lent(c.script);
        match &mut books[i] {
            book @ None => {
                if c.call == Call::Begin {
                    *book = Some(Book::new(words, got[i].services));
                }
            }
            Some(book) => {
                let told = book.call(weights, c.call);
                if a != told || got[i] != book.meter(got[i].highest) {
                    return Err(format!(
                        "call {k}, {c:?}: {a:?}, {:?}; by its own book {told:?}, {:?}",
                        got[i],
                        book.meter(got[i].highest)
                    ));
                }
                booked += 1;
            }
        }
    }
    Ok(booked)
}

/// Other contents of the other meters, with the same sum of counts.
fn rearranged(rng: &mut Rng, ms: &Meters, i: usize) -> Meters {
    let others: Vec<usize> = (0..4).filter(|&j| j != i).collect();
    let mut out = *ms;
    let (from, to) = (others[rng.below(3)], others[rng.below(3)]);
    if from != to {
        let room = out[from].since.min(u32::MAX - out[to].since);
        let part = if rng.once_in(2) { room } else { rng.below(room as usize + 1) as u32 };
        out[from].since -= part;
        out[to].since += part;
    }
    for j in others {
        out[j] = Meter {
            begun: rng.once_in(2),
            last: rng.next() as u32,
            services: rng.next() as u32,
            highest: rng.next() as u32,
            ..out[j]
        };
    }
    out
}

/// One call on any four meters against the model; and with the others' contents changed, but not the sum of their counts, the
/// answer and the script's own meter must stay.
pub fn compare_single(side: &Side, case: &Case) -> Result<u64, String> {
    let c = case.calls[0];
    let (mut got, mut want) = (case.start, case.start);
    let (a, b) = (case.by(side, &mut got, c), case.by_model(&mut want, c));
    if a != b || got != want {
        return Err(format!("{c:?}: {a:?}, {got:?}; by the documents {b:?}, {want:?}"));
    }
    if let Some(own) = got.get(c.script as usize) {
        let mut rng = Rng::new(u64::from(c.budget));
        for _ in 0..2 {
            let mut other = rearranged(&mut rng, &case.start, c.script as usize);
            let again = case.by(side, &mut other, c);
            if again != a || other[c.script as usize] != *own {
                return Err(format!(
                    "{c:?}: {a:?}, {own:?}; beside others with the same sum {again:?}, {:?}",
                    other[c.script as usize]
                ));
            }
        }
    }
    Ok(a.number)
}

fn smaller(case: &Case) -> Vec<Case> {
    let mut all: Vec<Case> =
        shorter(&case.calls).into_iter().filter(|l| !l.is_empty()).map(|calls| Case { calls, ..case.clone() }).collect();
    for i in 0..4 {
        for words in smaller_words(&case.words[i]) {
            let mut copy = case.clone();
            copy.words[i] = words;
            all.push(copy);
        }
        for table in weights::smaller(&case.weights[i]) {
            let mut copy = case.clone();
            copy.weights[i] = table;
            all.push(copy);
        }
        let m = case.start[i];
        for meter in [Meter { services: 0, ..m }, Meter { highest: m.since, ..m }, Meter::default()] {
            if meter != m {
                let mut copy = case.clone();
                copy.start[i] = meter;
                all.push(copy);
            }
        }
    }
    // A highest at the count may be what a meter had before: only what is smaller counts, or this would not end.
    let size = |c: &Case| {
        let meters: u64 =
            c.start.iter().map(|m| u64::from(m.since) + u64::from(m.highest) + u64::from(m.services) + u64::from(m.last)).sum();
        let weights: u64 = c.weights.iter().flat_map(|w| &w.0).map(|&w| u64::from(w)).sum();
        let words: u64 = c.words.iter().flatten().map(|&w| u64::from(w) + (1 << 32)).sum();
        u128::from(meters) + u128::from(weights) + u128::from(words) + ((c.calls.len() as u128) << 64)
    };
    let now = size(case);
    all.retain(|c| size(c) < now);
    all
}

pub fn report<T: std::fmt::Debug>(side: &Side, case: &Case, test: fn(&Side, &Case) -> Result<T, String>) -> String {
    let small = shrink(case.clone(), smaller, |c| test(side, c).is_err());
    format!("four meters, {}: {}\n  smallest case: {small:?}", side.name, test(side, &small).unwrap_err())
}

/// S at both ends, near what the counts can be, out of range.
fn any_budget(rng: &mut Rng) -> u32 {
    match rng.below(16) {
        0 => rng.pick(&[0, ALLOWANCE + 1, u32::MAX, 1 << 31]),
        1 => 1,
        2 => ALLOWANCE,
        3 => rng.pick(&[2, 3, 4, 7, 8, ALLOWANCE - 1]),
        4..=9 => 1 + rng.below(40) as u32,
        10..=13 => 1 + rng.below(3_000) as u32,
        _ => 1 + rng.below(ALLOWANCE as usize) as u32,
    }
}

fn any_script(rng: &mut Rng) -> u32 {
    if rng.once_in(40) {
        return rng.pick(&[4, 5, 255, 256, 1 << 31, u32::MAX]);
    }
    rng.below(4) as u32
}

/// Meters just begun, or of the scripts, or any, at times with a count of 2^32 - 1.
fn any_four(rng: &mut Rng, words: &[Vec<u32>; 4]) -> Meters {
    let plain = rng.once_in(2);
    let mut ms = Meters::default();
    for (m, words) in ms.iter_mut().zip(words) {
        *m = if plain {
            Meter { services: rng.next() as u32, highest: rng.below(9) as u32, ..Meter::default() }
        } else {
            any_meter(rng, words.len())
        };
        if !plain && rng.once_in(12) {
            m.since = u32::MAX - rng.below(2) as u32;
        }
    }
    ms
}

/// Four scripts take turns, each mostly along a course of its own.
pub fn list_case(rng: &mut Rng) -> Case {
    let whole = rng.once_in(3);
    let mut words: [Vec<u32>; 4] = Default::default();
    for w in &mut words {
        *w = if whole { gen::whole(rng, 9) } else { gen::function(rng, 9) };
    }
    let weights = [(); 4].map(|()| if whole || !rng.once_in(8) { weights::sound(rng) } else { weights::any(rng) });
    let start = any_four(rng, &words);
    let mut case = Case { words, weights, start, calls: vec![] };
    // One S for the list, or another at each call; of accepted scripts often the smallest that is enough, or one less.
    let mut fixed = rng.once_in(2).then(|| any_budget(rng));
    if let (true, Some(l)) = (rng.once_in(2), case.longest()) {
        fixed = Some((4 * l as u32).saturating_sub(rng.below(2) as u32));
    }
    if rng.once_in(3) {
        let begins = (0..4).map(|script| FourCall { script, budget: fixed.unwrap_or(1), call: Call::Begin });
        case.calls.extend(begins);
    }
    let mut now = case.start;
    for &c in &case.calls {
        case.by_model(&mut now, c);
    }
    // The words that 22 turned back: often fed again, once another script went on.
    let mut back: [Option<usize>; 4] = [None; 4];
    for _ in 0..rng.below(40) {
        let (script, budget) = (any_script(rng), fixed.unwrap_or_else(|| any_budget(rng)));
        let i = script as usize % 4;
        let call = match (rng.below(24), back[i]) {
            (0, _) => Call::Begin,
            (1, _) => Call::Reset,
            (2..=12, Some(q)) => Call::Feed(q),
            _ => Call::Feed(next_word(rng, &case.words[i], now[i].begun.then_some(now[i].last as usize))),
        };
        let c = FourCall { script, budget, call };
        let answer = case.by_model(&mut now, c);
        back[i] = match call {
            Call::Feed(q) if answer.number == 22 => Some(q),
            _ => None,
        };
        case.calls.push(c);
    }
    case
}

/// One call on any four meters; S often at what the sum would be after it, or beside that, and at times at one of its ends, with
/// another count such that the sum is there.
pub fn single_case(rng: &mut Rng) -> Case {
    let mut case = list_case(rng);
    let (script, i) = (any_script(rng), rng.below(4));
    let script = if script < 4 { i as u32 } else { script };
    if rng.once_in(2) {
        case.start[i] = any_meter(rng, case.words[i].len());
    }
    let m = case.start[i];
    let q = next_word(rng, &case.words[i], m.begun.then_some(m.last as usize));
    let call = match rng.below(20) {
        0 => Call::Begin,
        1 => Call::Reset,
        _ => Call::Feed(q),
    };
    let mut budget = any_budget(rng);
    let mut after = case.start;
    feed(&case.words[i], &case.weights[i].0, &mut after[i], q);
    match rng.below(6) {
        0 | 1 => {}
        2 => {
            budget = rng.pick(&[1, ALLOWANCE]);
            let j = (i + 1 + rng.below(3)) % 4;
            let rest: u64 = (0..4).filter(|&k| k != j).map(|k| u64::from(after[k].since)).sum();
            if let Some(count) = (u64::from(budget) + rng.below(3) as u64).checked_sub(1 + rest) {
                case.start[j].since = count as u32;
            }
        }
        _ => {
            let sum: u64 = after.iter().map(|m| u64::from(m.since)).sum();
            let near = (sum + rng.below(3) as u64).saturating_sub(1);
            if (1..=u64::from(ALLOWANCE)).contains(&near) {
                budget = near as u32;
            }
        }
    }
    if rng.once_in(4_000) {
        case.words[i] = vec![0; 32_767 + rng.below(3)];
    }
    case.calls = vec![FourCall { script, budget, call }];
    case
}

fn stop<T: std::fmt::Debug>(side: &Side, case: &Case, test: fn(&Side, &Case) -> Result<T, String>) -> ! {
    println!("MISMATCH of {}", report(side, case, test));
    std::process::exit(1);
}

/// What a single feed is a case of.
fn count(case: &Case, number: u64, counts: &mut Counts) {
    *counts.answers.entry(number).or_default() += 1;
    counts.singles += 1;
    let c = case.calls[0];
    let (i, Call::Feed(q)) = (c.script as usize, c.call) else { return };
    if i > 3 {
        return;
    }
    let others: u64 = (0..4).filter(|&j| j != i).map(|j| u64::from(case.start[j].since)).sum();
    counts.beside += u64::from([1, 10, 11, 18].contains(&number) && others > u64::from(c.budget));
    let summed = [0, 22].contains(&number);
    counts.full += u64::from(number == 22 && (0..4).any(|j| j != i && case.start[j].since == u32::MAX));
    let mut after = case.start[i];
    feed(&case.words[i], &case.weights[i].0, &mut after, q);
    let sum = others + u64::from(after.since);
    if summed && [sum, sum - 1].contains(&u64::from(c.budget)) {
        counts.serving += u64::from(case.start[i].begun && serves(case.start[i].last as usize, q));
        counts.ends += u64::from([1, ALLOWANCE].contains(&c.budget));
    }
}

/// Until `wanted` lists and as many single calls were compared.
pub fn all(sides: &[Side], seed: u64, wanted: u64) -> Counts {
    let mut counts = Counts::default();
    let mut rng = Rng::new(seed);
    while counts.lists < wanted {
        let case = list_case(&mut rng);
        let mut booked = 0;
        for side in sides {
            booked = compare_list(side, &case).unwrap_or_else(|_| stop(side, &case, compare_list));
        }
        counts.booked += booked;
        counts.quarters += u64::from(case.is_free());
        counts.feeds += case.calls.iter().filter(|c| matches!(c.call, Call::Feed(_))).count() as u64;
        counts.lists += 1;
        let case = single_case(&mut rng);
        let mut number = 0;
        for side in sides {
            number = compare_single(side, &case).unwrap_or_else(|_| stop(side, &case, compare_single));
        }
        count(&case, number, &mut counts);
    }
    counts
}
