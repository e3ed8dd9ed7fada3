//! Rows that both versions have: runs, ranges, questions and feeds. `code` says what a version's words are.

use crate::code::{jump, END, TEST};
use model::four::Meters;
use model::meter::Meter;
use model::{real, steps};
use sides::Side;
use std::hint::black_box;
use std::time::Instant;

pub const SIZES: [usize; 3] = [64, 1_024, 32_768];

/// A fixed sequence, the same in every run.
struct Sequence(u64);

impl Sequence {
    fn below(&mut self, n: usize) -> usize {
        self.0 = self.0.wrapping_mul(6_364_136_223_846_793_005).wrapping_add(1_442_695_040_888_963_407);
        ((self.0 >> 33) as usize) % n
    }
}

/// One stretch of n words: L is as long as it can be.
fn straight(n: usize) -> Vec<u32> {
    let mut words = vec![0; n];
    words[n - 1] = jump(-(n as i64));
    words
}

/// A test and a jump to anywhere, over and over: two steps at every other word, and no order in memory.
fn scattered(n: usize) -> Vec<u32> {
    let mut s = Sequence(n as u64);
    let mut words: Vec<u32> = vec![];
    while words.len() + 2 < n {
        let p = words.len() as i64 + 1;
        let to = 2 * s.below(n / 2 - 1) as i64;
        words.extend([TEST, jump(to - p - 1)]);
    }
    words.resize(n, END);
    words
}

/// Weights of 1, and random ones.
fn tables_of_weights() -> [(&'static str, Vec<u8>); 2] {
    let mut s = Sequence(17);
    [("", vec![1; 128]), (", random weights", (0..128).map(|_| 1 + s.below(255) as u8).collect())]
}

/// A kind of code: its name and how it is made in a length.
pub type Kind = (&'static str, fn(usize) -> Vec<u32>);
pub const KINDS: [Kind; 3] = [("real", real::of_length), ("straight", straight), ("scattered", scattered)];

/// A walk of `many` words along steps, from 0, begun anew where none leads on; one list a course.
fn courses(words: &[u32], many: usize) -> Vec<Vec<u32>> {
    let mut s = Sequence(7);
    let mut all = vec![vec![0]];
    for _ in 1..many {
        let course = all.last_mut().unwrap();
        let list = steps::steps(words, *course.last().unwrap() as usize);
        match list.list() {
            [] => all.push(vec![0]),
            list => course.push(list[s.below(list.len())] as u32),
        }
    }
    all
}

/// Nanoseconds of each call, at its best of the rounds, the calls taken in turn.
pub fn best(rounds: usize, calls: &mut [Box<dyn FnMut() + '_>]) -> Vec<f64> {
    let mut best = vec![f64::MAX; calls.len()];
    for _ in 0..rounds {
        for (call, best) in calls.iter_mut().zip(&mut best) {
            let start = Instant::now();
            call();
            *best = best.min(start.elapsed().as_nanos() as f64);
        }
    }
    best
}

/// The columns of a table: a time for each name, then quotients of two of them.
pub struct Columns<'a> {
    pub names: Vec<&'a str>,
    pub quotients: Vec<(usize, usize)>,
}

impl<'a> Columns<'a> {
    /// With the quotient of each later time and the first.
    pub fn over_first(names: Vec<&'a str>) -> Columns<'a> {
        let quotients = (1..names.len()).map(|i| (i, 0)).collect();
        Columns { names, quotients }
    }

    pub fn head(&self) {
        let quotients = self.quotients.iter().map(|&(i, j)| format!("{} / {}", self.names[i], self.names[j]));
        let cells: Vec<String> = self.names.iter().map(|n| n.to_string()).chain(quotients).collect();
        println!("\n| nanoseconds | code | words | {} |\n|---|---|---|{}", cells.join(" | "), "---|".repeat(cells.len()));
    }

    /// Answers the times a word or feed.
    pub fn row(&self, what: &str, code: &str, n: usize, times: &[f64], each: f64) -> Vec<f64> {
        let times: Vec<f64> = times.iter().map(|t| t / each).collect();
        let quotients = self.quotients.iter().map(|&(i, j)| times[i] / times[j]);
        let cells: Vec<String> = times.iter().copied().chain(quotients).map(|t| format!("{t:.2}")).collect();
        println!("| {what} | {code} | {n} | {} |", cells.join(" | "));
        times
    }

    /// How the time a word at the largest size compares with that at the middle one.
    pub fn flat_row(&self, rows: &[Vec<f64>]) {
        let cells: Vec<String> = rows[2].iter().zip(&rows[1]).map(|(l, m)| format!("{:.2}", l / m)).collect();
        println!("| | | {} / {} | {} |{}", SIZES[2], SIZES[1], cells.join(" | "), " |".repeat(self.quotients.len()));
    }
}

pub fn run_rows(columns: &Columns, sides: &[Side], rounds: usize, (name, make): Kind) {
    for (weighed, weights) in &tables_of_weights() {
        let mut rows = vec![];
        for n in SIZES {
            let words = make(n);
            let repeat = 65_536 / n;
            let work = sides.iter().map(|_| (vec![0u8; n], vec![0u32; n]));
            let mut calls: Vec<Box<dyn FnMut()>> = vec![];
            for (side, (mut marks, mut lengths)) in sides.iter().zip(work) {
                let words = &words;
                calls.push(Box::new(move || {
                    for _ in 0..repeat {
                        let answer = (side.run)(black_box(words), black_box(weights), &mut marks, &mut lengths);
                        assert_eq!(answer.number, 0);
                    }
                }));
            }
            let times = best(rounds, &mut calls);
            rows.push(columns.row("longest run", &format!("{name}{weighed}"), n, &times, (repeat * n) as f64));
        }
        columns.flat_row(&rows);
    }
}

/// By a low and a high table in one call, beside a run by one table.
fn range_rows(columns: &Columns, sides: &[Side], rounds: usize, (name, make): Kind) {
    let [(_, low), (_, high)] = &tables_of_weights();
    let mut rows = vec![];
    for n in SIZES {
        let words = make(n);
        let repeat = 65_536 / n;
        let mut calls: Vec<Box<dyn FnMut()>> = vec![];
        for both in [false, true] {
            for side in sides {
                let (words, mut marks, mut lengths) = (&words, vec![0u8; n], vec![0u32; n]);
                calls.push(Box::new(move || {
                    for _ in 0..repeat {
                        let (words, low, high) = (black_box(words), black_box(low), black_box(high));
                        let number = if both {
                            (side.runs)(words, low, high, &mut marks, &mut lengths).number
                        } else {
                            (side.run)(words, high, &mut marks, &mut lengths).number
                        };
                        assert_eq!(number, 0);
                    }
                }));
            }
        }
        let times = best(rounds, &mut calls);
        rows.push(columns.row("longest run, one table and both", name, n, &times, (repeat * n) as f64));
    }
    columns.flat_row(&rows);
}

/// The three questions of request C-22: of the middle word, and of d 8.
pub fn service_rows(columns: &Columns, sides: &[Side], rounds: usize, (name, make): Kind) {
    type Ask = fn(&Side, &[u32], &mut [u8], &mut [u32], &mut [u8]) -> u64;
    let questions: [(&str, Ask); 3] = [
        ("distance to service", |side, words, marks, lengths, _| (side.nearest)(words, words.len() / 2, marks, lengths).number),
        ("list within 8", |side, words, marks, lengths, list| (side.within)(words, 8, marks, lengths, list).number),
        ("crossing edges", |side, words, marks, lengths, _| (side.crossed)(words, words.len() / 2, marks, lengths).number),
    ];
    for (what, ask) in questions {
        let mut rows = vec![];
        for n in SIZES {
            let words = make(n);
            let repeat = 65_536 / n;
            let work = sides.iter().map(|_| (vec![0u8; n], vec![0u32; n], vec![0u8; n]));
            let mut calls: Vec<Box<dyn FnMut()>> = vec![];
            for (side, (mut marks, mut lengths, mut list)) in sides.iter().zip(work) {
                let words = &words;
                calls.push(Box::new(move || {
                    for _ in 0..repeat {
                        assert_eq!(ask(side, black_box(words), &mut marks, &mut lengths, &mut list), 0);
                    }
                }));
            }
            let times = best(rounds, &mut calls);
            rows.push(columns.row(what, name, n, &times, (repeat * n) as f64));
        }
        columns.flat_row(&rows);
    }
}

pub fn feed_rows(columns: &Columns, sides: &[Side], rounds: usize, (name, make): Kind) {
    for (weighed, weights) in &tables_of_weights() {
        let mut rows = vec![];
        for n in SIZES {
            let words = make(n);
            let many = 100_000;
            let lists = courses(&words, many);
            let mut calls: Vec<Box<dyn FnMut()>> = vec![];
            for side in sides {
                let (words, lists) = (&words, &lists);
                calls.push(Box::new(move || {
                    let mut m = Meter::default();
                    for list in lists {
                        assert_eq!((side.feed_all)(black_box(words), black_box(weights), &mut m, list), 0);
                    }
                    black_box(m);
                }));
            }
            let times = best(rounds, &mut calls);
            rows.push(columns.row("feed", &format!("{name}{weighed}"), n, &times, many as f64));
        }
        columns.flat_row(&rows);
    }
}

/// Four scripts of one kind, each of its own length, in turns of so many words.
fn four_rows(columns: &Columns, sides: &[Side], rounds: usize, (name, make): Kind, turn: usize) {
    let weights = vec![1; 128];
    let mut rows = vec![];
    for n in SIZES {
        let words: [Vec<u32>; 4] = [0, 1, 2, 3].map(|i| make(n - 2 * i));
        let many = 25_000;
        // One course each: where no step leads on, the script has ended.
        let lists: Vec<Vec<u32>> = words.iter().map(|w| courses(w, many).swap_remove(0)).collect();
        let mut fed: Vec<(u32, u32)> = vec![];
        for from in (0..many).step_by(turn) {
            for (i, list) in lists.iter().enumerate() {
                fed.extend(list.iter().skip(from).take(turn).map(|&q| (i as u32, q)));
            }
        }
        let repeat = 4 * many / fed.len() + 1;
        let mut calls: Vec<Box<dyn FnMut()>> = vec![];
        for side in sides {
            let (words, weights, fed) = (&words, &weights, &fed);
            calls.push(Box::new(move || {
                let mut ms = Meters::default();
                for _ in 0..repeat {
                    assert_eq!((side.feed_all_four)(black_box(words), black_box(weights), &mut ms, fed), 0);
                }
                black_box(ms);
            }));
        }
        let times = best(rounds, &mut calls);
        rows.push(columns.row("feed of one of four", &format!("{name}, turns of {turn}"), n, &times, (repeat * fed.len()) as f64));
    }
    columns.flat_row(&rows);
}

/// The feed of one of four, in turns of one word and of sixteen.
pub fn four_table(rounds: usize) {
    let fours = sides::four_sides();
    let columns = Columns { names: fours.iter().map(|s| s.name).collect(), quotients: vec![(2, 0), (2, 1)] };
    columns.head();
    for kind in KINDS {
        for turn in [1, 16] {
            four_rows(&columns, &fours, rounds, kind, turn);
        }
    }
}

/// The run by one table and by two.
pub fn range_table(sides: &[Side], rounds: usize) {
    let names = vec!["C twin", "Rattle", "C twin, both", "Rattle, both"];
    let columns = Columns { names, quotients: vec![(2, 0), (3, 1), (3, 2)] };
    columns.head();
    for kind in KINDS {
        range_rows(&columns, sides, rounds, kind);
    }
}
