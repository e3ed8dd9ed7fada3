//! Request C-22: nearest service and crossing steps. A plain form for any function, and one that walks every stretch.

use crate::run::run;
use crate::steps::{serves, steps};
use crate::{Answer, WORDS};
use std::collections::{BTreeSet, VecDeque};

/// Number and place of the refusal; whether the word has a fewest, and which.
#[repr(C)]
#[derive(Clone, Copy, Debug, PartialEq, Eq, Default)]
pub struct Nearest {
    pub number: u64,
    pub place: u64,
    pub found: u64,
    pub fewest: u64,
}

/// Number and place of the refusal; how many steps pass over the word.
#[repr(C)]
#[derive(Clone, Copy, Debug, PartialEq, Eq, Default)]
pub struct Crossed {
    pub number: u64,
    pub place: u64,
    pub count: u64,
}

/// "a return or a word with a serving step"; "A return .. is a word that is not bad and has no step."
fn ends(words: &[u32], p: usize) -> bool {
    let s = steps(words, p);
    (!s.bad && s.list().is_empty()) || s.list().iter().any(|&q| serves(p, q))
}

/// The fewest words from every word, found outwards from the words at which a stretch ends, along steps that do not serve.
fn fewest(words: &[u32]) -> Vec<Option<u64>> {
    let n = words.len();
    let mut before = vec![vec![]; n];
    for p in 0..n {
        for &q in steps(words, p).list().iter().filter(|&&q| !serves(p, q)) {
            before[q].push(p);
        }
    }
    let mut found = vec![None; n];
    let mut queue: VecDeque<usize> = (0..n).filter(|&p| ends(words, p)).collect();
    for &p in &queue {
        found[p] = Some(1);
    }
    while let Some(q) = queue.pop_front() {
        for &p in &before[q] {
            if found[p].is_none() {
                found[p] = found[q].map(|k| k + 1);
                queue.push_back(p);
            }
        }
    }
    found
}

/// "A refused function gets the longest run's refusal with all weights 1, and these questions leave the run's work slices as
/// that run does."
fn refused(words: &[u32], marks: &mut [u8], lengths: &mut [u32]) -> Option<Answer> {
    let r = run(words, &[1; 128], marks, lengths);
    (r.number != 0).then_some(Answer { number: r.number, place: r.place })
}

/// "From any reachable word of an accepted function, give the fewest words to the next serving step or return".
pub fn nearest(words: &[u32], w: usize, marks: &mut [u8], lengths: &mut [u32]) -> Nearest {
    if let Some(a) = refused(words, marks, lengths) {
        return Nearest { number: a.number, place: a.place, ..Nearest::default() };
    }
    if w >= words.len() || marks[w] == 0 {
        return Nearest::default();
    }
    Nearest { found: 1, fewest: fewest(words)[w].expect("every reachable word has one"), ..Nearest::default() }
}

/// "list which reachable words have one within d words"; the list is "under number 6".
pub fn within(words: &[u32], d: usize, marks: &mut [u8], lengths: &mut [u32], list: &mut [u8]) -> Answer {
    let n = words.len();
    if n <= WORDS && list.len() < n {
        return Answer { number: 6, place: 0 };
    }
    if let Some(a) = refused(words, marks, lengths) {
        return a;
    }
    let found = fewest(words);
    for p in 0..n {
        list[p] = u8::from(marks[p] == 1 && found[p].is_some_and(|k| k <= d as u64));
    }
    Answer::default()
}

/// "For a word w, count the steps from reachable words that pass strictly over w, forward or back."
pub fn crossed(words: &[u32], w: usize, marks: &mut [u8], lengths: &mut [u32]) -> Crossed {
    if let Some(a) = refused(words, marks, lengths) {
        return Crossed { number: a.number, place: a.place, ..Crossed::default() };
    }
    let over = |p: usize, q: usize| (p < w && w < q) || (q < w && w < p);
    let count = |p: usize| steps(words, p).list().iter().filter(|&&q| over(p, q)).count();
    Crossed { count: (0..words.len()).filter(|&p| marks[p] == 1).map(count).sum::<usize>() as u64, ..Crossed::default() }
}

/// How many words each stretch has that starts at p and ends at a return or a word with a serving step: every one of them.
fn stretches(words: &[u32], p: usize, so_far: u64, all: &mut Vec<u64>) {
    if ends(words, p) {
        all.push(so_far + 1);
    }
    for &q in steps(words, p).list() {
        if !serves(p, q) {
            stretches(words, q, so_far + 1, all);
        }
    }
}

/// Every step that some course takes, by walking each course from word 0 until it comes to a word again.
pub fn taken(words: &[u32]) -> BTreeSet<(usize, usize)> {
    fn walk(words: &[u32], course: &mut Vec<usize>, all: &mut BTreeSet<(usize, usize)>) {
        let p = course[course.len() - 1];
        for &q in steps(words, p).list() {
            all.insert((p, q));
            if !course.contains(&q) {
                course.push(q);
                walk(words, course, all);
                course.pop();
            }
        }
    }
    let mut all = BTreeSet::new();
    walk(words, &mut vec![0], &mut all);
    all
}

/// The fewest words by the definition, for functions of a few words that are accepted; `None` if no stretch ends so.
pub fn brute(words: &[u32], p: usize) -> Option<u64> {
    let mut all = vec![];
    stretches(words, p, 0, &mut all);
    all.into_iter().min()
}
