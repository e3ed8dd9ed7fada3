//! The longest run: the linear form, and the definition itself by brute force.

use crate::steps::{serves, steps};
use crate::weights::{self, weight};
use crate::word::slot;
use crate::WORDS;

/// Number and place of the refusal, L and its first word.
#[repr(C)]
#[derive(Clone, Copy, Debug, PartialEq, Eq, Default)]
pub struct RunAnswer {
    pub number: u64,
    pub place: u64,
    pub longest: u64,
    pub first: u64,
}

fn refused(number: u64, place: usize) -> RunAnswer {
    RunAnswer { number, place: place as u64, ..RunAnswer::default() }
}

/// The run with its two lent work slices. Request C-17: "The work slice, L and the meter's count become sums of weights"; 18 is
/// "checked after 6".
pub fn run(words: &[u32], weights: &[u8], marks: &mut [u8], lengths: &mut [u32]) -> RunAnswer {
    let n = words.len();
    if n > WORDS {
        return refused(1, 0);
    }
    if marks.len() < n || lengths.len() < n {
        return refused(6, 0);
    }
    if let Some(place) = weights::refused(weights) {
        return refused(18, place);
    }
    if n == 0 {
        return refused(7, 0);
    }
    marks[..n].fill(0);
    lengths[..n].fill(0);
    let mut found = vec![0];
    marks[0] = 1;
    while let Some(p) = found.pop() {
        for &q in steps(words, p).list() {
            if marks[q] == 0 {
                marks[q] = 1;
                found.push(q);
            }
        }
    }
    if let Some(p) = (0..n).find(|&p| marks[p] == 1 && steps(words, p).bad) {
        return refused(8, p);
    }
    for p in (0..n).rev().filter(|&p| marks[p] == 1) {
        let on = steps(words, p).list().iter().filter(|&&q| !serves(p, q)).map(|&q| lengths[q]).max();
        lengths[p] = weight(words, weights, p) + on.unwrap_or(0);
    }
    let longest = lengths[..n].iter().copied().max().unwrap_or(0);
    let first = lengths[..n].iter().position(|&l| l == longest).unwrap_or(0);
    RunAnswer { number: 0, place: 0, longest: u64::from(longest), first: first as u64 }
}

/// The same by the definitions, for functions of a few words: reachable by closing the relation n times, the most weight
/// of a stretch by walking every one. Nothing is remembered between walks.
pub fn brute(words: &[u32], weights: &[u8]) -> (RunAnswer, Vec<u8>, Vec<u32>) {
    let n = words.len();
    let mut marks = vec![0u8; n];
    let zeros = (0..weights.len()).filter(|&i| weights[i] == 0);
    if weights.len() != 128 || weights.contains(&0) {
        let place = if weights.len() == 128 { zeros.min().unwrap() } else { 0 };
        return (refused(18, place), marks, vec![0; n]);
    }
    if n == 0 {
        return (refused(7, 0), marks, vec![]);
    }
    marks[0] = 1;
    for _ in 0..n {
        for p in 0..n {
            for q in 0..n {
                if marks[p] == 1 && steps(words, p).list().contains(&q) {
                    marks[q] = 1;
                }
            }
        }
    }
    let bad = (0..n).filter(|&p| marks[p] == 1 && steps(words, p).bad).min();
    if let Some(p) = bad {
        return (refused(8, p), marks, vec![0; n]);
    }
    let most: Vec<u32> = (0..n).map(|p| if marks[p] == 1 { walk(words, weights, p) } else { 0 }).collect();
    let longest = *most.iter().max().unwrap();
    let first = (0..n).filter(|&p| most[p] == longest).min().unwrap();
    (RunAnswer { number: 0, place: 0, longest: u64::from(longest), first: first as u64 }, marks, most)
}

/// The most weight of any walk from p along steps that do not serve: "A stretch beginning at a word weighs that word too."
fn walk(words: &[u32], weights: &[u8], p: usize) -> u32 {
    let own = u32::from(weights[slot(words[p])]);
    let mut most = own;
    for &q in steps(words, p).list() {
        if !serves(p, q) {
            most = most.max(own + walk(words, weights, q));
        }
    }
    most
}
