//! The implementations that the comparison holds against each other, behind one set of functions.

use model::flat::Record;
use model::four::{Meters, ALLOWANCE};
use model::input::Input;
use model::meter::Meter;
use model::range::RangeAnswer;
use model::run::RunAnswer;
use model::service::{Crossed, Nearest};
use model::Answer;

pub mod ffi;

/// What a side says of a word's steps. A word number of n or more may be `bad` or not: it has no steps.
#[derive(Clone, Copy, Debug, PartialEq, Eq)]
pub struct Successors {
    pub bad: bool,
    pub list: [Option<usize>; 2],
}

pub struct Side {
    pub name: &'static str,
    pub successors: fn(&[u32], usize) -> Successors,
    /// Words, weights, marks, lengths.
    pub run: fn(&[u32], &[u8], &mut [u8], &mut [u32]) -> RunAnswer,
    /// Words, low and high weights, marks, lengths.
    pub runs: fn(&[u32], &[u8], &[u8], &mut [u8], &mut [u32]) -> RangeAnswer,
    /// Words, word number, marks, lengths.
    pub nearest: fn(&[u32], usize, &mut [u8], &mut [u32]) -> Nearest,
    /// Words, d, marks, lengths, list.
    pub within: fn(&[u32], usize, &mut [u8], &mut [u32], &mut [u8]) -> Answer,
    /// Words, word number, marks, lengths.
    pub crossed: fn(&[u32], usize, &mut [u8], &mut [u32]) -> Crossed,
    pub begin: fn(&mut Meter),
    pub reset: fn(&mut Meter),
    /// Words, weights, meter, word number.
    pub feed: fn(&[u32], &[u8], &mut Meter, usize) -> Answer,
    /// A begin and a feed of each word of the list; how many were refused.
    pub feed_all: fn(&[u32], &[u8], &mut Meter, &[u32]) -> u64,
    /// Of one of four: meters, script number.
    pub begin_four: fn(&mut Meters, u32) -> Answer,
    pub reset_four: fn(&mut Meters, u32) -> Answer,
    /// Words, weights, meters, script number, budget, word number.
    pub feed_four: fn(&[u32], &[u8], &mut Meters, u32, u32, usize) -> Answer,
    /// A begin of each and feeds of (script, word number), each script by its words; how many were refused.
    pub feed_all_four: fn(&[Vec<u32>; 4], &[u8], &mut Meters, &[(u32, u32)]) -> u64,
    /// The answer, and on 0 a record for each word; `input.records` and `input.spare` say what is lent.
    pub lift: Option<fn(&Input, &mut [Record]) -> Answer>,
}

/// Every side but the model itself: the C twin and the proved library.
pub fn sides() -> Vec<Side> {
    vec![ffi::twin::side(), ffi::rattle::side()]
}

/// Those that feed one of four: the twin once more, in place.
pub fn four_sides() -> Vec<Side> {
    vec![ffi::twin::side(), ffi::twin::in_place(), ffi::rattle::side()]
}

/// The model, as a side.
pub fn model_side() -> Side {
    Side {
        name: "model",
        successors: |words, p| {
            let s = model::steps::steps(words, p);
            Successors { bad: s.bad, list: [s.list().first().copied(), s.list().get(1).copied()] }
        },
        run: model::run::run,
        runs: model::range::runs,
        nearest: model::service::nearest,
        within: model::service::within,
        crossed: model::service::crossed,
        begin: model::meter::begin,
        reset: model::meter::reset,
        feed: model::meter::feed,
        feed_all: |words, weights, m, list| {
            model::meter::begin(m);
            list.iter().map(|&q| u64::from(model::meter::feed(words, weights, m, q as usize).number != 0)).sum()
        },
        begin_four: model::four::begin_four,
        reset_four: model::four::reset_four,
        feed_four: model::four::feed_four,
        feed_all_four: |words, weights, ms, list| {
            for i in 0..4 {
                model::four::begin_four(ms, i);
            }
            let feed = |&(i, q): &(u32, u32)| model::four::feed_four(&words[i as usize], weights, ms, i, ALLOWANCE, q as usize);
            list.iter().map(feed).map(|a| u64::from(a.number != 0)).sum()
        },
        lift: None,
    }
}
