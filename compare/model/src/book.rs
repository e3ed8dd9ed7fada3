//! The feeding book: what a meter must show after a list of calls.
//!
//! Request C-17: "a meter compared with a run or with the book is lent the same weights at each feed". Where a list changes them
//! the book holds what include/lawendeb.h promises then: each word weighs by the weights of its own feed.
//!
//! Request C-19: "Demand 3's lists may hold resets, which its book passes over." What the highest is, is no matter of the book's.

use crate::meter::Meter;
use crate::steps::{is_step, serves};
use crate::weights::{self, weight};
use crate::Answer;

#[derive(Clone, Copy, Debug, PartialEq, Eq)]
pub enum Call {
    Begin,
    Feed(usize),
    Reset,
}

pub struct Book<'a> {
    words: &'a [u32],
    /// Services held at the start.
    start: u32,
    course: Vec<usize>,
    /// What each word of the course weighed when it was written.
    weighed: Vec<u32>,
    tally: u64,
}

impl<'a> Book<'a> {
    pub fn new(words: &'a [u32], start: u32) -> Self {
        Book { words, start, course: vec![], weighed: vec![], tally: 0 }
    }

    /// The call's answer. A feed whose weights are turned away writes nothing.
    pub fn call(&mut self, weights: &[u8], call: Call) -> Answer {
        let answer = |number, place| Answer { number, place };
        let q = match call {
            Call::Begin => {
                self.course.clear();
                self.weighed.clear();
                return answer(0, 0);
            }
            Call::Reset => return answer(0, 0),
            Call::Feed(q) => q,
        };
        if let Some(place) = weights::refused(weights) {
            return answer(18, place as u64);
        }
        let written = match self.course.last() {
            None => q == 0 && !self.words.is_empty(),
            Some(&p) => is_step(self.words, p, q),
        };
        if !written {
            return answer(10, 0);
        }
        if let Some(&p) = self.course.last() {
            self.tally += u64::from(serves(p, q));
        }
        self.course.push(q);
        self.weighed.push(weight(self.words, weights, q));
        answer(0, 0)
    }

    /// The meter after the list, with the highest that it is to hold.
    pub fn meter(&self, highest: u32) -> Meter {
        let mut from = 0;
        for (i, pair) in self.course.windows(2).enumerate() {
            if serves(pair[0], pair[1]) {
                from = i + 1;
            }
        }
        Meter {
            begun: !self.course.is_empty(),
            last: self.course.last().map_or(0, |&q| q as u32),
            since: self.weighed[from..].iter().sum(),
            services: (u64::from(self.start) + self.tally).min(4_294_967_295) as u32,
            highest,
        }
    }
}
