//! Steps: what a version's table says of a word, as numbers of words.

use crate::table::row;

/// What the table says of a word: bad, or its steps, lower first. A word number of n or more has no steps.
#[derive(Clone, Copy, Debug, PartialEq, Eq)]
pub struct Steps {
    pub bad: bool,
    count: usize,
    to: [usize; 2],
}

impl Steps {
    const BAD: Steps = Steps { bad: true, count: 0, to: [0, 0] };

    pub fn list(&self) -> &[usize] {
        &self.to[..self.count]
    }
}

pub fn steps(words: &[u32], p: usize) -> Steps {
    if p >= words.len() {
        return Steps { bad: false, ..Steps::BAD };
    }
    let (to, good) = row(words, p);
    if !good || to.iter().flatten().any(|&q| q < 0 || q >= words.len() as i64) {
        return Steps::BAD;
    }
    let mut list: Vec<usize> = to.iter().flatten().map(|&q| q as usize).collect();
    list.sort_unstable();
    list.dedup();
    let mut answer = Steps { bad: false, count: list.len(), to: [0, 0] };
    answer.to[..list.len()].copy_from_slice(&list);
    answer
}

/// Whether q is a step from p.
pub fn is_step(words: &[u32], p: usize, q: usize) -> bool {
    steps(words, p).list().contains(&q)
}

/// Whether a step p to q serves. Request C-16: "the steps after CALL and TFORCALL do not serve; only a
/// step that does not go forward does".
pub fn serves(p: usize, q: usize) -> bool {
    q <= p
}
