//! Request C-20: four scripts on one controller.

use crate::meter::{begin, feed, reset, Meter};
use crate::Answer;

/// "Axis, focuser, dome and guider scripts now take turns. Each has its own meter and its own services counter".
pub type Meters = [Meter; 4];

/// "an allowance S, 1 to 16,777,216"
pub const ALLOWANCE: u32 = 16_777_216;

/// "20 a script number above 3, first, also at begin and reset".
fn turned_away(i: u32) -> Option<Answer> {
    (i > 3).then_some(Answer { number: 20, place: 0 })
}

pub fn begin_four(ms: &mut Meters, i: u32) -> Answer {
    turned_away(i).unwrap_or_else(|| {
        begin(&mut ms[i as usize]);
        Answer::default()
    })
}

pub fn reset_four(ms: &mut Meters, i: u32) -> Answer {
    turned_away(i).unwrap_or_else(|| {
        reset(&mut ms[i as usize]);
        Answer::default()
    })
}

/// "A feed is otherwise as before". "21 an S out of range, next, at a feed; 22 a feed after which the sum would be above S, last,
/// with all four meters unchanged." "Number 11 looks only at the fed script's meter, and the sum never wraps."
pub fn feed_four(words: &[u32], weights: &[u8], ms: &mut Meters, i: u32, s: u32, q: usize) -> Answer {
    if let Some(answer) = turned_away(i) {
        return answer;
    }
    if s < 1 || s > ALLOWANCE {
        return Answer { number: 21, place: 0 };
    }
    let mut after = *ms;
    let answer = feed(words, weights, &mut after[i as usize], q);
    if answer.number != 0 {
        return answer;
    }
    let sum: u128 = after.iter().map(|m| u128::from(m.since)).sum();
    if sum > u128::from(s) {
        return Answer { number: 22, place: 0 };
    }
    *ms = after;
    answer
}
