//! The meter: begin, feed and reset.

use crate::steps::{is_step, serves};
use crate::weights::{self, weight};
use crate::{Answer, WORDS};

#[repr(C)]
#[derive(Clone, Copy, Debug, PartialEq, Eq, Default)]
pub struct Meter {
    pub begun: bool,
    pub last: u32,
    /// The weight of the words since service.
    pub since: u32,
    pub services: u32,
    /// Request C-19: "the highest count a meter has shown, held in the meter".
    pub highest: u32,
}

pub fn begin(m: &mut Meter) {
    *m = Meter { services: m.services, highest: m.highest, ..Meter::default() };
}

/// "A new reset sets it to the count of that moment and changes nothing else".
pub fn reset(m: &mut Meter) {
    m.highest = m.since;
}

/// Request C-17: 18 is checked after 1, and "Number 11 now means a count above 255 times (last + 1), with its other conditions
/// kept". Request C-19: "A highest below the count falls under number 11."
pub fn feed(words: &[u32], weights: &[u8], m: &mut Meter, q: usize) -> Answer {
    let answer = |number, place| Answer { number, place };
    let n = words.len();
    if n > WORDS {
        return answer(1, 0);
    }
    if let Some(place) = weights::refused(weights) {
        return answer(18, place as u64);
    }
    let (last, since) = (m.last as usize, m.since as usize);
    let foreign = if m.begun { last >= n || since == 0 || since > 255 * (last + 1) } else { last != 0 || since != 0 };
    if foreign || m.highest < m.since {
        return answer(11, 0);
    }
    if !m.begun {
        if q != 0 || n == 0 {
            return answer(10, 0);
        }
        let since = weight(words, weights, 0);
        *m = Meter { begun: true, last: 0, since, services: m.services, highest: m.highest.max(since) };
        return answer(0, 0);
    }
    if q >= n || !is_step(words, last, q) {
        return answer(10, 0);
    }
    if serves(last, q) {
        m.since = weight(words, weights, q);
        m.services = m.services.saturating_add(1);
    } else {
        m.since += weight(words, weights, q);
    }
    m.last = q as u32;
    m.highest = m.highest.max(m.since);
    answer(0, 0)
}
