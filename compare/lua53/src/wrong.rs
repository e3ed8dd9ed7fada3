//! Readings that are wrong on purpose (model/src/wrong53.rs), and sides that are: each must be told from the proved library.

use crate::rng::Rng;
use crate::{fours, gen, meters, ranges, runs, services, weights};
use model::wrong::{try_one, Wrong};
use sides::{ffi::rattle, Side};

const CASES: u64 = 20_000;

/// How many of the cases tell the reading that is tried from the side: functions with their runs, ranges, questions, lists of
/// calls, and calls on four meters.
fn caught(side: &Side, seed: u64) -> [u64; 5] {
    let mut rng = Rng::new(seed);
    let mut caught = [0; 5];
    for _ in 0..CASES {
        let words = gen::function(&mut rng, 24);
        let function = runs::Function { words: words.clone(), weights: weights::sound(&mut rng) };
        let range = ranges::range(&mut rng, words);
        let (service, list, four) = (services::case(&mut rng, 24), meters::case(&mut rng), fours::list_case(&mut rng));
        let found = [
            runs::compare(side, &function, (0, 0)).is_err(),
            ranges::compare(side, &range, (0, 0)).is_err(),
            services::compare(side, &service).is_err(),
            meters::compare_list(side, &list).is_err(),
            fours::compare_list(side, &four).is_err(),
        ];
        for (count, found) in caught.iter_mut().zip(found) {
            *count += u64::from(found);
        }
    }
    caught
}

fn report(name: &str, [runs, ranges, services, lists, fours]: [u64; 5]) -> String {
    assert!(runs + ranges + services + lists + fours > 0, "{name} was not caught");
    format!("{name}: caught in {runs} runs, {ranges} ranges, {services} functions asked, {lists} lists, {fours} lists of four, of {CASES} each")
}

/// A call serves, as before request C-16.
fn calls_serve() -> Side {
    Side {
        name: "calls serve",
        feed: |words, weights, m, q| {
            let last = words.get(m.last as usize).filter(|_| m.begun).map(|w| w % 64);
            let answer = (rattle::side().feed)(words, weights, m, q);
            if answer.number == 0 && matches!(last, Some(36 | 41)) {
                m.since = u32::from(weights[model::word::slot(words[q])]);
            }
            answer
        },
        ..rattle::side()
    }
}

/// Number 18 looks at the first 64 weights alone.
fn sixty_four_weights() -> Side {
    Side {
        name: "64 weights",
        run: |words, weights, marks, lengths| {
            let look = |(i, &w): (usize, &u8)| if i < 64 { w } else { w.max(1) };
            (rattle::side().run)(words, &weights.iter().enumerate().map(look).collect::<Vec<u8>>(), marks, lengths)
        },
        ..rattle::side()
    }
}

/// A loop that goes on to the next word on both ways has two steps.
fn equal_steps() -> Side {
    Side {
        name: "equal steps are two",
        successors: |words, p| {
            let s = (rattle::side().successors)(words, p);
            let loops = words.get(p).is_some_and(|w| matches!(w % 64, 39 | 42));
            let second = if loops { s.list[1].or(s.list[0]) } else { s.list[1] };
            sides::Successors { list: [s.list[0], second], ..s }
        },
        ..rattle::side()
    }
}

fn by_weights(side: &Side, seed: u64) -> String {
    let mut rng = Rng::new(seed);
    let function = |rng: &mut Rng| runs::Function { words: gen::function(rng, 24), weights: weights::zeros(rng, 1) };
    let runs = (0..CASES).filter(|_| runs::compare(side, &function(&mut rng), (0, 0)).is_err()).count() as u64;
    report(side.name, [runs, 0, 0, 0, 0])
}

/// Every wrong one with how often it was caught; panics if one never was.
pub fn all(seed: u64) -> Vec<String> {
    let right = rattle::side();
    let mut reports: Vec<String> = Wrong::ALL
        .iter()
        .map(|&wrong| {
            try_one(Some(wrong));
            let caught = caught(&right, seed);
            try_one(None);
            report(&format!("{wrong:?}"), caught)
        })
        .collect();
    for side in [calls_serve(), equal_steps()] {
        reports.push(report(side.name, caught(&side, seed)));
    }
    reports.push(by_weights(&sixty_four_weights(), seed));
    reports
}
