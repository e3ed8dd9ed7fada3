//! Wrong on purpose: records, a step, runs, ranges, answers on nearest service, feeds, a begin, a reset, feeds of four scripts and
//! rules of what may change that are each a little off must be caught, or the comparison is blind.

use crate::rng::Rng;
use crate::{fours, gen, meters, patches, ranges, records, runs, services, weights};
use model::flat::Record;
use model::input::Input;
use model::range::RangeAnswer;
use model::Answer;
use sides::{
    ffi::{rattle, twin},
    Side, Successors,
};

/// Every wrong side with the report that caught it; panics if one was not caught.
pub fn all(seed: u64) -> Vec<String> {
    let of_records = [record, past, room];
    let of_runs = [step, stretch, table, taken_along];
    let of_ranges = [twice, low_lengths, order_of_tables];
    let of_services = [itself, beside, unreachable, left];
    let of_meters = [service, first, zero, forgotten, cleared, below];
    let of_fours = [wrapped, stale, moved, early];
    let all: [&[fn(u64) -> String]; 6] = [&of_records, &of_runs, &of_ranges, &of_services, &of_meters, &of_fours];
    let mut caught: Vec<String> = all.iter().flat_map(|group| group.iter()).map(|wrong| wrong(seed)).collect();
    caught.extend(patches::wrong(&rattle::side(), seed));
    caught
}

fn lift(input: &Input, out: &mut [Record]) -> Answer {
    twin::side().lift.unwrap()(input, out)
}

/// A wrong lift is tried on random prototypes, some with a record too few.
fn by_records(seed: u64, side: &Side) -> String {
    let mut rng = Rng::new(seed);
    for _ in 0..1_000_000 {
        let mut input = gen::prototype(&mut rng, 40);
        if rng.once_in(4) {
            input.records = input.words.len().saturating_sub(1);
        }
        if records::compare(side, &input, None).is_err() {
            return records::report(side, &input);
        }
    }
    panic!("{} was not caught", side.name);
}

fn record(seed: u64) -> String {
    // CONCAT's range saturates at the end and not one operation at a time.
    let side = Side {
        name: "wrong record",
        lift: Some(|input, out| {
            let answer = lift(input, out);
            let n = if answer.number == 0 { input.words.len() } else { 0 };
            for r in out[..n].iter_mut().filter(|r| r.opcode == 53) {
                if r.operands[0].numbers[0] + r.operands[1].numbers[0] > 255 {
                    r.reads[0].numbers[1] = 255;
                }
            }
            answer
        }),
        ..twin::side()
    };
    by_records(seed, &side)
}

fn past(seed: u64) -> String {
    // The last write of a record past the words is cleared.
    let side = Side {
        name: "wrong past the words",
        lift: Some(|input, out| {
            let answer = lift(input, out);
            if answer.number == 0 && input.words.len() < input.records {
                out[input.words.len()].writes[1].numbers[2] = 0;
            }
            answer
        }),
        ..twin::side()
    };
    by_records(seed, &side)
}

fn room(seed: u64) -> String {
    // A part of a record counts as room for one.
    let side = Side {
        name: "wrong room",
        lift: Some(|input, out| lift(&Input { records: input.records + usize::from(input.spare > 0), ..input.clone() }, out)),
        ..twin::side()
    };
    by_records(seed, &side)
}

fn step(seed: u64) -> String {
    // FORPREP's second step, one short as in the Rust.
    let side = Side {
        name: "wrong step",
        successors: |words, p| {
            let s = (twin::side().successors)(words, p);
            match (words.get(p), s.list[1]) {
                (Some(w), Some(q)) if w & 127 == 74 => Successors { list: [s.list[0], Some(q - 1)], ..s },
                _ => s,
            }
        },
        ..twin::side()
    };
    by_runs(seed, &side)
}

fn stretch(seed: u64) -> String {
    // A run that ends one word late where a serving step leads on.
    let side = Side {
        name: "wrong run",
        run: |words, weights, marks, lengths| {
            let mut answer = (twin::side().run)(words, weights, marks, lengths);
            if answer.number == 0 && answer.longest > 3 {
                answer.first += 1;
            }
            answer
        },
        ..twin::side()
    };
    by_runs(seed, &side)
}

fn table(seed: u64) -> String {
    // A longer table of weights is taken for its first 128.
    let side = Side {
        name: "wrong count of weights",
        run: |words, weights, marks, lengths| (twin::side().run)(words, &weights[..weights.len().min(128)], marks, lengths),
        ..twin::side()
    };
    by_runs(seed, &side)
}

fn taken_along(seed: u64) -> String {
    // A JMP, which a test takes along, weighs 1.
    let side = Side {
        name: "wrong weight",
        run: |words, weights, marks, lengths| {
            let mut copy = weights.to_vec();
            if copy.len() == 128 && copy[56] != 0 {
                copy[56] = 1;
            }
            (twin::side().run)(words, &copy, marks, lengths)
        },
        ..twin::side()
    };
    by_runs(seed, &side)
}

fn by_runs(seed: u64, side: &Side) -> String {
    let mut rng = Rng::new(seed);
    for _ in 0..1_000_000 {
        let words = gen::function(&mut rng, 24);
        let function = runs::Function { words, weights: weights::any(&mut rng) };
        if runs::compare(side, &function, (0, 0)).is_err() {
            return runs::report(side.name, &function, |f| runs::compare(side, f, (0, 0)).map(|_| ()));
        }
    }
    panic!("{} was not caught", side.name);
}

fn twice(seed: u64) -> String {
    // The high table's report stands for both.
    let side = Side {
        name: "wrong low report",
        runs: |words, low, high, marks, lengths| {
            let r = (twin::side().runs)(words, low, high, marks, lengths);
            RangeAnswer { low_longest: r.high_longest, low_first: r.high_first, ..r }
        },
        ..twin::side()
    };
    by_ranges(seed, &side)
}

fn low_lengths(seed: u64) -> String {
    // The slices end as the low table's run leaves them.
    let side = Side {
        name: "wrong lengths",
        runs: |words, low, high, marks, lengths| {
            let r = (twin::side().runs)(words, low, high, marks, lengths);
            if r.number == 0 {
                (twin::side().run)(words, low, marks, lengths);
            }
            r
        },
        ..twin::side()
    };
    by_ranges(seed, &side)
}

fn order_of_tables(seed: u64) -> String {
    // 19 is looked for before 18.
    let side = Side {
        name: "wrong order",
        runs: |words, low, high, marks, lengths| {
            let r = (twin::side().runs)(words, low, high, marks, lengths);
            match low.iter().zip(high).position(|(l, h)| l > h) {
                Some(place) if r.number == 18 => RangeAnswer { number: 19, place: place as u64, ..r },
                _ => r,
            }
        },
        ..twin::side()
    };
    by_ranges(seed, &side)
}

/// Wrong runs by two tables are tried on random functions and ranges.
fn by_ranges(seed: u64, side: &Side) -> String {
    let mut rng = Rng::new(seed);
    for _ in 0..1_000_000 {
        let words = gen::function(&mut rng, 24);
        let range = ranges::range(&mut rng, words);
        if ranges::compare(side, &range, (0, 0)).is_err() {
            return ranges::report(side.name, &range, (0, 0), |r, spare| ranges::compare(side, r, spare).map(|_| ()));
        }
    }
    panic!("{} was not caught", side.name);
}

fn itself(seed: u64) -> String {
    // The word itself is not counted.
    let side = Side {
        name: "wrong fewest",
        nearest: |words, w, marks, lengths| {
            let mut answer = (twin::side().nearest)(words, w, marks, lengths);
            answer.fewest -= answer.found;
            answer
        },
        ..twin::side()
    };
    by_services(seed, &side)
}

fn beside(seed: u64) -> String {
    // A step from a word passes over it.
    let side = Side {
        name: "wrong crossing",
        crossed: |words, w, marks, lengths| {
            let mut answer = (twin::side().crossed)(words, w, marks, lengths);
            if answer.number == 0 && w < words.len() && marks[w] == 1 {
                answer.count += (twin::side().successors)(words, w).list.iter().flatten().count() as u64;
            }
            answer
        },
        ..twin::side()
    };
    by_services(seed, &side)
}

fn unreachable(seed: u64) -> String {
    // Words that are not reachable are listed, where everything is near enough.
    let side = Side {
        name: "wrong list",
        within: |words, d, marks, lengths, list| {
            let answer = (twin::side().within)(words, d, marks, lengths, list);
            if answer.number == 0 && d > words.len() {
                list[..words.len()].fill(1);
            }
            answer
        },
        ..twin::side()
    };
    by_services(seed, &side)
}

fn left(seed: u64) -> String {
    // The lengths are left as distances.
    let side = Side {
        name: "wrong lengths",
        within: |words, d, marks, lengths, list| {
            let answer = (twin::side().within)(words, d, marks, lengths, list);
            if answer.number == 0 {
                for p in (0..words.len()).filter(|&p| marks[p] == 1) {
                    let (mut m, mut l) = (marks.to_vec(), lengths.to_vec());
                    lengths[p] = (twin::side().nearest)(words, p, &mut m, &mut l).fewest as u32;
                }
            }
            answer
        },
        ..twin::side()
    };
    by_services(seed, &side)
}

/// A wrong answer is tried on random functions.
fn by_services(seed: u64, side: &Side) -> String {
    let mut rng = Rng::new(seed);
    for _ in 0..1_000_000 {
        let case = services::case(&mut rng, 24);
        if services::compare(side, &case).is_err() {
            return services::report(side.name, &case, |c| services::compare(side, c).map(|_| ()));
        }
    }
    panic!("{} was not caught", side.name);
}

fn service(seed: u64) -> String {
    // Services wrap at the top.
    let side = Side {
        name: "wrong feed",
        feed: |words, weights, m, q| {
            let before = *m;
            let answer = (twin::side().feed)(words, weights, m, q);
            if answer.number == 0 && before.begun && q <= before.last as usize && before.services == u32::MAX {
                m.services = 0;
            }
            answer
        },
        ..twin::side()
    };
    by_lists(seed, &side)
}

fn first(seed: u64) -> String {
    // The first word fed makes the count 1.
    let side = Side {
        name: "wrong first word",
        feed: |words, weights, m, q| {
            let begun = m.begun;
            let answer = (twin::side().feed)(words, weights, m, q);
            if answer.number == 0 && !begun {
                m.since = 1;
            }
            answer
        },
        ..twin::side()
    };
    by_lists(seed, &side)
}

fn zero(seed: u64) -> String {
    // A feed drops the place of the zero weight.
    let side = Side {
        name: "wrong place",
        feed: |words, weights, m, q| Answer { place: 0, ..(twin::side().feed)(words, weights, m, q) },
        ..twin::side()
    };
    by_lists(seed, &side)
}

fn forgotten(seed: u64) -> String {
    // A begin clears the highest.
    let side = Side {
        name: "wrong begin",
        begin: |m| {
            (twin::side().begin)(m);
            m.highest = 0;
        },
        ..twin::side()
    };
    by_lists(seed, &side)
}

fn cleared(seed: u64) -> String {
    // A reset sets the highest to 0.
    let side = Side { name: "wrong reset", reset: |m| m.highest = 0, ..twin::side() };
    by_lists(seed, &side)
}

fn below(seed: u64) -> String {
    // A feed takes a meter with a highest below its count.
    let side = Side {
        name: "wrong highest",
        feed: |words, weights, m, q| {
            let before = *m;
            m.highest = m.highest.max(m.since);
            let answer = (twin::side().feed)(words, weights, m, q);
            if answer.number != 0 {
                *m = before;
            }
            answer
        },
        ..twin::side()
    };
    let mut rng = Rng::new(seed);
    for _ in 0..1_000_000 {
        let words = gen::function(&mut rng, 14);
        let case = meters::single_case(&mut rng, words);
        if meters::compare_single(&side, &case).is_err() {
            return meters::report(&side, &case, meters::compare_single);
        }
    }
    panic!("{} was not caught", side.name);
}

fn wrapped(seed: u64) -> String {
    // The sum of four counts has 32 bits.
    let side = Side {
        name: "wrong sum",
        feed_four: |words, weights, ms, i, s, q| {
            let answer = (twin::side().feed_four)(words, weights, ms, i, s, q);
            if answer.number != 22 {
                return answer;
            }
            let mut after = *ms;
            (twin::side().feed)(words, weights, &mut after[i as usize], q);
            if after.iter().fold(0u32, |sum, m| sum.wrapping_add(m.since)) > s {
                return answer;
            }
            *ms = after;
            Answer::default()
        },
        ..twin::side()
    };
    by_fours(seed, &side)
}

fn stale(seed: u64) -> String {
    // The sum is that of before the feed.
    let side = Side {
        name: "wrong count in the sum",
        feed_four: |words, weights, ms, i, s, q| {
            let before: u64 = ms.iter().map(|m| u64::from(m.since)).sum();
            let kept = *ms;
            let answer = (twin::side().feed_four)(words, weights, ms, i, s, q);
            if answer.number == 0 && before > u64::from(s) {
                *ms = kept;
                return Answer { number: 22, place: 0 };
            }
            answer
        },
        ..twin::side()
    };
    by_fours(seed, &side)
}

fn moved(seed: u64) -> String {
    // What 22 turns back stays in the meter.
    let side = Side {
        name: "wrong turning back",
        feed_four: |words, weights, ms, i, s, q| {
            let answer = (twin::side().feed_four)(words, weights, ms, i, s, q);
            if answer.number == 22 {
                (twin::side().feed)(words, weights, &mut ms[i as usize], q);
            }
            answer
        },
        ..twin::side()
    };
    by_fours(seed, &side)
}

fn early(seed: u64) -> String {
    // 22 comes before 10 where the others alone are above S.
    let side = Side {
        name: "wrong order",
        feed_four: |words, weights, ms, i, s, q| {
            let answer = (twin::side().feed_four)(words, weights, ms, i, s, q);
            let others: u64 = (0..4).filter(|&j| j != i as usize).map(|j| u64::from(ms[j].since)).sum();
            if answer.number == 10 && others > u64::from(s) {
                return Answer { number: 22, place: 0 };
            }
            answer
        },
        ..twin::side()
    };
    by_fours(seed, &side)
}

/// A wrong feed of four scripts is tried on single calls and on random lists.
fn by_fours(seed: u64, side: &Side) -> String {
    let mut rng = Rng::new(seed);
    for _ in 0..1_000_000 {
        let case = fours::single_case(&mut rng);
        if fours::compare_single(side, &case).is_err() {
            return fours::report(side, &case, fours::compare_single);
        }
        let case = fours::list_case(&mut rng);
        if fours::compare_list(side, &case).is_err() {
            return fours::report(side, &case, fours::compare_list);
        }
    }
    panic!("{} was not caught", side.name);
}

/// A wrong feed, begin or reset is tried on random lists of calls.
fn by_lists(seed: u64, side: &Side) -> String {
    let mut rng = Rng::new(seed);
    for _ in 0..1_000_000 {
        let case = meters::case(&mut rng);
        if meters::compare_list(side, &case).is_err() {
            return meters::report(side, &case, meters::compare_list);
        }
    }
    panic!("{} was not caught", side.name);
}
