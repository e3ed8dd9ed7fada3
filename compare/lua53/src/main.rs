//! check [SEED [FUNCTIONS [LISTS]]]: the comparisons of ../check with words of Lua 5.3, whose steps and weights `model` has then;
//! `times [ROUNDS]`: the rows of ../bench. Ends with status 1 at the first mismatch. What stands on standard output is the same at
//! every run with the same numbers.

mod gen;
#[allow(dead_code)]
#[path = "../../check/src/fours.rs"]
mod fours;
#[allow(dead_code)]
#[path = "../../check/src/meters.rs"]
mod meters;
#[allow(dead_code)]
#[path = "../../check/src/patches.rs"]
mod patches;
#[allow(dead_code)]
#[path = "../../check/src/ranges.rs"]
mod ranges;
#[path = "../../check/src/rng.rs"]
mod rng;
#[allow(dead_code)]
#[path = "../../bench/src/rows.rs"]
mod rows;
#[allow(dead_code)]
#[path = "../../check/src/runs.rs"]
mod runs;
#[allow(dead_code)]
#[path = "../../check/src/services.rs"]
mod services;
#[path = "../../check/src/shrink.rs"]
mod shrink;
#[path = "../../check/src/weights.rs"]
mod weights;
mod wrong;

/// Words of 5.3, for the rows.
mod code {
    pub use crate::gen::{jump, END};
    pub const TEST: u32 = 31;
}

use model::word::{fields, mode, Fields};
use std::collections::BTreeMap;

/// As in include/lawendeb.h.
#[repr(C)]
struct Decoded {
    mode: u32,
    opcode: u32,
    a: u32,
    b: u32,
    c: u32,
    bx: u32,
    ax: u32,
    sbx: i32,
}

extern "C" {
    fn lawendeb_decode_53(word: u32) -> Decoded;
}

/// Fields and modes of every boundary, and of random words.
fn decoded(seed: u64) -> u64 {
    let mut words = gen::boundaries();
    let mut rng = rng::Rng::new(seed);
    words.extend((0..1_000_000).map(|_| rng.next() as u32));
    for &word in &words {
        let d = unsafe { lawendeb_decode_53(word) };
        let got = Fields { opcode: d.opcode, a: d.a, b: d.b, c: d.c, bx: d.bx, sbx: d.sbx, ax: d.ax };
        assert_eq!((got, d.mode), (fields(word), mode(word % 64)), "fields of word {word}");
    }
    words.len() as u64
}

fn by_number(answers: &BTreeMap<u64, u64>) -> String {
    let parts: Vec<String> = answers.iter().map(|(number, many)| format!("{number}: {many}")).collect();
    parts.join(", ")
}

fn check(seed: u64, functions: u64, lists: u64) {
    let sides = sides::sides();
    println!("seed {seed}; held against the second reading: {}", sides.iter().map(|s| s.name).collect::<Vec<_>>().join(", "));
    println!("fields: {} words of all 64 opcode values, with their modes", decoded(seed));
    for side in &sides {
        // EQ with A 2, JMP, RETURN: the JMP, which leaves the code, is never met.
        let r = (side.run)(&[16543, 30, 8388646], &[1; 128], &mut [0; 3], &mut [0; 3]);
        assert_eq!((r.number, r.longest, r.first), (0, 2, 0), "{}: a comparison with A above 1", side.name);
    }
    let c = runs::all(&sides, seed, functions);
    println!(
        "runs: {} functions of {} words, {} steps; {} functions against the definitions by brute force; answers by number: {}",
        c.functions, c.words, c.edges, c.brute, by_number(&c.answers)
    );
    let c = ranges::all(&sides, seed, functions / 4);
    println!(
        "ranges: {} functions by a low and a high table; {} runs by tables between them; {} begin at other words by the two; answers by number: {}",
        c.functions, c.between, c.elsewhere, by_number(&c.answers)
    );
    let c = services::all(&sides, seed, functions / 10);
    println!(
        "services: {} questions of {} functions; {} functions against every stretch; answers of the lists by number: {}",
        c.questions, c.functions, c.brute, by_number(&c.answers)
    );
    let c = patches::all(&sides, seed, functions / 8);
    assert!(c.between > 0 && c.before == 0, "in 5.3 no word looks at the one before it");
    println!(
        "patches: {} words of {} lists, dead words of {} functions, {} of them real: the same answers; next to a reachable word {} lists, answered otherwise {} with the patch between two and {} before one",
        c.words, c.lists, c.functions, c.real, c.near, c.between, c.before
    );
    let c = meters::all(&sides, seed, lists);
    println!(
        "meters: {} lists of {} feeds and {} resets against the feeding book, {} of them against L; {} single calls on any meter, {} of them on one with a highest below its count, answers by number: {}",
        c.lists, c.feeds, c.resets, c.below, c.singles, c.low, by_number(&c.answers)
    );
    let c = fours::all(&sides::four_sides(), seed, lists);
    println!(
        "four meters: {} lists of {} feeds, {} of the calls against the script's own feeding book, {} lists with each L within a quarter of S; {} single calls on any four, answers by number: {}",
        c.lists, c.feeds, c.booked, c.quarters, c.singles, by_number(&c.answers)
    );
    for report in wrong::all(seed) {
        println!("wrong on purpose, {report}");
    }
    println!("lua53: no mismatch");
}

/// Runs, questions and feeds, of one script and of four, and runs by two tables, each side in one run.
fn times(rounds: usize) {
    let sides = sides::sides();
    let columns = rows::Columns::over_first(sides.iter().map(|s| s.name).collect());
    columns.head();
    for row in [rows::run_rows, rows::service_rows, rows::feed_rows] {
        for kind in rows::KINDS {
            row(&columns, &sides, rounds, kind);
        }
    }
    rows::four_table(rounds);
    rows::range_table(&sides, rounds);
}

fn main() {
    let args: Vec<String> = std::env::args().skip(1).collect();
    let number = |i: usize, default: u64| args.get(i).map_or(default, |a| a.parse().expect("a number"));
    match args.first().map(String::as_str) {
        Some("times") => times(number(1, 25) as usize),
        Some("check") => check(number(1, 1), number(2, 2_000_000), number(3, 500_000)),
        _ => panic!("check or times"),
    }
}
