//! check [SEED [RECORDS [FUNCTIONS [LISTS]]]]: the differential tests, counted, with this many random records, functions and
//! lists of calls beside the systematic ones, and a tenth as many functions for nearest service. Ends with status 1 at the first
//! mismatch. Times go to standard error: what stands on standard output is the same at every run with the same numbers.

mod fours;
mod gen;
mod meters;
mod patches;
mod ranges;
mod records;
mod rng;
mod runs;
mod services;
mod shrink;
mod weights;
mod wrong;

use std::collections::BTreeMap;
use std::time::Instant;

fn fields() -> u64 {
    let words = gen::boundaries();
    for &word in &words {
        let (want, mode) = oracle::decode(word);
        assert_eq!(model::word::fields(word), want, "fields of word {word}");
        assert_eq!(model::word::mode(want.opcode), mode, "mode of opcode {}", want.opcode);
    }
    words.len() as u64
}

fn by_number(answers: &BTreeMap<u64, u64>) -> String {
    let parts: Vec<String> = answers.iter().map(|(number, many)| format!("{number}: {many}")).collect();
    parts.join(", ")
}

fn main() {
    let mut args = std::env::args().skip(1).map(|a| a.parse::<u64>().expect("a number"));
    let mut next = |default| args.next().unwrap_or(default);
    let (seed, wanted, functions, lists) = (next(1), next(2_000_000), next(2_000_000), next(500_000));
    let sides = sides::sides();
    let names: Vec<&str> = sides.iter().map(|s| s.name).collect();
    println!("seed {seed}; held against luad and the model: {}", names.join(", "));

    let start = Instant::now();
    println!("fields: {} words of all 128 opcode values, with their modes, model against luad", fields());
    let c = records::all(&sides, seed, wanted);
    println!(
        "records: {} of {} inputs, each side against luad; answers by number: {}",
        c.records,
        c.inputs,
        by_number(&c.answers)
    );
    eprintln!("  {:.1} s", start.elapsed().as_secs_f64());

    let start = Instant::now();
    let c = runs::all(&sides, seed, functions);
    println!(
        "runs: {} functions of {} words, {} steps, each side against the model; {} functions against the definitions by brute force; answers by number: {}",
        c.functions, c.words, c.edges, c.brute, by_number(&c.answers)
    );
    eprintln!("  {:.1} s", start.elapsed().as_secs_f64());

    let start = Instant::now();
    let c = ranges::all(&sides, seed, functions / 4);
    println!(
        "ranges: {} functions by a low and a high table, each side against the model; {} runs by tables between them; {} begin at other words by the two; answers by number: {}",
        c.functions, c.between, c.elsewhere, by_number(&c.answers)
    );
    eprintln!("  {:.1} s", start.elapsed().as_secs_f64());

    let start = Instant::now();
    let c = services::all(&sides, seed, functions / 10);
    println!(
        "services: {} questions of {} functions, each side against the model; {} functions against every stretch; answers of the lists by number: {}",
        c.questions,
        c.functions,
        c.brute,
        by_number(&c.answers)
    );
    eprintln!("  {:.1} s", start.elapsed().as_secs_f64());

    let start = Instant::now();
    let c = patches::all(&sides, seed, functions / 8);
    assert!(c.between > 0 && c.before > 0, "words next to reachable ones are not free to change");
    println!(
        "patches: {} words of {} lists, dead words of {} functions, {} of them real: each side answers the same; next to a reachable word {} lists, answered otherwise {} with the patch between two and {} before one",
        c.words, c.lists, c.functions, c.real, c.near, c.between, c.before
    );
    eprintln!("  {:.1} s", start.elapsed().as_secs_f64());

    let start = Instant::now();
    let c = meters::all(&sides, seed, lists);
    println!(
        "meters: {} lists of {} feeds and {} resets against the feeding book, {} of them against L; {} single calls on any meter, {} of them on one with a highest below its count, answers by number: {}",
        c.lists,
        c.feeds,
        c.resets,
        c.below,
        c.singles,
        c.low,
        by_number(&c.answers)
    );
    eprintln!("  {:.1} s", start.elapsed().as_secs_f64());

    let start = Instant::now();
    let c = fours::all(&sides::four_sides(), seed, lists);
    println!(
        "four meters: {} lists of {} feeds against the model, {} of the calls against the script's own feeding book, {} lists with each L within a quarter of S; {} single calls on any four, each again beside others with the same sum, {} of them refused by 1, 18, 11 or 10 with the others above S, {} serving steps at S or one above, {} at S or one above with S at one of its ends, {} turned back by 22 beside a count of 2^32 - 1, answers by number: {}",
        c.lists,
        c.feeds,
        c.booked,
        c.quarters,
        c.singles,
        c.beside,
        c.serving,
        c.ends,
        c.full,
        by_number(&c.answers)
    );
    eprintln!("  {:.1} s", start.elapsed().as_secs_f64());

    for report in wrong::all(seed) {
        println!("caught, as it must be: {report}");
    }
    println!("compare: no mismatch");
}
