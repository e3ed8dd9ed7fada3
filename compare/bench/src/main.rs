//! bench [ROUNDS]: nanoseconds a word or feed, every side in one run, as the tables of docs/benchmarks.txt, part 1.

mod heap;
mod rows;
mod stack;

use model::flat::Record;
use model::four::Meters;
use model::input::{place, Input, UNNAMED};
use model::meter::Meter;
use model::real;
use rows::{best, feed_rows, run_rows, service_rows, Columns, KINDS, SIZES};
use sides::Side;
use std::hint::black_box;

#[global_allocator]
static HEAP: heap::Counting = heap::Counting;

/// Words of 5.4.
mod code {
    pub const END: u32 = 71 | 1 << 16;
    pub const TEST: u32 = 57;

    pub fn jump(offset: i64) -> u32 {
        56 | ((16_777_215 + offset) as u32) << 7
    }
}

/// Tables that real code would have: 256 constants of all kinds, 8 names.
fn tables(words: Vec<u32>) -> Input {
    let bytes = b"_ENVprintstringselfassertcoroutine".to_vec();
    let tags = [4, 3, 19, 4, 17, 20, 0, 1];
    let mut input = Input { records: words.len(), words, bytes, ..Input::default() };
    for i in 0..256u64 {
        let tag = tags[i as usize % tags.len()];
        input.tags.push(tag);
        input.payloads.push(if tag == 4 || tag == 20 { place(i as u32 % 20, 8) } else { i * 0x0123_4567_89ab });
    }
    input.names = (0..8).map(|i| if i % 4 == 3 { UNNAMED } else { place(i, 4) }).collect();
    input
}

/// Words that luad spends most on: long constants, of which it prints the bytes.
fn constants(n: usize) -> Vec<u32> {
    (0..n).map(|p| 3 | ((p % 256) as u32) << 15).collect()
}

/// Each side's records are held against luad's before a call is timed: a fast wrong lift has no time.
fn lift_rows(columns: &Columns, sides: &[Side], rounds: usize) {
    let kinds: [(&str, fn(usize) -> Vec<u32>); 2] = [("real", real::of_length), ("constants", constants)];
    for (name, make) in kinds {
        let mut rows = vec![];
        for n in SIZES {
            let input = tables(make(n));
            let proto = oracle::prototype(&input);
            let wanted = oracle::records(&input);
            let repeat = 32_768 / n;
            let lent = sides.iter().map(|_| vec![Record::default(); n]);
            let mut calls: Vec<Box<dyn FnMut()>> = vec![];
            for (side, mut records) in sides.iter().zip(lent) {
                let input = &input;
                let lift = side.lift.unwrap();
                assert_eq!(lift(input, &mut records).number, 0);
                assert!(records == wanted, "{}: {n} words, {name}: luad's records", side.name);
                calls.push(Box::new(move || {
                    for _ in 0..repeat {
                        let answer = lift(black_box(input), &mut records);
                        assert_eq!(answer.number, 0);
                    }
                    black_box(&records);
                }));
            }
            calls.push(Box::new(|| {
                for _ in 0..repeat {
                    black_box(oracle::lift(black_box(&proto)));
                }
            }));
            let times = best(rounds, &mut calls);
            rows.push(columns.row("lift", name, n, &times, (repeat * n) as f64));
        }
        columns.flat_row(&rows);
    }
}

fn memory_rows(sides: &[Side]) {
    println!("\n| call, 32,768 words | side | lent bytes a word | heap bytes a word | stack bytes |\n|---|---|---|---|---|");
    let n = 32_768;
    let input = tables(real::of_length(n));
    let ones = [1; 128];
    for side in sides {
        let (mut marks, mut lengths) = (vec![0u8; n], vec![0u32; n]);
        let mut records = vec![Record::default(); n];
        let mut m = Meter::default();
        let run = stack::used(|| assert_eq!((side.run)(&input.words, &ones, &mut marks, &mut lengths).number, 0));
        println!("| longest run | {} | 5 | 0 | {run} |", side.name);
        let runs = stack::used(|| assert_eq!((side.runs)(&input.words, &ones, &ones, &mut marks, &mut lengths).number, 0));
        println!("| longest run, both tables | {} | 5 | 0 | {runs} |", side.name);
        (side.feed)(&input.words, &ones, &mut m, 0);
        let feed = stack::used(|| assert_eq!((side.feed)(&input.words, &ones, &mut m, 1).number, 0));
        println!("| feed | {} | 0 | 0 | {feed} |", side.name);
        let mut ms = Meters::default();
        let four = stack::used(|| assert_eq!((side.feed_four)(&input.words, &ones, &mut ms, 3, 1, 0).number, 0));
        println!("| feed of one of four | {} | 0 | 0 | {four} |", side.name);
        if let Some(lift) = side.lift {
            let depth = stack::used(|| assert_eq!(lift(&input, &mut records).number, 0));
            println!("| lift | {} | {} | 0 | {depth} |", side.name, std::mem::size_of::<Record>());
        }
    }
    let proto = oracle::prototype(&input);
    let heap = heap::most(|| oracle::lift(&proto)) / n;
    let stack = stack::used(|| drop(oracle::lift(&proto)));
    println!("| lift | luad | 0 | {heap} | {stack} |");
    let status = std::fs::read_to_string("/proc/self/status").unwrap_or_default();
    let high = status.lines().find(|l| l.starts_with("VmHWM")).unwrap_or("VmHWM: unknown");
    println!("\nPeak resident memory of this whole program: {}.", high.trim_start_matches("VmHWM:").trim());
}

fn main() {
    let rounds = std::env::args().nth(1).map_or(25, |a| a.parse().expect("a number of rounds"));
    let sides = sides::sides();
    let columns = Columns::over_first(sides.iter().map(|s| s.name).collect());
    columns.head();
    for kind in KINDS {
        run_rows(&columns, &sides, rounds, kind);
    }
    for kind in KINDS {
        service_rows(&columns, &sides, rounds, kind);
    }
    for kind in KINDS {
        feed_rows(&columns, &sides, rounds, kind);
    }
    rows::four_table(rounds);
    rows::range_table(&sides, rounds);
    let lifting: Vec<Side> = sides.into_iter().filter(|s| s.lift.is_some()).collect();
    let mut columns = Columns::over_first(lifting.iter().map(|s| s.name).chain(["luad"]).collect());
    columns.quotients.extend((1..lifting.len()).map(|i| (lifting.len(), i)));
    columns.head();
    lift_rows(&columns, &lifting, rounds);
    memory_rows(&sides::sides());
}
