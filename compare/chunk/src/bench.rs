//! Time a byte of both passes beside Lua's own loader, on the same bytes: best of the rounds, the sides in turns.

#[path = "../../bench/src/stack.rs"]
mod stack;

use crate::{corpus, ffi};
use std::hint::black_box;
use std::time::Instant;

fn best(rounds: usize, sides: &mut [&mut dyn FnMut()]) -> Vec<f64> {
    let mut best = vec![f64::MAX; sides.len()];
    for _ in 0..rounds {
        for (side, best) in sides.iter_mut().zip(&mut best) {
            let start = Instant::now();
            side();
            *best = best.min(start.elapsed().as_nanos() as f64);
        }
    }
    best
}

pub fn run(scripts: &[Vec<u8>]) {
    // all scripts as one, each a function of its own, so that main holds them all
    let whole: Vec<u8> = scripts.iter().flat_map(|s| [b"do local function f(...) ", s.as_slice(), b"\nend end "].concat()).collect();
    let many: Vec<u8> = (0..40).flat_map(|_| whole.clone()).collect();
    let plain = ffi::real::compile(&many, false);
    let stripped = ffi::real::compile(&many, true);
    let large = corpus::large(32768, 65536, 255);
    let (nil, integer, float, string) = ([0], [3, 1, 0, 0, 0, 0, 0, 0, 0], [19, 0, 0, 0, 0, 0, 0, 0xf0, 0x3f], *b"\x04\x84abc");
    let nils = corpus::large_of(32768, 65536, 255, &[&nil]);
    let integers = corpus::large_of(32768, 65536, 255, &[&integer]);
    let mixed = corpus::large_of(32768, 65536, 255, &[&nil, &integer, &string, &[1], &float]);
    let (mut words, mut tags, mut payloads, mut names) = (vec![0; 32768], vec![0; 65536], vec![0; 65536], vec![0; 255]);
    println!("| nanoseconds a byte | bytes | functions | first pass | second pass | Lua's loader | second pass / loader |");
    println!("|---|---|---|---|---|---|---|");
    for (name, bytes) in [
        ("scripts", &plain),
        ("scripts, stripped", &stripped),
        ("32,768 words, 65,536 constants", &large),
        ("the same, all nil", &nils),
        ("the same, all integers", &integers),
        ("the same, of all kinds", &mixed),
    ] {
        let functions = (0..).take_while(|&k| ffi::count(bytes, k).number == 0).count();
        let state = unsafe { ffi::real::real_open() };
        let times = best(
            200,
            &mut [
                &mut || assert_eq!(black_box(ffi::count(bytes, 0)).number, 0),
                &mut || assert_eq!(black_box(ffi::fill(bytes, 0, &mut words, &mut tags, &mut payloads, &mut names)).number, 0),
                &mut || assert_eq!(unsafe { ffi::real::real_again(state, bytes.as_ptr(), bytes.len()) }, 0),
            ],
        );
        unsafe { ffi::real::real_close(state) };
        let n = bytes.len() as f64;
        println!("| {name} | {} | {functions} | {:.2} | {:.2} | {:.2} | {:.2} |", bytes.len(), times[0] / n, times[1] / n, times[2] / n, times[1] / times[2]);
    }
    for levels in [1, 32] {
        let bytes = ffi::real::compile(&corpus::nested(levels), false);
        let depth = stack::used(|| assert_eq!(ffi::count(&bytes, 0).number, 0));
        println!("stack bytes of the first pass, {levels} levels: {depth}");
        let depth = stack::used(|| assert_eq!(ffi::fill(&bytes, 0, &mut words, &mut tags, &mut payloads, &mut names).number, 0));
        println!("stack bytes of the second pass, {levels} levels: {depth}");
    }
}
