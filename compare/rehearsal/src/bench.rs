//! Times of the proved rehearsal beside the C twin: nanoseconds a word, and seconds for 1,000,000,000 words.

use crate::gen::jump;
use crate::reading::{Answer, Set};
use crate::sides::Side;

/// The processor's time of this process in seconds: other work on the machine does not count.
fn now() -> f64 {
    #[repr(C)]
    struct Time {
        seconds: i64,
        nanoseconds: i64,
    }
    extern "C" {
        fn clock_gettime(clock: i32, time: *mut Time) -> i32;
    }
    const PROCESS: i32 = 2;
    let mut time = Time { seconds: 0, nanoseconds: 0 };
    // x86-64 Linux: two 64-bit numbers.
    assert_eq!(unsafe { clock_gettime(PROCESS, &mut time) }, 0, "the process's clock");
    time.seconds as f64 + time.nanoseconds as f64 / 1e9
}

/// Plain words and a JMP back: no choice is needed.
fn straight(n: usize) -> Vec<u32> {
    let mut words = vec![0; n - 1];
    words.push(jump(-(n as i64)));
    words
}

/// Tests with their JMPs and arithmetic with its metamethod words, over and over: two words of six need a choice.
fn branching(groups: usize) -> Vec<u32> {
    let mut words = vec![];
    for _ in 0..groups {
        words.extend([0, 59, jump(0), 34, 46, 11]);
    }
    words.push(jump(-(words.len() as i64) - 1));
    words
}

fn time(side: Side, set: &Set) -> (f64, Answer) {
    let (mut marks, mut lengths) = (vec![0; 64], vec![0; 64]);
    let start = now();
    let answer = side.rehearse(set, &mut marks, &mut lengths);
    let seconds = now() - start;
    assert_eq!(answer.number, 0, "accepted");
    (seconds, answer)
}

/// The best of the rounds; the sides take turns in each.
fn row(name: &str, set: &Set, rounds: usize) {
    let (mut twin, mut rattle) = (f64::INFINITY, f64::INFINITY);
    for _ in 0..rounds {
        let (a, b) = (time(Side::Twin, set), time(Side::Rattle, set));
        assert_eq!(a.1, b.1, "the two sides agree");
        twin = twin.min(a.0);
        rattle = rattle.min(b.0);
    }
    let words = f64::from(set.limit);
    println!(
        "| {name} | {} | {} | {:.2} | {:.2} | {:.2} | {:.1} |",
        set.quantum,
        set.limit,
        twin / words * 1e9,
        rattle / words * 1e9,
        rattle / twin,
        rattle
    );
}

pub fn run() {
    println!("| rehearsal, four scripts | q | words | C twin, ns a word | Rattle, ns a word | Rattle / C twin | Rattle, s |");
    println!("|---|---|---|---|---|---|---|");
    let plain = [straight(50), straight(13), straight(7), straight(31)];
    let tests = [branching(8), branching(3), branching(5), branching(2)];
    let choices: Vec<u8> = (0..60_000_000).map(|i| u8::from(i % 3 == 1 && i % 7 < 3)).collect();
    for quantum in [1, 10, 1000] {
        let set = Set { scripts: plain.clone(), count: 4, quantum, choices: vec![], limit: 50_000_000 };
        row("straight", &set, 5);
    }
    for quantum in [1, 10, 1000] {
        let set = Set { scripts: tests.clone(), count: 4, quantum, choices: choices.clone(), limit: 20_000_000 };
        row("branching", &set, 5);
    }
    let set = Set { scripts: plain, count: 4, quantum: 10, choices: vec![], limit: 1_000_000_000 };
    row("straight", &set, 1);
}
