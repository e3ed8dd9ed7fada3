//! The proved rehearsal and its C twin against the second reading: answer, place, waits and both slices whole, on random sets, each
//! also cut exactly where a choice is missing and at the limit. `bench` prints times.

mod bench;
mod gen;
mod reading;
mod sides;

use gen::Rng;
use reading::{rehearse, Answer, Set, Used, Wrong};
use sides::Side;

/// A set with the lengths of its two slices.
#[derive(Clone, Debug)]
struct Case {
    set: Set,
    marks: usize,
    lengths: usize,
}

impl Case {
    /// What the slices hold before: nothing that a run leaves.
    fn lent(&self) -> (Vec<u8>, Vec<u32>) {
        (vec![77; self.marks], vec![77_777; self.lengths])
    }

    fn read(&self, wrong: Option<Wrong>) -> ((Answer, Vec<u8>, Vec<u32>), Used) {
        let (mut marks, mut lengths) = self.lent();
        let (answer, used) = rehearse(&self.set, &mut marks, &mut lengths, wrong);
        ((answer, marks, lengths), used)
    }

    fn call(&self, side: Side) -> (Answer, Vec<u8>, Vec<u32>) {
        let (mut marks, mut lengths) = self.lent();
        let answer = side.rehearse(&self.set, &mut marks, &mut lengths);
        (answer, marks, lengths)
    }
}

#[derive(Default)]
struct Counts {
    cases: u64,
    words: u64,
    numbers: std::collections::BTreeMap<u64, u64>,
    at_limit: u64,
    starved: u64,
    at_bound: u64,
    caught: [u64; Wrong::ALL.len()],
}

/// Both sides against the reading; what was used.
fn compare(case: &Case, counts: &mut Counts) -> Used {
    let (read, used) = case.read(None);
    for side in Side::ALL {
        let got = case.call(side);
        if got != read {
            println!("{} differs from the reading\n{case:?}\nread {read:?}\ngot  {got:?}", side.name());
            std::process::exit(1);
        }
    }
    counts.cases += 1;
    counts.words += used.words;
    *counts.numbers.entry(read.0.number).or_default() += 1;
    if read.0.number == 0 {
        let most = (case.set.count as u64 - 1) * u64::from(case.set.quantum);
        assert!(read.0.waits.iter().all(|&w| w <= most), "a wait above (k - 1) q: {case:?}");
        counts.at_bound += u64::from(most > 0 && read.0.waits.contains(&most));
    }
    used
}

/// The readings that are wrong on purpose.
fn catch(case: &Case, counts: &mut Counts) {
    let (read, _) = case.read(None);
    for (i, wrong) in Wrong::ALL.into_iter().enumerate() {
        counts.caught[i] += u64::from(case.read(Some(wrong)).0 != read);
    }
}

/// The same set cut exactly where it used its last word and its last choice, and one before and after.
fn cut(case: &Case, used: Used, counts: &mut Counts) {
    for words in used.words.saturating_sub(1)..=used.words + 1 {
        let mut set = case.set.clone();
        set.limit = words as u32;
        let again = compare(&Case { set, ..case.clone() }, counts);
        counts.at_limit += u64::from(again.words < used.words);
    }
    for choices in used.choices.saturating_sub(1)..=(used.choices + 1).min(case.set.choices.len()) {
        let mut set = case.set.clone();
        set.choices.truncate(choices);
        let again = compare(&Case { set, ..case.clone() }, counts);
        counts.starved += u64::from(again.words < used.words);
    }
}

/// A set that ends by itself may have any limit.
fn endless(case: &Case, used: Used, counts: &mut Counts) {
    if used.words < u64::from(case.set.limit) {
        for limit in [u32::MAX, u32::MAX - 1] {
            let mut set = case.set.clone();
            set.limit = limit;
            compare(&Case { set, ..case.clone() }, counts);
        }
    }
}

fn slices(rng: &mut Rng, set: &Set) -> (usize, usize) {
    let most = set.scripts.iter().map(Vec::len).max().unwrap_or(0);
    let size = |rng: &mut Rng| if rng.once_in(25) { rng.below(most + 1) } else { most + rng.below(4) };
    (size(rng), size(rng))
}

/// More words than a script may have, in each place.
fn too_many(counts: &mut Counts) {
    for place in 0..4 {
        for n in [32_768, 32_769] {
            let mut scripts = [(); 4].map(|()| vec![gen::RETURN0]);
            scripts[place] = vec![0; n - 1];
            scripts[place].push(gen::RETURN0);
            let set = Set { scripts, count: 4, quantum: 1000, choices: vec![], limit: 100_000 };
            compare(&Case { set, marks: 32_769, lengths: 32_769 }, counts);
        }
    }
}

fn main() {
    let args: Vec<String> = std::env::args().skip(1).collect();
    if args.first().is_some_and(|a| a == "bench") {
        return bench::run();
    }
    let number = |i: usize, default: u64| args.get(i).map_or(default, |a| a.parse().expect("a number"));
    let (seed, sets) = (number(0, 1), number(1, 300_000));
    let mut rng = Rng::new(seed);
    let real: Vec<Vec<u32>> = model::real::functions().into_iter().map(|f| f.1.words).collect();
    let mut counts = Counts::default();
    too_many(&mut counts);
    for _ in 0..sets {
        let set = gen::set(&mut rng, &real);
        let (marks, lengths) = slices(&mut rng, &set);
        let case = Case { set, marks, lengths };
        let used = compare(&case, &mut counts);
        catch(&case, &mut counts);
        cut(&case, used, &mut counts);
        endless(&case, used, &mut counts);
    }
    println!("{sets} sets of scripts from seed {seed}; {} rehearsals with their cuts, {} words: no mismatch", counts.cases, counts.words);
    println!("answers by number: {:?}", counts.numbers);
    println!("cut by the limit {}, by a missing choice {}; a wait of exactly (k - 1) q in {}", counts.at_limit, counts.starved, counts.at_bound);
    for (wrong, caught) in Wrong::ALL.iter().zip(counts.caught) {
        println!("wrong on purpose, {wrong:?}: caught in {caught}");
    }
    if counts.caught.contains(&0) || [0, 6, 7, 8, 23, 1].iter().any(|n| !counts.numbers.contains_key(n)) {
        println!("something was never met");
        std::process::exit(1);
    }
}
