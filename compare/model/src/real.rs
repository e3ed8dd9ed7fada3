//! Functions that luac made of real scripts (words/real.txt, by words/extract.lua from vm/scripts; lua53/real.txt).

use crate::input::Input;

#[cfg(not(feature = "lua53"))]
const TEXT: &str = include_str!("../../words/real.txt");
#[cfg(feature = "lua53")]
const TEXT: &str = include_str!("../../lua53/real.txt");

/// A return, and the words that begin a main function before its own: VARARGPREP in 5.4.
#[cfg(not(feature = "lua53"))]
const FRAME: (u32, usize) = (71 | 1 << 16, 1);
#[cfg(feature = "lua53")]
const FRAME: (u32, usize) = (38 | 1 << 23, 0);

fn numbers<T: std::str::FromStr>(text: &str) -> Vec<T>
where
    T::Err: std::fmt::Debug,
{
    text.split_whitespace().map(|x| x.parse().expect("a number in real.txt")).collect()
}

/// Name and prototype of each function.
pub fn functions() -> Vec<(&'static str, Input)> {
    let mut all: Vec<(&str, Input)> = vec![];
    for line in TEXT.lines() {
        let (kind, rest) = line.split_once(' ').unwrap_or((line, ""));
        if kind == "f" {
            all.push((rest, Input::default()));
            continue;
        }
        let input = &mut all.last_mut().expect("f comes first in real.txt").1;
        match kind {
            "w" => {
                input.words = numbers(rest);
                input.records = input.words.len();
            }
            "k" => {
                let pair: Vec<u64> = numbers(rest);
                input.tags.push(pair[0] as u8);
                input.payloads.push(pair[1]);
            }
            "n" => input.names.extend(numbers::<u64>(rest)),
            "b" => {
                let digits = |i: usize| u8::from_str_radix(&rest[2 * i..2 * i + 2], 16).expect("hex in real.txt");
                input.bytes = (0..rest.len() / 2).map(digits).collect();
            }
            other => panic!("real.txt: a line of kind {other}"),
        }
    }
    all
}

/// Real code of exactly n words: whole bodies one after another, as luac leaves them for blocks in one function (jumps are
/// relative), with plain words before them and a return at the end. Every word before a return of its own is reachable.
pub fn of_length(n: usize) -> Vec<u32> {
    let (end, opening) = FRAME;
    let all = functions();
    let mains: Vec<&[u32]> = all.iter().filter(|f| f.0.ends_with(".lua:0")).map(|f| &f.1.words[opening..f.1.words.len() - 1]).collect();
    let mut body: Vec<u32> = vec![];
    while let Some(next) =
        mains.iter().cycle().skip(body.len() % mains.len()).take(mains.len()).find(|m| body.len() + m.len() < n)
    {
        body.extend_from_slice(next);
    }
    if body.is_empty() {
        let largest = all.iter().filter(|f| f.1.words.len() < n).max_by_key(|f| f.1.words.len());
        body.extend_from_slice(largest.map_or(&[], |f| &f.1.words));
    }
    let mut words = vec![0; n - 1 - body.len()];
    words.extend(body);
    words.push(end);
    words
}
