//! show WORD..: luad's records of a function of these words, with empty tables: every number that is not 0, by name. For docs/DIFFERENCES.md.

use model::flat::name;
use model::input::Input;

fn main() {
    let words: Vec<u32> = std::env::args().skip(1).map(|a| a.parse().expect("a word")).collect();
    for record in oracle::records(&Input { records: words.len(), words, ..Input::default() }) {
        let numbers = record.numbers().into_iter().enumerate().filter(|(i, n)| *n != 0 || *i == 0);
        let parts: Vec<String> = numbers.map(|(i, n)| format!("{} {n}", name(i))).collect();
        println!("{}", parts.join(", "));
    }
}
