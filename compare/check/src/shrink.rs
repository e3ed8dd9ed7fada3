//! The smallest input that still fails, by greedy removal.

use crate::gen;

/// Takes the first smaller candidate that still fails, until none does.
pub fn shrink<T: Clone>(start: T, smaller: impl Fn(&T) -> Vec<T>, fails: impl Fn(&T) -> bool) -> T {
    let mut best = start;
    while let Some(next) = smaller(&best).into_iter().find(&fails) {
        best = next;
    }
    best
}

/// The list with a part removed, large parts first.
pub fn shorter<T: Clone>(list: &[T]) -> Vec<Vec<T>> {
    let mut all = vec![];
    let mut size = list.len();
    while size > 0 {
        // A long list is cut at its ends only, to keep the number of candidates small.
        let starts: Vec<usize> = if list.len() > 200 { vec![0, list.len() - size] } else { (0..=list.len() - size).collect() };
        for from in starts {
            let mut cut = list[..from].to_vec();
            cut.extend_from_slice(&list[from + size..]);
            all.push(cut);
        }
        size /= 2;
    }
    all
}

/// The words with one of them made simpler: a plain word, or with a field at 0.
pub fn plainer(words: &[u32]) -> Vec<Vec<u32>> {
    let mut all = vec![];
    for (i, &w) in words.iter().enumerate().take(200) {
        for simple in gen::PLAINER.iter().map(|m| w & m).filter(|&s| s < w) {
            let mut copy = words.to_vec();
            copy[i] = simple;
            all.push(copy);
        }
    }
    all
}

/// Shorter or plainer words.
pub fn words(list: &[u32]) -> Vec<Vec<u32>> {
    let mut all = shorter(list);
    all.extend(plainer(list));
    all
}

/// Two equally long lists of words, both with a part removed or with one word, the same in both or not, made simpler.
pub fn shorter_both(first: &[u32], second: &[u32]) -> Vec<(Vec<u32>, Vec<u32>)> {
    let mut all: Vec<_> = shorter(first).into_iter().zip(shorter(second)).collect();
    all.extend(plainer(first).into_iter().filter_map(|f| {
        let i = (0..first.len()).find(|&i| f[i] != first[i])?;
        let mut copy = second.to_vec();
        if first[i] == second[i] {
            copy[i] = f[i];
        }
        Some((f, copy))
    }));
    all.extend(plainer(second).into_iter().map(|s| (first.to_vec(), s)));
    all
}
