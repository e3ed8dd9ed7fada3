//! Request C-21 read a second time, from its words and with no look at the Rattle code. It writes down every turn and looks for
//! the waits in that list; whose turn is next is counted round and round, past scripts that have finished. Nothing here is quick.
//! Steps are those of `model`, the second reading of document 01.

use model::steps::steps;

/// What is lent: the scripts, how many of them count, the turn length, the choices and the stated number of words.
#[derive(Clone, Debug, Default, PartialEq, Eq)]
pub struct Set {
    pub scripts: [Vec<u32>; 4],
    pub count: usize,
    pub quantum: u32,
    pub choices: Vec<u8>,
    pub limit: u32,
}

/// Number and place of a refusal, and the longest wait of each script.
#[repr(C)]
#[derive(Clone, Copy, Debug, Default, PartialEq, Eq)]
pub struct Answer {
    pub number: u64,
    pub place: u64,
    pub waits: [u64; 4],
}

/// Readings that are wrong on purpose: the comparison must catch each.
#[derive(Clone, Copy, Debug, PartialEq, Eq)]
pub enum Wrong {
    /// A turn has a word more than q.
    LongTurn,
    /// A serving step does not end a turn.
    ServiceGoesOn,
    /// 0 chooses the higher step.
    ChoicesExchanged,
    /// A word whose choice is missing has run.
    RunsUnchosen,
    /// A turn of no words is a turn.
    EmptyTurn,
    /// Words after a script's last turn are a wait.
    WaitsToTheEnd,
    /// Words before a script's first turn are a wait.
    WaitsFromTheStart,
    /// A finished script has turns in which nothing runs, and they count as a word.
    FinishedTakeTurns,
    /// FORLOOP with Bx 0 uses up a choice.
    LoopAlwaysChooses,
    /// Every script is tried, and the highest that is refused is the answer.
    HighestRefused,
    /// The slices are put back after acceptance.
    SlicesPutBack,
    /// A choice that is not used is not looked at.
    UnusedUnchecked,
}

impl Wrong {
    pub const ALL: [Wrong; 12] = [
        Wrong::LongTurn,
        Wrong::ServiceGoesOn,
        Wrong::ChoicesExchanged,
        Wrong::RunsUnchosen,
        Wrong::EmptyTurn,
        Wrong::WaitsToTheEnd,
        Wrong::WaitsFromTheStart,
        Wrong::FinishedTakeTurns,
        Wrong::LoopAlwaysChooses,
        Wrong::HighestRefused,
        Wrong::SlicesPutBack,
        Wrong::UnusedUnchecked,
    ];
}

/// One script's turn and how many words of it ran.
struct Turn {
    script: usize,
    words: u64,
}

/// What a rehearsal came to beside its answer: how many words ran, and how many choices were used up.
#[derive(Clone, Copy, Debug, Default, PartialEq, Eq)]
pub struct Used {
    pub words: u64,
    pub choices: usize,
}

/// A script under way.
struct Player<'a> {
    words: &'a [u32],
    at: usize,
    finished: bool,
}

/// "A step p to q serves" since request C-16.
fn serves(p: usize, q: usize) -> bool {
    q <= p
}

/// The longest run with all weights 1, as far as acceptance goes: its number and place, and what it leaves in the slices.
pub fn accept(words: &[u32], marks: &mut [u8], lengths: &mut [u32]) -> (u64, u64) {
    let n = words.len();
    if n > 32_768 {
        return (1, 0);
    }
    if marks.len() < n || lengths.len() < n {
        return (6, 0);
    }
    if n == 0 {
        return (7, 0);
    }
    let mut reachable = vec![false; n];
    let mut found = vec![0];
    while let Some(p) = found.pop() {
        if !std::mem::replace(&mut reachable[p], true) {
            found.extend(steps(words, p).list());
        }
    }
    for p in 0..n {
        marks[p] = u8::from(reachable[p]);
        lengths[p] = 0;
    }
    if let Some(p) = (0..n).find(|&p| reachable[p] && steps(words, p).bad) {
        return (8, p as u64);
    }
    for p in (0..n).rev().filter(|&p| reachable[p]) {
        let after = steps(words, p).list().iter().filter(|&&q| !serves(p, q)).map(|&q| lengths[q]).max();
        lengths[p] = 1 + after.unwrap_or(0);
    }
    (0, 0)
}

/// "A lent list of 0s and 1s chooses the lower or higher step at words with two": where a word leads, if it has its choice.
fn chosen(to: &[usize], choices: &[u8], used: &mut usize, wrong: Option<Wrong>) -> Option<usize> {
    if to.len() == 1 {
        return Some(to[0]);
    }
    let choice = *choices.get(*used)?;
    *used += 1;
    let higher = (choice == 1) != (wrong == Some(Wrong::ChoicesExchanged));
    Some(to[usize::from(higher)])
}

/// All turns of a rehearsal of accepted scripts.
fn turns(set: &Set, wrong: Option<Wrong>) -> (Vec<Turn>, Used) {
    let mut players: Vec<Player> =
        set.scripts[..set.count].iter().map(|w| Player { words: w, at: 0, finished: false }).collect();
    let quantum = u64::from(set.quantum) + u64::from(wrong == Some(Wrong::LongTurn));
    let limit = u64::from(set.limit);
    let mut all: Vec<Turn> = vec![];
    let mut used = Used::default();
    let mut whose = 0;
    while players.iter().any(|p| !p.finished) && used.words < limit {
        let player = &mut players[whose];
        let script = whose;
        whose = (whose + 1) % set.count;
        if player.finished {
            if wrong == Some(Wrong::FinishedTakeTurns) {
                all.push(Turn { script, words: 1 });
            }
            continue;
        }
        let mut turn = Turn { script, words: 0 };
        let mut stopped = false;
        while turn.words < quantum && used.words < limit {
            let p = player.at;
            let s = steps(player.words, p);
            assert!(!s.bad, "an accepted script ran a bad word");
            if s.list().is_empty() {
                player.finished = true;
                turn.words += 1;
                used.words += 1;
                break;
            }
            let empty_loop = player.words[p] & 127 == 73 && player.words[p] >> 15 == 0;
            if wrong == Some(Wrong::LoopAlwaysChooses) && empty_loop && used.choices < set.choices.len() {
                used.choices += 1;
            }
            let Some(to) = chosen(s.list(), &set.choices, &mut used.choices, wrong) else {
                if wrong == Some(Wrong::RunsUnchosen) {
                    turn.words += 1;
                }
                stopped = true;
                break;
            };
            turn.words += 1;
            used.words += 1;
            player.at = to;
            if serves(p, to) && wrong != Some(Wrong::ServiceGoesOn) {
                break;
            }
        }
        if turn.words > 0 || wrong == Some(Wrong::EmptyTurn) {
            all.push(turn);
        }
        if stopped {
            break;
        }
    }
    (all, used)
}

/// "A wait is the words others ran between two of its turns running; a script with fewer than two turns reports 0."
fn longest_wait(all: &[Turn], script: usize, wrong: Option<Wrong>) -> u64 {
    let own: Vec<usize> = (0..all.len()).filter(|&i| all[i].script == script).collect();
    let between = |from: usize, to: usize| all[from..to].iter().map(|t| t.words).sum::<u64>();
    let mut waits: Vec<u64> = own.windows(2).map(|pair| between(pair[0] + 1, pair[1])).collect();
    if let (Some(&first), Some(&last)) = (own.first(), own.last()) {
        if wrong == Some(Wrong::WaitsFromTheStart) {
            waits.push(between(0, first));
        }
        if wrong == Some(Wrong::WaitsToTheEnd) {
            waits.push(between(last + 1, all.len()));
        }
    }
    waits.into_iter().max().unwrap_or(0)
}

/// "23 a script count, q or choice out of range, before anything is rehearsed."
fn out_of_range(set: &Set, looked_at: impl FnOnce() -> usize) -> bool {
    !(1..=4).contains(&set.count) || !(1..=1000).contains(&set.quantum) || set.choices[..looked_at()].iter().any(|&c| c > 1)
}

/// How many choices the set would use, none if a script is refused.
fn choices_used(set: &Set, marks: &[u8], lengths: &[u32]) -> usize {
    let (mut marks, mut lengths) = (marks.to_vec(), lengths.to_vec());
    let accepted = set.scripts[..set.count].iter().all(|words| accept(words, &mut marks, &mut lengths).0 == 0);
    if accepted { turns(set, None).1.choices } else { 0 }
}

/// The whole answer, with the slices as they are afterwards, and what was used.
pub fn rehearse(set: &Set, marks: &mut [u8], lengths: &mut [u32], wrong: Option<Wrong>) -> (Answer, Used) {
    let refused = |number, place| (Answer { number, place, waits: [0; 4] }, Used::default());
    let looked_at = || match wrong {
        Some(Wrong::UnusedUnchecked) => choices_used(set, marks, lengths),
        _ => set.choices.len(),
    };
    if out_of_range(set, looked_at) {
        return refused(23, 0);
    }
    let before = (marks.to_vec(), lengths.to_vec());
    let mut highest = None;
    for words in &set.scripts[..set.count] {
        let (number, place) = accept(words, marks, lengths);
        if number != 0 && wrong == Some(Wrong::HighestRefused) {
            highest = Some((number, place));
        } else if number != 0 {
            return refused(number, place);
        }
    }
    if let Some((number, place)) = highest {
        return refused(number, place);
    }
    if wrong == Some(Wrong::SlicesPutBack) {
        marks.copy_from_slice(&before.0);
        lengths.copy_from_slice(&before.1);
    }
    let (all, used) = turns(set, wrong);
    let mut answer = Answer::default();
    for script in 0..set.count {
        answer.waits[script] = longest_wait(&all, script, wrong);
    }
    (answer, used)
}
