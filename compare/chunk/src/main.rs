//! chunk bench SCRIPTS..: times. chunk SEED ROUNDS SCRIPTS..: holds the proved reader (crates/chunk) against a second reading of request C-11, and both against Lua's
//! own loader where it was built in. Exit status 0 only if nothing differs and each reading that is wrong on purpose is caught.

#[cfg(lua)]
mod bench;
mod corpus;
mod ffi;
mod names;
mod reading;

use corpus::{Rng, Writer};
use reading::{choose, Function, Refused, Rules, Why};

#[derive(Default)]
struct Counts {
    chunks: u64,
    functions: u64,
    fills: u64,
    short: u64,
    numbers: [u64; 17],
    real: u64,
    loaded: u64,
    apart: u64,
    loaded_apart: u64,
    names: u64,
    caught: [u64; 4],
}

const WRONG: [Rules; 4] = [Rules::NamesByCount, Rules::LimitAfterShift, Rules::TagOfFile, Rules::OneLevelMore];

fn fail(what: &str, bytes: &[u8], k: usize, ours: &dyn std::fmt::Debug, theirs: &dyn std::fmt::Debug) -> ! {
    eprintln!("DIFFERS: {what}, function {k}\n  library {ours:?}\n  reading {theirs:?}\n  chunk of {} bytes: {:02x?}", bytes.len(), &bytes[..bytes.len().min(400)]);
    std::process::exit(1)
}

fn expected(answer: Result<&Function, Refused>) -> ffi::Counts {
    match answer {
        Ok(f) => ffi::Counts { number: 0, place: 0, words: f.words.len() as u64, constants: f.constants.len() as u64, names: f.names.len() as u64 },
        Err(e) => ffi::Counts { number: e.number(), place: e.place(), words: 0, constants: 0, names: 0 },
    }
}

/// Slices of the given lengths, each element a number that tells it apart.
struct Lent {
    words: Vec<u32>,
    tags: Vec<u8>,
    payloads: Vec<u64>,
    names: Vec<u64>,
}

impl Lent {
    fn new(words: usize, tags: usize, payloads: usize, names: usize) -> Lent {
        let mark = |i: usize| 0x9e37_79b9_7f4a_7c15u64.wrapping_mul(i as u64 + 1);
        Lent {
            words: (0..words).map(|i| mark(i) as u32).collect(),
            tags: (0..tags).map(|i| mark(i) as u8).collect(),
            payloads: (0..payloads).map(mark).collect(),
            names: (0..names).map(mark).collect(),
        }
    }

    fn fill(&mut self, bytes: &[u8], k: usize) -> ffi::Counts {
        ffi::fill(bytes, k, &mut self.words, &mut self.tags, &mut self.payloads, &mut self.names)
    }
}

fn over<T: Copy>(part: &[T], before: &[T]) -> Vec<T> {
    part.iter().chain(&before[part.len()..]).copied().collect()
}

/// One fill, into slices that have more or less room than is needed by the given differences.
fn fill(bytes: &[u8], k: usize, answer: Result<&Function, Refused>, more: [i64; 4], counts: &mut Counts) {
    let c = expected(answer);
    let room = |n: u64, d: i64| (n as i64 + d).max(0) as usize;
    let lengths = [room(c.words, more[0]), room(c.constants, more[1]), room(c.constants, more[2]), room(c.names, more[3])];
    let before = Lent::new(lengths[0], lengths[1], lengths[2], lengths[3]);
    let mut lent = Lent::new(lengths[0], lengths[1], lengths[2], lengths[3]);
    let short = answer.is_ok_and(|f| lengths[0] < f.words.len() || lengths[1].min(lengths[2]) < f.constants.len() || lengths[3] < f.names.len());
    let answer = if short { Err(Refused::Short) } else { answer };
    let got = lent.fill(bytes, k);
    if got != expected(answer) {
        fail("the second pass", bytes, k, &got, &expected(answer));
    }
    counts.fills += 1;
    counts.short += u64::from(short);
    let (words, tags, payloads, names) = match answer {
        Ok(f) => (over(&f.words, &before.words), over(&f.tags(), &before.tags), over(&f.payloads(), &before.payloads), over(&f.places(), &before.names)),
        Err(_) => (before.words, before.tags, before.payloads, before.names),
    };
    if lent.words != words {
        fail("words", bytes, k, &lent.words, &words);
    }
    if lent.tags != tags {
        fail("tags", bytes, k, &lent.tags, &tags);
    }
    if lent.payloads != payloads {
        fail("payloads", bytes, k, &lent.payloads, &payloads);
    }
    if lent.names != names {
        fail("names", bytes, k, &lent.names, &names);
    }
}

/// What Lua's loader keeps of a reading, as real.c writes it.
#[cfg(lua)]
fn flat(bytes: &[u8], functions: &[Function]) -> Vec<u8> {
    let mut out = vec![];
    let text = |out: &mut Vec<u8>, (start, size): reading::Place| {
        out.extend((size as u32).to_le_bytes());
        out.extend(&bytes[start..start + size]);
    };
    for f in functions {
        out.extend((f.words.len() as u32).to_le_bytes());
        out.extend(f.words.iter().flat_map(|w| w.to_le_bytes()));
        out.extend((f.constants.len() as u32).to_le_bytes());
        for k in &f.constants {
            match k {
                reading::Constant::Plain(tag, payload) => {
                    out.push(*tag);
                    if matches!(tag, 3 | 19) {
                        out.extend(payload.to_le_bytes());
                    }
                }
                reading::Constant::Text(tag, place) => {
                    out.push(*tag);
                    text(&mut out, *place);
                }
            }
        }
        out.extend((f.names.len() as u32).to_le_bytes());
        for name in &f.names {
            out.push(u8::from(name.is_some()));
            if let Some(place) = name {
                text(&mut out, *place);
            }
        }
    }
    out
}

/// Lua's loader against the reading that follows it; and that one against the request's, which differ in the limits, the levels and the
/// unknown tags alone.
#[cfg(lua)]
fn real(bytes: &[u8], request: &Result<Vec<Function>, Refused>, counts: &mut Counts) {
    let loader = reading::read(bytes, Rules::Loader);
    let real = ffi::real::load(bytes);
    let follows = loader.as_ref().ok().map(|functions| flat(bytes, functions));
    if real != follows {
        fail("Lua's loader", bytes, 0, &real.map(|r| r.len()), &loader.map(|l| l.len()));
    }
    counts.real += 1;
    counts.loaded += u64::from(real.is_some());
    match (request, &loader) {
        (Ok(a), Ok(_)) => assert!(flat(bytes, a) == *real.as_ref().unwrap(), "an accepted chunk"),
        (Ok(_), Err(_)) => fail("accepted, and Lua refuses it", bytes, 0, &request.is_ok(), &loader.is_ok()),
        (Err(Refused::Deep | Refused::Tag(_) | Refused::Bad(Why::Limit)), _) => {
            counts.apart += 1;
            counts.loaded_apart += u64::from(loader.is_ok());
        }
        (Err(_), Ok(_)) => fail("refused, and Lua loads it", bytes, 0, &request.as_ref().err(), &loader.is_ok()),
        (Err(_), Err(_)) => {}
    }
}

#[cfg(not(lua))]
fn real(_: &[u8], _: &Result<Vec<Function>, Refused>, _: &mut Counts) {}

fn names(bytes: &[u8], own: &[u64], rng: &mut Rng, counts: &mut Counts) {
    let list: Vec<u8> = (0..rng.below(12)).map(|_| b'a' + rng.below(26) as u8).collect();
    let size = list.len() as u64;
    let other: Vec<u64> = (0..rng.below(6))
        .map(|_| match rng.below(8) {
            0 | 1 => u64::MAX,
            2 => rng.below(size + 2) | rng.below(size + 2) << 32,
            3 => u64::MAX - 1,
            _ => {
                let start = rng.below(size + 1);
                start | rng.below(size - start + 1) << 32
            }
        })
        .collect();
    let mut own = own.to_vec();
    if rng.one_in(4) {
        let span = rng.below(bytes.len() as u64 + 2) | rng.below(40) << 32;
        own.push(span);
    }
    if rng.one_in(200) {
        own.resize(254 + rng.below(4) as usize, u64::MAX);
    }
    for index in [0, 1, 2, own.len(), own.len() + 1, 300] {
        let (got, wanted) = (ffi::shown(bytes, &own, &list, &other, index), names::shown(bytes, &own, &list, &other, index));
        if got != wanted {
            fail("the name shown", bytes, index, &(got, &own, &list, &other), &wanted);
        }
        counts.names += 1;
    }
}

/// Both passes on all functions of a chunk, and one past them. Cheap: without slices that are too short.
fn hold(bytes: &[u8], cheap: bool, rng: &mut Rng, counts: &mut Counts) {
    let request = reading::read(bytes, Rules::Request);
    counts.chunks += 1;
    let functions = request.as_ref().map_or(0, Vec::len);
    counts.functions += functions as u64;
    let number = request.as_ref().err().map_or(0, |e| e.number());
    counts.numbers[number as usize] += 1;
    for k in (0..=functions).chain([usize::MAX]) {
        let answer = choose(&request, k);
        let got = ffi::count(bytes, k);
        if got != expected(answer) {
            fail("the first pass", bytes, k, &got, &expected(answer));
        }
        fill(bytes, k, answer, [3, 2, 1, 4], counts);
        if !cheap {
            for more in [[0, 0, 0, 0], [-1, 0, 0, 0], [0, -1, 0, 0], [0, 0, -1, 0], [0, 0, 0, -1]] {
                fill(bytes, k, answer, more, counts);
            }
        }
        if let Ok(f) = answer {
            names(bytes, &f.places(), rng, counts);
        }
    }
    real(bytes, &request, counts);
    for (i, rules) in WRONG.into_iter().enumerate() {
        let wrong = reading::read(bytes, rules);
        for k in 0..functions.max(1) {
            let (a, b) = (choose(&request, k), choose(&wrong, k));
            let differs = match (a, b) {
                (Ok(a), Ok(b)) => a.tags() != b.tags() || a.places() != b.places() || a.words != b.words,
                _ => expected(a) != expected(b),
            };
            counts.caught[i] += u64::from(differs);
        }
    }
}

/// Every one-byte change and every cut.
fn damage(bytes: &[u8], rng: &mut Rng, counts: &mut Counts) {
    for end in 0..bytes.len() {
        hold(&bytes[..end], true, rng, counts);
    }
    let mut changed = bytes.to_vec();
    for at in 0..bytes.len() {
        for b in 0..=255u8 {
            if b != bytes[at] {
                changed[at] = b;
                hold(&changed, true, rng, counts);
            }
        }
        changed[at] = bytes[at];
    }
}

/// A chunk of 4,294,967,295 bytes, most of them trailing, and one of a byte more. The memory is zeros that nobody touches.
fn long(counts: &mut Counts) {
    let sound = corpus::bare_levels(2);
    let mut bytes = vec![0u8; 1 << 32];
    bytes[..sound.len()].copy_from_slice(&sound);
    for end in [bytes.len() - 1, bytes.len()] {
        let functions = reading::read(&bytes[..end], Rules::Request);
        for k in 0..3 {
            let (got, wanted) = (ffi::count(&bytes[..end], k), expected(choose(&functions, k)));
            if got != wanted {
                fail("a long chunk", &bytes[..end], k, &got, &wanted);
            }
            fill(&bytes[..end], k, choose(&functions, k), [3, 2, 1, 4], counts);
        }
        counts.chunks += 1;
        counts.numbers[functions.err().map_or(0, |e| e.number()) as usize] += 1;
    }
}

#[cfg(lua)]
fn compiled(scripts: &[Vec<u8>]) -> Vec<Vec<u8>> {
    scripts.iter().flat_map(|s| [false, true].map(|strip| ffi::real::compile(s, strip))).collect()
}

#[cfg(not(lua))]
fn compiled(_: &[Vec<u8>]) -> Vec<Vec<u8>> {
    vec![]
}

fn main() {
    let mut args = std::env::args().skip(1).peekable();
    #[cfg(lua)]
    if args.next_if(|a| a == "bench").is_some() {
        bench::run(&args.map(|path| std::fs::read(path).expect("a script")).collect::<Vec<_>>());
        return;
    }
    let seed: u64 = args.next().map_or(1, |s| s.parse().expect("a seed"));
    let rounds: u64 = args.next().map_or(100_000, |s| s.parse().expect("rounds"));
    let scripts: Vec<Vec<u8>> = args.map(|path| std::fs::read(path).expect("a script")).collect();
    let mut rng = Rng::new(seed);
    let mut counts = Counts::default();
    let real_chunks = compiled(&scripts);
    println!("compiled scripts, plain and stripped: {} chunks, {} bytes", real_chunks.len(), real_chunks.iter().map(Vec::len).sum::<usize>());
    for bytes in &real_chunks {
        hold(bytes, false, &mut rng, &mut counts);
    }
    let levels: Vec<Vec<u8>> = (1..=40).map(corpus::nested).collect();
    for bytes in compiled(&levels).iter().chain(&(1..=40).map(corpus::bare_levels).collect::<Vec<_>>()) {
        hold(bytes, false, &mut rng, &mut counts);
    }
    for (words, constants, upvalues) in [(32768, 65536, 255), (32769, 0, 0), (0, 65537, 0), (0, 0, 256), (32768, 65537, 256)] {
        hold(&corpus::large(words, constants, upvalues), false, &mut rng, &mut counts);
    }
    long(&mut counts);
    println!("levels 1 to 40, counts at the limits, 4,294,967,295 bytes and one more: done");
    let small: [&[u8]; 3] = [b"return", b"local a <const>, b = 1.5, 'x'; local function f() return b, _ENV.c end; return f, 7, 0x7fffffffffff, false", b"function g(...) local x = ... ; return function() x = x + 1 return x end end"];
    let mut damaged = compiled(&small.map(<[u8]>::to_vec));
    damaged.extend((0..4).map(|i| Writer::chunk(Rng::new(1000 + i), 1 + i, 0)));
    damaged.push(corpus::bare_levels(33));
    let before = counts.chunks;
    for bytes in &damaged {
        damage(bytes, &mut rng, &mut counts);
    }
    println!("every one-byte change and every cut of {} chunks, {} bytes: {} chunks", damaged.len(), damaged.iter().map(Vec::len).sum::<usize>(), counts.chunks - before);
    for round in 0..rounds {
        let (deepest, faults) = ([1, 2, 3, 32, 33, 34][(rng.below(12) as usize).min(5)], [0, 8, 40, 200][(round % 4) as usize]);
        let mut bytes = Writer::chunk(Rng::new(rng.next()), deepest, faults);
        if rng.one_in(4) {
            let at = rng.below(bytes.len() as u64) as usize;
            bytes[at] = rng.next() as u8;
        }
        if rng.one_in(8) {
            bytes.truncate(rng.below(bytes.len() as u64) as usize);
        }
        hold(&bytes, round % 16 != 0, &mut rng, &mut counts);
    }
    println!("{} chunks, {} functions, {} fills ({} of them with a slice too short), {} names shown: nothing differs", counts.chunks, counts.functions, counts.fills, counts.short, counts.names);
    println!("chunks by number:{}", (0..17).filter(|&n| counts.numbers[n] != 0).map(|n| format!(" {n}: {}", counts.numbers[n])).collect::<String>());
    println!("held against Lua's loader: {} chunks, {} of them loaded, {} refused here for a limit, a level or a tag, {} of which Lua loads", counts.real, counts.loaded, counts.apart, counts.loaded_apart);
    println!("functions that a wrong reading gets wrong: names by count {}, limit after the shift {}, tag of the file {}, one level more {}", counts.caught[0], counts.caught[1], counts.caught[2], counts.caught[3]);
    if counts.caught.contains(&0) {
        eprintln!("a wrong reading was not caught");
        std::process::exit(1);
    }
}
