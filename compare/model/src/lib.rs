//! Document 01 and the requests of document 02 once more, in plain Rust and with no look at the Rattle code: fields, steps,
//! weights, the longest run, by one table or two, nearest service, the meter, the feeding book, four meters, and the refusals of lifting. Slow and literal where it can be; the comparison holds the
//! proved library and the C twin against it. Terms are the document's.
//!
//! With the feature lua53 words and table are those of Lua 5.3 (request C-24); all else is the same text.

pub mod book;
pub mod flat;
pub mod four;
pub mod input;
pub mod meter;
pub mod range;
pub mod real;
pub mod run;
pub mod service;
pub mod steps;
#[cfg_attr(feature = "lua53", path = "table53.rs")]
mod table;
pub mod weights;
#[cfg_attr(feature = "lua53", path = "word53.rs")]
pub mod word;
#[cfg(feature = "lua53")]
#[path = "wrong53.rs"]
pub mod wrong;

/// The most words a function may have (refusal 1).
pub const WORDS: usize = 32_768;

/// A refusal's number, 0 when accepted, and its place.
#[repr(C)]
#[derive(Clone, Copy, Debug, PartialEq, Eq, Default)]
pub struct Answer {
    pub number: u64,
    pub place: u64,
}
