//! The proved library and its C twin, behind one function each.

use crate::reading::{Answer, Set};

type Call = unsafe extern "C" fn(
    *const u32,
    usize,
    *const u32,
    usize,
    *const u32,
    usize,
    *const u32,
    usize,
    usize,
    u32,
    *const u8,
    usize,
    u32,
    *mut u8,
    usize,
    *mut u32,
    usize,
) -> Answer;

macro_rules! side {
    ($name:ident) => {
        fn $name(
            w0: *const u32,
            n0: usize,
            w1: *const u32,
            n1: usize,
            w2: *const u32,
            n2: usize,
            w3: *const u32,
            n3: usize,
            count: usize,
            quantum: u32,
            choices: *const u8,
            choices_n: usize,
            limit: u32,
            marks: *mut u8,
            marks_n: usize,
            lengths: *mut u32,
            lengths_n: usize,
        ) -> Answer;
    };
}

extern "C" {
    side!(lawendeb_rehearse);
    side!(twin_rehearse);
}

#[derive(Clone, Copy, PartialEq, Eq)]
pub enum Side {
    Twin,
    Rattle,
}

impl Side {
    pub const ALL: [Side; 2] = [Side::Twin, Side::Rattle];

    pub fn name(self) -> &'static str {
        match self {
            Side::Twin => "C twin",
            Side::Rattle => "proved library",
        }
    }

    /// Rehearses a set, with its slices as they are afterwards.
    pub fn rehearse(self, set: &Set, marks: &mut [u8], lengths: &mut [u32]) -> Answer {
        let call: Call = match self {
            Side::Twin => twin_rehearse,
            Side::Rattle => lawendeb_rehearse,
        };
        let [w0, w1, w2, w3] = &set.scripts;
        // Each slice passes as pointer and length; no slice here is null, and those that are written lie apart.
        unsafe {
            call(
                w0.as_ptr(),
                w0.len(),
                w1.as_ptr(),
                w1.len(),
                w2.as_ptr(),
                w2.len(),
                w3.as_ptr(),
                w3.len(),
                set.count,
                set.quantum,
                set.choices.as_ptr(),
                set.choices.len(),
                set.limit,
                marks.as_mut_ptr(),
                marks.len(),
                lengths.as_mut_ptr(),
                lengths.len(),
            )
        }
    }
}
