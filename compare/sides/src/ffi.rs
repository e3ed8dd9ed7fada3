//! The seam: what the C twin and the proved library export, declared once, and each as a [`Side`].
//!
//! A slice passes as pointer, length; a number as itself; an answer is a `#[repr(C)]` struct of numbers by value, as
//! include/lawendeb.h has them; with the feature lua53 the functions are those of 5.3. Nothing checks these declarations against the Rattle source: the differential tests do.

use crate::{Side, Successors};
use model::flat::Record;
use model::four::{Meters, ALLOWANCE};
use model::input::Input;
use model::meter::Meter;
use model::range::RangeAnswer;
use model::run::RunAnswer;
use model::service::{Crossed, Nearest};
use model::Answer;

/// The meter as it is lent: include/lawendeb.h. begun is 0, or any other number.
#[repr(C)]
pub struct LentMeter {
    begun: u32,
    last: u32,
    count: u32,
    services: u32,
    highest: u32,
}

impl From<Meter> for LentMeter {
    fn from(m: Meter) -> LentMeter {
        LentMeter { begun: u32::from(m.begun), last: m.last, count: m.since, services: m.services, highest: m.highest }
    }
}

impl From<LentMeter> for Meter {
    fn from(m: LentMeter) -> Meter {
        Meter { begun: m.begun != 0, last: m.last, since: m.count, services: m.services, highest: m.highest }
    }
}

/// Lends the meter in that form.
fn lend<T>(m: &mut Meter, call: impl FnOnce(&mut LentMeter) -> T) -> T {
    let mut lent = LentMeter::from(*m);
    let answer = call(&mut lent);
    *m = lent.into();
    answer
}

/// Four meters, one after another: include/lawendeb.h.
fn lend_four<T>(ms: &mut Meters, call: impl FnOnce(&mut [LentMeter; 4]) -> T) -> T {
    let mut lent = ms.map(LentMeter::from);
    let answer = call(&mut lent);
    *ms = lent.map(Meter::from);
    answer
}

/// kind: 0 invalid, 1 stop, 2 one, 3 two.
#[repr(C)]
pub struct FlatSuccessors {
    kind: u64,
    first: u64,
    second: u64,
}

impl From<FlatSuccessors> for Successors {
    fn from(s: FlatSuccessors) -> Successors {
        assert!(s.kind < 4, "a kind of successors");
        let first = (s.kind >= 2).then_some(s.first as usize);
        let second = (s.kind == 3).then_some(s.second as usize);
        Successors { bad: s.kind == 0, list: [first, second] }
    }
}

pub mod twin {
    use super::*;

    extern "C" {
        fn twin_successors(words: *const u32, n: usize, p: usize) -> FlatSuccessors;
        fn twin_longest_run(
            words: *const u32,
            n: usize,
            weights: *const u8,
            weights_n: usize,
            marks: *mut u8,
            marks_n: usize,
            lengths: *mut u32,
            lengths_n: usize,
        ) -> RunAnswer;
        fn twin_longest_runs(
            words: *const u32,
            n: usize,
            low: *const u8,
            low_n: usize,
            high: *const u8,
            high_n: usize,
            marks: *mut u8,
            marks_n: usize,
            lengths: *mut u32,
            lengths_n: usize,
        ) -> RangeAnswer;
        fn twin_distance_to_service(
            words: *const u32,
            n: usize,
            w: usize,
            marks: *mut u8,
            marks_n: usize,
            lengths: *mut u32,
            lengths_n: usize,
        ) -> Nearest;
        fn twin_list_within(
            words: *const u32,
            n: usize,
            d: usize,
            marks: *mut u8,
            marks_n: usize,
            lengths: *mut u32,
            lengths_n: usize,
            list: *mut u8,
            list_n: usize,
        ) -> Answer;
        fn twin_crossing_edges(
            words: *const u32,
            n: usize,
            w: usize,
            marks: *mut u8,
            marks_n: usize,
            lengths: *mut u32,
            lengths_n: usize,
        ) -> Crossed;
        fn twin_begin(m: *mut LentMeter);
        fn twin_reset(m: *mut LentMeter);
        fn twin_feed(words: *const u32, n: usize, weights: *const u8, weights_n: usize, m: *mut LentMeter, q: usize) -> Answer;
        fn twin_begin_four(ms: *mut [LentMeter; 4], script: u32) -> Answer;
        fn twin_reset_four(ms: *mut [LentMeter; 4], script: u32) -> Answer;
        fn twin_feed_four(
            words: *const u32,
            n: usize,
            weights: *const u8,
            weights_n: usize,
            ms: *mut [LentMeter; 4],
            script: u32,
            budget: u32,
            q: usize,
        ) -> Answer;
        fn twin_feed_four_in_place(
            words: *const u32,
            n: usize,
            weights: *const u8,
            weights_n: usize,
            ms: *mut [LentMeter; 4],
            script: u32,
            budget: u32,
            q: usize,
        ) -> Answer;
        fn twin_lift(
            words: *const u32,
            n: usize,
            tags: *const u8,
            tags_n: usize,
            payloads: *const u64,
            payloads_n: usize,
            bytes: *const u8,
            bytes_n: usize,
            names: *const u64,
            names_n: usize,
            records: *mut Record,
            records_n: usize,
        ) -> Answer;
    }

    pub fn side() -> Side {
        Side {
            name: "C twin",
            successors: |w, p| unsafe { twin_successors(w.as_ptr(), w.len(), p) }.into(),
            run: |w, t, m, l| unsafe {
                twin_longest_run(w.as_ptr(), w.len(), t.as_ptr(), t.len(), m.as_mut_ptr(), m.len(), l.as_mut_ptr(), l.len())
            },
            runs: |w, a, b, m, l| unsafe {
                let (marks, lengths) = (m.as_mut_ptr(), l.as_mut_ptr());
                twin_longest_runs(w.as_ptr(), w.len(), a.as_ptr(), a.len(), b.as_ptr(), b.len(), marks, m.len(), lengths, l.len())
            },
            nearest: |w, p, m, l| unsafe {
                twin_distance_to_service(w.as_ptr(), w.len(), p, m.as_mut_ptr(), m.len(), l.as_mut_ptr(), l.len())
            },
            within: |w, d, m, l, s| unsafe {
                twin_list_within(w.as_ptr(), w.len(), d, m.as_mut_ptr(), m.len(), l.as_mut_ptr(), l.len(), s.as_mut_ptr(), s.len())
            },
            crossed: |w, p, m, l| unsafe {
                twin_crossing_edges(w.as_ptr(), w.len(), p, m.as_mut_ptr(), m.len(), l.as_mut_ptr(), l.len())
            },
            begin: |m| lend(m, |m| unsafe { twin_begin(m) }),
            reset: |m| lend(m, |m| unsafe { twin_reset(m) }),
            feed: |w, t, m, q| lend(m, |m| unsafe { twin_feed(w.as_ptr(), w.len(), t.as_ptr(), t.len(), m, q) }),
            feed_all: |w, t, m, list| {
                lend(m, |m| unsafe {
                    twin_begin(m);
                    let refused = |&q: &u32| twin_feed(w.as_ptr(), w.len(), t.as_ptr(), t.len(), m, q as usize).number != 0;
                    list.iter().map(refused).map(u64::from).sum()
                })
            },
            begin_four: |ms, i| lend_four(ms, |ms| unsafe { twin_begin_four(ms, i) }),
            reset_four: |ms, i| lend_four(ms, |ms| unsafe { twin_reset_four(ms, i) }),
            feed_four: |w, t, ms, i, s, q| {
                lend_four(ms, |ms| unsafe { twin_feed_four(w.as_ptr(), w.len(), t.as_ptr(), t.len(), ms, i, s, q) })
            },
            feed_all_four: |words, t, ms, list| {
                lend_four(ms, |ms| unsafe {
                    for i in 0..4 {
                        twin_begin_four(ms, i);
                    }
                    let refused = |&(i, q): &(u32, u32)| {
                        let w = &words[i as usize];
                        twin_feed_four(w.as_ptr(), w.len(), t.as_ptr(), t.len(), ms, i, ALLOWANCE, q as usize).number != 0
                    };
                    list.iter().map(refused).map(u64::from).sum()
                })
            },
            lift: Some(|i: &Input, records| unsafe {
                assert!(i.records <= records.len());
                twin_lift(
                    i.words.as_ptr(),
                    i.words.len(),
                    i.tags.as_ptr(),
                    i.tags.len(),
                    i.payloads.as_ptr(),
                    i.payloads.len(),
                    i.bytes.as_ptr(),
                    i.bytes.len(),
                    i.names.as_ptr(),
                    i.names.len(),
                    records.as_mut_ptr(),
                    i.records,
                )
            }),
        }
    }

    /// The twin with another feed of four, which works in place.
    pub fn in_place() -> Side {
        Side {
            name: "C twin in place",
            feed_four: |w, t, ms, i, s, q| {
                lend_four(ms, |ms| unsafe { twin_feed_four_in_place(w.as_ptr(), w.len(), t.as_ptr(), t.len(), ms, i, s, q) })
            },
            feed_all_four: |words, t, ms, list| {
                lend_four(ms, |ms| unsafe {
                    for i in 0..4 {
                        twin_begin_four(ms, i);
                    }
                    let refused = |&(i, q): &(u32, u32)| {
                        let w = &words[i as usize];
                        twin_feed_four_in_place(w.as_ptr(), w.len(), t.as_ptr(), t.len(), ms, i, ALLOWANCE, q as usize).number != 0
                    };
                    list.iter().map(refused).map(u64::from).sum()
                })
            },
            ..side()
        }
    }
}

pub mod rattle {
    use super::*;

    extern "C" {
        #[cfg_attr(feature = "lua53", link_name = "lawendeb_successors_53")]
        fn lawendeb_successors(words: *const u32, n: usize, p: usize) -> FlatSuccessors;
        #[cfg_attr(feature = "lua53", link_name = "lawendeb_longest_run_53")]
        fn lawendeb_longest_run_3(
            words: *const u32,
            n: usize,
            weights: *const u8,
            weights_n: usize,
            marks: *mut u8,
            marks_n: usize,
            lengths: *mut u32,
            lengths_n: usize,
        ) -> RunAnswer;
        #[cfg_attr(feature = "lua53", link_name = "lawendeb_longest_runs_53")]
        fn lawendeb_longest_runs(
            words: *const u32,
            n: usize,
            low: *const u8,
            low_n: usize,
            high: *const u8,
            high_n: usize,
            marks: *mut u8,
            marks_n: usize,
            lengths: *mut u32,
            lengths_n: usize,
        ) -> RangeAnswer;
        #[cfg_attr(feature = "lua53", link_name = "lawendeb_distance_to_service_53")]
        fn lawendeb_distance_to_service(
            words: *const u32,
            n: usize,
            w: usize,
            marks: *mut u8,
            marks_n: usize,
            lengths: *mut u32,
            lengths_n: usize,
        ) -> Nearest;
        #[cfg_attr(feature = "lua53", link_name = "lawendeb_list_within_53")]
        fn lawendeb_list_within(
            words: *const u32,
            n: usize,
            d: usize,
            marks: *mut u8,
            marks_n: usize,
            lengths: *mut u32,
            lengths_n: usize,
            list: *mut u8,
            list_n: usize,
        ) -> Answer;
        #[cfg_attr(feature = "lua53", link_name = "lawendeb_crossing_edges_53")]
        fn lawendeb_crossing_edges(
            words: *const u32,
            n: usize,
            w: usize,
            marks: *mut u8,
            marks_n: usize,
            lengths: *mut u32,
            lengths_n: usize,
        ) -> Crossed;
        fn lawendeb_begin_4(m: *mut LentMeter);
        fn lawendeb_reset(m: *mut LentMeter);
        #[cfg_attr(feature = "lua53", link_name = "lawendeb_feed_53")]
        fn lawendeb_feed_4(words: *const u32, n: usize, weights: *const u8, weights_n: usize, m: *mut LentMeter, q: usize) -> Answer;
        fn lawendeb_begin_four(ms: *mut [LentMeter; 4], script: u32) -> Answer;
        fn lawendeb_reset_four(ms: *mut [LentMeter; 4], script: u32) -> Answer;
        #[cfg_attr(feature = "lua53", link_name = "lawendeb_feed_four_53")]
        fn lawendeb_feed_four(
            words: *const u32,
            n: usize,
            weights: *const u8,
            weights_n: usize,
            ms: *mut [LentMeter; 4],
            script: u32,
            budget: u32,
            q: usize,
        ) -> Answer;
    }

    pub fn side() -> Side {
        Side {
            name: "Rattle",
            successors: |w, p| unsafe { lawendeb_successors(w.as_ptr(), w.len(), p) }.into(),
            run: |w, t, m, l| unsafe {
                lawendeb_longest_run_3(w.as_ptr(), w.len(), t.as_ptr(), t.len(), m.as_mut_ptr(), m.len(), l.as_mut_ptr(), l.len())
            },
            runs: |w, a, b, m, l| unsafe {
                let (marks, lengths) = (m.as_mut_ptr(), l.as_mut_ptr());
                lawendeb_longest_runs(w.as_ptr(), w.len(), a.as_ptr(), a.len(), b.as_ptr(), b.len(), marks, m.len(), lengths, l.len())
            },
            nearest: |w, p, m, l| unsafe {
                lawendeb_distance_to_service(w.as_ptr(), w.len(), p, m.as_mut_ptr(), m.len(), l.as_mut_ptr(), l.len())
            },
            within: |w, d, m, l, s| unsafe {
                lawendeb_list_within(w.as_ptr(), w.len(), d, m.as_mut_ptr(), m.len(), l.as_mut_ptr(), l.len(), s.as_mut_ptr(), s.len())
            },
            crossed: |w, p, m, l| unsafe {
                lawendeb_crossing_edges(w.as_ptr(), w.len(), p, m.as_mut_ptr(), m.len(), l.as_mut_ptr(), l.len())
            },
            begin: |m| lend(m, |m| unsafe { lawendeb_begin_4(m) }),
            reset: |m| lend(m, |m| unsafe { lawendeb_reset(m) }),
            feed: |w, t, m, q| lend(m, |m| unsafe { lawendeb_feed_4(w.as_ptr(), w.len(), t.as_ptr(), t.len(), m, q) }),
            feed_all: |w, t, m, list| {
                lend(m, |m| unsafe {
                    lawendeb_begin_4(m);
                    let refused = |&q: &u32| lawendeb_feed_4(w.as_ptr(), w.len(), t.as_ptr(), t.len(), m, q as usize).number != 0;
                    list.iter().map(refused).map(u64::from).sum()
                })
            },
            begin_four: |ms, i| lend_four(ms, |ms| unsafe { lawendeb_begin_four(ms, i) }),
            reset_four: |ms, i| lend_four(ms, |ms| unsafe { lawendeb_reset_four(ms, i) }),
            feed_four: |w, t, ms, i, s, q| {
                lend_four(ms, |ms| unsafe { lawendeb_feed_four(w.as_ptr(), w.len(), t.as_ptr(), t.len(), ms, i, s, q) })
            },
            feed_all_four: |words, t, ms, list| {
                lend_four(ms, |ms| unsafe {
                    for i in 0..4 {
                        lawendeb_begin_four(ms, i);
                    }
                    let refused = |&(i, q): &(u32, u32)| {
                        let w = &words[i as usize];
                        lawendeb_feed_four(w.as_ptr(), w.len(), t.as_ptr(), t.len(), ms, i, ALLOWANCE, q as usize).number != 0
                    };
                    list.iter().map(refused).map(u64::from).sum()
                })
            },
            #[cfg(not(feature = "lua53"))]
            lift: Some(records::lift),
            #[cfg(feature = "lua53")]
            lift: None,
        }
    }

    #[cfg(not(feature = "lua53"))]
    mod records {
        use super::*;
        use model::flat::NUMBERS;

        extern "C" {
            fn lawendeb_lift(
                words: *const u32,
                n: usize,
                tags: *const u8,
                tags_n: usize,
                payloads: *const u64,
                payloads_n: usize,
                names: *const u64,
                names_n: usize,
                bytes: *const u8,
                bytes_n: usize,
                numbers: *mut u64,
                numbers_n: usize,
            ) -> Answer;
        }

        pub fn lift(i: &Input, records: &mut [Record]) -> Answer {
            assert!(i.spare < NUMBERS && i.records * NUMBERS + i.spare <= records.len() * NUMBERS);
            // A record is 53 numbers and nothing else, so its list is one of numbers; the spare ones make no record.
            unsafe {
                lawendeb_lift(
                    i.words.as_ptr(),
                    i.words.len(),
                    i.tags.as_ptr(),
                    i.tags.len(),
                    i.payloads.as_ptr(),
                    i.payloads.len(),
                    i.names.as_ptr(),
                    i.names.len(),
                    i.bytes.as_ptr(),
                    i.bytes.len(),
                    records.as_mut_ptr().cast(),
                    i.records * NUMBERS + i.spare,
                )
            }
        }
    }
}
