//! How deep a call goes on the stack: paint below it, call, look how far the paint is gone. No large local is used, since the
//! compiler's probes of one would write to each page.

use std::hint::black_box;

const DEPTH: usize = 256 * 1024;
/// What the painting loop itself may stand on.
const MARGIN: usize = 1_024;
const PAINT: u8 = 0x5c;

#[inline(never)]
fn paint(top: usize) {
    for i in MARGIN..DEPTH {
        unsafe { ((top - i) as *mut u8).write_volatile(PAINT) };
    }
}

#[inline(never)]
fn deepest(top: usize) -> usize {
    (MARGIN..DEPTH).rev().find(|&i| unsafe { ((top - i) as *const u8).read_volatile() } != PAINT).unwrap_or(MARGIN)
}

/// Bytes of stack that the call uses, to within the margin.
#[inline(never)]
pub fn used(call: impl FnOnce()) -> String {
    let here = 0u8;
    let top = black_box(&here) as *const u8 as usize;
    paint(top);
    call();
    match deepest(top) {
        MARGIN => format!("under {MARGIN}"),
        depth => format!("{depth}"),
    }
}
