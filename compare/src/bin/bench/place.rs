//! Where stack and heap lie. Times depend on it, and it changes from process to process: so each turn has another place, the same for
//! both sides.

use std::hint::black_box;

/// Calls f with the stack `depth` frames further down.
#[inline(never)]
fn deeper(depth: u32, f: &mut dyn FnMut() -> f64) -> f64 {
    let frame = black_box([0u8; 64]);
    let answer = if depth == 0 {
        f()
    } else {
        deeper(depth - 1, f)
    };
    black_box(&frame);
    answer
}

/// Calls f at the i-th place: both shifts go through a page in steps that do not repeat soon.
pub fn at_place(i: u32, f: &mut dyn FnMut() -> f64) -> f64 {
    let shift = vec![0u8; 16 + 16 * (i as usize * 67 % 256)];
    let answer = deeper(i * 13 % 41, f);
    black_box(&shift);
    answer
}
