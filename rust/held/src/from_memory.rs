//! Times a function of the proved library and its plain counterpart on an
//! input in memory.

use crate::hold::Function;
use crate::measured::Measured;
use std::hint::black_box;
use std::time::Instant;

pub fn measure(function: &Function, input: &[u8], times: u32) -> Measured {
    let mut plain = Vec::new();
    (function.plain)(input, &mut plain);
    // Both buffers have the right size and every page of them was written
    // before the first measured run.
    let mut lent = vec![0xAA; plain.len()];
    let mut measured = Measured::new(input.len(), plain.len());
    for _ in 0..times {
        let start = Instant::now();
        let answer = (function.proved)(black_box(input), black_box(&mut lent));
        let proved_time = start.elapsed();
        plain.clear();
        let start = Instant::now();
        (function.plain)(black_box(input), black_box(&mut plain));
        measured.turn(proved_time, start.elapsed());
        measured.same &= answer == plain.len() && lent == plain;
    }
    measured
}
