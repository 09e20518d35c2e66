//! The inputs that `bench` measures on, of any size.

use crate::author::Author;
use crate::random::Random;
use crate::signal_regimes::{good, put, put_none};

/// Lists of about twelve live orders of all types, some new in each step.
pub fn lists(count: usize) -> Vec<u8> {
    let mut random = Random::new(1435);
    let mut author = Author::new(&mut random);
    author.begin(12);
    for _ in 0..count {
        let ended = author.random.below(4);
        author.end(ended);
        let wanted = author.random.between(11, 13);
        let begun = wanted.saturating_sub(author.live.len());
        author.begin(begun);
        author.change_words();
        author.put_live();
    }
    author.input
}

/// The tables of a desk that is handed these lists, as telegrams.
pub fn recording(tables: usize) -> Vec<u8> {
    let mut recording = Vec::new();
    plain::run::run(&lists(tables), &mut recording);
    recording
}

/// Mostly good telegrams; one call in twenty is a miss of some kind.
pub fn calls(count: usize) -> Vec<u8> {
    let mut random = Random::new(1435);
    let mut input = Vec::new();
    for _ in 0..count {
        let mut telegram = good(&mut random);
        match random.below(40) {
            0 => put_none(&mut input),
            1 => {
                telegram[25] = 1;
                put(&mut input, &telegram);
            }
            _ => put(&mut input, &telegram),
        }
    }
    input
}
