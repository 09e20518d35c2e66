//! Inputs of the signals: train calls, each after its length in two bytes.

use crate::random::Random;
use crate::regime::{Regime, Times};

pub const REGIMES: [Regime; 11] = [
    Regime {
        name: "cab-and-brake",
        sentence: "Every pair of cab bits comes with every brake number.",
        make: cab_and_brake,
        times: Times::InTurn,
    },
    Regime {
        name: "isolation-bits",
        sentence: "Every national system has every pair of isolation bits.",
        make: isolation_bits,
        times: Times::InTurn,
    },
    Regime {
        name: "traction-bits",
        sentence: "Every bit of the traction systems comes alone and among others.",
        make: traction_bits,
        times: Times::InTurn,
    },
    Regime {
        name: "zero-bits",
        sentence: "Every zero bit is set alone, and now and then two of them.",
        make: zero_bits,
        times: Times::InTurn,
    },
    Regime {
        name: "byte-0",
        sentence: "Byte 0 has every value.",
        make: byte_0,
        times: Times::InTurn,
    },
    Regime {
        name: "wrong-lengths",
        sentence: "Telegrams have the lengths 0 to 60 and some long ones.",
        make: wrong_lengths,
        times: Times::InTurn,
    },
    Regime {
        name: "no-telegram",
        sentence: "Runs of 1 to 5 calls without a telegram come between others.",
        make: no_telegram,
        times: Times::InTurn,
    },
    Regime {
        name: "mixed-calls",
        sentence: "Good, refused and missing telegrams come in any order.",
        make: mixed_calls,
        times: Times::InTurn,
    },
    Regime {
        name: "two-train-faults",
        sentence: "Telegrams have two or three of the faults 10, 16 and 17.",
        make: two_faults,
        times: Times::InTurn,
    },
    Regime {
        name: "random-calls",
        sentence: "Telegrams, or the whole input, are random bytes.",
        make: random_calls,
        times: Times::InTurn,
    },
    Regime {
        name: "ends-inside-a-call",
        sentence: "The input ends inside a call or inside its length.",
        make: ends_inside,
        times: Times::InTurn,
    },
];

/// A telegram that is accepted, with states by chance.
pub fn good(random: &mut Random) -> [u8; 26] {
    let mut telegram = [0; 26];
    telegram[0] = 1;
    telegram[1] = random.byte() & 3;
    telegram[2] = random.byte() & 7;
    let isolated = random.word();
    // Mostly the inverse is one, so that valid states are seen too.
    let broken = if random.once_in(2) {
        0
    } else {
        random.word() & random.word()
    };
    telegram[3..5].copy_from_slice(&isolated.to_be_bytes());
    telegram[5..7].copy_from_slice(&(!isolated ^ broken).to_be_bytes());
    for byte in &mut telegram[7..11] {
        *byte = random.byte();
    }
    telegram[10] &= !1;
    telegram
}

pub fn put(input: &mut Vec<u8>, telegram: &[u8]) {
    input.extend((telegram.len() as u16).to_be_bytes());
    input.extend_from_slice(telegram);
}

pub fn put_none(input: &mut Vec<u8>) {
    input.extend([0xFF, 0xFF]);
}

fn put_good_now_and_then(input: &mut Vec<u8>, random: &mut Random) {
    if random.once_in(3) {
        let telegram = good(random);
        put(input, &telegram);
    }
}

fn cab_and_brake(random: &mut Random) -> Vec<u8> {
    let mut input = Vec::new();
    for cab in 0..4 {
        for brake in 0..8 {
            let mut telegram = good(random);
            telegram[1] = cab;
            telegram[2] = brake;
            put(&mut input, &telegram);
            if random.once_in(4) {
                put_none(&mut input);
            }
        }
    }
    input
}

fn isolation_bits(random: &mut Random) -> Vec<u8> {
    let mut input = Vec::new();
    for bit in 0..16 {
        for pair in 0..4u16 {
            let mut telegram = good(random);
            for (at, one) in [(3, pair & 1), (5, pair >> 1)] {
                let word = u16::from_be_bytes([telegram[at], telegram[at + 1]]);
                let word = word & !(1 << bit) | one << bit;
                telegram[at..at + 2].copy_from_slice(&word.to_be_bytes());
            }
            put(&mut input, &telegram);
        }
    }
    input
}

fn traction_bits(random: &mut Random) -> Vec<u8> {
    let mut input = Vec::new();
    for bit in 0..32 {
        let mut telegram = good(random);
        if random.once_in(2) {
            telegram[7..11].fill(0);
        }
        telegram[10 - bit / 8] ^= 1 << (bit % 8);
        put(&mut input, &telegram);
    }
    input
}

/// The places of the zero bits, counted from bit 0 of byte 0.
fn zero_places() -> impl Iterator<Item = usize> {
    (10..16).chain(19..24).chain([80]).chain(88..208)
}

fn zero_bits(random: &mut Random) -> Vec<u8> {
    let mut input = Vec::new();
    for bit in zero_places() {
        put_good_now_and_then(&mut input, random);
        let mut telegram = good(random);
        telegram[bit / 8] |= 1 << (bit % 8);
        if random.once_in(8) {
            let other = random.between(88, 207);
            telegram[other / 8] |= 1 << (other % 8);
        }
        put(&mut input, &telegram);
    }
    input
}

fn byte_0(random: &mut Random) -> Vec<u8> {
    let mut input = Vec::new();
    let from = random.byte() & 0xC0;
    // A quarter of the values in a case; four cases have them all.
    for first in from..=from | 0x3F {
        put_good_now_and_then(&mut input, random);
        let mut telegram = good(random);
        telegram[0] = first;
        put(&mut input, &telegram);
    }
    input
}

fn wrong_lengths(random: &mut Random) -> Vec<u8> {
    let mut input = Vec::new();
    let mut lengths: Vec<usize> = (0..=60).collect();
    lengths.push(random.between(61, 2000));
    if random.once_in(50) {
        lengths.push(65_534);
    }
    random.shuffle(&mut lengths);
    for length in lengths {
        put_good_now_and_then(&mut input, random);
        let mut telegram = good(random).to_vec();
        telegram.resize(length, 0);
        put(&mut input, &telegram);
    }
    input
}

fn no_telegram(random: &mut Random) -> Vec<u8> {
    let mut input = Vec::new();
    for _ in 0..12 {
        for _ in 0..random.below(3) {
            let mut telegram = good(random);
            if random.once_in(4) {
                telegram[random.pick(&[0, 25])] = 2;
            }
            put(&mut input, &telegram);
        }
        for _ in 0..random.between(1, 5) {
            put_none(&mut input);
        }
    }
    input
}

fn mixed_calls(random: &mut Random) -> Vec<u8> {
    let mut input = Vec::new();
    for _ in 0..60 {
        let mut telegram = good(random);
        match random.below(6) {
            0 => put_none(&mut input),
            1 => put(&mut input, &[]),
            2 => {
                telegram[0] = random.pick(&[0, 2, 255]);
                put(&mut input, &telegram);
            }
            3 => {
                telegram[random.between(11, 25)] = random.byte();
                put(&mut input, &telegram);
            }
            _ => put(&mut input, &telegram),
        }
    }
    input
}

fn two_faults(random: &mut Random) -> Vec<u8> {
    let mut input = Vec::new();
    let places: Vec<usize> = zero_places().collect();
    for _ in 0..50 {
        put_good_now_and_then(&mut input, random);
        let mut telegram = good(random).to_vec();
        if random.once_in(2) {
            telegram[0] = random.byte();
        }
        if random.once_in(2) {
            let bit = random.pick(&places);
            telegram[bit / 8] |= 1 << (bit % 8);
        }
        if random.once_in(3) {
            telegram.resize(random.pick(&[0, 1, 25, 27, 28]), 0);
        }
        put(&mut input, &telegram);
    }
    input
}

fn random_calls(random: &mut Random) -> Vec<u8> {
    if random.once_in(4) {
        let length = random.below(200);
        return random.bytes(length);
    }
    let mut input = Vec::new();
    for _ in 0..40 {
        let mut telegram = random.bytes(26);
        if random.once_in(2) {
            telegram[0] = 1;
            telegram[11..].fill(0);
        }
        if random.once_in(2) {
            telegram[1] &= 3;
            telegram[2] &= 7;
        }
        put(&mut input, &telegram);
    }
    input
}

fn ends_inside(random: &mut Random) -> Vec<u8> {
    let mut input = Vec::new();
    for _ in 0..random.below(6) {
        let telegram = good(random);
        put(&mut input, &telegram);
    }
    match random.below(4) {
        0 => input.push(random.pick(&[0, 26, 255])),
        1 => {
            let length = random.between(1, 65_534);
            let there = random.below(length.min(60));
            input.extend((length as u16).to_be_bytes());
            input.extend(random.bytes(there));
        }
        2 => {
            let telegram = good(random);
            put(&mut input, &telegram);
            input.truncate(random.below(input.len()));
        }
        _ => put_none(&mut input),
    }
    input
}
