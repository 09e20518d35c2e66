//! Inputs of the hearing: telegrams of any length, each after its length in two
//! bytes.

use crate::damage::{
    byte_damaged, clashes, faulty_slots, low_packets, made_up, voltage_zero_heard,
};
use crate::loss::{run_file, telegrams};
use crate::random::Random;
use crate::regime::{Regime, Times};
use crate::second_words::every_word_heard;
use plain::telegram::TELEGRAM_BYTES;

pub const REGIMES: [Regime; 6] = [
    Regime {
        name: "framed-run",
        sentence: "Every telegram of a run is heard, with some of other lengths in between.",
        make: framed_run,
        times: Times::InTurn,
    },
    Regime {
        name: "framed-lengths",
        sentence: "Telegrams have the lengths 0, 1, 25, 26, 27, 52, 65,535 and any others.",
        make: framed_lengths,
        times: Times::InTurn,
    },
    Regime {
        name: "framed-damaged",
        sentence: "Damaged, clashing and made-up telegrams come, some of other lengths.",
        make: framed_damaged,
        times: Times::InTurn,
    },
    Regime {
        name: "ends-inside-a-telegram",
        sentence: "The input ends inside a telegram or inside its length.",
        make: ends_inside,
        times: Times::InTurn,
    },
    Regime {
        name: "random-frames",
        sentence: "The input is random bytes, with lengths that are mostly small.",
        make: random_frames,
        times: Times::InTurn,
    },
    Regime {
        name: "every-second-word-heard",
        sentence: "Every second word of every type comes, with a first word and without.",
        make: every_word_heard,
        times: Times::Few(1),
    },
];

/// The lengths that have to occur. All but 26 are refused.
pub const LENGTHS: [usize; 7] = [0, 1, 25, 26, 27, 52, 65_535];

fn put(input: &mut Vec<u8>, telegram: &[u8]) {
    input.extend((telegram.len() as u16).to_be_bytes());
    input.extend_from_slice(telegram);
}

/// A telegram cut or lengthened to this length: with bytes of its own again,
/// with zeros, or with bytes by chance.
fn resized(random: &mut Random, telegram: &[u8], length: usize) -> Vec<u8> {
    let mut bytes = telegram.to_vec();
    match random.below(3) {
        0 => bytes = bytes.into_iter().cycle().take(length).collect(),
        1 => bytes.resize(length, 0),
        _ => bytes.resize_with(length, || random.byte()),
    }
    bytes
}

/// A recording with each telegram after its length, and now and then, once in
/// so many times, a telegram of another length before it or in its place.
fn framed(random: &mut Random, recording: &[u8], seldom: usize) -> Vec<u8> {
    let mut input = Vec::new();
    for telegram in telegrams(recording) {
        if random.once_in(seldom) {
            let anything = random.below(80);
            let length = random.pick(&[0, 1, 24, 25, 27, 28, 52, anything]);
            let other = resized(random, telegram, length);
            put(&mut input, &other);
            if random.once_in(4) {
                continue;
            }
        }
        put(&mut input, telegram);
    }
    input
}

fn framed_run(random: &mut Random) -> Vec<u8> {
    let recording = run_file(random);
    let seldom = random.between(4, 60);
    framed(random, &recording, seldom)
}

fn framed_lengths(random: &mut Random) -> Vec<u8> {
    let recording = run_file(random);
    let mut input = Vec::new();
    let mut lengths = LENGTHS.to_vec();
    lengths.extend([2, 24, 28, 51, 53, 78, 130, 256, 282, 65_534]);
    for telegram in telegrams(&recording).take(random.between(5, 60)) {
        // The long ones seldom, because they are most of the bytes.
        let length = random.pick(&lengths);
        if length < 1000 || random.once_in(20) {
            let other = resized(random, telegram, length);
            put(&mut input, &other);
        }
        put(&mut input, telegram);
    }
    input
}

fn framed_damaged(random: &mut Random) -> Vec<u8> {
    let recording = match random.below(6) {
        0 => byte_damaged(random),
        1 => faulty_slots(random),
        2 => low_packets(random),
        3 => made_up(random),
        4 => voltage_zero_heard(random),
        _ => clashes(random),
    };
    let seldom = random.between(3, 40);
    framed(random, &recording, seldom)
}

fn ends_inside(random: &mut Random) -> Vec<u8> {
    let recording = run_file(random);
    let upto = random.between(0, 12) * TELEGRAM_BYTES;
    let mut input = framed(random, &recording[..upto.min(recording.len())], 10);
    match random.below(3) {
        0 => input.push(random.byte()),
        1 => {
            let length = random.between(1, 65_535);
            let there = random.below(length.min(100));
            input.extend((length as u16).to_be_bytes());
            input.extend(random.bytes(there));
        }
        _ => input.truncate(random.below(input.len() + 1)),
    }
    input
}

fn random_frames(random: &mut Random) -> Vec<u8> {
    let mut input = Vec::new();
    for _ in 0..random.between(1, 40) {
        let length = random.pick(&[0, 1, 25, 26, 26, 26, 26, 27, 52]);
        let mut telegram = random.bytes(length);
        // Packets that are 3 to 7, so that the slots are looked at too.
        if let Some(first) = telegram.first_mut() {
            *first = (*first).max(0x60);
        }
        put(&mut input, &telegram);
    }
    if random.once_in(3) {
        let count = random.below(60);
        input.extend(random.bytes(count));
    }
    input
}
