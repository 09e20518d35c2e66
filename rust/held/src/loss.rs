//! Recordings of a desk's run as a bus hands it on: whole, lost in parts,
//! repeated, and in another order.

use crate::damage::{put_slot, random_slot};
use crate::desk_regimes::{distance_edges, mixed_churn, search_arrives, slow_churn, twenty_new};
use crate::random::Random;
use crate::turns::long_history;
use plain::desk::Desk;
use plain::run::{put_table, run, TABLE_BYTES};
use plain::telegram::TELEGRAM_BYTES;
use std::sync::OnceLock;

/// A run file of a short history under one of several regimes.
pub fn run_file(random: &mut Random) -> Vec<u8> {
    let lists = match random.below(6) {
        0 => twenty_new(random),
        1 => mixed_churn(random),
        2 => search_arrives(random),
        3 => distance_edges(random),
        _ => slow_churn(random),
    };
    let mut file = Vec::new();
    // A fresh desk's table can be heard like any other.
    if random.once_in(4) {
        put_table(&Desk::new(), &mut file);
    }
    run(&lists, &mut file);
    file
}

/// A run of more than two turns of the step number, made once.
pub fn long_run() -> &'static [u8] {
    static LONG_RUN: OnceLock<Vec<u8>> = OnceLock::new();
    LONG_RUN.get_or_init(|| {
        let mut file = Vec::new();
        run(&long_history(&mut Random::new(1), 20_000), &mut file);
        file
    })
}

pub fn telegrams(file: &[u8]) -> std::slice::ChunksExact<'_, u8> {
    file.chunks_exact(TELEGRAM_BYTES)
}

pub fn heard_whole(random: &mut Random) -> Vec<u8> {
    run_file(random)
}

pub fn steps_lost(random: &mut Random) -> Vec<u8> {
    let mut recording = Vec::new();
    let mut lost = 0;
    for table in run_file(random).chunks_exact(TABLE_BYTES) {
        if lost > 0 {
            lost -= 1;
            continue;
        }
        recording.extend_from_slice(table);
        if random.once_in(3) {
            lost = random.between(1, 12);
        }
    }
    recording
}

pub fn telegrams_lost(random: &mut Random) -> Vec<u8> {
    let mut recording = Vec::new();
    let mut lost = 0;
    let seldom = random.between(3, 40);
    for telegram in telegrams(&run_file(random)) {
        if lost == 0 && random.once_in(seldom) {
            lost = random.pick(&[1, 1, 2, 5, 9, 30]);
        }
        if lost > 0 {
            lost -= 1;
        } else {
            recording.extend_from_slice(telegram);
        }
    }
    recording
}

pub fn thousands_lost(random: &mut Random) -> Vec<u8> {
    let file = long_run();
    let tables = file.len() / TABLE_BYTES;
    let mut recording = Vec::new();
    for _ in 0..12 {
        let mut table = random.below(tables);
        while table < tables {
            let at = table * TABLE_BYTES;
            recording.extend_from_slice(&file[at..at + TABLE_BYTES]);
            let anywhere = random.between(1, 12_000);
            let near_a_turn = random.between(8180, 8204);
            table += random.pick(&[1, 2, 7, 8, 9, 8191, 8192, 8193, near_a_turn, anywhere]);
        }
    }
    recording
}

pub fn repeated(random: &mut Random) -> Vec<u8> {
    let mut recording = Vec::new();
    for telegram in telegrams(&run_file(random)) {
        recording.extend_from_slice(telegram);
        while random.once_in(3) {
            let heard = recording.len() / TELEGRAM_BYTES;
            let back = random.pick(&[1, 1, 2, 3, 4, 5, 6, 10]).min(heard);
            let at = (heard - back) * TELEGRAM_BYTES;
            recording.extend_from_within(at..at + TELEGRAM_BYTES);
        }
    }
    recording
}

pub fn changed_copies(random: &mut Random) -> Vec<u8> {
    let mut recording = Vec::new();
    for telegram in telegrams(&run_file(random)) {
        if random.once_in(3) {
            let mut copy = telegram.to_vec();
            let slot = random_slot(random, 255);
            let at = 2 + 6 * random.below(4);
            put_slot(&mut copy[at..at + 6], &slot);
            if random.once_in(3) {
                recording.extend_from_slice(&copy);
                recording.extend_from_slice(telegram);
            } else {
                recording.extend_from_slice(telegram);
                recording.extend_from_slice(&copy);
            }
        } else {
            recording.extend_from_slice(telegram);
        }
    }
    recording
}

pub fn shuffled(random: &mut Random) -> Vec<u8> {
    let mut recording = Vec::new();
    for table in run_file(random).chunks_exact(TABLE_BYTES) {
        let mut packets: Vec<&[u8]> = telegrams(table).collect();
        random.shuffle(&mut packets);
        recording.extend(packets.concat());
    }
    recording
}

pub fn interleaved(random: &mut Random) -> Vec<u8> {
    let mut recording = Vec::new();
    let file = run_file(random);
    for tables in file.chunks(2 * TABLE_BYTES) {
        let (one, other) = tables.split_at(TABLE_BYTES);
        let (mut one, mut other) = (telegrams(one), telegrams(other));
        // Mostly only a few places are exchanged, so that sets do get whole.
        let often = random.pick(&[2, 6, 20]);
        while one.len() + other.len() > 0 {
            let exchanged = random.once_in(often);
            let next = if exchanged {
                other.next().or_else(|| one.next())
            } else {
                one.next().or_else(|| other.next())
            };
            recording.extend_from_slice(next.unwrap_or_default());
        }
    }
    recording
}

pub fn last_step_again(random: &mut Random) -> Vec<u8> {
    let mut recording = Vec::new();
    let file = run_file(random);
    let all: Vec<&[u8]> = telegrams(&file).collect();
    for (place, telegram) in all.iter().enumerate() {
        recording.extend_from_slice(telegram);
        let last_step = (place / 5 * 5).saturating_sub(5);
        while random.once_in(3) {
            let again = all[last_step + random.below(5)];
            recording.extend_from_slice(again);
        }
    }
    recording
}
