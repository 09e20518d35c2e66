//! Recordings with bytes damaged, out of frame, or made up.

use crate::author::{unfitted, words};
use crate::loss::{long_run, run_file, telegrams};
use crate::random::Random;
use plain::run::TABLE_BYTES;
use plain::telegram::{self, Slot, Table, TELEGRAM_BYTES};

pub fn byte_damaged(random: &mut Random) -> Vec<u8> {
    let mut recording = run_file(random);
    let count = recording.len() / TELEGRAM_BYTES;
    let mut place = random.below(TELEGRAM_BYTES);
    let seldom = random.between(2, 12);
    for telegram in 0..count {
        if random.once_in(seldom) {
            let anything = random.byte();
            let small = random.below(12) as u8;
            recording[telegram * TELEGRAM_BYTES + place] =
                random.pick(&[anything, small, 0, 0x80, 0xFF]);
            place = (place + 1) % TELEGRAM_BYTES;
        }
    }
    recording
}

pub fn bits_flipped(random: &mut Random) -> Vec<u8> {
    let mut recording = run_file(random);
    let bits = recording.len() * 8;
    let flips = bits / TELEGRAM_BYTES / 8 / random.between(2, 30);
    for _ in 0..flips {
        let bit = random.below(bits);
        recording[bit / 8] ^= 1 << (bit % 8);
        if random.once_in(4) {
            let near = (bit + random.below(40)).min(bits - 1);
            recording[near / 8] ^= 1 << (near % 8);
        }
    }
    recording
}

pub fn out_of_frame(random: &mut Random) -> Vec<u8> {
    let mut recording = run_file(random);
    for _ in 0..random.between(1, 4) {
        let at = random.below(recording.len());
        let count = random.between(1, 26);
        if random.once_in(2) {
            let put = random.bytes(count);
            recording.splice(at..at, put);
        } else {
            let upto = (at + count).min(recording.len());
            recording.drain(at..upto);
        }
    }
    recording
}

/// A good slot whose number is one of 1 to the highest.
pub fn random_slot(random: &mut Random, highest: usize) -> Slot {
    let kind = random.pick(&[1, 1, 2, 3, 4, 5, 6, 7, 8, 9]);
    Slot {
        number: random.between(1, highest) as u8,
        condition: words(random, kind),
    }
}

pub fn put_slot(place: &mut [u8], slot: &Slot) {
    let [f0, f1] = slot.condition.first.to_be_bytes();
    let [s0, s1] = slot.condition.second.to_be_bytes();
    place.copy_from_slice(&[slot.number, slot.condition.kind, f0, f1, s0, s1]);
}

/// A table whose numbers are all different, taken from 1 to the highest.
fn random_table(random: &mut Random, highest: usize) -> Table {
    let mut numbers: Vec<u8> = (1..=highest as u8).collect();
    random.shuffle(&mut numbers);
    let seldom = random.between(1, 4);
    let mut table = Table::default();
    for (slot, number) in table.iter_mut().zip(numbers) {
        if random.once_in(seldom) {
            *slot = random_slot(random, 1);
            slot.number = number;
        }
    }
    table
}

fn put_packet(recording: &mut Vec<u8>, step: u16, table: &Table, packet: u8) {
    let mut telegram = [0; TELEGRAM_BYTES];
    let written = telegram::write(step, table, packet, &mut telegram);
    assert!(written.is_ok(), "packets here are 3 to 7");
    recording.extend_from_slice(&telegram);
}

fn jump(random: &mut Random, step: u16) -> u16 {
    let anywhere = random.below(8192) as u16;
    let by = random.pick(&[0, 1, 1, 1, 2, 3, 7, 8, 9, 10, 8190, 8191, anywhere]);
    (step + by) % 8192
}

pub fn made_up(random: &mut Random) -> Vec<u8> {
    let mut recording = Vec::new();
    let mut step = random.below(8192) as u16;
    let highest = random.pick(&[20, 24, 40, 255]);
    for _ in 0..60 {
        step = jump(random, step);
        let mut table = random_table(random, highest);
        for _ in 0..random.pick(&[0, 0, 0, 1, 2]) {
            let place = random.below(20);
            table[place] = random_slot(random, highest);
        }
        let mut packets = [3, 4, 5, 6, 7];
        if random.once_in(4) {
            random.shuffle(&mut packets);
        }
        for packet in packets {
            if !random.once_in(30) {
                put_packet(&mut recording, step, &table, packet);
            }
        }
    }
    recording
}

pub fn clashes(random: &mut Random) -> Vec<u8> {
    let mut recording = Vec::new();
    let mut step = random.below(8192) as u16;
    for _ in 0..40 {
        step = jump(random, step);
        let good = random_table(random, 30);
        let mut bad = good;
        // The same number in two packets, mostly with the same type.
        let (from, to) = (random.below(20), random.below(20));
        bad[to] = bad[from];
        if random.once_in(3) {
            bad[to].condition = words(random, 2);
            bad[to].number = bad[from].number.max(1);
        }
        let mut packets = [3, 4, 5, 6, 7];
        random.shuffle(&mut packets);
        for packet in packets {
            put_packet(&mut recording, step, &bad, packet);
            if random.once_in(6) {
                put_packet(&mut recording, step, &good, packet);
            }
        }
        // Heard again, from any packet on, good or bad, whole or not.
        for _ in 0..random.below(3) {
            let again = if random.once_in(3) { &bad } else { &good };
            random.shuffle(&mut packets);
            let count = random.pick(&[1, 2, 4, 5, 5, 5]);
            for &packet in &packets[..count] {
                put_packet(&mut recording, step, again, packet);
            }
        }
    }
    recording
}

pub fn faulty_slots(random: &mut Random) -> Vec<u8> {
    let mut recording = run_file(random);
    for telegram in recording.chunks_exact_mut(TELEGRAM_BYTES) {
        if !random.once_in(3) {
            continue;
        }
        for _ in 0..random.between(1, 2) {
            let place = random.below(4);
            let at = 2 + 6 * place;
            match random.below(5) {
                0 => telegram[at] = 0,
                1 => telegram[at + 1] = random.pick(&[0, 10, 11, 255]),
                2 => {
                    let second = random.pick(&[6, 0x4000, 0x8000, 1001, 1022, 1023, 1024]);
                    telegram[at + 1] = random.pick(&[4, 5]);
                    telegram[at + 2] = random.pick(&[0, 0x80]);
                    telegram[at + 3] = 0;
                    telegram[at + 4..at + 6].copy_from_slice(&u16::to_be_bytes(second));
                }
                3 => telegram[at] = telegram[2 + 6 * random.below(4)],
                _ => {
                    let other = 2 + 6 * random.below(4);
                    telegram.copy_within(other..other + 6, at);
                }
            }
        }
    }
    recording
}

/// Slots of type 4 as another writer may send them: the numbers stay from step
/// to step, while countries come with voltage 0 and without it.
pub fn voltage_zero_heard(random: &mut Random) -> Vec<u8> {
    let mut recording = Vec::new();
    let mut step = random.below(8192) as u16;
    let occupied = random.between(1, 8);
    for _ in 0..60 {
        step = (step + random.pick(&[1, 1, 1, 2, 8, 9])) % 8192;
        let mut table = Table::default();
        for (slot, number) in table.iter_mut().zip(1..=20).take(occupied) {
            *slot = Slot {
                number,
                condition: unfitted(random),
            };
        }
        for packet in 3..=7 {
            put_packet(&mut recording, step, &table, packet);
        }
    }
    recording
}

pub fn tails(random: &mut Random) -> Vec<u8> {
    let mut recording = run_file(random);
    let tables = random.below(4);
    recording.truncate(tables * TABLE_BYTES);
    let more = random.below(5) * TELEGRAM_BYTES + random.below(TELEGRAM_BYTES);
    if random.once_in(2) {
        recording.extend(random.bytes(more));
    } else {
        let file = run_file(random);
        recording.extend_from_slice(&file[..more]);
    }
    recording
}

pub fn random_recordings(random: &mut Random) -> Vec<u8> {
    let length = random.pick(&[1, 26, 130, 1000, 4000]);
    let length = random.below(length + 1);
    random.bytes(length)
}

pub fn low_packets(random: &mut Random) -> Vec<u8> {
    let mut recording = Vec::new();
    for telegram in telegrams(&run_file(random)) {
        if random.once_in(4) {
            let mut low = telegram.to_vec();
            low[0] = low[0] & 0x1F | (random.below(3) as u8) << 5;
            if random.once_in(3) {
                low[2..].fill_with(|| random.byte());
            }
            recording.extend(low);
        }
        recording.extend_from_slice(telegram);
    }
    recording
}

pub fn long_recording(random: &mut Random) -> Vec<u8> {
    let mut recording = Vec::new();
    let from = random.below(2000);
    for table in long_run().chunks_exact(TABLE_BYTES).skip(from).take(8400) {
        for telegram in telegrams(table) {
            if !random.once_in(60) {
                recording.extend_from_slice(telegram);
            }
        }
    }
    recording
}
