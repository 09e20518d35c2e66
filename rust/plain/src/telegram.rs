//! Document 01, "Telegrams": writing a packet of a table, and reading one.
//! The refusals are those of "Refusal numbers", 9 to 14 and 6.

use crate::condition::{is_type, second_is_allowed, Condition};
use crate::refusal::Refusal;

/// Bytes of a telegram, without the safety trailer, which is not ours.
pub const TELEGRAM_BYTES: usize = 26;

pub const FIRST_PACKET: u8 = 3;
pub const LAST_PACKET: u8 = 7;

/// Packets of a table.
pub const PACKETS: usize = 5;

pub const SLOTS: usize = 20;
pub const SLOTS_OF_A_PACKET: usize = 4;
const SLOT_BYTES: usize = 6;
const HEAD_BYTES: usize = 2;

/// A slot as telegrams carry it. Number 0 stands for an empty slot, and the
/// condition of an empty slot is all zero.
#[derive(Clone, Copy, PartialEq, Eq, Debug, Default)]
pub struct Slot {
    pub number: u8,
    pub condition: Condition,
}

pub type Table = [Slot; SLOTS];

/// Writes one packet of a table into a lent buffer: refusals 9 and 10. A
/// refused buffer keeps every byte.
pub fn write(step: u16, table: &Table, packet: u8, buffer: &mut [u8]) -> Result<(), Refusal> {
    if !(FIRST_PACKET..=LAST_PACKET).contains(&packet) {
        return Err(Refusal::PacketAskedFor);
    }
    let Ok(bytes) = <&mut [u8; TELEGRAM_BYTES]>::try_from(buffer) else {
        return Err(Refusal::Length);
    };
    let (head, rest) = bytes.split_at_mut(HEAD_BYTES);
    head.copy_from_slice(&(u16::from(packet) << 13 | step).to_be_bytes());
    let from = first_slot(packet);
    let slots = &table[from..from + SLOTS_OF_A_PACKET];
    for (place, slot) in rest.chunks_exact_mut(SLOT_BYTES).zip(slots) {
        let [f0, f1] = slot.condition.first.to_be_bytes();
        let [s0, s1] = slot.condition.second.to_be_bytes();
        place.copy_from_slice(&[slot.number, slot.condition.kind, f0, f1, s0, s1]);
    }
    Ok(())
}

/// The first of the four slots that a packet carries.
pub fn first_slot(packet: u8) -> usize {
    SLOTS_OF_A_PACKET * usize::from(packet - FIRST_PACKET)
}

/// A telegram that was read and not refused.
#[derive(Clone, Copy, PartialEq, Eq, Debug)]
pub struct Telegram {
    pub packet: u8,
    pub step: u16,
    pub slots: [Slot; SLOTS_OF_A_PACKET],
}

/// Reads a heard telegram: 10, 11, then the first bad slot, within it 12, 13,
/// 6 and 14.
pub fn read(bytes: &[u8]) -> Result<Telegram, Refusal> {
    let Ok(bytes) = <&[u8; TELEGRAM_BYTES]>::try_from(bytes) else {
        return Err(Refusal::Length);
    };
    let head = u16::from_be_bytes([bytes[0], bytes[1]]);
    let packet = (head >> 13) as u8;
    if packet < FIRST_PACKET {
        return Err(Refusal::PacketHeard);
    }
    let mut slots = [Slot::default(); SLOTS_OF_A_PACKET];
    for place in 0..SLOTS_OF_A_PACKET {
        let at = HEAD_BYTES + SLOT_BYTES * place;
        let slot = read_slot(&bytes[at..at + SLOT_BYTES])?;
        let earlier = &slots[..place];
        if slot.number != 0 && earlier.iter().any(|other| other.number == slot.number) {
            return Err(Refusal::NumberTwiceInTelegram);
        }
        slots[place] = slot;
    }
    Ok(Telegram {
        packet,
        step: head & 0x1FFF,
        slots,
    })
}

/// What a slot shows by itself: refusals 12, 13 and 6.
fn read_slot(bytes: &[u8]) -> Result<Slot, Refusal> {
    let number = bytes[0];
    let kind = bytes[1];
    let first = u16::from_be_bytes([bytes[2], bytes[3]]);
    let second = u16::from_be_bytes([bytes[4], bytes[5]]);
    if number == 0 {
        if kind != 0 || first != 0 || second != 0 {
            return Err(Refusal::EmptySlotNotZero);
        }
        return Ok(Slot::default());
    }
    if !is_type(kind) {
        return Err(Refusal::SlotType);
    }
    if !second_is_allowed(kind, first, second) {
        return Err(Refusal::SecondWord);
    }
    Ok(Slot {
        number,
        condition: Condition::held(kind, first, second),
    })
}

#[cfg(test)]
mod tests {
    use super::*;

    fn slot(number: u8, kind: u8, first: u16, second: u16) -> Slot {
        Slot {
            number,
            condition: Condition::held(kind, first, second),
        }
    }

    #[test]
    fn a_packet_carries_its_four_slots() {
        let mut table = Table::default();
        for (place, entry) in table.iter_mut().enumerate() {
            *entry = slot(place as u8 + 1, 1, 0x0100 + place as u16, 0xFF00);
        }
        for packet in 3..=7 {
            let mut bytes = [0xAA; 26];
            write(8191, &table, packet, &mut bytes).unwrap();
            assert_eq!(bytes[0], packet << 5 | 0x1F);
            assert_eq!(bytes[1], 0xFF);
            let from = 4 * (packet - 3);
            assert_eq!(bytes[2..8], [from + 1, 1, 1, from, 0xFF, 0]);
            let telegram = read(&bytes).unwrap();
            assert_eq!(telegram.packet, packet);
            assert_eq!(telegram.step, 8191);
            assert_eq!(telegram.slots, table[from as usize..from as usize + 4]);
        }
    }

    #[test]
    fn an_empty_slot_is_six_zero_bytes() {
        let mut bytes = [0xAA; 26];
        write(1, &Table::default(), 4, &mut bytes).unwrap();
        assert_eq!(bytes[..2], [0x80, 0x01]);
        assert_eq!(bytes[2..], [0; 24]);
    }

    #[test]
    fn writing_refuses_9_then_10_and_changes_no_byte() {
        let table = Table::default();
        for packet in [0, 1, 2, 8, 255] {
            let mut short = [0xAA; 25];
            let answer = write(0, &table, packet, &mut short);
            assert_eq!(answer, Err(Refusal::PacketAskedFor));
            assert_eq!(short, [0xAA; 25]);
            let mut whole = [0xAA; 26];
            let answer = write(0, &table, packet, &mut whole);
            assert_eq!(answer, Err(Refusal::PacketAskedFor));
            assert_eq!(whole, [0xAA; 26]);
        }
        for length in [0, 25, 27, 52] {
            let mut buffer = vec![0xAA; length];
            assert_eq!(write(0, &table, 3, &mut buffer), Err(Refusal::Length));
            assert_eq!(buffer, vec![0xAA; length]);
        }
    }

    #[test]
    fn hearing_refuses_10_then_11() {
        for length in (0..60).filter(|&length| length != 26) {
            assert_eq!(read(&vec![0; length]), Err(Refusal::Length), "{length}");
        }
        for packet in 0..3 {
            let mut bytes = [0xFF; 26];
            bytes[0] = packet << 5;
            assert_eq!(read(&bytes), Err(Refusal::PacketHeard));
        }
    }

    /// A telegram with one fault for each refusal in one slot; faults are
    /// mended one by one and each time the next refusal shows.
    #[test]
    fn within_a_slot_12_13_6_14_come_in_this_order() {
        let mut bytes = [0; 26];
        bytes[0] = 0x60;
        bytes[2..8].copy_from_slice(&[7, 1, 0, 0, 0, 0]);
        bytes[8..14].copy_from_slice(&[0, 10, 0, 0, 0x40, 0]);
        assert_eq!(read(&bytes), Err(Refusal::EmptySlotNotZero));
        bytes[8] = 7;
        assert_eq!(read(&bytes), Err(Refusal::SlotType));
        bytes[9] = 4;
        assert_eq!(read(&bytes), Err(Refusal::SecondWord));
        bytes[12] = 0;
        assert_eq!(read(&bytes), Err(Refusal::NumberTwiceInTelegram));
        bytes[8] = 8;
        assert!(read(&bytes).is_ok());
    }

    #[test]
    fn the_first_bad_slot_decides() {
        let mut bytes = [0; 26];
        bytes[0] = 0x60;
        bytes[2..8].copy_from_slice(&[7, 5, 0, 0, 0xFF, 0xFF]);
        bytes[8..14].copy_from_slice(&[0, 0, 0, 0, 0, 1]);
        assert_eq!(read(&bytes), Err(Refusal::SecondWord));
        bytes[2..8].copy_from_slice(&[7, 5, 0x80, 0, 0xFF, 0xFF]);
        assert_eq!(read(&bytes), Err(Refusal::EmptySlotNotZero));
        bytes[8..14].copy_from_slice(&[0; 6]);
        assert_eq!(read(&bytes).unwrap().slots[0], slot(7, 5, 0x8000, 0));
        bytes[20..26].copy_from_slice(&[7, 1, 0, 0, 0, 0]);
        assert_eq!(read(&bytes), Err(Refusal::NumberTwiceInTelegram));
    }

    #[test]
    fn every_byte_of_an_empty_slot_must_be_zero() {
        for place in (2..26).filter(|place| (place - 2) % 6 != 0) {
            let mut bytes = [0; 26];
            bytes[0] = 0x60;
            bytes[place] = 1;
            assert_eq!(read(&bytes), Err(Refusal::EmptySlotNotZero), "{place}");
        }
    }
}
