//! Document 01, "The listener": it hears telegrams and holds a picture.

use crate::refusal::Refusal;
use crate::step;
use crate::telegram::{self, first_slot, Table, FIRST_PACKET, PACKETS, SLOTS_OF_A_PACKET};

/// The gaps over which an entry can be carried: while eight tables in a row go
/// without an ended number, the same number is the same order.
const CARRYING: std::ops::RangeInclusive<u16> = 1..=8;

const ALL_HELD: u8 = (1 << PACKETS) - 1;

/// What a telegram that was not refused has brought.
#[derive(Clone, Copy, PartialEq, Eq, Debug)]
pub enum Heard {
    /// A telegram of the step last taken, or a packet held already.
    Repeat,
    /// One more packet of the set in hand.
    Held,
    /// The fifth packet: the picture is the new table.
    Taken,
}

/// The table last taken, with what was found out when it was taken.
#[derive(Clone, Copy, PartialEq, Eq, Debug)]
pub struct Picture {
    pub step: u16,
    pub gap: u16,
    pub table: Table,
    /// One bit for each slot whose entry is carried.
    pub carried: u32,
}

#[derive(Clone)]
pub struct Listener {
    /// None until the first table is taken.
    picture: Option<Picture>,
    /// The type that each number has in the picture, 0 for a number that is
    /// not there. Carried is judged by number, wherever its slot is.
    types: [u8; 256],
    /// The set in hand: its step, a bit for each packet held, its slots. No
    /// set is in hand when no packet is held.
    set_step: u16,
    held: u8,
    set: Table,
}

impl Default for Listener {
    fn default() -> Listener {
        Listener::new()
    }
}

impl Listener {
    pub fn new() -> Listener {
        Listener {
            picture: None,
            types: [0; 256],
            set_step: 0,
            held: 0,
            set: Table::default(),
        }
    }

    /// None until the first table is taken.
    pub fn picture(&self) -> Option<&Picture> {
        self.picture.as_ref()
    }

    pub fn hear(&mut self, bytes: &[u8]) -> Result<Heard, Refusal> {
        let telegram = telegram::read(bytes)?;
        let last = self.picture.as_ref().map(|picture| picture.step);
        // A repeat of the last step leaves a set in hand alone.
        if last == Some(telegram.step) {
            return Ok(Heard::Repeat);
        }
        if self.held != 0 && self.set_step != telegram.step {
            self.held = 0;
        }
        let packet = 1 << (telegram.packet - FIRST_PACKET);
        if self.held & packet != 0 {
            return Ok(Heard::Repeat);
        }
        self.set_step = telegram.step;
        self.held |= packet;
        let from = first_slot(telegram.packet);
        self.set[from..from + SLOTS_OF_A_PACKET].copy_from_slice(&telegram.slots);
        if self.held != ALL_HELD {
            return Ok(Heard::Held);
        }
        // Taken or refused, no set is in hand afterwards.
        self.held = 0;
        if numbers_clash(&self.set) {
            return Err(Refusal::NumberTwiceInSet);
        }
        self.take(last);
        Ok(Heard::Taken)
    }

    fn take(&mut self, last: Option<u16>) {
        // A fresh listener reports the gap 0, which carries nothing.
        let gap = last.map_or(0, |last| step::gap(self.set_step, last));
        let mut carried = 0;
        if CARRYING.contains(&gap) {
            for (place, slot) in self.set.iter().enumerate() {
                let known = self.types[usize::from(slot.number)];
                if slot.number != 0 && known == slot.condition.kind {
                    carried |= 1 << place;
                }
            }
        }
        if let Some(picture) = &self.picture {
            for slot in &picture.table {
                self.types[usize::from(slot.number)] = 0;
            }
        }
        for slot in &self.set {
            self.types[usize::from(slot.number)] = slot.condition.kind;
        }
        self.picture = Some(Picture {
            step: self.set_step,
            gap,
            table: self.set,
            carried,
        });
    }
}

fn numbers_clash(table: &Table) -> bool {
    let mut seen = [0u64; 4];
    let mut occupied = 0;
    for slot in table {
        let number = usize::from(slot.number);
        seen[number / 64] |= 1 << (number % 64);
        occupied += u32::from(number != 0);
    }
    // Empty slots are no clash, so the bit of number 0 does not count.
    seen[0] &= !1;
    let different: u32 = seen.iter().map(|word| word.count_ones()).sum();
    different != occupied
}

#[cfg(test)]
mod tests {
    use super::*;
    use crate::condition::Condition;
    use crate::telegram::Slot;

    /// The five telegrams of a table that has these (slot, number, type).
    fn packets(step: u16, entries: &[(usize, u8, u8)]) -> [[u8; 26]; 5] {
        let mut table = Table::default();
        for &(place, number, kind) in entries {
            let condition = Condition::held(kind, 0, 0);
            table[place] = Slot { number, condition };
        }
        let mut bytes = [[0; 26]; 5];
        for (packet, buffer) in (3..=7).zip(&mut bytes) {
            telegram::write(step, &table, packet, buffer).unwrap();
        }
        bytes
    }

    fn hear_all(listener: &mut Listener, packets: &[[u8; 26]; 5]) -> Result<Heard, Refusal> {
        for packet in &packets[..4] {
            assert_eq!(listener.hear(packet), Ok(Heard::Held));
        }
        listener.hear(&packets[4])
    }

    fn take(listener: &mut Listener, step: u16, entries: &[(usize, u8, u8)]) -> Picture {
        let answer = hear_all(listener, &packets(step, entries));
        assert_eq!(answer, Ok(Heard::Taken));
        *listener.picture().unwrap()
    }

    #[test]
    fn the_first_table_is_all_new_with_gap_0() {
        let mut listener = Listener::new();
        let picture = take(&mut listener, 0, &[(0, 1, 1)]);
        assert_eq!((picture.step, picture.gap, picture.carried), (0, 0, 0));
    }

    #[test]
    fn an_entry_is_carried_by_number_and_type_and_not_by_slot() {
        let mut listener = Listener::new();
        take(&mut listener, 1, &[(0, 1, 1), (1, 2, 2), (2, 3, 3)]);
        let entries = [(0, 2, 2), (1, 1, 2), (2, 4, 3), (19, 3, 3)];
        let picture = take(&mut listener, 2, &entries);
        assert_eq!(picture.carried, 1 | 1 << 19);
        // The picture before the last is forgotten.
        let picture = take(&mut listener, 3, &[(0, 1, 1), (1, 2, 2)]);
        assert_eq!(picture.carried, 1 << 1);
    }

    #[test]
    fn gap_8_carries_and_gap_9_does_not() {
        for (gap, carried) in [(1, 1), (7, 1), (8, 1), (9, 0), (8191, 0)] {
            for last in [0, 5, 8185, 8191] {
                let mut listener = Listener::new();
                take(&mut listener, last, &[(0, 1, 1)]);
                let picture = take(&mut listener, (last + gap) % 8192, &[(0, 1, 1)]);
                assert_eq!((picture.gap, picture.carried), (gap, carried));
            }
        }
    }

    #[test]
    fn a_repeat_of_the_last_step_leaves_the_set_in_hand() {
        let mut listener = Listener::new();
        take(&mut listener, 1, &[(0, 1, 1)]);
        let next = packets(2, &[(0, 1, 1)]);
        for packet in &next[..4] {
            assert_eq!(listener.hear(packet), Ok(Heard::Held));
        }
        for packet in &packets(1, &[(0, 9, 9)]) {
            assert_eq!(listener.hear(packet), Ok(Heard::Repeat));
        }
        assert_eq!(listener.picture().unwrap().table[0].number, 1);
        assert_eq!(listener.hear(&next[4]), Ok(Heard::Taken));
    }

    #[test]
    fn the_first_copy_of_a_packet_stands() {
        let mut listener = Listener::new();
        let first = packets(1, &[(0, 1, 1)]);
        let second = packets(1, &[(0, 2, 2)]);
        assert_eq!(listener.hear(&first[0]), Ok(Heard::Held));
        assert_eq!(listener.hear(&second[0]), Ok(Heard::Repeat));
        for packet in &second[1..4] {
            assert_eq!(listener.hear(packet), Ok(Heard::Held));
        }
        assert_eq!(listener.hear(&second[4]), Ok(Heard::Taken));
        assert_eq!(listener.picture().unwrap().table[0].number, 1);
    }

    #[test]
    fn another_step_drops_an_unfinished_set() {
        let mut listener = Listener::new();
        let one = packets(1, &[(0, 1, 1)]);
        let two = packets(2, &[]);
        for packet in &one[..4] {
            listener.hear(packet).unwrap();
        }
        assert_eq!(listener.hear(&two[4]), Ok(Heard::Held));
        assert_eq!(listener.hear(&one[4]), Ok(Heard::Held));
        assert!(listener.picture().is_none());
        for packet in &one[..3] {
            assert_eq!(listener.hear(packet), Ok(Heard::Held));
        }
        assert_eq!(listener.hear(&one[3]), Ok(Heard::Taken));
    }

    #[test]
    fn a_clash_across_packets_drops_the_set_and_nothing_else() {
        let mut listener = Listener::new();
        let before = take(&mut listener, 1, &[(0, 1, 1)]);
        let clash = packets(2, &[(0, 7, 1), (19, 7, 2)]);
        let answer = hear_all(&mut listener, &clash);
        assert_eq!(answer, Err(Refusal::NumberTwiceInSet));
        assert_eq!(listener.picture(), Some(&before));
        // The same step can be heard anew, also beginning with the fifth.
        assert_eq!(listener.hear(&clash[4]), Ok(Heard::Held));
        let good = packets(2, &[(0, 1, 1)]);
        for packet in &good[..3] {
            assert_eq!(listener.hear(packet), Ok(Heard::Held));
        }
        assert_eq!(listener.hear(&good[3]), Ok(Heard::Taken));
        assert_eq!(listener.picture().unwrap().carried, 1);
    }

    #[test]
    fn repeats_come_before_15_and_after_the_other_refusals() {
        let mut listener = Listener::new();
        take(&mut listener, 1, &[(0, 1, 1)]);
        let mut bad = packets(1, &[])[0];
        bad[3] = 1;
        assert_eq!(listener.hear(&bad), Err(Refusal::EmptySlotNotZero));
        let set = packets(2, &[(0, 7, 1)]);
        for packet in &set[..4] {
            listener.hear(packet).unwrap();
        }
        let clashing_repeat = packets(2, &[(4, 7, 1)]);
        assert_eq!(listener.hear(&clashing_repeat[1]), Ok(Heard::Repeat));
        assert_eq!(listener.hear(&bad), Err(Refusal::EmptySlotNotZero));
        assert_eq!(listener.hear(&set[4]), Ok(Heard::Taken));
    }

    #[test]
    fn a_refused_telegram_leaves_the_set_in_hand() {
        let mut listener = Listener::new();
        let set = packets(2, &[(0, 7, 1)]);
        for packet in &set[..4] {
            listener.hear(packet).unwrap();
        }
        let mut other = packets(3, &[(0, 7, 1)])[0];
        other[3] = 0;
        assert_eq!(listener.hear(&other), Err(Refusal::SlotType));
        assert_eq!(listener.hear(&[]), Err(Refusal::Length));
        assert_eq!(listener.hear(&[0; 26]), Err(Refusal::PacketHeard));
        assert_eq!(listener.hear(&set[4]), Ok(Heard::Taken));
    }
}
