//! Counts how often the compared inputs have met request 1 of document 02: type
//! 4 with voltage 0 and a country, in lists and in telegrams.

use crate::tally::lines;
use plain::condition::{country, voltage, NO_VALUE, TRACTION_CHANGE};
use plain::desk::Desk;
use plain::refusal::Refusal;
use plain::run::{Piece, Pieces};
use plain::telegram::{read, TELEGRAM_BYTES};

/// Of one kind of input: in accepted ones a country was dropped, without and
/// with bit 15 or 14 set, which is not checked where the change distance is
/// missing; in ones refused under 6 that bit was set.
#[derive(Clone, Copy, Default)]
struct Cases {
    dropped: u64,
    unchecked: u64,
    refused: u64,
}

impl Cases {
    fn count(&mut self, answer: Option<Refusal>, kind: u8, first: u16, second: u16) {
        if kind != TRACTION_CHANGE || voltage(second) != 0 || country(second) == 0 {
            return;
        }
        match (answer, first == NO_VALUE, second >> 14 == 0) {
            (None, false, true) => self.dropped += 1,
            (None, true, false) => self.unchecked += 1,
            (Some(Refusal::SecondWord), false, false) => self.refused += 1,
            _ => {}
        }
    }

    fn missing(&self, place: &str, want: &mut impl FnMut(u64, String)) {
        let what = format!("{place} with voltage 0 and a country");
        want(self.dropped, format!("{what}, accepted"));
        let unchecked = format!("{what}, bit 15 or 14 set, and no change distance, accepted");
        want(self.unchecked, unchecked);
        want(
            self.refused,
            format!("{what}, bit 15 or 14 set, and refused 6"),
        );
    }

    fn print(&self, places: &str) {
        println!(
            "{places} with voltage 0 and a country: accepted {}; with bit 15 or 14 set {} without a change distance accepted, {} with one refused 6",
            self.dropped, self.unchecked, self.refused
        );
    }
}

#[derive(Clone, Copy, Default)]
pub struct Unfitted {
    orders: Cases,
    slots: Cases,
    shown: u64,
}

fn word(bytes: &[u8]) -> u16 {
    u16::from_be_bytes([bytes[0], bytes[1]])
}

impl Unfitted {
    pub fn count_lists(&mut self, input: &[u8]) {
        let mut desk = Desk::new();
        for piece in Pieces::new(input, None) {
            if let Piece::Whole(list) = piece {
                let answer = desk.put(list).err();
                for order in list.chunks_exact(10) {
                    let (first, second) = (word(&order[6..8]), word(&order[8..]));
                    self.orders.count(answer, order[4], first, second);
                }
            }
        }
    }

    pub fn count_listing(&mut self, recording: &[u8], text: &[u8]) {
        for telegram in recording.chunks_exact(TELEGRAM_BYTES) {
            let answer = read(telegram).err();
            for slot in telegram[2..].chunks_exact(6) {
                let (first, second) = (word(&slot[2..4]), word(&slot[4..]));
                self.slots.count(answer, slot[1], first, second);
            }
        }
        for line in lines(text) {
            if line.split(|&byte| byte == b' ').any(|part| part == b"0/0") {
                self.shown += 1;
            }
        }
    }

    pub fn missing(&self, mut want: impl FnMut(u64, String)) {
        self.orders.missing("an order of type 4", &mut want);
        self.slots.missing("a slot of type 4", &mut want);
        want(self.shown, "an entry that shows 0/0".into());
    }

    pub fn print(&self) {
        self.orders.print("orders of type 4");
        self.slots.print("slots of type 4");
        println!("entries that show 0/0: {}", self.shown);
    }
}
