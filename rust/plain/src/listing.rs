//! Document 01, "Listing program": a recording becomes a listing.

#[cfg(feature = "programs")]
pub mod by_blocks;

use crate::condition::{country, voltage, CURRENT_CHANGE, NO_VALUE, TRACTION_CHANGE};
use crate::listener::{Heard, Listener, Picture};
use crate::refusal::Refusal;
use crate::telegram::{Slot, TELEGRAM_BYTES};
use crate::text::{Page, Word};

/// The 1 names this form of listing.
const HEADER: &[u8] = b"conditions 1\n";
const TABLE: Word = Word::new("table ");
const REFUSED: Word = Word::new("refused ");
const END: Word = Word::new("end ");
const NEW: Word = Word::new(" new");
const CARRIED: Word = Word::new(" carried");

/// Lists a whole recording. The listing is put at the end of `listing`.
pub fn list(recording: &[u8], listing: &mut Vec<u8>) {
    let mut listener = Listener::new();
    let mut page = Page::new();
    let mut tables = 0;
    listing.extend_from_slice(HEADER);
    // The last piece may be shorter than a telegram; it is refused 10 like
    // any other wrong length.
    for telegram in recording.chunks(TELEGRAM_BYTES) {
        match listener.hear(telegram) {
            Ok(Heard::Repeat | Heard::Held) => {}
            Ok(Heard::Taken) => {
                tables += 1;
                if let Some(picture) = listener.picture() {
                    list_table(picture, &mut page, listing);
                }
            }
            Err(refusal) => list_refusal(refusal, &mut page, listing),
        }
    }
    page.word(&END);
    page.decimal(tables);
    page.end_line();
    page.put_to(listing);
}

pub fn list_refusal(refusal: Refusal, page: &mut Page, listing: &mut Vec<u8>) {
    page.word(&REFUSED);
    page.tiny(refusal.number());
    page.end_line();
    page.put_to(listing);
}

pub fn list_table(picture: &Picture, page: &mut Page, listing: &mut Vec<u8>) {
    let occupied = |slot: &&Slot| slot.number != 0;
    let conditions = picture.table.iter().filter(occupied).count();
    page.word(&TABLE);
    page.small(picture.step);
    page.blank();
    page.tiny(conditions as u8);
    page.blank();
    page.small(picture.gap);
    page.end_line();
    for (place, slot) in picture.table.iter().enumerate() {
        if slot.number != 0 {
            let carried = picture.carried >> place & 1 == 1;
            list_slot(place, slot, carried, page);
            page.end_line();
        }
    }
    // One copy for the whole table.
    page.put_to(listing);
}

fn list_slot(place: usize, slot: &Slot, carried: bool, page: &mut Page) {
    let condition = &slot.condition;
    page.tiny(place as u8);
    page.blank();
    page.tiny(slot.number);
    page.blank();
    page.byte(b'0' + condition.kind);
    page.blank();
    list_distance(condition.first, page);
    page.blank();
    match condition.kind {
        TRACTION_CHANGE | CURRENT_CHANGE if condition.first == NO_VALUE => page.byte(b'-'),
        TRACTION_CHANGE => {
            page.tiny(voltage(condition.second) as u8);
            page.byte(b'/');
            page.small(country(condition.second));
        }
        CURRENT_CHANGE => page.small(condition.second),
        _ => list_distance(condition.second, page),
    }
    page.word(if carried { &CARRIED } else { &NEW });
}

/// A distance with its sign, or `-` where there is no value.
fn list_distance(word: u16, page: &mut Page) {
    page.minus_if(word >= NO_VALUE);
    if word != NO_VALUE {
        page.small((word as i16).unsigned_abs());
    }
}

#[cfg(test)]
mod tests {
    use super::*;
    use crate::condition::Condition;
    use crate::telegram::{self, Table};

    fn listed(recording: &[u8]) -> String {
        let mut listing = Vec::new();
        list(recording, &mut listing);
        String::from_utf8(listing).unwrap()
    }

    /// A table of one packet with these four slots and four empty packets.
    fn recording(step: u8, slots: [[u8; 6]; 4]) -> Vec<u8> {
        let mut bytes = vec![0x60, step];
        bytes.extend(slots.concat());
        for packet in [0x80, 0xA0, 0xC0, 0xE0] {
            bytes.extend([packet, step]);
            bytes.extend([0; 24]);
        }
        bytes
    }

    const EMPTY: [u8; 6] = [0; 6];

    #[test]
    fn the_example_of_document_01() {
        let input = recording(1, [[1, 3, 0x04, 0xB0, 0x05, 0xDC], EMPTY, EMPTY, EMPTY]);
        let output = "conditions 1\ntable 1 1 0\n0 1 3 1200 1500 new\nend 1\n";
        assert_eq!(listed(&input), output);
    }

    #[test]
    fn an_empty_recording_has_a_first_and_a_last_line() {
        assert_eq!(listed(&[]), "conditions 1\nend 0\n");
    }

    #[test]
    fn a_short_tail_is_refused_10() {
        for length in 1..26 {
            let listing = listed(&vec![0x60; length]);
            assert_eq!(listing, "conditions 1\nrefused 10\nend 0\n");
        }
        let mut input = recording(1, [EMPTY; 4]);
        input.push(0x60);
        let listing = listed(&input);
        assert_eq!(listing, "conditions 1\ntable 1 0 0\nrefused 10\nend 1\n");
    }

    #[test]
    fn second_words_are_printed_by_type() {
        let first = recording(
            1,
            [
                [1, 4, 0x00, 0x0A, 0x02, 0x11],
                [2, 4, 0x80, 0x00, 0xFF, 0xFF],
                [3, 5, 0xFF, 0xFF, 0x03, 0xFF],
                [4, 5, 0x80, 0x00, 0x03, 0xE9],
            ],
        );
        let second = recording(
            2,
            [
                [1, 4, 0x80, 0x01, 0x00, 0x10],
                [5, 1, 0x80, 0x00, 0x7F, 0xFF],
                [3, 6, 0x7F, 0xFF, 0x80, 0x00],
                [4, 5, 0x00, 0x00, 0x00, 0x00],
            ],
        );
        let output = "conditions 1
table 1 4 0
0 1 4 10 1/33 new
1 2 4 - - new
2 3 5 -1 1023 new
3 4 5 - - new
table 2 4 1
0 1 4 -32767 0/0 carried
1 5 1 - 32767 new
2 3 6 32767 - new
3 4 5 0 0 carried
end 2
";
        assert_eq!(listed(&[first, second].concat()), output);
    }

    #[test]
    fn the_longest_table_has_room() {
        let mut table = Table::default();
        for (place, slot) in table.iter_mut().enumerate() {
            slot.number = 255 - place as u8;
            slot.condition = Condition::held(9, 0x8001, 0x8001);
        }
        let mut input = Vec::new();
        for step in [8183, 8191] {
            for packet in 3..=7 {
                let mut bytes = [0; 26];
                telegram::write(step, &table, packet, &mut bytes).unwrap();
                input.extend(bytes);
            }
        }
        let listing = listed(&input);
        assert!(listing.ends_with("\n19 236 9 -32767 -32767 carried\nend 2\n"));
        assert_eq!(listing.lines().count(), 1 + 2 * 21 + 1);
    }

    #[test]
    fn repeats_print_nothing_and_refusals_one_line() {
        let table = recording(1, [[7, 1, 0, 0, 0, 0], EMPTY, EMPTY, EMPTY]);
        let mut clash = recording(2, [[7, 1, 0, 0, 0, 0], EMPTY, EMPTY, EMPTY]);
        clash[26 + 2..26 + 4].copy_from_slice(&[7, 1]);
        let mut input = [&table[..], &table[..], &clash[..]].concat();
        input.extend([0; 26]);
        let output = "conditions 1
table 1 1 0
0 7 1 0 0 new
refused 15
refused 11
end 1
";
        assert_eq!(listed(&input), output);
    }
}
