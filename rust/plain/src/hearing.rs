//! Document 01, "The listener": telegrams of any length, heard one after
//! another, with the lines that "Listing program" has for each.
//!
//! Each telegram stands after its length in two bytes, high byte first. All go
//! in order to one fresh listener.

use crate::listener::{Heard, Listener};
use crate::listing::{list_refusal, list_table};
use crate::run::{Piece, Pieces};
use crate::text::{Page, Word};

const SHORT: Word = Word::new("short telegram");

/// The lines on all telegrams, put at the end of `lines`.
pub fn hear(telegrams: &[u8], lines: &mut Vec<u8>) {
    let mut listener = Listener::new();
    let mut page = Page::new();
    for piece in Pieces::new(telegrams, None) {
        let Piece::Whole(telegram) = piece else {
            page.word(&SHORT);
            page.end_line();
            page.put_to(lines);
            break;
        };
        match listener.hear(telegram) {
            Ok(Heard::Repeat | Heard::Held) => {}
            Ok(Heard::Taken) => {
                if let Some(picture) = listener.picture() {
                    list_table(picture, &mut page, lines);
                }
            }
            Err(refusal) => list_refusal(refusal, &mut page, lines),
        }
    }
}

#[cfg(test)]
mod tests {
    use super::*;

    fn framed(telegrams: &[&[u8]]) -> Vec<u8> {
        let mut bytes = Vec::new();
        for telegram in telegrams {
            bytes.extend((telegram.len() as u16).to_be_bytes());
            bytes.extend_from_slice(telegram);
        }
        bytes
    }

    fn lines(telegrams: &[u8]) -> String {
        let mut lines = Vec::new();
        hear(telegrams, &mut lines);
        String::from_utf8(lines).unwrap()
    }

    /// Document 01's example.
    fn example() -> Vec<Vec<u8>> {
        let mut telegrams = Vec::new();
        for packet in 3..8u8 {
            let mut telegram = vec![packet << 5, 1];
            telegram.resize(26, 0);
            telegrams.push(telegram);
        }
        telegrams[0][2..8].copy_from_slice(&[1, 3, 0x04, 0xB0, 0x05, 0xDC]);
        telegrams
    }

    #[test]
    fn the_example_heard() {
        let telegrams = example();
        let all: Vec<&[u8]> = telegrams.iter().map(Vec::as_slice).collect();
        assert_eq!(lines(&framed(&all)), "table 1 1 0\n0 1 3 1200 1500 new\n");
        assert_eq!(lines(&[]), "");
    }

    #[test]
    fn every_length_but_26_is_refused_10_and_nothing_changes() {
        let telegrams = example();
        let long = vec![0x60; 65_535];
        let mut all: Vec<&[u8]> = Vec::new();
        for telegram in &telegrams {
            all.push(telegram);
            if all.len() == 1 {
                all.extend([&telegram[..0], &telegram[..1], &telegram[..25], &long]);
            }
        }
        let refused = "refused 10\n".repeat(4);
        assert_eq!(
            lines(&framed(&all)),
            format!("{refused}table 1 1 0\n0 1 3 1200 1500 new\n")
        );
        for length in 27..60 {
            assert_eq!(lines(&framed(&[&long[..length]])), "refused 10\n");
        }
    }

    #[test]
    fn an_input_that_ends_inside_a_telegram_is_short() {
        let whole = framed(&[&example()[0]]);
        for length in 1..whole.len() {
            assert_eq!(lines(&whole[..length]), "short telegram\n");
        }
        assert_eq!(lines(&whole), "");
    }
}
