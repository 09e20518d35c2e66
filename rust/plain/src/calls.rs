//! Document 01, "Signals from the train": calls one after another, and a line
//! on each.
//!
//! The input is calls, each after its length in two bytes, high byte first.
//! The length FFFFh, with nothing after it, is a call with no telegram.

#[cfg(feature = "programs")]
pub mod by_blocks;

use crate::run::{Piece, Pieces};
use crate::signals::{Brake, Cab, Isolation, Signals, States, SYSTEMS};
use crate::text::{Page, Word};

const NO_TELEGRAM: u16 = 0xFFFF;

const ACCEPTED: Word = Word::new("accepted ");
const MISSED: Word = Word::new("missed ");
const REFUSED: Word = Word::new("refused ");
const SHORT: Word = Word::new("short call");

// Every state of a signal but the last of a line has a blank after it.
const SILENT_BLANK: Word = Word::new("silent ");
const SILENT: Word = Word::new("silent");
const CABS: [Word; 4] = [
    Word::new("none "),
    Word::new("A "),
    Word::new("B "),
    Word::new("invalid "),
];
const BRAKES: [Word; 5] = [
    Word::new("passenger-P "),
    Word::new("freight-P "),
    Word::new("freight-G "),
    Word::new("unknown "),
    Word::new("invalid "),
];
const ISOLATIONS: [Word; 3] = [
    Word::new("isolated "),
    Word::new("not-isolated "),
    Word::new("invalid "),
];

/// One line for each call, put at the end of `lines`.
pub fn signals(calls: &[u8], lines: &mut Vec<u8>) {
    let mut signals = Signals::new();
    let mut page = Page::new();
    for piece in Pieces::new(calls, Some(NO_TELEGRAM)) {
        match piece {
            Piece::Alone => {
                signals.miss();
                page.word(&MISSED);
            }
            Piece::Whole(telegram) => match signals.hear(telegram) {
                Ok(()) => page.word(&ACCEPTED),
                Err(refusal) => {
                    page.word(&REFUSED);
                    page.tiny(refusal.number());
                    page.blank();
                }
            },
            Piece::Short => {
                page.word(&SHORT);
                page.end_line();
                page.put_to(lines);
                break;
            }
        }
        page.tiny(signals.misses());
        page.blank();
        match signals.states() {
            Some(states) => put_states(states, &mut page),
            None => put_silence(&mut page),
        }
        page.end_line();
        page.put_to(lines);
    }
}

fn put_states(states: &States, page: &mut Page) {
    page.word(match states.cab {
        Cab::None => &CABS[0],
        Cab::A => &CABS[1],
        Cab::B => &CABS[2],
        Cab::Invalid => &CABS[3],
    });
    page.word(match states.brake {
        Brake::PassengerP => &BRAKES[0],
        Brake::FreightP => &BRAKES[1],
        Brake::FreightG => &BRAKES[2],
        Brake::Unknown => &BRAKES[3],
        Brake::Invalid => &BRAKES[4],
    });
    for system in &states.systems {
        page.word(match system {
            Isolation::Isolated => &ISOLATIONS[0],
            Isolation::NotIsolated => &ISOLATIONS[1],
            Isolation::Invalid => &ISOLATIONS[2],
        });
    }
    page.hexadecimal(states.traction);
}

/// Cab, brake position and the national systems, then the traction systems.
fn put_silence(page: &mut Page) {
    for _ in 0..2 + SYSTEMS {
        page.word(&SILENT_BLANK);
    }
    page.word(&SILENT);
}

#[cfg(test)]
mod tests {
    use super::*;

    fn lines(calls: &[u8]) -> String {
        let mut lines = Vec::new();
        signals(calls, &mut lines);
        String::from_utf8(lines).unwrap()
    }

    fn call(start: &[u8]) -> Vec<u8> {
        let mut bytes = vec![0, 26];
        bytes.extend_from_slice(start);
        bytes.resize(28, 0);
        bytes
    }

    const P7: [u8; 11] = [1, 2, 3, 0x80, 1, 0x7F, 0xFE, 0, 0, 0, 6];

    fn p7_states() -> String {
        let between = "not-isolated ".repeat(14);
        format!("A unknown isolated {between}isolated 00000006\n")
    }

    fn silent() -> String {
        format!("{}silent\n", "silent ".repeat(18))
    }

    #[test]
    fn the_line_on_p7() {
        assert_eq!(lines(&call(&P7)), format!("accepted 0 {}", p7_states()));
    }

    #[test]
    fn misses_and_refusals_keep_twice_and_then_silence() {
        let mut calls = vec![0xFF, 0xFF];
        calls.extend(call(&P7));
        calls.extend([0xFF, 0xFF, 0, 0]);
        calls.extend(call(&[2]));
        calls.extend(call(&[1, 4]));
        calls.extend(call(&P7));
        let states = p7_states();
        let silent = silent();
        let expected = [
            format!("missed 1 {silent}"),
            format!("accepted 0 {states}"),
            format!("missed 1 {states}"),
            format!("refused 10 2 {states}"),
            format!("refused 16 3 {silent}"),
            format!("refused 17 3 {silent}"),
            format!("accepted 0 {states}"),
        ];
        assert_eq!(lines(&calls), expected.concat());
    }

    #[test]
    fn the_longest_line_has_room() {
        let mut page = Page::new();
        let states = States {
            cab: Cab::Invalid,
            brake: Brake::PassengerP,
            systems: [Isolation::NotIsolated; SYSTEMS],
            traction: u32::MAX,
        };
        page.word(&REFUSED);
        page.tiny(17);
        page.blank();
        page.tiny(2);
        page.blank();
        put_states(&states, &mut page);
        let mut text = Vec::new();
        page.end_line();
        page.put_to(&mut text);
        assert_eq!(text.len(), 250);
    }

    #[test]
    fn an_input_that_ends_inside_a_call_is_short() {
        let whole = call(&P7);
        for length in 1..28 {
            assert_eq!(lines(&whole[..length]), "short call\n");
        }
        assert_eq!(lines(&[0xFF]), "short call\n");
        assert_eq!(lines(&[0xFF, 0xFE]), "short call\n");
    }
}
