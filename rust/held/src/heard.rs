//! Counts what the compared hearings have shown: of which length the telegrams
//! were, and what was said of them.

use crate::hearing_regimes::LENGTHS;
use crate::tally::{by_number, lines, refusal};
use plain::run::{Piece, Pieces};

#[derive(Clone, Copy, Default)]
pub struct Heard {
    pub telegrams: u64,
    /// How many had each of the lengths that have to occur.
    lengths: [u64; LENGTHS.len()],
    tables: u64,
    refused: [u64; 18],
    short: u64,
}

impl Heard {
    pub fn count(&mut self, input: &[u8], text: &[u8]) {
        for piece in Pieces::new(input, None) {
            if let Piece::Whole(telegram) = piece {
                self.telegrams += 1;
                if let Some(place) = LENGTHS.iter().position(|&it| it == telegram.len()) {
                    self.lengths[place] += 1;
                }
            }
        }
        for line in lines(text) {
            if let Some(number) = refusal(line) {
                self.refused[number] += 1;
            } else if line.starts_with(b"table ") {
                self.tables += 1;
            } else if line.starts_with(b"short ") {
                self.short += 1;
            }
        }
    }

    pub fn missing(&self, mut want: impl FnMut(u64, String)) {
        for number in [6, 10, 11, 12, 13, 14, 15] {
            let what = format!("a telegram of any length refused {number}");
            want(self.refused[number], what);
        }
        for (length, count) in LENGTHS.iter().zip(self.lengths) {
            want(count, format!("a heard telegram of {length} bytes"));
        }
        want(
            self.tables,
            "a table taken among telegrams of any length".into(),
        );
        want(self.short, "an input that ends inside a telegram".into());
    }

    pub fn print(&self) {
        println!(
            "telegrams of any length {}: tables taken {}, {}; inputs that end inside one {}",
            self.telegrams,
            self.tables,
            by_number(&self.refused),
            self.short
        );
        let words: Vec<String> = LENGTHS
            .iter()
            .zip(self.lengths)
            .map(|(length, count)| format!("{length}: {count}"))
            .collect();
        println!("their lengths: {}", words.join(", "));
    }
}
