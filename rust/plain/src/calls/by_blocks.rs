//! The lines on train calls as a whole program: calls on standard input, a
//! line on each on standard output.

use super::{put_silence, put_states, ACCEPTED, MISSED, NO_TELEGRAM, REFUSED, SHORT};
use crate::blocks::{output, Blocks};
use crate::run::{Piece, Pieces};
use crate::signals::Signals;
use crate::text::Page;
use std::io::{self, Write};

pub fn signals() -> io::Result<()> {
    let mut blocks = Blocks::new()?;
    let mut output = output()?;
    let mut signals = Signals::new();
    let mut page = Page::new();
    let mut lines = Vec::new();
    let mut taken = 0;
    while blocks.read_past(taken)? {
        taken = 0;
        for piece in Pieces::new(blocks.bytes(), Some(NO_TELEGRAM)) {
            taken += 2;
            match piece {
                Piece::Alone => {
                    signals.miss();
                    page.word(&MISSED);
                }
                Piece::Whole(telegram) => {
                    taken += telegram.len();
                    match signals.hear(telegram) {
                        Ok(()) => page.word(&ACCEPTED),
                        Err(refusal) => {
                            page.word(&REFUSED);
                            page.tiny(refusal.number());
                            page.blank();
                        }
                    }
                }
                Piece::Short => {
                    // It may be whole with the next block.
                    taken -= 2;
                    break;
                }
            }
            page.tiny(signals.misses());
            page.blank();
            match signals.states() {
                Some(states) => put_states(states, &mut page),
                None => put_silence(&mut page),
            }
            page.end_line();
            page.put_to(&mut lines);
        }
        output.write_all(&lines)?;
        lines.clear();
    }
    if !blocks.bytes().is_empty() {
        page.word(&SHORT);
        page.end_line();
        page.put_to(&mut lines);
    }
    output.write_all(&lines)
}
