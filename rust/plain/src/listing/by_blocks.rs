//! The listing as a whole program: a recording on standard input, its listing
//! on standard output.

use super::{list_refusal, list_table, END, HEADER};
use crate::blocks::{output, Blocks};
use crate::listener::{Heard, Listener};
use crate::telegram::TELEGRAM_BYTES;
use crate::text::Page;
use std::io::{self, Write};

pub fn list() -> io::Result<()> {
    let mut blocks = Blocks::new()?;
    let mut output = output()?;
    let mut listener = Listener::new();
    let mut page = Page::new();
    let mut tables = 0;
    let mut listing = HEADER.to_vec();
    let mut taken = 0;
    loop {
        let more = blocks.read_past(taken)?;
        let bytes = blocks.bytes();
        // The last piece of all may be shorter than a telegram.
        taken = bytes.len();
        if more {
            taken -= taken % TELEGRAM_BYTES;
        }
        for telegram in bytes[..taken].chunks(TELEGRAM_BYTES) {
            match listener.hear(telegram) {
                Ok(Heard::Repeat | Heard::Held) => {}
                Ok(Heard::Taken) => {
                    tables += 1;
                    if let Some(picture) = listener.picture() {
                        list_table(picture, &mut page, &mut listing);
                    }
                }
                Err(refusal) => list_refusal(refusal, &mut page, &mut listing),
            }
        }
        if !more {
            break;
        }
        output.write_all(&listing)?;
        listing.clear();
    }
    page.word(&END);
    page.decimal(tables);
    page.end_line();
    page.put_to(&mut listing);
    output.write_all(&listing)
}
