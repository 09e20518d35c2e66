//! A desk's run as a whole program: lists on standard input, the run file on
//! standard output, and a line on each refused list on standard error.

use super::{put_table, Piece, Pieces};
use crate::blocks::{output, Blocks};
use crate::desk::Desk;
use std::io::{self, Write};

pub fn run() -> io::Result<()> {
    let mut blocks = Blocks::new()?;
    let mut output = output()?;
    let mut desk = Desk::new();
    let mut lists: u64 = 0;
    let mut file = Vec::new();
    let mut taken = 0;
    while blocks.read_past(taken)? {
        taken = 0;
        for piece in Pieces::new(blocks.bytes(), None) {
            // What is short so far may be whole with the next block.
            let Piece::Whole(list) = piece else { break };
            taken += 2 + list.len();
            lists += 1;
            match desk.put(list) {
                Ok(()) => put_table(&desk, &mut file),
                Err(refusal) => eprintln!("refused {} at list {lists}", refusal.number()),
            }
        }
        output.write_all(&file)?;
        file.clear();
    }
    if !blocks.bytes().is_empty() {
        eprintln!("short list");
    }
    Ok(())
}
