//! How the whole programs read and write: block by block, each block dealt
//! with before the next one is read.
//!
//! Reading all, then listing all, then writing all at once was tried as well.
//! It took a third more time for the listing and the desk and twice the time
//! for the signals, because the memory for a whole input and output has to be
//! fetched from the system. Blocks of 64 to 256 KiB made no difference. A
//! listener or a record that is a field of a struct took a fifth more time
//! than one in a variable of the loop.

use std::fs::File;
use std::io::{self, ErrorKind, Read};
use std::os::fd::AsFd;

/// Room for the longest piece of an input, 65,537 bytes with its length, and
/// for almost as much again.
const BLOCK: usize = 128 * 1024;

/// Standard input, as much of it as was read and is not dealt with.
pub struct Blocks {
    input: File,
    block: Vec<u8>,
    there: usize,
}

impl Blocks {
    pub fn new() -> io::Result<Blocks> {
        Ok(Blocks {
            input: File::from(io::stdin().as_fd().try_clone_to_owned()?),
            block: vec![0; BLOCK],
            there: 0,
        })
    }

    pub fn bytes(&self) -> &[u8] {
        &self.block[..self.there]
    }

    /// Drops the bytes that were dealt with and reads more behind the others.
    /// The answer is whether there were more.
    pub fn read_past(&mut self, taken: usize) -> io::Result<bool> {
        self.block.copy_within(taken..self.there, 0);
        self.there -= taken;
        loop {
            match self.input.read(&mut self.block[self.there..]) {
                Ok(count) => {
                    self.there += count;
                    return Ok(count > 0);
                }
                Err(error) if error.kind() == ErrorKind::Interrupted => {}
                Err(error) => return Err(error),
            }
        }
    }
}

/// Standard output, with no buffer in between.
pub fn output() -> io::Result<File> {
    Ok(File::from(io::stdout().as_fd().try_clone_to_owned()?))
}
