//! Document 01, "What the box does": a desk's run, from lists to telegrams.
//!
//! The input is lists one after another, each after its length in two bytes,
//! high byte first. All go in order to one fresh desk.

#[cfg(feature = "programs")]
pub mod by_blocks;

use crate::desk::Desk;
use crate::telegram::{FIRST_PACKET, LAST_PACKET, PACKETS, TELEGRAM_BYTES};
use crate::text::{Page, Word};

/// Bytes of a table in a run file.
pub const TABLE_BYTES: usize = PACKETS * TELEGRAM_BYTES;

const REFUSED: Word = Word::new("refused ");
const AT_LIST: Word = Word::new(" at list ");
const SHORT: Word = Word::new("short list");

/// Pieces of an input, each after its length in two bytes, high byte first.
pub struct Pieces<'a> {
    rest: &'a [u8],
    /// The length that stands for itself, with nothing after it.
    alone: Option<u16>,
}

/// One piece of an input.
#[derive(Clone, Copy, PartialEq, Eq, Debug)]
pub enum Piece<'a> {
    Whole(&'a [u8]),
    /// The length that has nothing after it.
    Alone,
    /// The input ends inside this piece or inside its length.
    Short,
}

impl<'a> Pieces<'a> {
    pub fn new(input: &'a [u8], alone: Option<u16>) -> Pieces<'a> {
        Pieces { rest: input, alone }
    }
}

impl<'a> Iterator for Pieces<'a> {
    type Item = Piece<'a>;

    fn next(&mut self) -> Option<Piece<'a>> {
        let (high, low, rest) = match *self.rest {
            [] => return None,
            [high, low, ref rest @ ..] => (high, low, rest),
            _ => {
                self.rest = &[];
                return Some(Piece::Short);
            }
        };
        let length = u16::from_be_bytes([high, low]);
        if self.alone == Some(length) {
            self.rest = rest;
            return Some(Piece::Alone);
        }
        match rest.split_at_checked(usize::from(length)) {
            Some((piece, after)) => {
                self.rest = after;
                Some(Piece::Whole(piece))
            }
            None => {
                self.rest = &[];
                Some(Piece::Short)
            }
        }
    }
}

/// The run file: for each accepted list the desk's table as five telegrams.
/// It is put at the end of `file`.
pub fn run(lists: &[u8], file: &mut Vec<u8>) {
    let mut desk = Desk::new();
    for piece in Pieces::new(lists, None) {
        let Piece::Whole(list) = piece else { break };
        if desk.put(list).is_ok() {
            put_table(&desk, file);
        }
    }
}

/// Puts the five telegrams of a desk's table at the end of `file`.
pub fn put_table(desk: &Desk, file: &mut Vec<u8>) {
    let mut table = [0; TABLE_BYTES];
    let packets = FIRST_PACKET..=LAST_PACKET;
    for (packet, telegram) in packets.zip(table.chunks_exact_mut(TELEGRAM_BYTES)) {
        let written = desk.write(packet, telegram);
        debug_assert!(written.is_ok());
    }
    file.extend_from_slice(&table);
}

/// The lines on refused lists, and on an input that ends inside a list. They
/// are put at the end of `lines`.
pub fn run_lines(lists: &[u8], lines: &mut Vec<u8>) {
    let mut desk = Desk::new();
    let mut page = Page::new();
    for (list_number, piece) in (1..).zip(Pieces::new(lists, None)) {
        let Piece::Whole(list) = piece else {
            page.word(&SHORT);
            page.end_line();
            page.put_to(lines);
            break;
        };
        if let Err(refusal) = desk.put(list) {
            page.word(&REFUSED);
            page.tiny(refusal.number());
            page.word(&AT_LIST);
            page.decimal(list_number);
            page.end_line();
            page.put_to(lines);
        }
    }
}

/// Writes one packet of the table of the desk after these lists. The answer is
/// the number of the refusal, 0 where the packet is written.
pub fn write(lists: &[u8], packet: u8, buffer: &mut [u8]) -> u8 {
    let mut desk = Desk::new();
    for piece in Pieces::new(lists, None) {
        let Piece::Whole(list) = piece else { break };
        // A refused list leaves the desk as it was.
        let _ = desk.put(list);
    }
    match desk.write(packet, buffer) {
        Ok(()) => 0,
        Err(refusal) => refusal.number(),
    }
}

#[cfg(test)]
mod tests {
    use super::*;

    const ORDER: [u8; 10] = [0, 0, 0, 9, 3, 0, 0x04, 0xB0, 0x05, 0xDC];

    fn input(lists: &[&[u8]]) -> Vec<u8> {
        let mut bytes = Vec::new();
        for list in lists {
            bytes.extend((list.len() as u16).to_be_bytes());
            bytes.extend_from_slice(list);
        }
        bytes
    }

    fn outputs(input: &[u8]) -> (Vec<u8>, String) {
        let mut file = Vec::new();
        let mut lines = Vec::new();
        run(input, &mut file);
        run_lines(input, &mut lines);
        (file, String::from_utf8(lines).unwrap())
    }

    #[test]
    fn nothing_gives_nothing() {
        assert_eq!(outputs(&[]), (Vec::new(), String::new()));
    }

    #[test]
    fn accepted_lists_give_tables_and_refused_ones_lines() {
        let long = vec![0; 65_535];
        let (file, lines) = outputs(&input(&[&[], &[1], &ORDER, &[0; 10], &long, &[]]));
        assert_eq!(
            lines,
            "refused 1 at list 2\nrefused 3 at list 4\nrefused 1 at list 5\n"
        );
        assert_eq!(file.len(), 3 * TABLE_BYTES);
        for table in 0..3 {
            for packet in 0..5 {
                let at = table * TABLE_BYTES + packet * 26;
                let head = [(packet as u8 + 3) << 5, table as u8 + 1];
                assert_eq!(file[at..at + 2], head);
            }
        }
        let slot = [1, 3, 0x04, 0xB0, 0x05, 0xDC];
        assert_eq!(file[TABLE_BYTES + 2..TABLE_BYTES + 8], slot);
    }

    #[test]
    fn an_input_that_ends_inside_a_list_is_short() {
        let whole = input(&[&ORDER, &ORDER]);
        for length in 1..whole.len() {
            let (file, lines) = outputs(&whole[..length]);
            let lists = length / 12;
            assert_eq!(file.len(), lists * TABLE_BYTES);
            let short = if length == 12 { "" } else { "short list\n" };
            assert_eq!(lines, short, "{length}");
        }
    }

    #[test]
    fn a_packet_is_written_or_no_byte_changes() {
        // A refused list and a short one make no step.
        let mut lists = input(&[&ORDER, &[1]]);
        lists.extend([0, 10, 0]);
        let (file, _) = outputs(&lists);
        for packet in 0..=255 {
            for length in 0..=64 {
                let mut buffer = vec![0xA5; length];
                let number = write(&lists, packet, &mut buffer);
                let good = (3..=7).contains(&packet);
                match (good, length) {
                    (true, 26) => {
                        assert_eq!(number, 0);
                        let at = usize::from(packet - 3) * 26;
                        assert_eq!(buffer, file[at..at + 26]);
                        continue;
                    }
                    (true, _) => assert_eq!(number, 10),
                    (false, _) => assert_eq!(number, 9),
                }
                assert_eq!(buffer, vec![0xA5; length]);
            }
        }
    }

    #[test]
    fn a_length_that_stands_alone_has_nothing_after_it() {
        let bytes = [0xFF, 0xFF, 0, 1, 7, 0xFF];
        let pieces: Vec<_> = Pieces::new(&bytes, Some(0xFFFF)).collect();
        assert_eq!(pieces, [Piece::Alone, Piece::Whole(&[7]), Piece::Short]);
        let pieces: Vec<_> = Pieces::new(&bytes, None).collect();
        assert_eq!(pieces, [Piece::Short]);
    }
}
