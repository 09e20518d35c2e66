//! Document 01, "Listing program": how its lines and numbers become bytes.
//!
//! The lines of the other programs are made in the same way.

/// Room for the longest page of any program here, and a word more: a listed
/// table has at most 21 lines of at most 31 bytes, and the line on a train call
/// has at most 250 bytes.
const ROOM: usize = 1024;

/// Bytes that a short word is copied with, whatever its length.
const WORD: usize = 16;

/// A word of at most sixteen bytes. It is kept padded, so that it is copied
/// with one fixed-size store, which costs less than a copy of variable length.
#[derive(Clone, Copy)]
pub struct Word {
    bytes: [u8; WORD],
    length: usize,
}

impl Word {
    pub const fn new(text: &str) -> Word {
        let text = text.as_bytes();
        let mut bytes = [0; WORD];
        let mut place = 0;
        while place < text.len() {
            bytes[place] = text[place];
            place += 1;
        }
        Word {
            bytes,
            length: text.len(),
        }
    }
}

/// The digits of every byte, from the first place on, and their count.
const TINY: [([u8; 3], u8); 256] = {
    let mut tiny = [([b'0'; 3], 0); 256];
    let mut number = 0;
    while number < 256 {
        let (a, b, c) = (number / 100, number / 10 % 10, number % 10);
        let (a, b, c) = (b'0' + a as u8, b'0' + b as u8, b'0' + c as u8);
        tiny[number] = match number {
            0..=9 => ([c, 0, 0], 1),
            10..=99 => ([b, c, 0], 2),
            _ => ([a, b, c], 3),
        };
        number += 1;
    }
    tiny
};

/// Lines in the making, until they are put to a text. Bytes past the length
/// are of no meaning.
///
/// The bytes are boxed so that they lie apart from the length. The length can
/// then stay in a register from one piece of a line to the next.
pub struct Page {
    bytes: Box<[u8; ROOM]>,
    length: usize,
}

impl Default for Page {
    fn default() -> Page {
        Page::new()
    }
}

impl Page {
    pub fn new() -> Page {
        Page {
            bytes: Box::new([0; ROOM]),
            length: 0,
        }
    }

    pub fn byte(&mut self, byte: u8) {
        self.bytes[self.length] = byte;
        self.length += 1;
    }

    pub fn blank(&mut self) {
        self.byte(b' ');
    }

    pub fn end_line(&mut self) {
        self.byte(b'\n');
    }

    pub fn word(&mut self, word: &Word) {
        self.bytes[self.length..self.length + WORD].copy_from_slice(&word.bytes);
        self.length += word.length;
    }

    /// A minus sign, or nothing. The byte is written in both cases and only
    /// its length differs, because signs are too irregular to be foreseen.
    pub fn minus_if(&mut self, negative: bool) {
        self.bytes[self.length] = b'-';
        self.length += usize::from(negative);
    }

    /// A number in decimal, without leading zeros.
    pub fn decimal(&mut self, number: u64) {
        let mut digits = [0; 20];
        let mut from = digits.len();
        let mut rest = number;
        while rest >= 10 {
            from -= 1;
            digits[from] = b'0' + (rest % 10) as u8;
            rest /= 10;
        }
        from -= 1;
        digits[from] = b'0' + rest as u8;
        for &digit in &digits[from..] {
            self.byte(digit);
        }
    }

    /// The same for a byte, from a table.
    pub fn tiny(&mut self, number: u8) {
        let (digits, count) = TINY[usize::from(number)];
        self.bytes[self.length..self.length + 3].copy_from_slice(&digits);
        self.length += usize::from(count);
    }

    /// The same for a word of 16 bits, which most numbers are. All five digits
    /// are made, the leading zeros are shifted out, and the rest is copied
    /// with one fixed-size store: counts of digits cannot be foreseen either.
    pub fn small(&mut self, number: u16) {
        let digit = |value: u16| b'0' + (value % 10) as u8;
        let five = [
            digit(number / 10_000),
            digit(number / 1000),
            digit(number / 100),
            digit(number / 10),
            digit(number),
            0,
            0,
            0,
        ];
        let count = 1
            + usize::from(number >= 10)
            + usize::from(number >= 100)
            + usize::from(number >= 1000)
            + usize::from(number >= 10_000);
        let digits = u64::from_le_bytes(five) >> (8 * (5 - count));
        self.bytes[self.length..self.length + 8].copy_from_slice(&digits.to_le_bytes());
        self.length += count;
    }

    /// Eight lower-case hexadecimal digits.
    pub fn hexadecimal(&mut self, number: u32) {
        for byte in number.to_be_bytes() {
            for digit in [byte >> 4, byte & 0xF] {
                self.byte(b"0123456789abcdef"[usize::from(digit)]);
            }
        }
    }

    /// Puts the lines at the end of a text and begins with an empty page.
    pub fn put_to(&mut self, text: &mut Vec<u8>) {
        text.extend_from_slice(&self.bytes[..self.length]);
        self.length = 0;
    }
}

#[cfg(test)]
mod tests {
    use super::*;

    fn made(make: impl Fn(&mut Page)) -> String {
        let mut page = Page::new();
        let mut text = Vec::new();
        make(&mut page);
        page.end_line();
        page.put_to(&mut text);
        String::from_utf8(text).unwrap()
    }

    #[test]
    fn decimals_are_those_of_the_standard_library() {
        for number in 0..=u16::MAX {
            assert_eq!(made(|page| page.small(number)), format!("{number}\n"));
        }
        for number in 0..=u8::MAX {
            assert_eq!(made(|page| page.tiny(number)), format!("{number}\n"));
        }
        for number in [0, 9, 10, 99, 100, 65_536, u64::MAX] {
            assert_eq!(made(|page| page.decimal(number)), format!("{number}\n"));
        }
    }

    #[test]
    fn hexadecimals_have_eight_lower_case_digits() {
        assert_eq!(made(|page| page.hexadecimal(6)), "00000006\n");
        assert_eq!(made(|page| page.hexadecimal(0xFEDC_BA98)), "fedcba98\n");
    }

    #[test]
    fn words_follow_each_other() {
        let both = |page: &mut Page| {
            page.word(&Word::new("not-isolated"));
            page.blank();
            page.word(&Word::new("A"));
        };
        assert_eq!(made(both), "not-isolated A\n");
    }
}
