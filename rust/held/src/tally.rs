//! Counts what the compared cases have shown, from the outputs themselves.

use crate::heard::Heard;
use crate::unfitted::Unfitted;
use crate::writing::Writes;
use plain::run::TABLE_BYTES;
use plain::telegram::TELEGRAM_BYTES;

#[derive(Clone, Copy, Default)]
pub struct Tally {
    pub lists: u64,
    pub accepted_lists: u64,
    pub refused_lists: [u64; 18],
    pub short_lists: u64,
    pub writes: Writes,
    pub telegrams: u64,
    pub tables: u64,
    pub refused_telegrams: [u64; 18],
    pub new: u64,
    pub carried: u64,
    pub heard: Heard,
    pub unfitted: Unfitted,
    pub calls: u64,
    pub accepted_calls: u64,
    pub missed_calls: u64,
    pub refused_calls: [u64; 18],
    pub short_calls: u64,
}

/// The number in a line `refused N` or `refused N ...`.
pub fn refusal(line: &[u8]) -> Option<usize> {
    let digits = line.strip_prefix(b"refused ")?;
    let mut number = 0;
    for digit in digits.iter().take_while(|digit| digit.is_ascii_digit()) {
        number = 10 * number + usize::from(digit - b'0');
    }
    Some(number)
}

pub fn lines(text: &[u8]) -> impl Iterator<Item = &[u8]> {
    text.split_inclusive(|&byte| byte == b'\n')
}

impl Tally {
    pub fn count_run(&mut self, file: &[u8]) {
        let accepted = (file.len() / TABLE_BYTES) as u64;
        self.lists += accepted;
        self.accepted_lists += accepted;
    }

    pub fn count_run_lines(&mut self, text: &[u8]) {
        for line in lines(text) {
            if let Some(number) = refusal(line) {
                self.lists += 1;
                self.refused_lists[number] += 1;
            } else {
                self.short_lists += 1;
            }
        }
    }

    pub fn count_listing(&mut self, recording: &[u8], text: &[u8]) {
        self.telegrams += recording.len().div_ceil(TELEGRAM_BYTES) as u64;
        for line in lines(text) {
            if let Some(number) = refusal(line) {
                self.refused_telegrams[number] += 1;
            } else if line.starts_with(b"table ") {
                self.tables += 1;
            } else if line.ends_with(b" new\n") {
                self.new += 1;
            } else if line.ends_with(b" carried\n") {
                self.carried += 1;
            }
        }
    }

    pub fn count_signals(&mut self, text: &[u8]) {
        for line in lines(text) {
            if line.starts_with(b"short ") {
                self.short_calls += 1;
                continue;
            }
            self.calls += 1;
            if let Some(number) = refusal(line) {
                self.refused_calls[number] += 1;
            } else if line.starts_with(b"missed ") {
                self.missed_calls += 1;
            } else {
                self.accepted_calls += 1;
            }
        }
    }

    /// What should have occurred and did not, in words.
    pub fn missing(&self) -> Vec<String> {
        let mut missing = Vec::new();
        let mut want = |count: u64, what: String| {
            if count == 0 {
                missing.push(what);
            }
        };
        for number in 1..=8 {
            want(
                self.refused_lists[number],
                format!("a list refused {number}"),
            );
        }
        for number in [6, 10, 11, 12, 13, 14, 15] {
            let what = format!("a telegram refused {number}");
            want(self.refused_telegrams[number], what);
        }
        for number in [10, 16, 17] {
            want(
                self.refused_calls[number],
                format!("a call refused {number}"),
            );
        }
        want(self.accepted_lists, "an accepted list".into());
        want(self.short_lists, "an input that ends inside a list".into());
        want(self.tables, "a table taken".into());
        want(self.new, "a new entry".into());
        want(self.carried, "a carried entry".into());
        want(self.accepted_calls, "an accepted call".into());
        want(self.missed_calls, "a missed call".into());
        want(self.short_calls, "an input that ends inside a call".into());
        self.writes.missing(&mut want);
        self.heard.missing(&mut want);
        self.unfitted.missing(&mut want);
        missing
    }

    pub fn print(&self) {
        println!(
            "lists {}: accepted {}, {}; inputs that end inside a list {}",
            self.lists,
            self.accepted_lists,
            by_number(&self.refused_lists),
            self.short_lists
        );
        println!(
            "condition telegrams {}: tables taken {}, {}",
            self.telegrams,
            self.tables,
            by_number(&self.refused_telegrams)
        );
        println!("entries: new {}, carried {}", self.new, self.carried);
        println!(
            "train calls {}: accepted {}, missed {}, {}; inputs that end inside a call {}",
            self.calls,
            self.accepted_calls,
            self.missed_calls,
            by_number(&self.refused_calls),
            self.short_calls
        );
        self.writes.print();
        self.heard.print();
        self.unfitted.print();
    }
}

pub fn by_number(counts: &[u64; 18]) -> String {
    let counted = counts.iter().enumerate().filter(|(_, &count)| count > 0);
    let words: Vec<String> = counted
        .map(|(number, count)| format!("refused {number}: {count}"))
        .collect();
    words.join(", ")
}
