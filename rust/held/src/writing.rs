//! Holds the writing of packets: any packet number, into a buffer of any
//! length, by the desk after any lists.

use crate::author::Author;
use crate::desk_regimes::{distance_edges, ends_inside, mixed_churn, refused_between, twenty_new};
use crate::hold::hex;
use crate::random::Random;
use crate::regime::{Regime, Times};
use crate::second_words::voltage_zero;
use crate::tally::by_number;

/// A regime of lists, with the packets that are asked for after them and the
/// lengths of the buffers that are lent.
pub struct Writing {
    pub regime: Regime,
    asked: fn(&mut Random) -> Vec<(u8, usize)>,
}

pub const WRITINGS: [Writing; 3] = [
    Writing {
        regime: Regime {
            name: "every-packet-and-length",
            sentence:
                "After few lists every packet 0 to 255 is asked for, with every length 0 to 64.",
            make: few_lists,
            times: Times::Few(2),
        },
        asked: every_one,
    },
    Writing {
        regime: Regime {
            name: "packets-after-lists",
            sentence:
                "After any lists packets 0 to 9, 255 and others are asked for, lengths near 26.",
            make: any_lists,
            times: Times::InTurn,
        },
        asked: near_ones,
    },
    Writing {
        regime: Regime {
            name: "packets-after-a-refused-list",
            sentence: "The last list is refused, with other words for live orders, new ones and lost ones.",
            make: refused_last,
            times: Times::InTurn,
        },
        asked: near_ones,
    },
];

/// The buffers have lengths up to this one.
const LONGEST: usize = 64;

/// Bytes past the lent ones, to see that none of them is touched.
const GUARD: usize = 8;

fn few_lists(random: &mut Random) -> Vec<u8> {
    let mut lists = any_lists(random);
    // The first list alone, whole.
    if lists.len() >= 2 {
        let length = usize::from(u16::from_be_bytes([lists[0], lists[1]]));
        lists.truncate(2 + length);
    }
    lists
}

fn any_lists(random: &mut Random) -> Vec<u8> {
    match random.below(7) {
        0 => twenty_new(random),
        1 => mixed_churn(random),
        2 => distance_edges(random),
        3 => refused_between(random),
        4 => ends_inside(random),
        5 => voltage_zero(random),
        // A fresh desk's table can be written like any other.
        _ => Vec::new(),
    }
}

fn refused_last(random: &mut Random) -> Vec<u8> {
    let mut author = Author::new(random);
    for _ in 0..author.random.between(1, 12) {
        let begun = author.random.between(1, 6);
        author.end(2);
        author.begin(begun);
        author.put_live();
    }
    let ended = author.random.below(3);
    let begun = author.random.below(3);
    author.end(ended);
    author.begin(begun);
    author.change_words();
    let fault = author.random.between(1, 8) as u8;
    author.put_faulty(fault);
    author.input
}

fn every_one(_: &mut Random) -> Vec<(u8, usize)> {
    let lengths = |packet| (0..=LONGEST).map(move |length| (packet, length));
    (0..=255).flat_map(lengths).collect()
}

fn near_ones(random: &mut Random) -> Vec<(u8, usize)> {
    let mut asked = Vec::new();
    for packet in [0, 1, 2, 3, 4, 5, 6, 7, 8, 9, 255, random.byte()] {
        for length in [0, 25, 26, 27, random.below(LONGEST + 1)] {
            asked.push((packet, length));
        }
    }
    random.shuffle(&mut asked);
    asked
}

/// What the compared calls have shown.
#[derive(Clone, Copy)]
pub struct Writes {
    pub calls: u64,
    written: u64,
    refused: [u64; 18],
    /// Packet and length both wrong.
    both_wrong: u64,
    packets: [u64; 256],
    lengths: [u64; LONGEST + 1],
}

impl Default for Writes {
    fn default() -> Writes {
        Writes {
            calls: 0,
            written: 0,
            refused: [0; 18],
            both_wrong: 0,
            packets: [0; 256],
            lengths: [0; LONGEST + 1],
        }
    }
}

impl Writes {
    /// Every call of the writing on these lists. The answer is how many calls
    /// agreed, or words on the first that did not.
    pub fn hold(
        &mut self,
        writing: &Writing,
        lists: &[u8],
        random: &mut Random,
    ) -> Result<u64, String> {
        let asked = (writing.asked)(random);
        for &(packet, length) in &asked {
            let before = random.bytes(length + GUARD);
            let (mut plain, mut proved) = (before.clone(), before.clone());
            let expected = plain::run::write(lists, packet, &mut plain[..length]);
            let answer = bravolith::write(lists, packet, &mut proved[..length]);
            if answer != expected || proved != plain {
                return Err(format!(
                    "packet {packet}, {length} bytes lent: answer {answer}, expected {expected}\n  before: {}\n  plain:  {}\n  proved: {}",
                    hex(&before),
                    hex(&plain),
                    hex(&proved)
                ));
            }
            self.count(packet, length, answer, proved == before)?;
        }
        Ok(asked.len() as u64)
    }

    fn count(&mut self, packet: u8, length: usize, number: u8, same: bool) -> Result<(), String> {
        self.calls += 1;
        self.packets[usize::from(packet)] += 1;
        self.lengths[length] += 1;
        if number == 0 {
            self.written += 1;
        } else if same {
            self.refused[usize::from(number)] += 1;
            let both = !(3..=7).contains(&packet) && length != 26;
            self.both_wrong += u64::from(both);
        } else {
            return Err(format!("refused {number}, and a byte was changed"));
        }
        Ok(())
    }

    pub fn missing(&self, mut want: impl FnMut(u64, String)) {
        want(self.written, "a packet written".into());
        for number in [9, 10] {
            want(
                self.refused[number],
                format!("a packet refused {number} when written"),
            );
        }
        want(self.both_wrong, "packet and length both wrong".into());
        for (packet, &count) in self.packets.iter().enumerate() {
            want(count, format!("packet {packet} asked for"));
        }
        for (length, &count) in self.lengths.iter().enumerate() {
            want(count, format!("a buffer of {length} bytes"));
        }
    }

    pub fn print(&self) {
        println!(
            "packets asked for {}: written {}, {}; packet and length both wrong {}",
            self.calls,
            self.written,
            by_number(&self.refused),
            self.both_wrong
        );
        let least = self.packets.iter().min().unwrap_or(&0);
        let fewest = self.lengths.iter().min().unwrap_or(&0);
        println!("each packet 0 to 255 at least {least} times, each length 0 to {LONGEST} at least {fewest} times");
    }
}
