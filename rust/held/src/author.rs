//! An author writes histories of lists as a protection side might, and keeps
//! a plain desk beside them to know which orders are live.

use crate::random::Random;
use plain::condition::{Condition, CURRENT_CHANGE, NO_VALUE, TRACTION_CHANGE};
use plain::desk::Desk;
use plain::order::Order;

pub const EDGES: [u16; 8] = [0, 1, 0x7FFE, 0x7FFF, 0x8000, 0x8001, 0xFFFE, 0xFFFF];

/// How order numbers follow each other: each is the count seen in another way,
/// so that numbers differ in the low bytes, in the high ones or in between.
#[derive(Clone, Copy)]
enum Numbering {
    Counted,
    BytesSwapped,
    BitsReversed,
    Rotated,
}

pub struct Author<'a> {
    pub random: &'a mut Random,
    pub input: Vec<u8>,
    /// The orders that the next list of the history has.
    pub live: Vec<Order>,
    pub desk: Desk,
    numbering: Numbering,
    count: u32,
}

impl<'a> Author<'a> {
    pub fn new(random: &'a mut Random) -> Author<'a> {
        let numbering = random.pick(&[
            Numbering::Counted,
            Numbering::BytesSwapped,
            Numbering::BitsReversed,
            Numbering::Rotated,
        ]);
        let anywhere = random.draw() as u32;
        let count = random.pick(&[0, 0, 250, 65_500, 0xFFFF_FF80, anywhere]);
        Author {
            random,
            input: Vec::new(),
            live: Vec::new(),
            desk: Desk::new(),
            numbering,
            count,
        }
    }

    /// An order number that this history had not yet; it is never 0.
    pub fn fresh_number(&mut self) -> u32 {
        self.count = self.count.wrapping_add(1);
        if self.count == 0 {
            self.count = 1;
        }
        match self.numbering {
            Numbering::Counted => self.count,
            Numbering::BytesSwapped => self.count.swap_bytes(),
            Numbering::BitsReversed => self.count.reverse_bits(),
            Numbering::Rotated => self.count.rotate_left(12),
        }
    }

    pub fn fresh_order(&mut self) -> Order {
        let kind = self.random.between(1, 9) as u8;
        Order {
            number: self.fresh_number(),
            condition: words(self.random, kind),
        }
    }

    /// So many new orders, as far as there is room.
    pub fn begin(&mut self, count: usize) {
        for _ in 0..count.min(20 - self.live.len()) {
            let order = self.fresh_order();
            self.live.push(order);
        }
    }

    /// So many live orders end, chosen by chance. They are handed back.
    pub fn end(&mut self, count: usize) -> Vec<Order> {
        let mut ended = Vec::new();
        for _ in 0..count.min(self.live.len()) {
            let place = self.random.below(self.live.len());
            ended.push(self.live.swap_remove(place));
        }
        ended
    }

    /// Some of the live orders take new words.
    pub fn change_words(&mut self) {
        for order in &mut self.live {
            if self.random.once_in(3) {
                order.condition = words(self.random, order.condition.kind);
            }
        }
    }

    /// The bytes of a list of the live orders, now and then in another order.
    pub fn live_list(&mut self) -> Vec<[u8; 10]> {
        if self.random.once_in(2) {
            self.random.shuffle(&mut self.live);
        }
        self.live.iter().map(Order::bytes).collect()
    }

    pub fn put_live(&mut self) {
        let list = self.live_list();
        self.put(list.as_flattened());
    }

    pub fn put(&mut self, list: &[u8]) {
        self.input.extend((list.len() as u16).to_be_bytes());
        self.input.extend_from_slice(list);
        // Whether it is accepted is of no interest here.
        let _ = self.desk.put(list);
    }

    /// Puts a list that has this fault, one of 1 to 8.
    pub fn put_faulty(&mut self, fault: u8) {
        let mut list = self.live_list();
        if list.is_empty() {
            list.push(self.fresh_order().bytes());
        }
        let place = self.random.below(list.len());
        self.spoil(&mut list, place, fault);
        self.put_spoilt(list, &[fault]);
    }

    /// Puts a list that has two faults, at two places or at one.
    pub fn put_twice_faulty(&mut self, one: u8, other: u8) {
        let mut list = self.live_list();
        while list.len() < 3 {
            list.push(self.fresh_order().bytes());
        }
        let (first, second) = (self.random.below(list.len()), self.random.below(list.len()));
        self.spoil(&mut list, first, one);
        self.spoil(&mut list, second, other);
        self.put_spoilt(list, &[one, other]);
    }

    fn put_spoilt(&mut self, mut list: Vec<[u8; 10]>, faults: &[u8]) {
        if faults.contains(&2) {
            let orders = self.random.pick(&[21, 21, 22, 25, 40]);
            while list.len() < orders {
                list.push(self.fresh_order().bytes());
            }
        }
        let mut bytes = list.concat();
        if faults.contains(&1) {
            let cut = self.random.between(1, 9);
            bytes.truncate(bytes.len() - cut);
        }
        self.put(&bytes);
    }

    /// Spoils the order at a place so that it has one fault of 3 to 8.
    fn spoil(&mut self, list: &mut Vec<[u8; 10]>, place: usize, fault: u8) {
        let random = &mut *self.random;
        match fault {
            3 => list[place][..4].fill(0),
            4 => list[place][4] = random.pick(&[0, 10, 11, 16, 128, 255]),
            5 => list[place][5] = 1 << random.below(8),
            6 => {
                let order = &mut list[place];
                order[4] = random.pick(&[TRACTION_CHANGE, CURRENT_CHANGE]);
                order[6] &= 0x7F;
                let second = if order[4] == TRACTION_CHANGE {
                    random.pick(&[6, 7, 15, 0x4000, 0x8000, 0xFFFF, 0x3FF6, 0x021A])
                } else {
                    random.pick(&[1001, 1022, 1024, 2047, 0x8000, 0xFFFF, 0x7FFF])
                };
                order[8..].copy_from_slice(&u16::to_be_bytes(second));
            }
            7 => {
                let mut copy = list[random.below(place + 1)];
                if random.once_in(2) {
                    copy[4] = random.between(1, 9) as u8;
                    copy[8..].fill(0);
                }
                if list.len() < 20 {
                    list.insert(place + 1, copy);
                } else if place + 1 < list.len() {
                    list[place + 1] = copy;
                }
            }
            8 => {
                let order = &mut list[place];
                order[4] = order[4] % 9 + 1;
                order[8..].fill(0);
            }
            // Faults 1 and 2 are of the whole list.
            _ => {}
        }
    }
}

/// Words that are allowed for a type. With a change distance of no value the
/// second word of types 4 and 5 is anything, because it is not considered.
pub fn words(random: &mut Random, kind: u8) -> Condition {
    let first = distance(random);
    let second = match kind {
        TRACTION_CHANGE | CURRENT_CHANGE if first == NO_VALUE => random.word(),
        TRACTION_CHANGE => {
            let anywhere = random.below(1024) as u16;
            let country = random.pick(&[0, 1, 33, 1023, anywhere]);
            country << 4 | random.below(6) as u16
        }
        CURRENT_CHANGE => {
            let anywhere = random.below(1001) as u16;
            random.pick(&[0, 1, 999, 1000, 1023, anywhere])
        }
        _ => distance(random),
    };
    Condition {
        kind,
        first,
        second,
    }
}

/// A change of traction system, mostly with voltage 0, with any country, and
/// now and then with bit 15 or 14 set, which is checked unless the change
/// distance has no value.
pub fn unfitted(random: &mut Random) -> Condition {
    let anywhere = random.below(1024) as u16;
    let country = random.pick(&[0, 1, 33, 512, 1023, anywhere]);
    let voltage = random.pick(&[0, 0, 0, 1, 5]);
    let anywhere = distance(random);
    let first = random.pick(&[anywhere, anywhere, anywhere, 0, 2000, NO_VALUE]);
    // The top bits are not checked without a change distance, so that they do
    // not spoil the list there.
    let seldom = if first == NO_VALUE { 2 } else { 24 };
    let top = random.pick(&[0x4000, 0x8000, 0xC000]);
    let top = if random.once_in(seldom) { top } else { 0 };
    Condition {
        kind: TRACTION_CHANGE,
        first,
        second: top | country << 4 | voltage,
    }
}

fn distance(random: &mut Random) -> u16 {
    match random.below(4) {
        0 => random.pick(&EDGES),
        1 => random.below(2000) as u16,
        _ => random.word(),
    }
}
