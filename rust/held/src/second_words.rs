//! Lists and telegrams whose second words are of every kind, and those that have
//! every second word of every type.

use crate::author::{unfitted, Author};
use crate::random::Random;
use plain::condition::{second_is_allowed, Condition, CURRENT_CHANGE, NO_VALUE, TRACTION_CHANGE};
use plain::order::Order;
use plain::telegram::TELEGRAM_BYTES;

pub fn second_words(random: &mut Random) -> Vec<u8> {
    let mut author = Author::new(random);
    for _ in 0..60 {
        let number = author.fresh_number();
        let random = &mut *author.random;
        let kind = random.pick(&[TRACTION_CHANGE, CURRENT_CHANGE]);
        let anywhere = random.word();
        let first = random.pick(&[0, NO_VALUE, NO_VALUE, 0x8001, anywhere]);
        let near_a_limit = random.between(995, 1030) as u16;
        let two_parts = random.word() & 0x3FFF;
        let one_bit = 1 << random.below(16);
        let second = random.pick(&[anywhere, near_a_limit, two_parts, one_bit, first]);
        let condition = Condition {
            kind,
            first,
            second,
        };
        let mut list = vec![Order { number, condition }.bytes()];
        // A good order before or after it shows whether the step was made.
        let good = author.fresh_order().bytes();
        list.insert(author.random.below(2), good);
        author.put(list.as_flattened());
    }
    author.input
}

/// The orders stay while their words change, so that a country comes and goes
/// with the voltage of one and the same order.
pub fn voltage_zero(random: &mut Random) -> Vec<u8> {
    let mut author = Author::new(random);
    let orders = author.random.between(1, 6);
    author.begin(orders);
    for _ in 0..60 {
        for order in &mut author.live {
            order.condition = unfitted(author.random);
        }
        author.put_live();
        author.live.retain(|_| !author.random.once_in(8));
        if author.live.len() < orders {
            author.begin(1);
        }
    }
    author.input
}

/// Every type with every second word, each with a first word by chance and once
/// more without one.
fn every_condition(random: &mut Random, mut take: impl FnMut(&mut Random, Condition)) {
    for kind in 1..=9 {
        for second in 0..=u16::MAX {
            let word = random.word();
            let distance = if word == NO_VALUE { 0 } else { word };
            for first in [distance, NO_VALUE] {
                let condition = Condition {
                    kind,
                    first,
                    second,
                };
                take(random, condition);
            }
        }
    }
}

/// Those that are allowed come in lists of twenty, and those that are not each
/// in a list of its own.
pub fn every_word_ordered(random: &mut Random) -> Vec<u8> {
    let mut conditions = Vec::new();
    every_condition(random, |_, condition| conditions.push(condition));
    let mut author = Author::new(random);
    let mut list = Vec::new();
    for condition in conditions {
        let Condition {
            kind,
            first,
            second,
        } = condition;
        let number = author.fresh_number();
        let order = Order { number, condition }.bytes();
        if !second_is_allowed(kind, first, second) {
            author.put(&order);
            continue;
        }
        list.push(order);
        if list.len() == 20 {
            author.put(list.as_flattened());
            list.clear();
        }
    }
    author.put(list.as_flattened());
    author.input
}

/// Each in a telegram of its own, at any of the four places, after its length.
pub fn every_word_heard(random: &mut Random) -> Vec<u8> {
    let mut input = Vec::new();
    every_condition(random, |random, condition| {
        let mut telegram = [0; TELEGRAM_BYTES];
        let header = (random.between(3, 7) << 13 | random.below(8192)) as u16;
        telegram[..2].copy_from_slice(&header.to_be_bytes());
        let slot = &mut telegram[2 + 6 * random.below(4)..][..6];
        slot[0] = random.between(1, 255) as u8;
        slot[1] = condition.kind;
        slot[2..4].copy_from_slice(&condition.first.to_be_bytes());
        slot[4..].copy_from_slice(&condition.second.to_be_bytes());
        input.extend((telegram.len() as u16).to_be_bytes());
        input.extend_from_slice(&telegram);
    });
    input
}
