//! Inputs of the run: lists, each after its length in two bytes.

use crate::author::{words, Author, EDGES};
use crate::random::Random;
use crate::regime::{Regime, Times};
use crate::second_words::{every_word_ordered, second_words, voltage_zero};
use crate::turns::{past_the_second_wrap, past_the_wrap, small_turn, turn_of_16_bits, whole_turn};
use plain::condition::{CURRENT_CHANGE, NO_VALUE, TRACTION_CHANGE};
use plain::order::Order;

pub const REGIMES: [Regime; 21] = [
    Regime {
        name: "twenty-new",
        sentence: "Twenty wholly new orders come in every step.",
        make: twenty_new,
        times: Times::InTurn,
    },
    Regime {
        name: "slow-churn",
        sentence: "Now and then an order ends and another begins; words change.",
        make: slow_churn,
        times: Times::InTurn,
    },
    Regime {
        name: "mixed-churn",
        sentence: "Any number of orders end and begin in a step.",
        make: mixed_churn,
        times: Times::InTurn,
    },
    Regime {
        name: "search-arrives",
        sentence: "Long-lived orders end just as the search arrives at their numbers.",
        make: search_arrives,
        times: Times::InTurn,
    },
    Regime {
        name: "search-arrives-among-refused",
        sentence: "The same, with refused lists in between.",
        make: search_arrives_among_refused,
        times: Times::InTurn,
    },
    Regime {
        name: "refused-between",
        sentence: "Lists with each fault of 1 to 8 come between good ones.",
        make: refused_between,
        times: Times::InTurn,
    },
    Regime {
        name: "two-faults",
        sentence: "Lists have two faults, every pair of them in both orders.",
        make: two_faults,
        times: Times::InTurn,
    },
    Regime {
        name: "empty-between",
        sentence: "Empty lists end everything, once or several times in a row.",
        make: empty_between,
        times: Times::InTurn,
    },
    Regime {
        name: "comebacks",
        sentence: "Ended orders come back after 1 to 10 steps, some with another type.",
        make: comebacks,
        times: Times::InTurn,
    },
    Regime {
        name: "second-words",
        sentence: "Types 4 and 5 have every kind of second word, also with change 8000h.",
        make: second_words,
        times: Times::InTurn,
    },
    Regime {
        name: "voltage-zero",
        sentence: "Type 4 has mostly voltage 0, any country, and now and then bit 15 or 14.",
        make: voltage_zero,
        times: Times::InTurn,
    },
    Regime {
        name: "distance-edges",
        sentence: "Distances are 0, 7FFFh, 8000h, 8001h, FFFFh and their neighbours.",
        make: distance_edges,
        times: Times::InTurn,
    },
    Regime {
        name: "random-lists",
        sentence: "Lists are random bytes, wholly or with good numbers and types.",
        make: random_lists,
        times: Times::InTurn,
    },
    Regime {
        name: "lengths",
        sentence: "Lists have the lengths 0, 10, .., 200, 205, 210 and odd ones.",
        make: lengths,
        times: Times::InTurn,
    },
    Regime {
        name: "ends-inside-a-list",
        sentence: "The input ends inside a list or inside its length.",
        make: ends_inside,
        times: Times::InTurn,
    },
    Regime {
        name: "small-turn",
        sentence: "Nothing new comes for 16 to 1,024 steps and then twenty in each.",
        make: small_turn,
        times: Times::Few(40),
    },
    Regime {
        name: "whole-turn",
        sentence: "Nothing new comes for about 8,192 steps and then twenty in each.",
        make: whole_turn,
        times: Times::Few(6),
    },
    Regime {
        name: "turn-of-16-bits",
        sentence: "Nothing new comes for about 65,536 steps and then twenty in each.",
        make: turn_of_16_bits,
        times: Times::Few(1),
    },
    Regime {
        name: "past-the-wrap",
        sentence: "A mixed history goes past 8,192 steps.",
        make: past_the_wrap,
        times: Times::Few(3),
    },
    Regime {
        name: "past-the-second-wrap",
        sentence: "A mixed history goes past 16,384 steps.",
        make: past_the_second_wrap,
        times: Times::Few(1),
    },
    Regime {
        name: "every-second-word",
        sentence: "Every second word of every type comes, with a first word and without.",
        make: every_word_ordered,
        times: Times::Few(1),
    },
];

pub fn twenty_new(random: &mut Random) -> Vec<u8> {
    let mut author = Author::new(random);
    for _ in 0..author.random.between(12, 45) {
        author.live.clear();
        author.begin(20);
        author.put_live();
    }
    author.input
}

pub fn slow_churn(random: &mut Random) -> Vec<u8> {
    let mut author = Author::new(random);
    let first = author.random.between(1, 20);
    author.begin(first);
    for _ in 0..author.random.between(30, 80) {
        if author.random.once_in(3) {
            author.end(1);
        }
        if author.random.once_in(3) {
            author.begin(1);
        }
        author.change_words();
        author.put_live();
    }
    author.input
}

pub fn mixed_churn(random: &mut Random) -> Vec<u8> {
    let mut author = Author::new(random);
    for _ in 0..author.random.between(20, 70) {
        let ended = author.random.below(21);
        let begun = author.random.below(21);
        author.end(ended);
        author.begin(begun);
        author.change_words();
        author.put_live();
    }
    author.input
}

pub fn search_arrives(random: &mut Random) -> Vec<u8> {
    until_the_search_arrives(random, false)
}

fn search_arrives_among_refused(random: &mut Random) -> Vec<u8> {
    until_the_search_arrives(random, true)
}

/// A few orders live on while the others are new in each step. One of the few
/// ends when the search is about to reach its number, or some steps before,
/// so that the search finds the number resting or just rested.
fn until_the_search_arrives(random: &mut Random, refusals: bool) -> Vec<u8> {
    let mut author = Author::new(random);
    let long_lived = author.random.between(1, 6);
    let new = author.random.between(1, 20 - long_lived);
    // The steps ahead within which an order may end.
    let ahead = author.random.between(1, 10);
    let mut keep: Vec<Order> = Vec::new();
    for _ in 0..author.random.between(40, 90) {
        let last = author.desk.last_given();
        let (numbers, table) = (*author.desk.orders(), *author.desk.table());
        let random = &mut *author.random;
        keep.retain(|order| {
            let slot = numbers.iter().position(|&number| number == order.number);
            let given = slot.map_or(0, |slot| table[slot].number);
            let distance = (usize::from(given) + 254 - usize::from(last)) % 255;
            distance >= new * ahead || !random.once_in(2 * ahead)
        });
        author.live.clear();
        author.begin(new);
        while keep.len() < long_lived {
            let order = author.fresh_order();
            keep.push(order);
        }
        author.live.extend_from_slice(&keep);
        author.put_live();
        while refusals && !author.random.once_in(3) {
            let fault = author.random.between(1, 8) as u8;
            author.put_faulty(fault);
        }
    }
    author.input
}

pub fn refused_between(random: &mut Random) -> Vec<u8> {
    let mut author = Author::new(random);
    let mut faults = [1, 2, 3, 4, 5, 6, 7, 8];
    for _ in 0..4 {
        author.random.shuffle(&mut faults);
        for fault in faults {
            let ended = author.random.below(4);
            let begun = author.random.between(1, 4);
            author.end(ended);
            author.begin(begun);
            author.put_live();
            author.put_faulty(fault);
        }
    }
    author.input
}

fn two_faults(random: &mut Random) -> Vec<u8> {
    let mut author = Author::new(random);
    for one in 1..=8 {
        for other in 1..=8 {
            if author.random.once_in(4) {
                author.end(3);
                author.begin(6);
                author.put_live();
            }
            author.put_twice_faulty(one, other);
        }
    }
    author.input
}

fn empty_between(random: &mut Random) -> Vec<u8> {
    let mut author = Author::new(random);
    for _ in 0..author.random.between(10, 30) {
        for _ in 0..author.random.between(1, 4) {
            let begun = author.random.below(21);
            author.begin(begun);
            author.put_live();
        }
        for _ in 0..author.random.between(1, 10) {
            author.put(&[]);
        }
        author.live.clear();
    }
    author.input
}

fn comebacks(random: &mut Random) -> Vec<u8> {
    let mut author = Author::new(random);
    // Ended orders, with the step in which each comes back.
    let mut gone: Vec<(usize, Order)> = Vec::new();
    author.begin(12);
    for step in 0..author.random.between(40, 80) {
        let ended = author.random.below(5);
        for mut order in author.end(ended) {
            if author.random.once_in(4) {
                let kind = author.random.between(1, 9) as u8;
                order.condition = words(author.random, kind);
            }
            gone.push((step + author.random.between(1, 10), order));
        }
        let live = &mut author.live;
        gone.retain(|&(back, order)| {
            let stays_away = back > step || live.len() == 20;
            if !stays_away {
                live.push(order);
            }
            stays_away
        });
        if author.random.once_in(2) {
            author.begin(1);
        }
        author.put_live();
    }
    author.input
}

pub fn distance_edges(random: &mut Random) -> Vec<u8> {
    let mut author = Author::new(random);
    author.begin(9);
    for _ in 0..40 {
        author.end(2);
        author.begin(3);
        for order in &mut author.live {
            let condition = &mut order.condition;
            condition.first = author.random.pick(&EDGES);
            if !matches!(condition.kind, TRACTION_CHANGE | CURRENT_CHANGE) {
                condition.second = author.random.pick(&EDGES);
            } else if condition.first != NO_VALUE {
                // A word that is allowed for both of these types.
                condition.second = (author.random.below(62) as u16) << 4;
            }
        }
        author.put_live();
    }
    author.input
}

fn random_lists(random: &mut Random) -> Vec<u8> {
    let mut author = Author::new(random);
    for _ in 0..40 {
        let length = match author.random.below(3) {
            0 => author.random.below(230),
            _ => 10 * author.random.below(5),
        };
        let mut list = author.random.bytes(length);
        if author.random.once_in(2) {
            for order in list.chunks_exact_mut(10) {
                order[..3].fill(0);
                order[3] %= 24;
                order[4] %= 11;
                order[5] = 0;
            }
        }
        author.put(&list);
    }
    author.input
}

fn lengths(random: &mut Random) -> Vec<u8> {
    let mut author = Author::new(random);
    let mut lengths: Vec<usize> = (0..=200).step_by(10).collect();
    lengths.extend([205, 210, 1, 9, 11, 99, 101, 199, 201, 209, 211, 220, 300]);
    lengths.push(author.random.below(260));
    if author.random.once_in(20) {
        lengths.extend([65_530, 65_535, 65_534]);
    }
    author.random.shuffle(&mut lengths);
    for length in lengths {
        let mut list = Vec::new();
        while list.len() < length {
            list.extend(author.fresh_order().bytes());
        }
        list.truncate(length);
        author.put(&list);
    }
    author.input
}

pub fn ends_inside(random: &mut Random) -> Vec<u8> {
    let mut author = Author::new(random);
    for _ in 0..author.random.between(1, 8) {
        author.end(2);
        author.begin(4);
        author.put_live();
    }
    let mut input = author.input;
    match random.below(3) {
        0 => input.push(random.byte()),
        1 => {
            let length = random.between(1, 65_535);
            let there = random.below(length.min(250));
            input.extend((length as u16).to_be_bytes());
            input.extend(random.bytes(there));
        }
        _ => input.truncate(random.below(input.len() + 1)),
    }
    input
}
