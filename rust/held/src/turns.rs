//! Long histories of a desk: turns of its numbers and of the step number.

use crate::author::Author;
use crate::random::Random;

pub fn small_turn(random: &mut Random) -> Vec<u8> {
    let turn = random.pick(&[16, 32, 64, 128, 256, 512, 1024]);
    idle_for_a_turn(random, turn)
}

pub fn whole_turn(random: &mut Random) -> Vec<u8> {
    idle_for_a_turn(random, 8192)
}

pub fn turn_of_16_bits(random: &mut Random) -> Vec<u8> {
    idle_for_a_turn(random, 65_536)
}

/// A number that ended one turn of a counter ago must not look as if it ended
/// now. So the search goes once round all numbers, rests for a turn, and then
/// comes to each number in the step that looks like the end of that number or
/// like one of the eight after.
fn idle_for_a_turn(random: &mut Random, turn: usize) -> Vec<u8> {
    let mut author = Author::new(random);
    let before = author.random.between(13, 18);
    for _ in 0..before {
        author.live.clear();
        author.begin(20);
        author.put_live();
    }
    // The number that the search comes to next was given 255 numbers ago, and
    // ended one step later.
    let ended = (20 * before - 254).div_ceil(20) + 1;
    author.live.clear();
    let kept = author.random.below(3);
    author.begin(kept);
    let seems_to_rest = author.random.between(0, 8);
    for _ in before + 1..ended + turn + seems_to_rest {
        author.put_live();
    }
    for _ in 0..30 {
        author.live.clear();
        author.begin(20);
        author.put_live();
    }
    author.input
}

pub fn past_the_wrap(random: &mut Random) -> Vec<u8> {
    let steps = 8192 + random.between(20, 200);
    long_history(random, steps)
}

pub fn past_the_second_wrap(random: &mut Random) -> Vec<u8> {
    long_history(random, 16_384 + 100)
}

/// A mixed history of so many steps, with a refused list now and then.
pub fn long_history(random: &mut Random, steps: usize) -> Vec<u8> {
    let mut author = Author::new(random);
    author.begin(10);
    for _ in 0..steps {
        let most = author.random.pick(&[1, 1, 1, 2, 4]);
        let ended = author.random.below(most + 1);
        author.end(ended);
        if author.live.len() < 8 || author.random.once_in(2) {
            author.begin(most);
        }
        if author.live.len() > 15 {
            author.end(2);
        }
        author.change_words();
        author.put_live();
        if author.random.once_in(50) {
            let fault = author.random.between(1, 8) as u8;
            author.put_faulty(fault);
        }
    }
    author.input
}
