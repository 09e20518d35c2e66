//! A regime makes inputs of one kind, each from a seed of its own.

use crate::random::Random;

#[derive(Clone, Copy)]
pub struct Regime {
    pub name: &'static str,
    pub sentence: &'static str,
    pub make: fn(&mut Random) -> Vec<u8>,
    pub times: Times,
}

/// How often a regime is run.
#[derive(Clone, Copy, PartialEq, Eq, Debug)]
pub enum Times {
    /// In turn with the others until there are enough cases.
    InTurn,
    /// So many times in all, because its cases are long.
    Few(u64),
}

impl Regime {
    /// The seed of a case, from the seed of the whole comparison. The name is
    /// mixed in, so that another order of the regimes gives the same cases.
    pub fn seed(&self, seed: u64, case: u64) -> u64 {
        let mut mixed = seed;
        for byte in self.name.bytes() {
            mixed = Random::new(mixed ^ u64::from(byte)).draw();
        }
        Random::new(mixed ^ case).draw()
    }
}
