//! Document 01, "Signals from the train": one record of signals.

use crate::refusal::Refusal;
use crate::telegram::TELEGRAM_BYTES;

pub const SYSTEMS: usize = 16;

/// The miss count stops here, and here every signal is silent.
const MOST_MISSES: u8 = 3;

#[derive(Clone, Copy, PartialEq, Eq, Debug)]
pub enum Cab {
    None,
    A,
    B,
    Invalid,
}

#[derive(Clone, Copy, PartialEq, Eq, Debug)]
pub enum Brake {
    PassengerP,
    FreightP,
    FreightG,
    Unknown,
    Invalid,
}

#[derive(Clone, Copy, PartialEq, Eq, Debug)]
pub enum Isolation {
    Isolated,
    NotIsolated,
    Invalid,
}

/// The states of one accepted telegram.
#[derive(Clone, Copy, PartialEq, Eq, Debug)]
pub struct States {
    pub cab: Cab,
    pub brake: Brake,
    /// The national systems; place 0 is system 1.
    pub systems: [Isolation; SYSTEMS],
    /// The list of supported traction systems; bit 0 is always zero.
    pub traction: u32,
}

/// The record of signals. All signals fall silent together and come back
/// together, so silence is the absence of states.
#[derive(Clone, Copy, PartialEq, Eq, Debug, Default)]
pub struct Signals {
    misses: u8,
    states: Option<States>,
}

impl Signals {
    pub fn new() -> Signals {
        Signals::default()
    }

    pub fn misses(&self) -> u8 {
        self.misses
    }

    /// None while every signal is silent.
    pub fn states(&self) -> Option<&States> {
        self.states.as_ref()
    }

    /// A call with a telegram. A refused one is a miss.
    pub fn hear(&mut self, telegram: &[u8]) -> Result<(), Refusal> {
        match read(telegram) {
            Ok(states) => {
                self.misses = 0;
                self.states = Some(states);
                Ok(())
            }
            Err(refusal) => {
                self.miss();
                Err(refusal)
            }
        }
    }

    /// A call with no telegram.
    pub fn miss(&mut self) {
        if self.misses < MOST_MISSES {
            self.misses += 1;
        }
        if self.misses == MOST_MISSES {
            self.states = None;
        }
    }
}

/// Reads a train telegram: refusals 10, 16 and 17.
fn read(bytes: &[u8]) -> Result<States, Refusal> {
    let Ok(bytes) = <&[u8; TELEGRAM_BYTES]>::try_from(bytes) else {
        return Err(Refusal::Length);
    };
    if bytes[0] != 1 {
        return Err(Refusal::TrainFirstByte);
    }
    let traction = u32::from_be_bytes([bytes[7], bytes[8], bytes[9], bytes[10]]);
    let beside_cab = bytes[1] & !0b11;
    let beside_brake = bytes[2] & !0b111;
    let rest = bytes[11..].iter().fold(0, |all, byte| all | byte);
    if beside_cab | beside_brake | rest != 0 || traction & 1 != 0 {
        return Err(Refusal::TrainZeroBit);
    }
    let cab = match bytes[1] {
        0 => Cab::None,
        0b10 => Cab::A,
        0b01 => Cab::B,
        _ => Cab::Invalid,
    };
    let brake = match bytes[2] {
        0 => Brake::PassengerP,
        1 => Brake::FreightP,
        2 => Brake::FreightG,
        3 => Brake::Unknown,
        _ => Brake::Invalid,
    };
    let isolated = u16::from_be_bytes([bytes[3], bytes[4]]);
    let inverse = u16::from_be_bytes([bytes[5], bytes[6]]);
    let mut systems = [Isolation::Invalid; SYSTEMS];
    for (bit, system) in systems.iter_mut().enumerate() {
        *system = match (isolated >> bit & 1, inverse >> bit & 1) {
            (1, 0) => Isolation::Isolated,
            (0, 1) => Isolation::NotIsolated,
            _ => Isolation::Invalid,
        };
    }
    Ok(States {
        cab,
        brake,
        systems,
        traction,
    })
}

#[cfg(test)]
mod tests {
    use super::*;

    fn telegram(start: &[u8]) -> [u8; 26] {
        let mut bytes = [0; 26];
        bytes[0] = 1;
        bytes[1..=start.len()].copy_from_slice(start);
        bytes
    }

    fn heard(bytes: &[u8; 26]) -> States {
        let mut signals = Signals::new();
        signals.hear(bytes).unwrap();
        *signals.states().unwrap()
    }

    #[test]
    fn fresh_is_silent_with_no_miss() {
        assert_eq!(Signals::new().misses(), 0);
        assert_eq!(Signals::new().states(), None);
    }

    #[test]
    fn cab_a_is_bit_1_and_cab_b_is_bit_0() {
        let cabs = [Cab::None, Cab::B, Cab::A, Cab::Invalid];
        for (bits, cab) in (0..).zip(cabs) {
            assert_eq!(heard(&telegram(&[bits])).cab, cab);
        }
    }

    #[test]
    fn brake_positions_above_3_are_invalid() {
        use Brake::*;
        let positions = [PassengerP, FreightP, FreightG, Unknown];
        for (number, position) in (0..8).zip(positions.into_iter().chain([Invalid; 4])) {
            assert_eq!(heard(&telegram(&[0, number])).brake, position);
        }
    }

    #[test]
    fn each_system_has_its_own_pair_of_bits() {
        for bit in 0..16 {
            for (one, inverse, state) in [
                (0u16, 0u16, Isolation::Invalid),
                (0, 1, Isolation::NotIsolated),
                (1, 0, Isolation::Isolated),
                (1, 1, Isolation::Invalid),
            ] {
                // All the others are not isolated.
                let ones = one << bit;
                let inverses = !(1 << bit) | inverse << bit;
                let [a, b] = ones.to_be_bytes();
                let [c, d] = inverses.to_be_bytes();
                let systems = heard(&telegram(&[0, 0, a, b, c, d])).systems;
                for (place, &system) in systems.iter().enumerate() {
                    let expected = if place == bit {
                        state
                    } else {
                        Isolation::NotIsolated
                    };
                    assert_eq!(system, expected, "{bit} {place}");
                }
            }
        }
    }

    #[test]
    fn invalid_signals_leave_their_neighbours_and_show_nothing_earlier() {
        let mut signals = Signals::new();
        signals.hear(&telegram(&[2, 1, 0, 1, 0xFF, 0xFE])).unwrap();
        signals.hear(&telegram(&[3, 2, 0, 1, 0xFF, 0xFF])).unwrap();
        let states = signals.states().unwrap();
        assert_eq!((states.cab, states.brake), (Cab::Invalid, Brake::FreightG));
        assert_eq!(states.systems[0], Isolation::Invalid);
        assert_eq!(states.systems[1], Isolation::NotIsolated);
    }

    #[test]
    fn refusals_10_16_17_come_in_this_order() {
        let mut signals = Signals::new();
        for length in (0..60).filter(|&length| length != 26) {
            assert_eq!(signals.hear(&vec![0xFF; length]), Err(Refusal::Length));
        }
        for first in (0..=255).filter(|&first| first != 1) {
            let mut bytes = [0xFF; 26];
            bytes[0] = first;
            assert_eq!(signals.hear(&bytes), Err(Refusal::TrainFirstByte));
        }
        assert_eq!(signals.hear(&telegram(&[0xFF])), Err(Refusal::TrainZeroBit));
    }

    #[test]
    fn every_zero_bit_is_refused_17_and_no_other_bit_is() {
        let mut zero_bits = 0;
        for bit in 8..26 * 8 {
            let mut bytes = telegram(&[]);
            bytes[bit / 8] |= 1 << (bit % 8);
            let answer = Signals::new().hear(&bytes);
            let free = match bit / 8 {
                1 => bit % 8 < 2,
                2 => bit % 8 < 3,
                3..=9 => true,
                10 => bit % 8 > 0,
                _ => false,
            };
            assert_eq!(answer.is_ok(), free, "{bit}");
            if !free {
                assert_eq!(answer, Err(Refusal::TrainZeroBit));
                zero_bits += 1;
            }
        }
        assert_eq!(zero_bits, 6 + 5 + 1 + 15 * 8);
    }

    #[test]
    fn two_misses_keep_and_the_third_silences() {
        let good = telegram(&[2, 3]);
        let mut signals = Signals::new();
        signals.hear(&good).unwrap();
        let states = signals.states().copied();
        signals.miss();
        assert_eq!((signals.misses(), signals.states().copied()), (1, states));
        assert!(signals.hear(&[]).is_err());
        assert_eq!((signals.misses(), signals.states().copied()), (2, states));
        signals.miss();
        assert_eq!((signals.misses(), signals.states()), (3, None));
        signals.miss();
        assert_eq!((signals.misses(), signals.states()), (3, None));
        signals.hear(&good).unwrap();
        assert_eq!((signals.misses(), signals.states().copied()), (0, states));
    }
}
