//! Document 01, "Conditions": the nine types and their two words; and document
//! 02, request 1: voltage 0 has no country.

/// The distance that means no value. It is never -32,768 metres.
pub const NO_VALUE: u16 = 0x8000;

pub const TRACTION_CHANGE: u8 = 4;
pub const CURRENT_CHANGE: u8 = 5;

const HIGHEST_VOLTAGE: u16 = 5;
/// The ten country bits in the second word of type 4.
const COUNTRY_BITS: u16 = 0x3FF0;
const HIGHEST_LIMIT: u16 = 1000;
const NO_RESTRICTION: u16 = 1023;

/// A condition as it is held: type, first word and second word.
///
/// A held condition of type 4 or 5 without a change distance has the second
/// word zero, and one of type 4 with voltage 0 has country 0.
/// [`Condition::held`] is the one place that sees to it.
#[derive(Clone, Copy, PartialEq, Eq, Debug, Default)]
pub struct Condition {
    pub kind: u8,
    pub first: u16,
    pub second: u16,
}

pub fn is_type(kind: u8) -> bool {
    (1..=9).contains(&kind)
}

/// Types 4 and 5 without a change distance: the second word is not considered.
fn second_is_not_considered(kind: u8, first: u16) -> bool {
    (kind == TRACTION_CHANGE || kind == CURRENT_CHANGE) && first == NO_VALUE
}

/// Type 4 with voltage 0: the line is fitted with no traction system, and the
/// ten country bits are not considered.
fn country_is_not_considered(kind: u8, second: u16) -> bool {
    kind == TRACTION_CHANGE && voltage(second) == 0
}

/// Whether refusal 6 stays away. Bits 15 and 14 of type 4 are checked with
/// every voltage. For the types with an exit every word is a distance or no
/// value, hence allowed.
pub fn second_is_allowed(kind: u8, first: u16, second: u16) -> bool {
    if second_is_not_considered(kind, first) {
        return true;
    }
    match kind {
        TRACTION_CHANGE => second >> 14 == 0 && second & 0xF <= HIGHEST_VOLTAGE,
        CURRENT_CHANGE => second <= HIGHEST_LIMIT || second == NO_RESTRICTION,
        _ => true,
    }
}

impl Condition {
    /// The condition that is held for these words.
    pub fn held(kind: u8, first: u16, second: u16) -> Condition {
        let second = if second_is_not_considered(kind, first) {
            0
        } else if country_is_not_considered(kind, second) {
            second & !COUNTRY_BITS
        } else {
            second
        };
        Condition {
            kind,
            first,
            second,
        }
    }
}

/// A word that is a distance, in metres; none where there is no value.
pub fn metres(word: u16) -> Option<i16> {
    if word == NO_VALUE {
        None
    } else {
        Some(word as i16)
    }
}

/// The voltage in the second word of type 4.
pub fn voltage(second: u16) -> u16 {
    second & 0xF
}

/// The country in the second word of type 4.
pub fn country(second: u16) -> u16 {
    second >> 4 & 0x3FF
}

#[cfg(test)]
mod tests {
    use super::*;

    #[test]
    fn types_are_1_to_9() {
        for kind in 0..=255 {
            assert_eq!(is_type(kind), matches!(kind, 1..=9), "{kind}");
        }
    }

    #[test]
    fn every_exit_is_allowed() {
        for kind in [1, 2, 3, 6, 7, 8, 9] {
            for second in 0..=0xFFFF {
                assert!(second_is_allowed(kind, 0, second));
                assert!(second_is_allowed(kind, NO_VALUE, second));
            }
        }
    }

    #[test]
    fn traction_words_have_a_voltage_up_to_5_and_two_zero_bits() {
        let allowed = (0..=0xFFFF)
            .filter(|&second| second_is_allowed(TRACTION_CHANGE, 0, second))
            .count();
        assert_eq!(allowed, 1024 * 6);
        assert!(second_is_allowed(TRACTION_CHANGE, 0, 0x3FF5));
        assert!(!second_is_allowed(TRACTION_CHANGE, 0, 0x3FF6));
        assert!(!second_is_allowed(TRACTION_CHANGE, 0, 0x4000));
        assert!(!second_is_allowed(TRACTION_CHANGE, 0, 0x8000));
    }

    #[test]
    fn limits_are_0_to_1000_or_1023() {
        let allowed = (0..=0xFFFF)
            .filter(|&second| second_is_allowed(CURRENT_CHANGE, 0x7FFF, second))
            .count();
        assert_eq!(allowed, 1002);
        assert!(second_is_allowed(CURRENT_CHANGE, 0, 0));
        assert!(second_is_allowed(CURRENT_CHANGE, 0, 1000));
        assert!(!second_is_allowed(CURRENT_CHANGE, 0, 1001));
        assert!(!second_is_allowed(CURRENT_CHANGE, 0, 1022));
        assert!(second_is_allowed(CURRENT_CHANGE, 0, 1023));
        assert!(!second_is_allowed(CURRENT_CHANGE, 0, 1024));
    }

    #[test]
    fn without_a_change_distance_the_second_word_is_held_as_zero() {
        for kind in [TRACTION_CHANGE, CURRENT_CHANGE] {
            for second in [0, 1, 6, 1001, 0x8000, 0xFFFF] {
                assert!(second_is_allowed(kind, NO_VALUE, second));
                assert_eq!(Condition::held(kind, NO_VALUE, second).second, 0);
            }
        }
        assert_eq!(Condition::held(1, NO_VALUE, 0xFFFF).second, 0xFFFF);
        assert_eq!(Condition::held(5, 0x7FFF, 1000).second, 1000);
    }

    #[test]
    fn with_voltage_0_any_country_is_allowed_and_held_as_zero() {
        for country in 0..1024 {
            let second = country << 4;
            for first in [0, 0x7FFF, 0x8001, 0xFFFF] {
                assert!(second_is_allowed(TRACTION_CHANGE, first, second));
                assert_eq!(Condition::held(TRACTION_CHANGE, first, second).second, 0);
                for top in [0x4000, 0x8000, 0xC000] {
                    assert!(!second_is_allowed(TRACTION_CHANGE, first, top | second));
                    assert!(second_is_allowed(TRACTION_CHANGE, NO_VALUE, top | second));
                }
                for voltage in 1..=5 {
                    let held = Condition::held(TRACTION_CHANGE, first, second | voltage);
                    assert_eq!(held.second, second | voltage);
                }
            }
            // A limit whose low four bits are zero, and an exit.
            assert_eq!(Condition::held(CURRENT_CHANGE, 0, second).second, second);
            assert_eq!(Condition::held(1, 0, second).second, second);
        }
    }

    #[test]
    fn distances_are_two_s_complement_and_8000h_is_none() {
        assert_eq!(metres(0), Some(0));
        assert_eq!(metres(0x7FFF), Some(32_767));
        assert_eq!(metres(0x8000), None);
        assert_eq!(metres(0x8001), Some(-32_767));
        assert_eq!(metres(0xFFFF), Some(-1));
    }
}
