//! Document 01, "The list and the step" and "The listener": step numbers.

/// Step numbers go from 0 to 8,191.
pub const STEPS: u16 = 8192;

/// The step number after this one; 8,191 is followed by 0.
pub fn next(step: u16) -> u16 {
    if step == STEPS - 1 {
        0
    } else {
        step + 1
    }
}

/// The new step number less the last taken one, around 8,192.
pub fn gap(new: u16, last: u16) -> u16 {
    if new >= last {
        new - last
    } else {
        new + STEPS - last
    }
}

#[cfg(test)]
mod tests {
    use super::*;

    #[test]
    fn steps_go_round() {
        assert_eq!(next(0), 1);
        assert_eq!(next(8190), 8191);
        assert_eq!(next(8191), 0);
    }

    #[test]
    fn gaps_go_round() {
        assert_eq!(gap(3, 8190), 5);
        assert_eq!(gap(8191, 0), 8191);
        assert_eq!(gap(0, 8191), 1);
        assert_eq!(gap(7, 7), 0);
        assert_eq!(gap(6, 7), 8191);
    }
}
