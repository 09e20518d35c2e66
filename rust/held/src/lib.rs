//! Holds the proved library against the plain one.
//!
//! Document 01, "How much a contract has to say", asks that all cases beyond
//! the reckoned ones be run and compared with an independent program in Rust.
//! `compare` does that; `bench` measures the two side by side.

pub mod author;
pub mod damage;
pub mod desk_regimes;
pub mod from_memory;
pub mod heard;
pub mod hearing_regimes;
pub mod hold;
pub mod inputs;
pub mod loss;
pub mod measured;
pub mod random;
pub mod recording_regimes;
pub mod regime;
pub mod second_words;
pub mod signal_regimes;
pub mod tally;
pub mod turns;
pub mod unfitted;
pub mod whole;
pub mod words;
pub mod writing;
