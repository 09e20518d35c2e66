//! Document 01 once more, in plain Rust, and the requests of document 02 that
//! have landed.
//!
//! This library was written from documents 01 and 02 alone. It shares no line
//! and no definition with the proved library, so that an error of one is not an
//! error of both. It is used in two ways: `compare` runs the two on the same
//! inputs and compares every byte, and `bench` measures them side by side.
//!
//! One idea has one file, and the names are document 01's words. Only `type`
//! is a word of Rust, so the type of a condition is called `kind` here.

#[cfg(feature = "programs")]
pub mod blocks;
pub mod calls;
pub mod condition;
pub mod desk;
pub mod hearing;
pub mod listener;
pub mod listing;
pub mod order;
pub mod refusal;
pub mod run;
pub mod signals;
pub mod step;
pub mod telegram;
pub mod text;
