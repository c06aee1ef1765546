//! The unchanged Rust, called on plain slices: one file for each of our modules.
//! revc's own files are modules of this crate root (see build.rs). A call answers None where the Rust panics
//! (an overflow, an index, an assertion); what it was lent to write is then as it was.
#[macro_use]
extern crate num_derive;

include!(concat!(env!("OUT_DIR"), "/revc.rs"));

pub mod avail;
pub mod chroma;
pub mod deblock;
pub mod driver;
pub mod gather;
mod planes;
pub mod predict;
pub mod ranks;
pub mod residual;
#[cfg(visits)]
pub mod visits;

use std::panic::{catch_unwind, AssertUnwindSafe};

/// Runs the Rust; None where it panics.
fn caught<T>(f: impl FnOnce() -> T) -> Option<T> {
    catch_unwind(AssertUnwindSafe(f)).ok()
}

/// The unit words as the Rust's own type.
fn map_of(words: &[u32]) -> Vec<def::MCU> {
    words.iter().map(|&word| def::MCU::from(word)).collect()
}
