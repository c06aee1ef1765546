//! Each call's cases: how its inputs are drawn and damaged, what each side answers, and which of them are recorded.
pub mod avail;
mod bands;
pub mod bands_cases;
mod bands_refusals;
pub mod by_rows;
pub mod chroma_qp;
mod data;
pub mod deblock;
pub mod deblock_cases;
mod deblock_refusals;
mod driver;
pub mod driver_cases;
mod driver_refusals;
pub mod gather;
pub mod grey;
pub mod keep;
#[cfg(feature = "archive")]
pub mod listing;
pub mod mend;
pub mod pack;
pub mod predict;
pub mod ranks;
pub mod recon;
pub mod rows;
pub mod screen;
pub mod sheet;
pub mod streams;
pub mod tape;
#[cfg(feature = "archive")]
pub mod tree;
pub mod trees;
