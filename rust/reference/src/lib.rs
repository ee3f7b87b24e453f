//! Document 01, the elements file of docs/FORMATS.md, and the state of a day and the scale figures of
//! include/yurdelmiz.h, in plain Rust: what the proved library is compared with.
//!
//! Written from these alone. Each module has one of its subjects; quotients are cut toward
//! zero unless the document says "down", as `/` and `div_euclid` do.

pub mod day_bytes;
pub mod eclipse;
pub mod element_sets;
pub mod elements_file;
pub mod figures_bytes;
pub mod file;
pub mod kepler;
pub mod label;
pub mod listing;
pub mod orbit;
pub mod packets;
pub mod refusal;
pub mod salvage;
pub mod scale;
pub mod sine;
pub mod sun;
pub mod tail;
pub mod telemetry;
pub mod trailer;
pub mod two_line;

pub use refusal::{Refusal, Refused};
