//! A plain model of the rope log: its image, its reader, its planner and its recovery.
//!
//! It is written for comparison, so it prefers loops one can check by eye over speed.
//! Beside it stand the proved functions that it is compared with.

#![warn(clippy::undocumented_unsafe_blocks)]

pub mod bench;
pub mod call;
pub mod code;
pub mod compare;
pub mod comparisons;
pub mod fuzz;
pub mod generate;
pub mod guarded;
pub mod model;
pub mod program;
pub mod progress;
pub mod property;
pub mod proved;
pub mod samples;
pub mod side;
pub mod tally;
pub mod witnessed;
