//! The code that named tests and lists of calls are made on: a side, with its answers in the model's
//! types.
//!
//! Its methods take what the model's functions of the same names take.

mod clusters;
mod images;
mod pieces;

pub use clusters::{Planned, Stores};

use crate::model::{self, Refusal};
use crate::program;
use crate::side::{self, Side};

#[derive(Clone, Copy)]
pub struct Code {
    /// For messages.
    pub name: &'static str,
    pub side: Side,
    /// The printing program: its output for an input.
    pub report: fn(&[u8]) -> Vec<u8>,
}

pub const MODEL: Code = Code {
    name: "the model",
    side: side::MODEL,
    report: model::report,
};

pub const PROVED: Code = Code {
    name: "the proved code",
    side: side::PROVED,
    report: program::report,
};

impl Code {
    pub fn report(&self, input: &[u8]) -> Vec<u8> {
        (self.report)(input)
    }
}

/// The refusals of calls. 14 is the printing program's.
const REFUSALS: [Refusal; 16] = [
    Refusal::SlotCount,
    Refusal::ReplicaCount,
    Refusal::BufferLength,
    Refusal::Header,
    Refusal::UsedAfterBlank,
    Refusal::BothLost,
    Refusal::EpochFalls,
    Refusal::AppendEpoch,
    Refusal::AppendPayload,
    Refusal::AppendFull,
    Refusal::Present,
    Refusal::Leader,
    Refusal::LentLength,
    Refusal::FirstIndex,
    Refusal::FirstDiffers,
    Refusal::Witnesses,
];

/// What a call about an image or a cluster answers with this number.
fn accepted(number: u8) -> Result<(), Refusal> {
    if number == 0 {
        return Ok(());
    }
    let refusal = REFUSALS
        .into_iter()
        .find(|refusal| refusal.number() == number);
    Err(refusal.unwrap_or_else(|| panic!("refused by {number}")))
}

/// Two tests of each of these functions: `model::NAME` on the model, `proved::NAME` on the proved code.
///
/// Under `#![deny(dead_code)]` one that is not named here does not compile.
#[macro_export]
macro_rules! on_both_sides {
    ($($test:ident),* $(,)?) => {
        mod model {
            $(
                #[test]
                fn $test() {
                    super::$test($crate::code::MODEL)
                }
            )*
        }
        mod proved {
            $(
                #[test]
                fn $test() {
                    super::$test($crate::code::PROVED)
                }
            )*
        }
    };
}
