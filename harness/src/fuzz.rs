//! Calls of every kind, made by two sides until they differ or the time is over.

mod reshape;
mod shrink;

use std::fmt;
use std::panic::{self, AssertUnwindSafe};
use std::time::{Duration, Instant};

use crate::call::Call;
use crate::compare::{compare, test_text};
use crate::generate::one_of_each;
use crate::progress;
use crate::property::case_rng;
use crate::side::Side;

/// A call in which the two sides differ, as small as it could be made.
#[derive(Clone, Debug)]
pub struct Difference {
    /// What was found at first.
    pub first: String,
    pub call: Call,
    pub old: u64,
    /// What the small call tells.
    pub told: String,
}

/// How many rounds of calls were made, and the difference that ended them.
#[derive(Clone, Debug)]
pub struct Fuzzed {
    pub seed: u64,
    pub rounds: u64,
    pub difference: Option<Difference>,
}

/// Makes rounds of one call of each name, at least one, until the time is over.
pub fn fuzz(expected: &Side, tried: &Side, seed: u64, time: Duration) -> Fuzzed {
    let start = Instant::now();
    let mut rounds = 0;
    loop {
        let mut rng = case_rng(seed, rounds);
        rounds += 1;
        for call in one_of_each(&mut rng) {
            let old = rng.draw();
            if let Some(first) = difference(&call, old, expected, tried) {
                let difference = Some(smallest(call, old, first, expected, tried));
                return Fuzzed {
                    seed,
                    rounds,
                    difference,
                };
            }
        }
        progress::step();
        if start.elapsed() >= time {
            return Fuzzed {
                seed,
                rounds,
                difference: None,
            };
        }
    }
}

fn smallest(call: Call, old: u64, first: String, expected: &Side, tried: &Side) -> Difference {
    let differ = |call: &Call, old| difference(call, old, expected, tried).is_some();
    let (call, old) = shrink::shrink(call, old, differ);
    let told = difference(&call, old, expected, tried).unwrap_or_default();
    Difference {
        first,
        call,
        old,
        told,
    }
}

/// What differs, if something does; a side that panics differs from one that does not.
fn difference(call: &Call, old: u64, expected: &Side, tried: &Side) -> Option<String> {
    let compared = panic::catch_unwind(AssertUnwindSafe(|| compare(call, old, expected, tried)));
    match compared {
        Ok(Ok(_)) => None,
        Ok(Err(difference)) => Some(difference),
        Err(_) => Some(format!("{}: a side panics", call.name())),
    }
}

impl fmt::Display for Fuzzed {
    fn fmt(&self, f: &mut fmt::Formatter) -> fmt::Result {
        let Fuzzed { seed, rounds, .. } = self;
        let calls = Call::NAMES.len();
        writeln!(f, "seed {seed}: {rounds} rounds of {calls} calls")?;
        let Some(difference) = &self.difference else {
            return writeln!(f, "no difference");
        };
        let Difference {
            first,
            call,
            old,
            told,
        } = difference;
        writeln!(f, "found: {first}")?;
        writeln!(f, "the smallest call: {told}\n")?;
        write!(f, "{}", test_text(call, *old))
    }
}
