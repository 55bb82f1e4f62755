//! A recovery run: steps until nothing is left or the budget is used.

use super::refusal::Refusal;
use super::shape::Shape;
use super::step::{apply, next_store, Next};

/// How a run ends.
#[derive(Clone, Copy, Debug, PartialEq, Eq)]
pub enum RunEnd {
    /// Nothing is outstanding.
    Done,
    /// The plan waits, with its lowest waiting slot.
    Waiting(usize),
    /// The whole budget was used and a store is outstanding.
    Spent,
}

/// How a run ends, and how many stores it made.
#[derive(Clone, Copy, Debug, PartialEq, Eq)]
pub struct RunAnswer {
    pub end: RunEnd,
    pub stores: u64,
}

/// Makes at most `budget` stores.
pub fn run(
    cluster: &mut [u8],
    shape: Shape,
    leader: usize,
    present: u32,
    budget: u64,
) -> Result<RunAnswer, Refusal> {
    let mut stores = 0;
    loop {
        let end = match next_store(cluster, shape, leader, present)? {
            Next::Done => RunEnd::Done,
            Next::Waiting(slot) => RunEnd::Waiting(slot),
            Next::Store(_) if stores == budget => RunEnd::Spent,
            Next::Store(store) => {
                apply(cluster, &store);
                stores += 1;
                continue;
            }
        };
        return Ok(RunAnswer { end, stores });
    }
}
