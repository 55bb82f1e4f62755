//! Making a call by one side, with guards around everything that is lent.

mod clusters;
mod images;
mod pieces;

use super::Outcome;
use crate::call::Call;
use crate::generate::Rng;
use crate::guarded::Guarded;
use crate::side::Side;

/// Makes the call. The old contents of what is only written over are drawn.
pub fn make(call: &Call, side: &Side, rng: &mut Rng) -> Outcome {
    pieces::make(call, side, rng)
        .or_else(|| images::make(call, side, rng))
        .or_else(|| clusters::make(call, side, rng))
        .expect("a call is about pieces, an image or a cluster")
}

/// So many lent bytes, of any old contents.
fn old_bytes(rng: &mut Rng, length: usize) -> Guarded {
    let old: Vec<u8> = (0..length).map(|_| rng.byte()).collect();
    Guarded::new(rng, &old)
}
