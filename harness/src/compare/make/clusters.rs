//! The calls about a cluster.

use super::{old_bytes, Call, Guarded, Outcome, Rng, Side};
use crate::compare::Answer;
use crate::guarded::GuardedNumber;
use crate::proved::clusters::ReplicaRow;

pub fn make(call: &Call, side: &Side, rng: &mut Rng) -> Option<Outcome> {
    match call {
        Call::Plan { .. } => plan(call, side, rng),
        Call::Step { .. } => step(call, side, rng),
        Call::Run { .. } => run(call, side, rng),
        _ => None,
    }
}

/// So many lent rows, of any old contents.
fn old_rows(rng: &mut Rng, length: usize) -> Guarded<ReplicaRow> {
    let mut old = vec![ReplicaRow::default(); length];
    for row in &mut old {
        row.readable = rng.byte();
        (row.length, row.last_epoch) = (rng.draw() as u32, rng.draw() as u32);
    }
    Guarded::new(rng, &old)
}

fn plan(call: &Call, side: &Side, rng: &mut Rng) -> Option<Outcome> {
    let &Call::Plan {
        shape,
        leader,
        present,
        slots,
        rows,
        ref cluster,
    } = call
    else {
        return None;
    };
    let cluster = Guarded::new(rng, cluster);
    let mut plan = old_bytes(rng, slots);
    let mut rows = old_rows(rng, rows);
    let (mut status, mut number) = (GuardedNumber::drawn(rng), GuardedNumber::drawn(rng));
    let answer = (side.plan)(
        cluster.part(),
        shape,
        leader,
        present,
        plan.part_mut(),
        rows.part_mut(),
        status.number_mut(),
        number.number_mut(),
    );
    let outcome = Outcome::new(Answer::Refusal(answer))
        .with_bytes("cluster", cluster)
        .with_bytes("plan", plan)
        .with_rows("rows", rows)
        .with_number("status", status)
        .with_number("number", number);
    Some(outcome)
}

fn step(call: &Call, side: &Side, rng: &mut Rng) -> Option<Outcome> {
    let &Call::Step {
        shape,
        leader,
        present,
        ref cluster,
    } = call
    else {
        return None;
    };
    let mut cluster = Guarded::new(rng, cluster);
    let (mut status, mut replica) = (GuardedNumber::drawn(rng), GuardedNumber::drawn(rng));
    let (mut slot, mut kind) = (GuardedNumber::drawn(rng), GuardedNumber::drawn(rng));
    let answer = (side.step)(
        cluster.part_mut(),
        shape,
        leader,
        present,
        status.number_mut(),
        replica.number_mut(),
        slot.number_mut(),
        kind.number_mut(),
    );
    let outcome = Outcome::new(Answer::Refusal(answer))
        .with_number("status", status)
        .with_number("replica", replica)
        .with_number("slot", slot)
        .with_number("kind", kind)
        .with_bytes("cluster", cluster);
    Some(outcome)
}

fn run(call: &Call, side: &Side, rng: &mut Rng) -> Option<Outcome> {
    let &Call::Run {
        shape,
        leader,
        present,
        budget,
        ref cluster,
    } = call
    else {
        return None;
    };
    let mut cluster = Guarded::new(rng, cluster);
    let (mut status, mut stores) = (GuardedNumber::drawn(rng), GuardedNumber::drawn(rng));
    let mut slot = GuardedNumber::drawn(rng);
    let answer = (side.run)(
        cluster.part_mut(),
        shape,
        leader,
        present,
        budget,
        status.number_mut(),
        stores.number_mut(),
        slot.number_mut(),
    );
    let outcome = Outcome::new(Answer::Refusal(answer))
        .with_number("status", status)
        .with_number("stores", stores)
        .with_number("slot", slot)
        .with_bytes("cluster", cluster);
    Some(outcome)
}
