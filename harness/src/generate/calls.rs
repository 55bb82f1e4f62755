//! The calls about a generated image or cluster, and any call at all.

use super::images::{image_calls, ImageCalls};
use super::piece_calls::{checksum_call, entry_calls, header_calls, measure_calls};
use super::piece_calls::{read_column_call, record_calls, write_number_call};
use super::recovery::recovery_case;
use super::rng::Rng;
use super::Case;
use crate::call::Call;
use crate::model::MAX_SLOTS;

/// One call of each name, in the order of their names.
pub fn one_of_each(rng: &mut Rng) -> Vec<Call> {
    let mut calls = vec![
        checksum_call(rng),
        write_number_call(rng),
        read_column_call(rng),
    ];
    let [judge, write] = header_calls(rng);
    calls.extend([write, judge]);
    let [judge, write, blank] = record_calls(rng);
    calls.extend([write, blank, judge]);
    let [judge, write, fresh] = entry_calls(rng);
    calls.extend([write, fresh, judge]);
    calls.extend(about_an_image(rng));
    calls.extend(about_a_cluster(rng));
    calls.extend(measure_calls(rng));
    calls
}

fn about_an_image(rng: &mut Rng) -> [Call; 7] {
    let m = match rng.below(50) {
        0 => rng.between(9, 64),
        1..=10 => rng.between(3, 8),
        _ => rng.between(1, 2),
    };
    let calls = image_calls(rng, m);
    let slot = match rng.below(10) {
        0 => *rng.pick(&[0, m + 1, usize::MAX]),
        _ => rng.between(1, m),
    };
    [
        calls.format(),
        calls.append(),
        calls.read(),
        calls.has_payload(slot),
        calls.payload(slot),
        calls.witness_append(),
        calls.witness_read(),
    ]
}

fn about_a_cluster(rng: &mut Rng) -> [Call; 3] {
    let case = recovery_case(rng);
    let plan = plan_call(rng, &case);
    let budget = match rng.below(4) {
        0 => u64::MAX,
        1 => rng.below(3 * 64 * 7) as u64,
        _ => rng.below(6) as u64,
    };
    [plan, case.step(), case.run(budget)]
}

/// A plan and a table are lent, each of the wrong length now and then.
pub fn plan_call(rng: &mut Rng, case: &Case) -> Call {
    // Neither is ever as long as a number may be.
    let slots = some_length(rng, case.shape.m.min(100), MAX_SLOTS);
    let rows = some_length(rng, case.shape.n.min(8), 7);
    case.plan(slots, rows)
}

/// Mostly the right length, else one beside it, none, the most that there may be, or more.
fn some_length(rng: &mut Rng, right: usize, most: usize) -> usize {
    if rng.chance(3) {
        *rng.pick(&[0, right.saturating_sub(1), right + 1, most, 2 * most])
    } else {
        right
    }
}

impl ImageCalls {
    /// A fresh image of the same length.
    pub fn format(&self) -> Call {
        Call::Format {
            length: self.image.len(),
            shape: self.shape,
            replica: self.replica,
            first: self.first,
        }
    }

    pub fn append(&self) -> Call {
        Call::Append {
            shape: self.shape,
            replica: self.replica,
            epoch: self.epoch,
            payload: self.payload.clone(),
            image: self.image.clone(),
        }
    }

    pub fn read(&self) -> Call {
        Call::Read {
            shape: self.shape,
            replica: self.replica,
            epochs: self.epochs,
            verdicts: self.verdicts,
            image: self.image.clone(),
        }
    }

    pub fn has_payload(&self, slot: usize) -> Call {
        Call::HasPayload {
            shape: self.shape,
            replica: self.replica,
            slot,
            image: self.image.clone(),
        }
    }

    pub fn payload(&self, slot: usize) -> Call {
        Call::Payload {
            shape: self.shape,
            replica: self.replica,
            slot,
            image: self.image.clone(),
        }
    }

    pub fn witness_append(&self) -> Call {
        Call::WitnessAppend {
            shape: self.shape,
            replica: self.replica,
            epoch: self.epoch,
            image: self.image.clone(),
        }
    }

    pub fn witness_read(&self) -> Call {
        Call::WitnessRead {
            shape: self.shape,
            replica: self.replica,
            epochs: self.epochs,
            image: self.image.clone(),
        }
    }
}

impl Case {
    /// A plan of so many slots and a table of so many rows are lent.
    pub fn plan(&self, slots: usize, rows: usize) -> Call {
        Call::Plan {
            shape: self.shape,
            leader: self.leader,
            present: self.present,
            slots,
            rows,
            cluster: self.cluster.clone(),
        }
    }

    pub fn step(&self) -> Call {
        Call::Step {
            shape: self.shape,
            leader: self.leader,
            present: self.present,
            cluster: self.cluster.clone(),
        }
    }

    pub fn run(&self, budget: u64) -> Call {
        Call::Run {
            shape: self.shape,
            leader: self.leader,
            present: self.present,
            budget,
            cluster: self.cluster.clone(),
        }
    }
}
