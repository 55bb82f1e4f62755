//! The recovery step (the paper's settling): one store at a time, from the images alone.

use super::layout::{entry_offset, image_offset, record_offset, ENTRY_LEN, RECORD_LEN};
use super::planner::{decide, Answer, Decision, PLAN_FETCH, PLAN_REWRITE_RECORD, PLAN_TRUNCATE};
use super::read::{Log, Verdict};
use super::record::{write_record, BLANK_RECORD};
use super::refusal::Refusal;
use super::shape::Shape;
use super::survey::{survey, Survey};

/// What a store writes.
#[derive(Clone, Copy, Debug, PartialEq, Eq)]
pub enum StoreKind {
    /// One whole entry.
    Entry = 1,
    /// One record.
    Record = 2,
    /// One record blanked.
    Blank = 3,
}

/// A store with its bytes and where in the cluster they go.
#[derive(Clone, Debug, PartialEq, Eq)]
pub struct Store {
    pub replica: usize,
    pub slot: usize,
    pub kind: StoreKind,
    pub offset: usize,
    pub bytes: Vec<u8>,
}

/// What comes next in a cluster.
#[derive(Clone, Debug, PartialEq, Eq)]
pub enum Next {
    Store(Store),
    /// Nothing is outstanding (the paper's settled).
    Done,
    /// The plan waits, with its lowest waiting slot.
    Waiting(usize),
}

/// What a step did.
#[derive(Clone, Copy, Debug, PartialEq, Eq)]
pub enum StepAnswer {
    Store {
        replica: usize,
        slot: usize,
        kind: StoreKind,
    },
    Done,
    Waiting(usize),
}

/// Makes the first store still outstanding.
pub fn step(
    cluster: &mut [u8],
    shape: Shape,
    leader: usize,
    present: u32,
) -> Result<StepAnswer, Refusal> {
    match next_store(cluster, shape, leader, present)? {
        Next::Waiting(slot) => Ok(StepAnswer::Waiting(slot)),
        Next::Done => Ok(StepAnswer::Done),
        Next::Store(store) => {
            apply(cluster, &store);
            Ok(StepAnswer::Store {
                replica: store.replica,
                slot: store.slot,
                kind: store.kind,
            })
        }
    }
}

/// Puts a store's bytes in their place.
pub fn apply(cluster: &mut [u8], store: &Store) {
    cluster[store.offset..store.offset + store.bytes.len()].copy_from_slice(&store.bytes);
}

/// Finds the first store still outstanding and writes nothing.
pub fn next_store(
    cluster: &[u8],
    shape: Shape,
    leader: usize,
    present: u32,
) -> Result<Next, Refusal> {
    let survey = survey(cluster, shape, leader, present)?;
    let decision = decide(&survey);
    if let Answer::Waiting(slot) = decision.answer {
        return Ok(Next::Waiting(slot));
    }
    if let Some(store) = leader_store(cluster, &survey, &decision) {
        return Ok(Next::Store(store));
    }
    for replica in 1..=shape.n {
        if replica == leader {
            continue;
        }
        let Some(log) = survey.log(replica) else {
            continue;
        };
        if let Some(store) = follower_store(cluster, &survey, replica, log) {
            return Ok(Next::Store(store));
        }
    }
    Ok(Next::Done)
}

/// The leader's log first: the truncation, then fetched entries, then lost records.
fn leader_store(cluster: &[u8], survey: &Survey, decision: &Decision) -> Option<Store> {
    let (shape, leader) = (survey.shape, survey.leader);
    let log = survey.leader_log();
    for slot in (1..=log.length).rev() {
        let truncated = (1..=slot).any(|lower| decision.plan_byte(lower) == PLAN_TRUNCATE);
        if truncated {
            return Some(blank_store(shape, leader, slot));
        }
    }
    for slot in 1..=log.length {
        let byte = decision.plan_byte(slot);
        if byte > PLAN_FETCH {
            let donor = usize::from(byte - PLAN_FETCH);
            return Some(entry_store(cluster, shape, leader, slot, donor));
        }
    }
    for slot in 1..=log.length {
        if decision.plan_byte(slot) == PLAN_REWRITE_RECORD {
            return Some(record_store(shape, leader, log, slot, log.epoch(slot)));
        }
    }
    None
}

/// Another replica, once nothing is outstanding on the leader.
fn follower_store(cluster: &[u8], survey: &Survey, replica: usize, log: &Log) -> Option<Store> {
    let shape = survey.shape;
    let leader_log = survey.leader_log();
    let keep_below = first_difference(log, leader_log);
    if log.length >= keep_below {
        return Some(blank_store(shape, replica, log.length));
    }
    // On a witness no used slot needs anything.
    if !shape.is_witness(replica) {
        for slot in 1..keep_below {
            if log.verdict(slot).is_faulty() {
                return Some(entry_store(cluster, shape, replica, slot, survey.leader));
            }
        }
        for slot in 1..keep_below {
            if log.verdict(slot) == Verdict::RecordLost {
                return Some(record_store(shape, replica, log, slot, log.epoch(slot)));
            }
        }
    }
    // Only the lowest missing slot matters: its record makes the next one the lowest.
    if log.length < leader_log.length {
        return Some(missing_store(cluster, survey, replica, log));
    }
    None
}

/// The first missing slot: on a card its entry, unless it is the leader's already; then its record.
fn missing_store(cluster: &[u8], survey: &Survey, replica: usize, log: &Log) -> Store {
    let shape = survey.shape;
    let slot = log.length + 1;
    if !shape.is_witness(replica) {
        let entry = entry_store(cluster, shape, replica, slot, survey.leader);
        if cluster[entry.offset..entry.offset + ENTRY_LEN] != entry.bytes[..] {
            return entry;
        }
    }
    let epoch = survey.leader_log().epoch(slot);
    record_store(shape, replica, log, slot, epoch)
}

/// The paper's d: the lowest used slot that the leader does not share, else one past the last.
fn first_difference(log: &Log, leader_log: &Log) -> usize {
    for slot in 1..=log.length {
        if slot > leader_log.length || log.epoch(slot) != leader_log.epoch(slot) {
            return slot;
        }
    }
    log.length + 1
}

fn blank_store(shape: Shape, replica: usize, slot: usize) -> Store {
    Store {
        replica,
        slot,
        kind: StoreKind::Blank,
        offset: image_offset(shape, replica) + record_offset(shape, slot),
        bytes: BLANK_RECORD.to_vec(),
    }
}

/// The record of a slot of this log, which begins where the replica's header says.
fn record_store(shape: Shape, replica: usize, log: &Log, slot: usize, epoch: u32) -> Store {
    let bytes: [u8; RECORD_LEN] = write_record(epoch, log.index(slot));
    Store {
        replica,
        slot,
        kind: StoreKind::Record,
        offset: image_offset(shape, replica) + record_offset(shape, slot),
        bytes: bytes.to_vec(),
    }
}

/// The donor's entry of the same slot, all 240 bytes.
fn entry_store(cluster: &[u8], shape: Shape, replica: usize, slot: usize, donor: usize) -> Store {
    let from = image_offset(shape, donor) + entry_offset(shape, slot);
    Store {
        replica,
        slot,
        kind: StoreKind::Entry,
        offset: image_offset(shape, replica) + entry_offset(shape, slot),
        bytes: cluster[from..from + ENTRY_LEN].to_vec(),
    }
}
