//! A cluster: each call answers 0, or the refusal's number, and then nothing that was lent has
//! changed.

use super::exported;
use crate::model::{self, Shape};

pub use exported::RawRow as ReplicaRow;

/// The model's row, laid out for the proved call.
impl From<model::ReplicaRow> for ReplicaRow {
    fn from(row: model::ReplicaRow) -> ReplicaRow {
        ReplicaRow {
            readable: row.readable,
            length: row.length,
            last_epoch: row.last_epoch,
        }
    }
}

/// And back.
impl From<ReplicaRow> for model::ReplicaRow {
    fn from(row: ReplicaRow) -> model::ReplicaRow {
        model::ReplicaRow {
            readable: row.readable,
            length: row.length,
            last_epoch: row.last_epoch,
        }
    }
}

/// A row that is the same number throughout, for guards.
impl From<u8> for ReplicaRow {
    fn from(byte: u8) -> ReplicaRow {
        ReplicaRow {
            readable: byte,
            length: byte.into(),
            last_epoch: byte.into(),
        }
    }
}

/// Fills the plan of m bytes and the table of n rows; hands out 0 and the final length, or 1 and the
/// lowest waiting slot.
pub fn plan(
    cluster: &[u8],
    shape: Shape,
    leader: usize,
    present: u32,
    plan: &mut [u8],
    rows: &mut [ReplicaRow],
    status: &mut u8,
    number: &mut usize,
) -> u8 {
    let (cluster, len) = (cluster.as_ptr(), cluster.len());
    let (plan, plan_len) = (plan.as_mut_ptr(), plan.len());
    let (rows, rows_len) = (rows.as_mut_ptr(), rows.len());
    let shape = shape.into();
    // SAFETY: the slices and the numbers are lent for the call, and none overlaps another.
    unsafe {
        exported::rope_plan(
            cluster, len, shape, leader, present, plan, plan_len, rows, rows_len, status, number,
        )
    }
}

/// Hands out 0 if no store is outstanding; 1 and the lowest waiting slot; or 2 and the replica, slot
/// and kind of the store that it made.
pub fn step(
    cluster: &mut [u8],
    shape: Shape,
    leader: usize,
    present: u32,
    status: &mut u8,
    replica: &mut usize,
    slot: &mut usize,
    kind: &mut u8,
) -> u8 {
    let (cluster, len) = (cluster.as_mut_ptr(), cluster.len());
    // SAFETY: the slice and the numbers are lent for the call, and none overlaps another.
    unsafe {
        exported::rope_step(
            cluster,
            len,
            shape.into(),
            leader,
            present,
            status,
            replica,
            slot,
            kind,
        )
    }
}

/// Hands out 0 if no store is outstanding, 2 if one is, or 1 and the lowest waiting slot; and the
/// number of stores that it made.
pub fn run(
    cluster: &mut [u8],
    shape: Shape,
    leader: usize,
    present: u32,
    budget: u64,
    status: &mut u8,
    stores: &mut u64,
    slot: &mut usize,
) -> u8 {
    let (cluster, len) = (cluster.as_mut_ptr(), cluster.len());
    // SAFETY: the slice and the numbers are lent for the call, and none overlaps another.
    unsafe {
        exported::rope_run(
            cluster,
            len,
            shape.into(),
            leader,
            present,
            budget,
            status,
            stores,
            slot,
        )
    }
}
