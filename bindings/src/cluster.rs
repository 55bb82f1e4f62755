//! A cluster: planned, and recovered by steps and runs.

use std::fmt;

use crate::exported::{self, no_such, RawRow};
use crate::geometry::{Epoch, Geometry, Replica, ReplicaSet};
use crate::refusal::{accepted, Refusal};
use crate::{MAX_REPLICAS, MAX_SLOTS};

/// What is to be done about a slot of the leader.
#[derive(Clone, Copy, Debug, PartialEq, Eq, Hash)]
#[non_exhaustive]
pub enum PlanAction {
    /// 0: nothing stands there.
    Unused,
    /// 1: nothing.
    Whole,
    /// 2: the record is lost, and is written again from the entry.
    RewriteRecord,
    /// 3: the slot is faulty, and the replicas that answer cannot decide.
    Wait,
    /// 4: the lowest slot that is cut, since no majority of all replicas can have held it.
    Truncate,
    /// 5: a used slot behind that one, which goes with it.
    TruncatedAfter,
    /// 10 + c: the entry is fetched from this replica, which is no witness.
    Fetch(Replica),
}

impl PlanAction {
    /// The plan byte by which C and the printing program name it.
    pub fn number(self) -> u8 {
        match self {
            PlanAction::Unused => 0,
            PlanAction::Whole => 1,
            PlanAction::RewriteRecord => 2,
            PlanAction::Wait => 3,
            PlanAction::Truncate => 4,
            PlanAction::TruncatedAfter => 5,
            PlanAction::Fetch(replica) => 10 + replica.0 as u8,
        }
    }

    fn from_number(number: u8, n: usize) -> PlanAction {
        match number {
            0 => PlanAction::Unused,
            1 => PlanAction::Whole,
            2 => PlanAction::RewriteRecord,
            3 => PlanAction::Wait,
            4 => PlanAction::Truncate,
            5 => PlanAction::TruncatedAfter,
            number if (11..=10 + n).contains(&usize::from(number)) => {
                PlanAction::Fetch(Replica(usize::from(number) - 10))
            }
            number => no_such("rope_plan", number),
        }
    }
}

impl fmt::Display for PlanAction {
    fn fmt(&self, f: &mut fmt::Formatter<'_>) -> fmt::Result {
        match self {
            PlanAction::Unused => f.write_str("unused"),
            PlanAction::Whole => f.write_str("whole"),
            PlanAction::RewriteRecord => f.write_str("rewrite the record"),
            PlanAction::Wait => f.write_str("wait"),
            PlanAction::Truncate => f.write_str("truncate"),
            PlanAction::TruncatedAfter => f.write_str("truncated after"),
            PlanAction::Fetch(replica) => write!(f, "fetch from {replica}"),
        }
    }
}

/// Whether a plan can be carried out.
#[derive(Clone, Copy, Debug, PartialEq, Eq, Hash)]
pub enum PlanAnswer {
    /// It can; the leader's log will have this length.
    Ready {
        /// The final length.
        length: usize,
    },
    /// It cannot yet.
    Waiting {
        /// The lowest waiting slot, from 1.
        slot: usize,
    },
}

/// What the planner says of one replica.
#[derive(Clone, Copy, Debug, PartialEq, Eq, Hash)]
pub struct ReplicaRow {
    /// Whether it is present and its image is not refused.
    pub readable: bool,
    /// Its log's length; 0 if it is not readable.
    pub length: usize,
    /// The epoch of its last used slot; none if its log is empty or it is not readable.
    pub last_epoch: Option<Epoch>,
}

/// A plan: the answer, what is to be done about each slot, and a row for each replica.
#[derive(Clone, Copy, Debug, PartialEq, Eq)]
pub struct Plan {
    answer: PlanAnswer,
    geometry: Geometry,
    actions: [PlanAction; MAX_SLOTS],
    rows: [ReplicaRow; MAX_REPLICAS],
}

impl Plan {
    /// Whether it can be carried out.
    pub fn answer(&self) -> PlanAnswer {
        self.answer
    }

    /// What is to be done about each slot of the leader; slot k stands at k − 1. While the plan waits
    /// it shows the other slots all the same.
    pub fn actions(&self) -> &[PlanAction] {
        &self.actions[..self.geometry.slot_count()]
    }

    /// What is to be done about a slot, counted from 1; none if there is no such slot.
    pub fn action(&self, slot: usize) -> Option<PlanAction> {
        self.actions().get(slot.checked_sub(1)?).copied()
    }

    /// The rows of all replicas, by number.
    pub fn rows(&self) -> &[ReplicaRow] {
        &self.rows[..self.geometry.replica_count()]
    }

    /// The row of a replica; none if the cluster does not have it.
    pub fn row(&self, replica: Replica) -> Option<ReplicaRow> {
        self.rows().get(replica.0 - 1).copied()
    }
}

/// What a store wrote.
#[derive(Clone, Copy, Debug, PartialEq, Eq, Hash)]
pub enum StoreKind {
    /// 1: one whole entry, never on a witness.
    Entry = 1,
    /// 2: one record.
    Record = 2,
    /// 3: one record blanked.
    BlankRecord = 3,
}

impl StoreKind {
    /// The number, 1 to 3, by which C names it.
    pub fn number(self) -> u8 {
        self as u8
    }

    fn from_number(number: u8) -> StoreKind {
        match number {
            1 => StoreKind::Entry,
            2 => StoreKind::Record,
            3 => StoreKind::BlankRecord,
            number => no_such("rope_step", number),
        }
    }
}

impl fmt::Display for StoreKind {
    fn fmt(&self, f: &mut fmt::Formatter<'_>) -> fmt::Result {
        f.write_str(match self {
            StoreKind::Entry => "entry",
            StoreKind::Record => "record",
            StoreKind::BlankRecord => "record blanked",
        })
    }
}

/// A store that a step made.
#[derive(Clone, Copy, Debug, PartialEq, Eq, Hash)]
pub struct Store {
    /// The replica whose image was written.
    pub replica: Replica,
    /// The slot, from 1.
    pub slot: usize,
    /// What was written there.
    pub kind: StoreKind,
}

/// What a step did.
#[derive(Clone, Copy, Debug, PartialEq, Eq, Hash)]
#[must_use]
pub enum StepAnswer {
    /// Nothing was outstanding, and nothing was written.
    Recovered,
    /// The plan waits, and nothing was written.
    Waiting {
        /// The lowest waiting slot, from 1.
        slot: usize,
    },
    /// It made this store, which has to be on its card or its witness before the next step.
    Stored(Store),
}

/// How a run ended.
#[derive(Clone, Copy, Debug, PartialEq, Eq, Hash)]
#[must_use]
pub enum RunAnswer {
    /// No store is outstanding.
    Recovered {
        /// How many stores the run made.
        stores: u64,
    },
    /// The plan waits, and nothing was written.
    Waiting {
        /// The lowest waiting slot, from 1.
        slot: usize,
        /// How many stores the run made: 0.
        stores: u64,
    },
    /// The whole budget is used and a store is still outstanding.
    Spent {
        /// How many stores the run made: the budget.
        stores: u64,
    },
}

/// Plans what is to be done about the leader's log, and writes nothing to the cluster. A present
/// replica other than the leader whose image is refused is treated as away.
///
/// # Errors
///
/// - [`Refusal::BufferLength`]: the cluster is not [`Geometry::cluster_len`] bytes long.
/// - [`Refusal::Present`]: the present set has a replica that this geometry does not have.
/// - [`Refusal::Witnesses`]: a witness is none of this geometry's replicas.
/// - [`Refusal::Leader`]: the leader is not one of this geometry's, is not present, is a witness, or its
///   own image is refused; [`read`](crate::read) says why.
/// - [`Refusal::FirstDiffers`]: another replica that is present and readable has a log that begins at
///   another index than the leader's.
pub fn plan(
    cluster: &[u8],
    geometry: Geometry,
    leader: Replica,
    present: ReplicaSet,
) -> Result<Plan, Refusal> {
    let (n, m) = (geometry.replica_count(), geometry.slot_count());
    let mut bytes = [0; MAX_SLOTS];
    let no_row = RawRow {
        readable: 0,
        length: 0,
        last_epoch: 0,
    };
    let mut rows = [no_row; MAX_REPLICAS];
    let (mut status, mut number) = (0, 0);
    // SAFETY: the slices and the numbers are lent for the call, and none overlaps another.
    let refusal = unsafe {
        exported::rope_plan(
            cluster.as_ptr(),
            cluster.len(),
            geometry.shape(),
            leader.0,
            present.word(),
            bytes[..m].as_mut_ptr(),
            m,
            rows[..n].as_mut_ptr(),
            n,
            &mut status,
            &mut number,
        )
    };
    accepted("rope_plan", refusal)?;
    let answer = match status {
        0 => PlanAnswer::Ready { length: number },
        1 => PlanAnswer::Waiting { slot: number },
        status => no_such("rope_plan", status),
    };
    Ok(Plan {
        answer,
        geometry,
        actions: bytes.map(|byte| PlanAction::from_number(byte, n)),
        rows: rows.map(row_of),
    })
}

fn row_of(row: RawRow) -> ReplicaRow {
    ReplicaRow {
        readable: row.readable == 1,
        length: row.length as usize,
        last_epoch: Epoch::new(row.last_epoch).ok(),
    }
}

/// Works out the plan afresh and makes the first store still outstanding.
///
/// # Errors
///
/// [`Refusal::BufferLength`], [`Refusal::Present`], [`Refusal::Witnesses`], [`Refusal::Leader`] and
/// [`Refusal::FirstDiffers`], each as for [`plan`].
pub fn step(
    cluster: &mut [u8],
    geometry: Geometry,
    leader: Replica,
    present: ReplicaSet,
) -> Result<StepAnswer, Refusal> {
    let (mut status, mut replica, mut slot, mut kind) = (0, 0, 0, 0);
    // SAFETY: the slice and the numbers are lent for the call, and none overlaps another.
    let refusal = unsafe {
        exported::rope_step(
            cluster.as_mut_ptr(),
            cluster.len(),
            geometry.shape(),
            leader.0,
            present.word(),
            &mut status,
            &mut replica,
            &mut slot,
            &mut kind,
        )
    };
    accepted("rope_step", refusal)?;
    Ok(match status {
        0 => StepAnswer::Recovered,
        1 => StepAnswer::Waiting { slot },
        2 => StepAnswer::Stored(Store {
            replica: Replica(replica),
            slot,
            kind: StoreKind::from_number(kind),
        }),
        status => no_such("rope_step", status),
    })
}

/// Makes steps while the budget of stores lasts. [`Geometry::enough_stores`] always lasts.
///
/// The stores follow each other with nothing between them. Where each store has to be brought to a
/// card before the next is made, call [`step`] instead.
///
/// # Errors
///
/// [`Refusal::BufferLength`], [`Refusal::Present`], [`Refusal::Witnesses`], [`Refusal::Leader`] and
/// [`Refusal::FirstDiffers`], each as for [`plan`].
pub fn run(
    cluster: &mut [u8],
    geometry: Geometry,
    leader: Replica,
    present: ReplicaSet,
    budget: u64,
) -> Result<RunAnswer, Refusal> {
    let (mut status, mut stores, mut slot) = (0, 0, 0);
    // SAFETY: the slice and the numbers are lent for the call, and none overlaps another.
    let refusal = unsafe {
        exported::rope_run(
            cluster.as_mut_ptr(),
            cluster.len(),
            geometry.shape(),
            leader.0,
            present.word(),
            budget,
            &mut status,
            &mut stores,
            &mut slot,
        )
    };
    accepted("rope_run", refusal)?;
    Ok(match status {
        0 => RunAnswer::Recovered { stores },
        1 => RunAnswer::Waiting { slot, stores },
        2 => RunAnswer::Spent { stores },
        status => no_such("rope_run", status),
    })
}
