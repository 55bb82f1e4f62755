//! Asking every replica of a cluster for its log.

use super::layout::{cluster_len, image_len, image_offset};
use super::read::{check_shape, judge_image, Log};
use super::refusal::Refusal;
use super::shape::Shape;

/// The planner's row for one replica (the paper's row).
#[repr(C)]
#[derive(Clone, Copy, Debug, Default, PartialEq, Eq)]
pub struct ReplicaRow {
    /// 1 if the replica is present and its image is readable, else 0.
    pub readable: u8,
    pub length: u32,
    pub last_epoch: u32,
}

/// The logs within reach: none for a replica that is away or unreadable.
pub struct Survey {
    pub shape: Shape,
    pub leader: usize,
    pub logs: Vec<Option<Log>>,
}

impl Survey {
    /// The log of a replica, if it is within reach.
    pub fn log(&self, replica: usize) -> Option<&Log> {
        self.logs[replica - 1].as_ref()
    }

    /// The log of the leader (the paper's lead); a survey without one is refused.
    pub fn leader_log(&self) -> &Log {
        self.log(self.leader).expect("the leader is readable")
    }

    pub fn row(&self, replica: usize) -> ReplicaRow {
        match self.log(replica) {
            None => ReplicaRow::default(),
            Some(log) => ReplicaRow {
                readable: 1,
                length: log.length as u32,
                last_epoch: log.last_epoch(),
            },
        }
    }
}

/// Whether a replica is in the present word (the paper's set). Replica c has bit c - 1.
pub fn is_present(present: u32, replica: usize) -> bool {
    present & (1 << (replica - 1)) != 0
}

/// Reads every present image, with refusals 1, 2, 3, 11, 22, 12 and 21.
pub fn survey(
    cluster: &[u8],
    shape: Shape,
    leader: usize,
    present: u32,
) -> Result<Survey, Refusal> {
    check_shape(shape)?;
    if cluster.len() != cluster_len(shape) {
        return Err(Refusal::BufferLength);
    }
    if present >> shape.n != 0 {
        return Err(Refusal::Present);
    }
    if shape.witnesses >> shape.n != 0 {
        return Err(Refusal::Witnesses);
    }
    // A witness never leads, whether it can be read or not.
    if leader < 1 || leader > shape.n || shape.is_witness(leader) {
        return Err(Refusal::Leader);
    }
    let mut logs = Vec::new();
    for replica in 1..=shape.n {
        logs.push(if is_present(present, replica) {
            let at = image_offset(shape, replica);
            let image = &cluster[at..at + image_len(shape, replica)];
            judge_image(image, shape, replica).ok()
        } else {
            None
        });
    }
    let Some(leader_log) = &logs[leader - 1] else {
        return Err(Refusal::Leader);
    };
    let first = leader_log.first;
    if logs.iter().flatten().any(|log| log.first != first) {
        return Err(Refusal::FirstDiffers);
    }
    Ok(Survey {
        shape,
        leader,
        logs,
    })
}
