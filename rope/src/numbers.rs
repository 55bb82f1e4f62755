//! The plan in numbers: what the printing program prints of the same cards.

use std::io::Write;

use ropelog::{Edition, Plan, PlanAnswer, Refusal, ReplicaSet};

use crate::cluster::Cluster;
use crate::outcome::Failure;
use crate::plan::leaders_log;

/// The most bytes that the printing program reads: a line of 14 and the cards.
const MAX_INPUT: usize = 65_536;
const COMMAND_LEN: usize = 14;

/// The plan as the printing program makes it: cards of edition 1 without witnesses that are more than it reads are
/// refused by 3, before all else. Of others it knows nothing.
pub fn limited(cluster: &Cluster, planned: Result<Plan, Refusal>) -> Result<Plan, Refusal> {
    let geometry = cluster.geometry;
    let is_known = geometry.edition() == Edition::One && geometry.witnesses() == ReplicaSet::EMPTY;
    if is_known && COMMAND_LEN + geometry.cluster_len() > MAX_INPUT {
        return Err(Refusal::BufferLength);
    }
    planned
}

/// Prints the plan or its refusal, in the printing program's columns.
pub fn print(
    cluster: &Cluster,
    planned: &Result<Plan, Refusal>,
    out: &mut impl Write,
) -> Result<(), Failure> {
    let plan = match planned {
        Ok(plan) => plan,
        Err(refusal) => {
            writeln!(out, "refused{:>4}", refusal.number())?;
            return Ok(());
        }
    };
    let (status, number) = match plan.answer() {
        PlanAnswer::Ready { length } => (0, length),
        PlanAnswer::Waiting { slot } => (1, slot),
    };
    let (n, leader) = (cluster.geometry.replica_count(), cluster.leader.number());
    writeln!(out, "{n:>4}{leader:>4}{status:>4}{number:>4}")?;
    let log = leaders_log(cluster);
    for slot in 1..=log.length() {
        let epoch = log.slot(slot).and_then(|state| state.epoch);
        let epoch = epoch.map_or(0, |epoch| epoch.number());
        let byte = plan.action(slot).map_or(0, |action| action.number());
        writeln!(out, "{slot:>4}{epoch:>11}{byte:>4}")?;
    }
    Ok(())
}
