//! Agreeing histories: logs that share their past, appends in flight, then damage.
//!
//! A history goes by index. Each replica has dropped what stands before its own first index.

use super::build::Cluster;
use super::damage::{
    damage_entry, damage_header, damage_record, intact_under, some_entry, some_payload, torn_entry,
};
use super::rng::Rng;
use super::shapes::{highest_first, other_witnesses, some_first, some_leader, some_shape};
use super::Case;
use crate::model::{judge_record, write_entry, RecordState, Shape};

/// A payload that a majority of all replicas stored and the leader's log held, at one index. On a witness
/// its record counts.
#[derive(Clone, Debug, PartialEq, Eq)]
pub struct Committed {
    /// The leader's slot.
    pub slot: usize,
    pub index: u32,
    pub epoch: u32,
    pub payload: Vec<u8>,
    /// The replicas whose log held it: their record was there, in flight or not.
    pub holders: u32,
    /// Those of them whose log begins at another index than the leader's.
    pub elsewhere: u32,
}

/// A damaged cluster, and what was committed (the paper's confirmed) before the damage.
#[derive(Clone, Debug)]
pub struct AgreedCase {
    pub case: Case,
    pub committed: Vec<Committed>,
}

/// An epoch and the payload appended under it.
#[derive(Clone, Debug, PartialEq, Eq)]
struct Appended {
    epoch: u32,
    payload: Vec<u8>,
}

/// How much of an append has reached its replica.
#[derive(Clone, Copy, Debug, PartialEq, Eq)]
enum Arrival {
    /// On the card before the power failed.
    Stored,
    /// In flight: the record may be there or not, the entry whole or not.
    InFlight { record: bool, entry: bool },
}

impl Arrival {
    fn record_is_there(self) -> bool {
        match self {
            Arrival::Stored => true,
            Arrival::InFlight { record, .. } => record,
        }
    }

    fn entry_is_whole(self) -> bool {
        match self {
            Arrival::Stored => true,
            Arrival::InFlight { entry, .. } => entry,
        }
    }
}

/// The log of one replica: slot k is item k - 1, and has the index first + k - 1.
#[derive(Clone, Debug)]
struct ReplicaLog {
    first: u32,
    slots: Vec<(Appended, Arrival)>,
}

impl ReplicaLog {
    /// What stands at an index, if the log has kept it and got so far.
    fn at(&self, index: u32) -> Option<&(Appended, Arrival)> {
        self.slots.get(index.checked_sub(self.first)? as usize)
    }

    fn last_epoch(&self) -> u32 {
        self.slots.last().map_or(0, |last| last.0.epoch)
    }
}

/// A damaged cluster as the suppositions of recovery allow it.
pub fn agreed_case(rng: &mut Rng) -> AgreedCase {
    let shape = some_shape(rng);
    agreed_case_of(rng, shape)
}

/// The same of this shape.
pub fn agreed_case_of(rng: &mut Rng, shape: Shape) -> AgreedCase {
    let logs = replica_logs(rng, shape);
    let leader = furthest_leader(rng, shape, &logs);
    let firsts: Vec<u32> = logs.iter().map(|log| log.first).collect();
    let mut cluster = write_logs(rng, shape, &firsts, &logs);
    damage(rng, &mut cluster, &logs, leader);
    let committed = committed(leader, &logs);
    let witnesses = if rng.chance(3) {
        // A wrong set of the same size shows as images that are refused.
        other_witnesses(rng, shape)
    } else {
        shape.witnesses
    };
    AgreedCase {
        case: Case {
            shape: shape.with_witnesses(witnesses),
            leader,
            present: some_present(rng, &firsts, leader),
            cluster: cluster.bytes,
        },
        committed,
    }
}

/// Mostly all replicas, now and then one away, rarely a word that is refused. Those whose log begins
/// elsewhere than the leader's are mostly away, so that they refuse no call.
pub fn some_present(rng: &mut Rng, firsts: &[u32], leader: usize) -> u32 {
    let n = firsts.len();
    let all = (1u32 << n) - 1;
    let mut present = all;
    if rng.chance(60) {
        let rate = rng.below(60);
        for replica in 1..=n {
            if rng.chance(rate) {
                present &= !(1 << (replica - 1));
            }
        }
    }
    if rng.chance(70) {
        for replica in 1..=n {
            if firsts[replica - 1] != firsts[leader - 1] {
                present &= !(1 << (replica - 1));
            }
        }
    }
    if rng.chance(97) {
        present |= 1 << (leader - 1);
    }
    if rng.chance(1) {
        present |= 1 << rng.between(n, 31);
    }
    present
}

/// Each epoch's log is part of an older epoch's log with that epoch's own appends behind it. None has
/// more than so many.
fn epoch_logs(rng: &mut Rng, most: usize) -> Vec<Vec<Appended>> {
    let mut logs: Vec<Vec<Appended>> = vec![Vec::new()];
    let steps: Vec<u32> = (0..rng.between(1, 4))
        .map(|_| 1 + rng.below(2) as u32)
        .collect();
    // Now and then the last epoch is the largest that there is.
    let mut epoch = if rng.chance(10) {
        u32::MAX - steps.iter().sum::<u32>()
    } else {
        0
    };
    for step in steps {
        epoch += step;
        let base = if rng.chance(70) {
            logs[logs.len() - 1].clone()
        } else {
            rng.pick(&logs).clone()
        };
        let keep = if rng.chance(60) {
            base.len()
        } else {
            rng.below(base.len() + 1)
        };
        let mut log = base[..keep].to_vec();
        for _ in 0..rng.below(most - keep + 1) {
            log.push(Appended {
                epoch,
                payload: some_payload(rng),
            });
        }
        logs.push(log);
    }
    logs
}

/// How many of the oldest appends each replica has dropped: mostly all of them the same.
fn dropped_counts(rng: &mut Rng, shape: Shape) -> Vec<usize> {
    let most = rng.below(4);
    if shape.edition == 1 || most == 0 {
        return vec![0; shape.n];
    }
    let mut dropped = vec![rng.below(most + 1); shape.n];
    if rng.chance(60) {
        let rate = *rng.pick(&[15, 30, 70]);
        for count in &mut dropped {
            if rng.chance(rate) {
                *count = rng.below(most + 1);
            }
        }
    }
    dropped
}

/// The index of the oldest append, such that every log has an index for its last slot.
fn oldest_index(rng: &mut Rng, shape: Shape, dropped: &[usize]) -> u32 {
    let most = dropped.iter().max().copied().unwrap_or(0) as u32;
    some_first(rng, shape).min(highest_first(shape) - most)
}

/// Each replica holds the beginning of some epoch's log, without what it has dropped.
fn replica_logs(rng: &mut Rng, shape: Shape) -> Vec<ReplicaLog> {
    let dropped = dropped_counts(rng, shape);
    let oldest = oldest_index(rng, shape, &dropped);
    let most = dropped.iter().max().copied().unwrap_or(0);
    let epochs = epoch_logs(rng, shape.m + most);
    let favourite = rng.below(epochs.len());
    let agreement = rng.between(40, 100);
    let mut logs = Vec::new();
    for dropped in dropped {
        let source = if rng.chance(agreement) {
            &epochs[favourite.max(epochs.len() / 2)]
        } else {
            rng.pick(&epochs)
        };
        let kept = &source[dropped.min(source.len())..];
        let kept = &kept[..kept.len().min(shape.m)];
        let length = if rng.chance(65) {
            kept.len()
        } else {
            rng.below(kept.len() + 1)
        };
        logs.push(ReplicaLog {
            first: oldest + dropped as u32,
            slots: arrivals(rng, &kept[..length]),
        });
    }
    logs
}

/// The last append, rarely the last two, may have been in flight.
fn arrivals(rng: &mut Rng, appended: &[Appended]) -> Vec<(Appended, Arrival)> {
    let in_flight = match rng.below(10) {
        0..=6 => 0,
        7 | 8 => 1,
        _ => 2,
    };
    let mut log = Vec::new();
    for (at, item) in appended.iter().enumerate() {
        let arrival = if at + in_flight >= appended.len() {
            Arrival::InFlight {
                record: rng.chance(60),
                entry: rng.chance(50),
            }
        } else {
            Arrival::Stored
        };
        log.push((item.clone(), arrival));
    }
    log
}

/// Mostly the card with the log of the latest epoch that gets furthest, as an election would have it.
fn furthest_leader(rng: &mut Rng, shape: Shape, logs: &[ReplicaLog]) -> usize {
    let has_card = |&replica: &usize| !shape.is_witness(replica);
    let cards: Vec<usize> = (1..=shape.n).filter(has_card).collect();
    if cards.is_empty() || rng.chance(25) {
        return some_leader(rng, shape);
    }
    let rank = |log: &ReplicaLog| {
        let behind = u64::from(log.first) + log.slots.len() as u64;
        (log.last_epoch(), behind)
    };
    let rank = |replica: &usize| rank(&logs[replica - 1]);
    let best = cards.iter().map(rank).max();
    let candidates: Vec<usize> = cards
        .into_iter()
        .filter(|replica| Some(rank(replica)) == best)
        .collect();
    *rng.pick(&candidates)
}

/// The cluster as it stands when the power has failed, before any damage.
fn write_logs(rng: &mut Rng, shape: Shape, firsts: &[u32], logs: &[ReplicaLog]) -> Cluster {
    let mut cluster = Cluster::of_firsts(shape, firsts);
    let leftovers = rng.below(90);
    for replica in 1..=shape.n {
        let log = &logs[replica - 1];
        if shape.is_witness(replica) {
            write_records(&mut cluster, replica, log);
            continue;
        }
        for slot in 1..=shape.m {
            if rng.chance(leftovers) {
                let bytes = leftover(rng, logs, &cluster, replica, slot);
                cluster.entry_mut(replica, slot).copy_from_slice(&bytes);
            }
            if let Some((item, arrival)) = log.slots.get(slot - 1) {
                write_slot(rng, &mut cluster, replica, slot, item, *arrival);
            }
        }
    }
    cluster
}

/// The log of a witness: each record that has arrived.
fn write_records(cluster: &mut Cluster, replica: usize, log: &ReplicaLog) {
    for (at, (item, arrival)) in log.slots.iter().enumerate() {
        if arrival.record_is_there() {
            cluster.put_record(replica, at + 1, item.epoch);
        }
    }
}

/// What an older log may have left at a slot: anything, an entry that another replica holds at this
/// index, or one that it holds at this slot.
fn leftover(
    rng: &mut Rng,
    logs: &[ReplicaLog],
    cluster: &Cluster,
    replica: usize,
    slot: usize,
) -> [u8; 240] {
    let index = cluster.index(replica, slot);
    if rng.chance(40) {
        let other = rng.below(logs.len());
        let index = match rng.below(4) {
            0 => cluster.index(other + 1, slot),
            _ => index,
        };
        if let Some((item, _)) = logs[other].at(index) {
            return write_entry(item.epoch, index, &item.payload);
        }
    }
    let near = logs[replica - 1].last_epoch().max(1);
    some_entry(rng, index, near)
}

fn write_slot(
    rng: &mut Rng,
    cluster: &mut Cluster,
    replica: usize,
    slot: usize,
    item: &Appended,
    arrival: Arrival,
) {
    let index = cluster.index(replica, slot);
    let new = write_entry(item.epoch, index, &item.payload);
    if arrival.entry_is_whole() {
        cluster.entry_mut(replica, slot).copy_from_slice(&new);
    } else if rng.chance(70) {
        let old = cluster.entry(replica, slot).to_vec();
        let torn = torn_entry(rng, &old, &new, index);
        cluster.entry_mut(replica, slot).copy_from_slice(&torn);
    }
    if !arrival.record_is_there() {
        return;
    }
    cluster.put_record(replica, slot, item.epoch);
    // A record without its entry stands beside a damaged one.
    let entry = cluster.entry_mut(replica, slot);
    if !arrival.entry_is_whole() && intact_under(entry, index, item.epoch) {
        damage_entry(rng, entry, index, item.epoch);
    }
}

/// Damages headers, and of each used slot of a card the record or the entry, never both.
fn damage(rng: &mut Rng, cluster: &mut Cluster, logs: &[ReplicaLog], leader: usize) {
    let shape = cluster.shape;
    let rate = *rng.pick(&[0, 5, 15, 30, 50, 80]);
    let leader_rate = *rng.pick(&[rate, 30, 60]);
    let record_share = rng.below(70);
    for replica in 1..=shape.n {
        let rate = if replica == leader { leader_rate } else { rate };
        let log = &logs[replica - 1];
        if shape.is_witness(replica) {
            damage_witness(rng, cluster, replica, log);
        } else {
            damage_slots(rng, cluster, replica, log, rate, record_share);
        }
        if rng.chance(4) {
            damage_header(rng, cluster.header_mut(replica), shape, replica);
        }
    }
}

fn damage_slots(
    rng: &mut Rng,
    cluster: &mut Cluster,
    replica: usize,
    log: &ReplicaLog,
    rate: usize,
    record_share: usize,
) {
    for (at, (item, arrival)) in log.slots.iter().enumerate() {
        let slot = at + 1;
        let index = cluster.index(replica, slot);
        if !arrival.record_is_there() || !rng.chance(rate) {
            continue;
        }
        let whole = intact_under(cluster.entry(replica, slot), index, item.epoch);
        if whole && rng.chance(record_share) {
            damage_record(rng, cluster.record_mut(replica, slot), index);
        } else {
            damage_entry(rng, cluster.entry_mut(replica, slot), index, item.epoch);
        }
        debug_assert!(judge_record(cluster.record(replica, slot), index) != RecordState::Blank);
    }
}

/// Now and then one record of a witness, which is then refused: a few such are enough.
fn damage_witness(rng: &mut Rng, cluster: &mut Cluster, replica: usize, log: &ReplicaLog) {
    let is_there = |at: &usize| log.slots[*at].1.record_is_there();
    let used: Vec<usize> = (0..log.slots.len()).filter(is_there).collect();
    if used.is_empty() || !rng.chance(8) {
        return;
    }
    let slot = 1 + *rng.pick(&used);
    let index = cluster.index(replica, slot);
    damage_record(rng, cluster.record_mut(replica, slot), index);
}

/// Every payload stored by a majority of all replicas and held by the leader's log: index by index, each
/// replica with its own first, a witness by its record. Of what stands before the leader's first index nothing is said.
fn committed(leader: usize, logs: &[ReplicaLog]) -> Vec<Committed> {
    let leader_log = &logs[leader - 1];
    let mut found = Vec::new();
    for (at, (item, arrival)) in leader_log.slots.iter().enumerate() {
        let (slot, index) = (at + 1, leader_log.first + at as u32);
        if !arrival.record_is_there() {
            continue;
        }
        let (mut stored, mut holders, mut elsewhere) = (0u32, 0u32, 0u32);
        for (at, log) in logs.iter().enumerate() {
            let Some((other, arrival)) = log.at(index) else {
                continue;
            };
            if other.epoch != item.epoch {
                continue;
            }
            debug_assert_eq!(other, item, "logs agree");
            if *arrival == Arrival::Stored {
                stored |= 1 << at;
            }
            if arrival.record_is_there() {
                holders |= 1 << at;
                elsewhere |= u32::from(log.first != leader_log.first) << at;
            }
        }
        if stored.count_ones() as usize > logs.len() / 2 {
            found.push(Committed {
                slot,
                index,
                epoch: item.epoch,
                payload: item.payload.clone(),
                holders,
                elsewhere,
            });
        }
    }
    found
}
