//! Arbitrary clusters: every image may be read, but nothing else is supposed.

use super::build::Cluster;
use super::damage::{
    damage_entry, damage_header, damage_record, header_of, some_entry, some_payload,
};
use super::history::some_present;
use super::rng::Rng;
use super::shapes::{some_first, some_firsts, some_leader, some_shape};
use super::Case;
use crate::model::Shape;

/// A cluster whose logs need not agree.
pub fn arbitrary_case(rng: &mut Rng) -> Case {
    let shape = some_shape(rng);
    arbitrary_case_of(rng, shape)
}

/// The same of this shape.
pub fn arbitrary_case_of(rng: &mut Rng, shape: Shape) -> Case {
    let leader = some_leader(rng, shape);
    let firsts = some_firsts(rng, shape);
    let mut cluster = Cluster::of_firsts(shape, &firsts);
    for replica in 1..=shape.n {
        if shape.is_witness(replica) {
            fill_witness(rng, &mut cluster, replica);
        } else {
            fill_card(rng, &mut cluster, replica);
        }
        if rng.chance(3) {
            damage_header(rng, cluster.header_mut(replica), shape, replica);
        }
        if rng.chance(1) {
            // A good header of another first index above the records and entries of this one.
            let header = header_of(shape, replica, some_first(rng, shape).into());
            cluster.header_mut(replica).copy_from_slice(&header);
        }
    }
    Case {
        shape,
        leader,
        present: some_present(rng, &firsts, leader),
        cluster: cluster.bytes,
    }
}

/// How many of m slots are used.
fn some_used(rng: &mut Rng, m: usize) -> usize {
    if rng.chance(50) {
        m
    } else {
        rng.below(m + 1)
    }
}

/// The epoch of the next slot: mostly the same, never a lower one.
fn next_epoch(rng: &mut Rng, epoch: u32) -> u32 {
    if rng.chance(20) {
        epoch.saturating_add(*rng.pick(&[1, 1, 2, u32::MAX]))
    } else {
        epoch
    }
}

/// Records under epochs that never fall, now and then a bad one among them.
fn fill_witness(rng: &mut Rng, cluster: &mut Cluster, replica: usize) {
    let length = some_used(rng, cluster.shape.m);
    let mut epoch = 1 + rng.below(2) as u32;
    for slot in 1..=length {
        epoch = next_epoch(rng, epoch);
        cluster.put_record(replica, slot, epoch);
    }
    if length > 0 && rng.chance(8) {
        let slot = rng.between(1, length);
        let index = cluster.index(replica, slot);
        damage_record(rng, cluster.record_mut(replica, slot), index);
    }
}

/// Used slots under epochs that never fall, then anything in the unused ones.
fn fill_card(rng: &mut Rng, cluster: &mut Cluster, replica: usize) {
    let m = cluster.shape.m;
    let length = some_used(rng, m);
    let rate = *rng.pick(&[0, 20, 50, 90]);
    let mut epoch = 1 + rng.below(2) as u32;
    for slot in 1..=m {
        let index = cluster.index(replica, slot);
        if slot > length {
            if rng.chance(50) {
                let bytes = some_entry(rng, index, epoch);
                cluster.entry_mut(replica, slot).copy_from_slice(&bytes);
            }
            continue;
        }
        epoch = next_epoch(rng, epoch);
        cluster.put(replica, slot, epoch, &some_payload(rng));
        if rng.chance(rate) {
            if rng.chance(30) {
                damage_record(rng, cluster.record_mut(replica, slot), index);
            } else {
                damage_entry(rng, cluster.entry_mut(replica, slot), index, epoch);
            }
        }
    }
}
