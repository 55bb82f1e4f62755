//! The calls that are timed. Both sides work on the same buffers, one after the other.

use std::hint::black_box;

use super::timing::{time, Times};
use crate::generate::Cluster;
use crate::model::{entry_offset, image_offset, record_offset, Shape, ENTRY_LEN, RECORD_LEN};
use crate::proved::clusters::ReplicaRow;

const EPOCH: u32 = 7;

/// Where the logs begin: in edition 2 where an index has as many digits as it can.
fn first_of(shape: Shape) -> u32 {
    match shape.edition {
        2 => 4_000_000_000,
        _ => 1,
    }
}

fn fresh_cluster(shape: Shape) -> Cluster {
    Cluster::of_firsts(shape, &vec![first_of(shape); shape.n])
}

/// Full logs, each payload of that size.
fn full_cluster(shape: Shape, size: usize) -> Cluster {
    let mut cluster = fresh_cluster(shape);
    for replica in 1..=shape.n {
        for slot in 1..=shape.m {
            cluster.put(replica, slot, EPOCH, &vec![b'7'; size]);
        }
    }
    cluster
}

/// A full log is read.
pub fn read(shape: Shape, size: usize) -> Times {
    let m = shape.m;
    let cluster = full_cluster(shape, size);
    let image = cluster.image(1);
    let (mut epochs, mut verdicts) = (vec![0; m], vec![0; m]);
    let (mut used, mut first) = (0, 0);
    let times = time(|side| {
        let (image, epochs, verdicts) = (black_box(image), &mut epochs, &mut verdicts);
        (side.read)(image, shape, 1, epochs, verdicts, &mut used, &mut first)
    });
    assert_eq!((used, first), (m, first_of(shape)));
    assert_eq!(verdicts, vec![1; m]);
    times
}

/// The last slot of a log is filled; its old bytes are put back each time.
pub fn append(shape: Shape, size: usize) -> Times {
    let m = shape.m;
    let mut cluster = full_cluster(shape, size);
    let fresh = fresh_cluster(shape);
    let image = cluster.image_mut(1);
    let (record, entry) = (record_offset(shape, m), entry_offset(shape, m));
    let (payload, mut slot) = (vec![b'7'; size], 0);
    let times = time(|side| {
        image[record..record + RECORD_LEN].copy_from_slice(fresh.record(1, m));
        image[entry..entry + ENTRY_LEN].copy_from_slice(fresh.entry(1, m));
        let payload = black_box(&payload);
        (side.append)(image, shape, 1, EPOCH, payload, &mut slot)
    });
    assert_eq!(slot, m);
    times
}

/// A cluster in which so many entries have one payload byte changed, from this replica on.
fn damaged_cluster(shape: Shape, size: usize, from: usize, entries: usize) -> Cluster {
    let mut cluster = full_cluster(shape, size);
    for at in 0..entries {
        cluster.entry_mut(from + at / shape.m, 1 + at % shape.m)[26] ^= 1;
    }
    cluster
}

/// A plan by leader 1, each of whose entries is to be fetched.
pub fn plan(shape: Shape, size: usize) -> Times {
    let Shape { n, m, .. } = shape;
    let cluster = damaged_cluster(shape, size, 1, m);
    let present = (1 << n) - 1;
    let (mut plan, mut rows) = (vec![0; m], vec![ReplicaRow::default(); n]);
    let (mut status, mut number) = (9, 0);
    let times = time(|side| {
        let bytes = black_box(&cluster.bytes);
        let (plan, rows) = (&mut plan, &mut rows);
        let (status, number) = (&mut status, &mut number);
        (side.plan)(bytes, shape, 1, present, plan, rows, status, number)
    });
    assert_eq!((status, number, plan), (0, m, vec![12; m]));
    let row = ReplicaRow {
        readable: 1,
        length: m as u32,
        last_epoch: EPOCH,
    };
    assert_eq!(rows, vec![row; n]);
    times
}

/// The first store of such a plan; the entry's old bytes are put back each time.
pub fn step(shape: Shape, size: usize) -> Times {
    let damaged = damaged_cluster(shape, size, 1, shape.m);
    let mut bytes = damaged.bytes.clone();
    let present = (1 << shape.n) - 1;
    let at = image_offset(shape, 1) + entry_offset(shape, 1);
    let (mut status, mut replica, mut slot, mut kind) = (9, 0, 0, 0);
    let times = time(|side| {
        bytes[at..at + ENTRY_LEN].copy_from_slice(damaged.entry(1, 1));
        let (status, replica) = (&mut status, &mut replica);
        let (slot, kind) = (&mut slot, &mut kind);
        (side.step)(&mut bytes, shape, 1, present, status, replica, slot, kind)
    });
    assert_eq!((status, replica, slot, kind), (2, 1, 1, 1));
    times
}

/// A full recovery by leader 1, each of whose entries is fetched: m stores.
pub fn recovery(shape: Shape, size: usize) -> Times {
    recovery_of(&damaged_cluster(shape, size, 1, shape.m), shape.m)
}

/// A full recovery of so many stores, all of them to other replicas.
pub fn recovery_of_stores(shape: Shape, size: usize, stores: usize) -> Times {
    recovery_of(&damaged_cluster(shape, size, 2, stores), stores)
}

/// The cluster's copying is counted on both sides.
fn recovery_of(damaged: &Cluster, expected: usize) -> Times {
    let (shape, bytes) = (damaged.shape, &damaged.bytes);
    let mut copy = bytes.clone();
    let present = (1 << shape.n) - 1;
    let (mut status, mut stores, mut slot) = (9, 0, 0);
    let times = time(|side| {
        copy.copy_from_slice(black_box(bytes));
        let (status, stores) = (&mut status, &mut stores);
        (side.run)(
            &mut copy,
            shape,
            1,
            present,
            u64::MAX,
            status,
            stores,
            &mut slot,
        )
    });
    assert_eq!((status, stores), (0, expected as u64));
    times
}
