//! Small clusters to look at: inputs of the printing program, each with what it prints, and a cluster with
//! a witness, which the printing program does not know, with its plan in the same columns.

use std::fs;
use std::io;
use std::path::Path;

use crate::code::{Code, MODEL};
use crate::generate::{Case, Cluster};
use crate::model::{self, Answer, Shape};

/// An input of the printing program.
pub struct Sample {
    pub name: &'static str,
    pub input: Vec<u8>,
}

impl Sample {
    /// What the printing program prints for it.
    pub fn plan(&self) -> Vec<u8> {
        model::report(&self.input)
    }
}

/// A cluster alone, with the numbers that a call names beside it.
pub struct ClusterSample {
    pub name: &'static str,
    pub case: Case,
}

impl ClusterSample {
    /// The plan as the printing program would print it. Only a plan that is not refused is shown.
    pub fn plan(&self, code: Code) -> String {
        let &Case {
            shape,
            leader,
            present,
            ref cluster,
        } = &self.case;
        let (answer, plan, _) = code.planned(cluster, shape, leader, present);
        let (status, number) = match answer.expect("it is planned") {
            Answer::Ready(length) => (0, length),
            Answer::Waiting(slot) => (1, slot),
        };
        let parts = Cluster::of_bytes(shape, cluster.clone());
        let log = code.judge_image(parts.image(leader), shape, leader);
        let log = log.expect("the leader is readable");
        let mut text = format!("{:>4}{leader:>4}{status:>4}{number:>4}\n", shape.n);
        for slot in 1..=log.length {
            let (epoch, byte) = (log.epoch(slot), plan[slot - 1]);
            text += &format!("{slot:>4}{epoch:>11}{byte:>4}\n");
        }
        text
    }
}

/// The readings that every sample begins with.
const READINGS: [&[u8]; 3] = [
    b"metre 1204, wire broken",
    b"metre 1207, no signal",
    b"metre 1212, wire broken",
];

/// All samples, in the order in which they are best read.
pub fn samples() -> Vec<Sample> {
    vec![
        healthy(),
        damaged_entry(),
        stale_entry(),
        lost_record(),
        unconfirmed_tail(),
        waiting(),
        blank_set(),
        four_replicas(),
        six_replicas(),
        refused_header(),
        unreadable_follower(),
    ]
}

/// Writes NAME.in, or NAME.cluster, and NAME.plan for each sample into a folder, which is made if it is not
/// there.
pub fn write_samples(folder: &Path) -> io::Result<()> {
    fs::create_dir_all(folder)?;
    let write = |name: &str, ending: &str, bytes: &[u8]| {
        fs::write(folder.join(format!("{name}.{ending}")), bytes)
    };
    for sample in samples() {
        write(sample.name, "in", &sample.input)?;
        write(sample.name, "plan", &sample.plan())?;
    }
    let sample = witness();
    write(sample.name, "cluster", &sample.case.cluster)?;
    write(sample.name, "plan", sample.plan(MODEL).as_bytes())
}

/// n replicas of four slots that all hold the readings in epoch 1.
fn agreeing(n: usize) -> Cluster {
    agreeing_of(Shape::edition_1(n, 4))
}

/// The same of this shape.
fn agreeing_of(shape: Shape) -> Cluster {
    let mut cluster = Cluster::of_shape(shape);
    for replica in 1..=shape.n {
        for (at, reading) in READINGS.iter().enumerate() {
            cluster.put(replica, at + 1, 1, reading);
        }
    }
    cluster
}

/// Changes the first byte of a payload, behind the columns of 11, 11 and 4.
fn spoil_entry(cluster: &mut Cluster, replica: usize, slot: usize) {
    cluster.entry_mut(replica, slot)[26] ^= 1;
}

/// Makes a slot, the last used one, what it is on a fresh card.
fn never_had(cluster: &mut Cluster, replica: usize, slot: usize) {
    let fresh = Cluster::fresh(cluster.shape.n, cluster.shape.m);
    let record = fresh.record(replica, slot);
    cluster.record_mut(replica, slot).copy_from_slice(record);
    let entry = fresh.entry(replica, slot);
    cluster.entry_mut(replica, slot).copy_from_slice(entry);
}

/// The leader is replica 1, and the set has a bit for each present replica.
fn sample(name: &'static str, cluster: Cluster, present: &[usize]) -> Sample {
    let set: u32 = present.iter().map(|replica| 1 << (replica - 1)).sum();
    sample_of(name, cluster, &set.to_string())
}

/// A sample with this text in the set's column.
fn sample_of(name: &'static str, cluster: Cluster, set: &str) -> Sample {
    let Shape { n, m, .. } = cluster.shape;
    let mut input = format!("{n:>3}{m:>3}  1{set:>4}\n").into_bytes();
    input.extend(&cluster.bytes);
    Sample { name, input }
}

/// Nothing is to be done.
fn healthy() -> Sample {
    sample("healthy", agreeing(3), &[1, 2, 3])
}

/// The leader's second entry is spoilt, and replica 2's as well: it comes from replica 3.
fn damaged_entry() -> Sample {
    let mut cluster = agreeing(3);
    spoil_entry(&mut cluster, 1, 2);
    spoil_entry(&mut cluster, 2, 2);
    sample("damaged-entry", cluster, &[1, 2, 3])
}

/// From the second reading on the epoch is 2. The leader's card never took the second one: beside its
/// record stands an entry of epoch 1, of a reading that was cut. It comes from replica 2.
fn stale_entry() -> Sample {
    let mut cluster = agreeing(3);
    for replica in 1..=3 {
        for slot in [2, 3] {
            cluster.put(replica, slot, 2, READINGS[slot - 1]);
        }
    }
    cluster.put_entry(1, 2, 1, b"metre 1206, strand loose");
    sample("stale-entry", cluster, &[1, 2, 3])
}

/// The leader's second record is overwritten beside its intact entry.
fn lost_record() -> Sample {
    let mut cluster = agreeing(3);
    cluster.record_mut(1, 2).fill(b'#');
    sample("lost-record", cluster, &[1, 2, 3])
}

/// The leader was writing a fourth reading when the power failed; no other replica has it.
fn unconfirmed_tail() -> Sample {
    let mut cluster = agreeing(3);
    cluster.put(1, 4, 1, b"metre 1219, strand loose");
    cluster.entry_mut(1, 4)[40..].fill(b' ');
    sample("unconfirmed-tail", cluster, &[1, 2, 3])
}

/// Of five replicas two are away. The leader's third entry is spoilt; replica 2 never had it and
/// replica 3's is spoilt too, so nobody can tell whether it may go.
fn waiting() -> Sample {
    let mut cluster = agreeing(5);
    spoil_entry(&mut cluster, 1, 3);
    never_had(&mut cluster, 2, 3);
    spoil_entry(&mut cluster, 3, 3);
    sample("waiting", cluster, &[1, 2, 3])
}

/// Two of three replicas had stored the third reading. The leader's is spoilt, replica 2 has a new card,
/// and replica 3 never had it. The set is left blank, so that nobody is asked: it waits. With all three
/// in the set it would be cut.
fn blank_set() -> Sample {
    let mut cluster = agreeing(3);
    spoil_entry(&mut cluster, 1, 3);
    for slot in [3, 2, 1] {
        never_had(&mut cluster, 2, slot);
    }
    never_had(&mut cluster, 3, 3);
    sample_of("blank-set", cluster, "")
}

/// Two of four replicas never had the leader's third reading, which is spoilt. The fourth is away; it
/// and the leader, which alone can have held it, are no majority.
fn four_replicas() -> Sample {
    let mut cluster = agreeing(4);
    spoil_entry(&mut cluster, 1, 3);
    for replica in [2, 3] {
        never_had(&mut cluster, replica, 3);
    }
    sample("four-replicas", cluster, &[1, 2, 3])
}

/// Four of six replicas never had it. The sixth is away.
fn six_replicas() -> Sample {
    let mut cluster = agreeing(6);
    spoil_entry(&mut cluster, 1, 3);
    for replica in [2, 3, 4, 5] {
        never_had(&mut cluster, replica, 3);
    }
    sample("six-replicas", cluster, &[1, 2, 3, 4, 5])
}

/// The leader's header is spoilt, so its image is not read.
fn refused_header() -> Sample {
    let mut cluster = agreeing(3);
    cluster.header_mut(1)[0] = b'#';
    sample("refused-header", cluster, &[1, 2, 3])
}

/// The header of replica 2 is spoilt: it counts as away, and replica 3 gives the entry.
fn unreadable_follower() -> Sample {
    let mut cluster = agreeing(3);
    spoil_entry(&mut cluster, 1, 1);
    cluster.header_mut(2)[0] = b'#';
    sample("unreadable-follower", cluster, &[1, 2, 3])
}

/// Two cards and a witness, replica 3. The leader's second entry is spoilt, and comes from replica 2. A
/// fourth reading was stored by the leader and the witness, a majority, and its entry is spoilt too: replica
/// 2 never had it, but the witness's record keeps it from being cut, so it waits.
pub fn witness() -> ClusterSample {
    let shape = Shape::edition_1(3, 4).with_witnesses(0b100);
    let mut cluster = agreeing_of(shape);
    for replica in [1, 3] {
        cluster.put(replica, 4, 1, b"metre 1219, strand loose");
    }
    spoil_entry(&mut cluster, 1, 2);
    spoil_entry(&mut cluster, 1, 4);
    ClusterSample {
        name: "witness",
        case: Case {
            shape,
            leader: 1,
            present: 0b111,
            cluster: cluster.bytes,
        },
    }
}
