//! A cluster in memory, for the tests.
#![allow(dead_code)]

use ropelog::{
    append, format_from, has_payload, payload, plan, read, run, step, witness_append, Epoch,
    Geometry, Refusal, Replica, ReplicaSet,
};

pub struct Cluster {
    pub geometry: Geometry,
    pub bytes: Vec<u8>,
}

pub fn epoch(number: u32) -> Epoch {
    Epoch::new(number).unwrap()
}

/// The set of these replicas of a geometry.
pub fn set_of(geometry: Geometry, numbers: &[usize]) -> ReplicaSet {
    let replicas = numbers.iter().map(|&number| geometry.replica(number));
    replicas.collect::<Result<_, _>>().unwrap()
}

/// Planner, step and run are refused so, and no byte changes.
pub fn assert_cluster_refused(
    cluster: &[u8],
    geometry: Geometry,
    leader: Replica,
    present: ReplicaSet,
    refusal: Refusal,
) {
    assert_eq!(plan(cluster, geometry, leader, present), Err(refusal));
    let mut lent = cluster.to_vec();
    let answer = step(&mut lent, geometry, leader, present);
    assert_eq!(answer, Err(refusal));
    let answer = run(&mut lent, geometry, leader, present, 9);
    assert_eq!(answer, Err(refusal));
    assert_eq!(lent, cluster);
}

/// Every call about a card is refused so, and no byte changes. Formatting looks at the numbers
/// and the length alone, and is not among them.
pub fn assert_no_card(image: &[u8], geometry: Geometry, replica: Replica, refusal: Refusal) {
    assert_eq!(read(image, geometry, replica), Err(refusal));
    for slot in 0..4 {
        assert_eq!(has_payload(image, geometry, replica, slot), Err(refusal));
        assert_eq!(payload(image, geometry, replica, slot), b"");
    }
    let mut lent = image.to_vec();
    let late = append(&mut lent, geometry, replica, epoch(u32::MAX), b"late");
    assert_eq!(late, Err(refusal));
    assert_eq!(lent, image);
}

impl Cluster {
    pub fn fresh(n: usize, m: usize) -> Cluster {
        Cluster::of(Geometry::new(n, m).unwrap(), 1)
    }

    /// A cluster of edition 2 whose logs begin at this index.
    pub fn fresh_from(n: usize, m: usize, first: u32) -> Cluster {
        Cluster::of(Geometry::edition_2(n, m).unwrap(), first)
    }

    /// A cluster of edition 1 in which these replicas are witnesses.
    pub fn fresh_with(n: usize, m: usize, witnesses: &[usize]) -> Cluster {
        let geometry = Geometry::new(n, m).unwrap();
        Cluster::of(geometry.with_witnesses(set_of(geometry, witnesses)), 1)
    }

    /// A cluster of fresh images whose logs begin at this index.
    pub fn of(geometry: Geometry, first: u32) -> Cluster {
        let bytes = vec![0; geometry.cluster_len()];
        let mut cluster = Cluster { geometry, bytes };
        for number in 1..=geometry.replica_count() {
            cluster.format_from(number, first);
        }
        cluster
    }

    /// Gives one replica a fresh image whose log begins at this index.
    pub fn format_from(&mut self, number: usize, first: u32) {
        let (geometry, replica) = (self.geometry, self.replica(number));
        format_from(self.image_mut(number), geometry, replica, first).unwrap();
    }

    pub fn replica(&self, number: usize) -> Replica {
        self.geometry.replica(number).unwrap()
    }

    pub fn set(&self, numbers: &[usize]) -> ReplicaSet {
        set_of(self.geometry, numbers)
    }

    pub fn image(&self, number: usize) -> &[u8] {
        &self.bytes[self.geometry.image_range(self.replica(number))]
    }

    pub fn image_mut(&mut self, number: usize) -> &mut [u8] {
        let range = self.geometry.image_range(self.replica(number));
        &mut self.bytes[range]
    }

    /// Appends on each named replica, on a witness the epoch alone; all must answer the same slot.
    pub fn append(&mut self, numbers: &[usize], in_epoch: u32, payload: &[u8]) -> usize {
        let geometry = self.geometry;
        let slots: Vec<usize> = numbers
            .iter()
            .map(|&number| {
                let replica = self.replica(number);
                let (image, in_epoch) = (self.image_mut(number), epoch(in_epoch));
                if geometry.is_witness(replica) {
                    witness_append(image, geometry, replica, in_epoch).unwrap()
                } else {
                    append(image, geometry, replica, in_epoch, payload).unwrap()
                }
            })
            .collect();
        assert!(slots.iter().all(|&slot| slot == slots[0]), "{slots:?}");
        slots[0]
    }

    pub fn spoil_header(&mut self, number: usize) {
        self.image_mut(number)[0] = b'#';
    }

    pub fn spoil_record(&mut self, number: usize, slot: usize) {
        let range = self.geometry.record_range(slot);
        self.image_mut(number)[range].fill(b'#');
    }

    pub fn blank_record(&mut self, number: usize, slot: usize) {
        let range = self.geometry.record_range(slot);
        let record = &mut self.image_mut(number)[range];
        ropelog::pieces::write_blank_record(record.try_into().unwrap());
    }

    /// Changes one byte of the payload's column.
    pub fn spoil_entry(&mut self, number: usize, slot: usize) {
        let range = self.geometry.entry_range(slot);
        self.image_mut(number)[range][26] ^= 1;
    }
}
