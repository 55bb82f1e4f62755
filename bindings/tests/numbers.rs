//! Geometries, replicas, sets, epochs and the numbers of the enums.

mod common;

use common::{epoch, set_of, Cluster};
use ropelog::pieces::Shape;
use ropelog::{Edition, Epoch, Geometry, PlanAction, Refusal, ReplicaSet, StoreKind, Verdict};
use ropelog::{ENTRY_LEN, HEADER_LEN, HEADER_LEN_2, MAX_REPLICAS, MIN_REPLICAS, RECORD_LEN};

#[test]
fn geometries() {
    assert_eq!((MIN_REPLICAS, MAX_REPLICAS), (3, 7));
    for n in 0..12 {
        for m in [0, 1, 2, 63, 64, 65, usize::MAX] {
            let expected = if !(1..=64).contains(&m) {
                Err(Refusal::SlotCount)
            } else if !(3..=7).contains(&n) {
                Err(Refusal::ReplicaCount)
            } else {
                Ok((n, m))
            };
            for made in [Geometry::new(n, m), Geometry::edition_2(n, m)] {
                assert_eq!(
                    made.map(|made| (made.replica_count(), made.slot_count())),
                    expected
                );
            }
        }
    }
}

#[test]
fn editions() {
    let (one, two) = (Geometry::new(5, 4), Geometry::edition_2(5, 4));
    let (one, two) = (one.unwrap(), two.unwrap());
    assert_ne!(one, two);
    assert_eq!((one.edition(), two.edition()), (Edition::One, Edition::Two));
    assert_eq!((Edition::One.number(), Edition::Two.number()), (1, 2));
    let edition = 2;
    assert_eq!(
        two.shape(),
        Shape {
            n: 5,
            m: 4,
            edition,
            witnesses: 0
        }
    );
    assert_eq!(one.shape().edition, 1);
    assert_eq!((one.header_len(), two.header_len()), (28, 39));
    assert_eq!((HEADER_LEN, HEADER_LEN_2), (28, 39));
    // The archive takes it as three words and the set, padded to a fourth.
    assert_eq!(std::mem::size_of::<Shape>(), 32);
    assert_eq!(std::mem::align_of::<Shape>(), 8);
}

#[test]
fn sizes() {
    for (geometry, card, witness) in [
        (Geometry::new(3, 1), 302, 62),
        (Geometry::new(7, 64), 17_564, 2_204),
        (Geometry::edition_2(3, 1), 313, 73),
        (Geometry::edition_2(7, 64), 17_575, 2_215),
    ] {
        let geometry = geometry.unwrap();
        let (n, m) = (geometry.replica_count(), geometry.slot_count());
        assert_eq!(geometry.enough_stores(), 3 * (n * m) as u64);
        assert_eq!(geometry.cluster_len(), n * card);
        let two = geometry.replica(2).unwrap();
        assert_eq!(geometry.image_len(two), card);
        let geometry = geometry.with_witnesses(ReplicaSet::EMPTY.with(two));
        assert_eq!(geometry.image_len(two), witness);
        assert_eq!(geometry.image_len(geometry.replica(1).unwrap()), card);
        assert_eq!(geometry.cluster_len(), (n - 1) * card + witness);
        assert_eq!(geometry.enough_stores(), 3 * (n * m) as u64);
    }
}

#[test]
fn witnesses() {
    let cards = Geometry::new(5, 4).unwrap();
    assert_eq!(cards.witnesses(), ReplicaSet::EMPTY);
    let set = set_of(cards, &[2, 5]);
    let geometry = cards.with_witnesses(set);
    assert_ne!(geometry, cards);
    assert_eq!(geometry.witnesses(), set);
    assert_eq!(geometry.shape().witnesses, 0b10010);
    let named: Vec<usize> = geometry
        .replicas()
        .filter(|&replica| geometry.is_witness(replica))
        .map(|replica| replica.number())
        .collect();
    assert_eq!(named, [2, 5]);
    // Another set takes the place of the first.
    assert_eq!(geometry.with_witnesses(ReplicaSet::EMPTY), cards);
    // A replica of a larger cluster adds nothing to the length.
    let beyond = Geometry::new(7, 4).unwrap().replica(6).unwrap();
    let more = geometry.with_witnesses(set.with(beyond));
    assert_ne!(more, geometry);
    assert_eq!(more.cluster_len(), geometry.cluster_len());
    assert_eq!(more.replica(6), Err(Refusal::ReplicaCount));
}

#[test]
fn ranges_follow_each_other() {
    for n in 3..=7 {
        for geometry in [Geometry::new(n, 4), Geometry::edition_2(n, 4)] {
            let geometry = geometry.unwrap();
            for word in 0..1 << n {
                let witnesses = geometry
                    .replicas()
                    .filter(|replica| word >> (replica.number() - 1) & 1 == 1);
                assert_ranges_follow(geometry.with_witnesses(witnesses.collect()));
            }
        }
    }
}

fn assert_ranges_follow(geometry: Geometry) {
    let mut at = 0;
    for replica in geometry.replicas() {
        let image = geometry.image_range(replica);
        assert_eq!(image.start, at);
        assert_eq!(image.len(), geometry.image_len(replica));
        at = image.end;
    }
    assert_eq!(at, geometry.cluster_len());
    let records = (1..=4).map(|slot| geometry.record_range(slot));
    let entries = (1..=4).map(|slot| geometry.entry_range(slot));
    let mut at = geometry.header_len();
    for (range, len) in records
        .map(|range| (range, RECORD_LEN))
        .chain(entries.map(|range| (range, ENTRY_LEN)))
    {
        assert_eq!((range.start, range.len()), (at, len));
        at = range.end;
    }
    for replica in geometry.replicas() {
        let entries = if geometry.is_witness(replica) { 0 } else { 4 };
        let left_out = ENTRY_LEN * (4 - entries);
        assert_eq!(geometry.image_len(replica), at - left_out);
    }
}

#[test]
#[should_panic(expected = "slot 5 of 4")]
fn no_range_past_the_last_slot() {
    Geometry::new(5, 4).unwrap().entry_range(5);
}

#[test]
#[should_panic(expected = "replica 5 of 3 replicas")]
fn no_range_of_another_cluster() {
    let replica = Geometry::new(5, 4).unwrap().replica(5).unwrap();
    Geometry::new(3, 4).unwrap().image_range(replica);
}

#[test]
#[should_panic(expected = "replica 4 of 3 replicas")]
fn no_length_of_another_cluster() {
    let replica = Geometry::new(5, 4).unwrap().replica(4).unwrap();
    Geometry::new(3, 4).unwrap().image_len(replica);
}

#[test]
fn replicas() {
    let geometry = Geometry::new(5, 4).unwrap();
    for number in 1..=5 {
        assert_eq!(geometry.replica(number).unwrap().number(), number);
    }
    for number in [0, 6, 7, usize::MAX] {
        assert_eq!(geometry.replica(number), Err(Refusal::ReplicaCount));
    }
    let numbers: Vec<usize> = geometry.replicas().map(|one| one.number()).collect();
    assert_eq!(numbers, [1, 2, 3, 4, 5]);
    assert_eq!(geometry.replica(3).unwrap().to_string(), "replica 3");
}

#[test]
fn sets() {
    let cluster = Cluster::fresh(5, 1);
    assert_eq!(cluster.geometry.all_present().word(), 31);
    assert_eq!(ReplicaSet::EMPTY.word(), 0);
    let set = cluster.set(&[1, 4]);
    assert_eq!(set.word(), 9);
    assert!(set.contains(cluster.replica(4)));
    assert!(!set.contains(cluster.replica(2)));
    assert_eq!(set.without(cluster.replica(4)).word(), 1);
    assert_eq!(set.without(cluster.replica(2)), set);
    assert_eq!(set.with(cluster.replica(2)).word(), 11);
    assert_eq!(set.with(cluster.replica(1)), set);
}

#[test]
fn epochs() {
    assert_eq!(Epoch::new(0), Err(Refusal::AppendEpoch));
    assert_eq!(Epoch::FIRST, epoch(1));
    assert_eq!(epoch(1).next(), Some(epoch(2)));
    assert_eq!(epoch(u32::MAX).next(), None);
    assert!(epoch(1) < epoch(2));
    assert_eq!(epoch(7).to_string(), "epoch 7");
}

#[test]
fn refusals_have_their_numbers() {
    for (refusal, number) in Refusal::ALL.into_iter().zip((1..=14).chain(20..=22)) {
        assert_eq!(refusal.number(), number);
        assert_eq!(Refusal::from_number(number), Some(refusal));
        let text = refusal.to_string();
        assert!(
            text.starts_with(&format!("refused by {number}: ")),
            "{text}"
        );
    }
    for number in [0, 15, 19, 23, 255] {
        assert_eq!(Refusal::from_number(number), None);
    }
    assert_eq!(
        Refusal::AppendFull.to_string(),
        "refused by 10: all slots are used"
    );
}

#[test]
fn other_numbers() {
    let verdicts = [
        Verdict::Unused,
        Verdict::Intact,
        Verdict::RecordLost,
        Verdict::Corrupt,
        Verdict::Ambiguous,
        Verdict::Partial,
        Verdict::Stale,
    ];
    assert_eq!(verdicts.map(Verdict::number), [0, 1, 2, 3, 4, 5, 6]);
    let whole = [false, true, true, false, false, false, false];
    let faulty = [false, false, false, true, true, false, true];
    assert_eq!(verdicts.map(Verdict::is_whole), whole);
    assert_eq!(verdicts.map(Verdict::is_faulty), faulty);
    let kinds = [StoreKind::Entry, StoreKind::Record, StoreKind::BlankRecord];
    assert_eq!(kinds.map(StoreKind::number), [1, 2, 3]);
    let fetch = PlanAction::Fetch(Cluster::fresh(7, 1).replica(7));
    assert_eq!(fetch.number(), 17);
    assert_eq!(PlanAction::TruncatedAfter.number(), 5);
    assert_eq!(fetch.to_string(), "fetch from replica 7");
}
