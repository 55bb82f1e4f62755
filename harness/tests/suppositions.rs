//! What recovery supposes is needed: without each supposition some conclusion fails.
//!
//! These clusters also show that the checks notice harm when there is some.

#![deny(dead_code)]

use harness::code::Code;
use harness::generate::{misdirected, Case, Cluster, Committed};
use harness::model::{apply, Shape, StoreKind};
use harness::on_both_sides;
use harness::property::claims::Start;
use harness::property::walk::walk;
use harness::property::Coverage;

on_both_sides! {
    with_all_suppositions_nothing_is_harmed,
    a_damaged_entry_is_not_intact_under_its_records_epoch,
    record_and_entry_of_one_slot_are_not_both_damaged,
    a_damaged_record_is_not_blank,
    a_damaged_record_is_not_good,
    only_records_of_used_slots_are_damaged,
    logs_agreed,
    the_leaders_log_held_it,
    a_majority_stored_it,
    a_torn_entry_is_not_intact_under_the_epoch,
    a_record_store_is_all_or_nothing,
    an_epoch_is_not_used_again_after_a_truncation,
    only_recovery_changes_the_cluster_once_it_has_begun,
    a_damaged_header_is_a_refused_one,
    a_damaged_record_of_a_witness_is_not_blank,
    a_damaged_record_of_a_witness_is_not_good,
    logs_agreed_with_a_witness_by_their_epochs,
}

/// Three replicas of one slot: all present, replica 1 leads, epoch 1 committed "kept".
fn case(cluster: &Cluster) -> Case {
    Case {
        shape: cluster.shape,
        leader: 1,
        present: 7,
        cluster: cluster.bytes.clone(),
    }
}

fn committed(holders: u32) -> [Committed; 1] {
    committed_at(1, holders)
}

fn committed_at(index: u32, holders: u32) -> [Committed; 1] {
    [Committed {
        slot: 1,
        index,
        epoch: 1,
        payload: b"kept".to_vec(),
        holders,
        elsewhere: 0,
    }]
}

/// The first conclusion that fails, if any does.
fn harm(on: Code, cluster: &Cluster, holders: u32) -> Option<String> {
    harm_of(on, &case(cluster), &committed(holders))
}

fn harm_of(on: Code, case: &Case, committed: &[Committed]) -> Option<String> {
    let start = Start::new(on, case, committed);
    let mut coverage = Coverage::default();
    start
        .check_first(&mut coverage)
        .and_then(|()| walk(&start, &mut coverage))
        .err()
}

/// The leader's copy is faulty, replica 2 has it, replica 3 lags: nothing is harmed.
fn leader_faulty() -> Cluster {
    let mut cluster = Cluster::fresh(3, 1);
    cluster.put(1, 1, 1, b"kept");
    cluster.put(2, 1, 1, b"kept");
    cluster.entry_mut(1, 1).fill(b'#');
    cluster
}

fn with_all_suppositions_nothing_is_harmed(on: Code) {
    assert_eq!(harm(on, &leader_faulty(), 0b011), None);
}

fn a_damaged_entry_is_not_intact_under_its_records_epoch(on: Code) {
    let mut cluster = leader_faulty();
    cluster.put_entry(2, 1, 1, b"other");
    assert!(harm(on, &cluster, 0b011).is_some());
}

fn record_and_entry_of_one_slot_are_not_both_damaged(on: Code) {
    let mut cluster = leader_faulty();
    cluster.record_mut(2, 1).fill(b'#');
    cluster.put_entry(2, 1, 2, b"stale");
    assert!(harm(on, &cluster, 0b011).is_some());
}

fn a_damaged_record_is_not_blank(on: Code) {
    let mut cluster = leader_faulty();
    let blank = on.blank_record();
    cluster.record_mut(2, 1).copy_from_slice(&blank);
    assert!(harm(on, &cluster, 0b011).is_some());
}

fn a_damaged_record_is_not_good(on: Code) {
    let mut cluster = leader_faulty();
    cluster.put_record(2, 1, 2);
    assert!(harm(on, &cluster, 0b011).is_some());
}

fn only_records_of_used_slots_are_damaged(on: Code) {
    let mut cluster = leader_faulty();
    cluster.put_entry(3, 1, 1, b"left behind");
    assert_eq!(harm(on, &cluster, 0b011), None);
    cluster.record_mut(3, 1).fill(b'#');
    assert!(harm(on, &cluster, 0b011).is_some());
}

fn logs_agreed(on: Code) {
    let mut cluster = leader_faulty();
    cluster.put(3, 1, 1, b"another log");
    assert!(harm(on, &cluster, 0b011).is_some());
}

fn the_leaders_log_held_it(on: Code) {
    let mut cluster = Cluster::fresh(3, 1);
    cluster.put(2, 1, 1, b"kept");
    cluster.put(3, 1, 1, b"kept");
    assert!(harm(on, &cluster, 0b110).is_some());
}

fn a_majority_stored_it(on: Code) {
    let mut cluster = leader_faulty();
    cluster.entry_mut(2, 1).fill(b'#');
    // Waiting harms nothing, but without the majority the payload is truncated.
    assert_eq!(harm(on, &cluster, 0b011), None);
    let alone = {
        let mut cluster = Cluster::fresh(3, 1);
        cluster.put(1, 1, 1, b"kept");
        cluster.entry_mut(1, 1).fill(b'#');
        cluster
    };
    assert!(harm(on, &alone, 0b001).is_some());
}

fn a_torn_entry_is_not_intact_under_the_epoch(on: Code) {
    let cluster = leader_faulty();
    let case = case(&cluster);
    let committed = committed(0b011);
    let start = Start::new(on, &case, &committed);
    let mut torn = cluster.clone();
    torn.entry_mut(1, 1)
        .copy_from_slice(&on.write_entry(1, 1, b"torn"));
    assert!(start
        .check_state(&torn.bytes, &mut Coverage::default())
        .is_err());
}

fn a_record_store_is_all_or_nothing(on: Code) {
    // Replica 3 has a slot of another epoch, whose record is blanked.
    let mut cluster = leader_faulty();
    cluster.put(3, 1, 2, b"other");
    cluster.entry_mut(3, 1).fill(b'#');
    assert_eq!(harm(on, &cluster, 0b011), None);
    let case = case(&cluster);
    let committed = committed(0b011);
    let start = Start::new(on, &case, &committed);
    let mut now = cluster.bytes.clone();
    loop {
        let store = start.stepped(&now).unwrap();
        let store = store.expect("a record is blanked");
        if store.kind == StoreKind::Blank {
            // Only the epoch's last digit has been blanked so far.
            now[store.offset + 10] = b' ';
            break;
        }
        apply(&mut now, &store);
    }
    assert!(start.check_state(&now, &mut Coverage::default()).is_err());
}

/// A caller that takes no new epoch after a truncation leaves what is supposed here.
fn an_epoch_is_not_used_again_after_a_truncation(on: Code) {
    let mut cluster = Cluster::fresh(3, 1);
    // An older payload of epoch 1 was truncated and stayed behind on replica 2.
    cluster.put_entry(2, 1, 1, b"truncated");
    // The next one reaches replicas 1 and 3; on replica 2 only its record arrives.
    cluster.put(1, 1, 1, b"kept");
    cluster.put(3, 1, 1, b"kept");
    cluster.put_record(2, 1, 1);
    cluster.entry_mut(1, 1).fill(b'#');
    assert!(harm(on, &cluster, 0b111).is_some());
    // Under a new epoch the entry left behind is not taken for it.
    let mut cluster = Cluster::fresh(3, 1);
    cluster.put_entry(2, 1, 2, b"truncated");
    cluster.put(1, 1, 1, b"kept");
    cluster.put(3, 1, 1, b"kept");
    cluster.put_record(2, 1, 1);
    cluster.entry_mut(1, 1).fill(b'#');
    assert_eq!(harm(on, &cluster, 0b111), None);
}

fn only_recovery_changes_the_cluster_once_it_has_begun(on: Code) {
    let cluster = leader_faulty();
    let case = case(&cluster);
    let committed = committed(0b011);
    let start = Start::new(on, &case, &committed);
    let mut damaged = cluster.clone();
    damaged.entry_mut(2, 1).fill(b'#');
    assert!(start
        .check_state(&damaged.bytes, &mut Coverage::default())
        .is_err());
}

/// Replica 3 is away.
fn a_damaged_header_is_a_refused_one(on: Code) {
    let mut cluster = misdirected();
    let committed = committed_at(3, 0b011);
    let harm_among = |cluster: &Cluster, present| {
        let case = Case {
            present,
            ..case(cluster)
        };
        harm_of(on, &case, &committed)
    };
    assert_eq!(harm_among(&cluster, 0b011), None);
    assert_eq!(harm_among(&cluster, 0b001), None);
    for (first, harmed) in [(0, false), (4, true)] {
        let header = on.write_header(cluster.shape, 1, first);
        cluster.header_mut(1).copy_from_slice(&header);
        // Among others the leader is refused by 12 or 21.
        assert_eq!(harm_among(&cluster, 0b011), None);
        assert_eq!(harm_among(&cluster, 0b001).is_some(), harmed);
    }
}

/// Replicas 1 and 3, a card and a witness, had stored it; the leader's entry is damaged, and card 2 never
/// had it.
fn witnessed() -> Cluster {
    let mut cluster = Cluster::of_shape(Shape::edition_1(3, 1).with_witnesses(0b100));
    for replica in [1, 3] {
        cluster.put(replica, 1, 1, b"kept");
    }
    cluster.entry_mut(1, 1).fill(b'#');
    cluster
}

/// Its record alone keeps it from being cut. Damaged as supposed, the witness is away.
fn a_damaged_record_of_a_witness_is_not_blank(on: Code) {
    let mut cluster = witnessed();
    assert_eq!(harm(on, &cluster, 0b101), None);
    cluster.record_mut(3, 1).fill(b'#');
    assert_eq!(harm(on, &cluster, 0b101), None);
    let blank = on.blank_record();
    cluster.record_mut(3, 1).copy_from_slice(&blank);
    assert!(harm(on, &cluster, 0b101).is_some());
}

fn a_damaged_record_of_a_witness_is_not_good(on: Code) {
    let mut cluster = witnessed();
    cluster.put_record(3, 1, 2);
    assert!(harm(on, &cluster, 0b101).is_some());
}

/// Two slots of which the witness has the second one's epoch, and the first one's or another.
fn logs_agreed_with_a_witness_by_their_epochs(on: Code) {
    let shape = Shape::edition_1(3, 2).with_witnesses(0b100);
    for (epoch, harmed) in [(2, false), (1, true)] {
        let mut cluster = Cluster::of_shape(shape);
        for replica in [1, 3] {
            cluster.put(replica, 1, 2, b"before");
            cluster.put(replica, 2, 3, b"kept");
        }
        cluster.put_record(3, 1, epoch);
        let committed = [Committed {
            slot: 2,
            index: 2,
            epoch: 3,
            payload: b"kept".to_vec(),
            holders: 0b101,
            elsewhere: 0,
        }];
        let found = harm_of(on, &case(&cluster), &committed);
        assert_eq!(found.is_some(), harmed, "{found:?}");
    }
}
