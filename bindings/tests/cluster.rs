//! The calls about a cluster, refused ones included.

mod common;

use common::{assert_cluster_refused, epoch, Cluster};
use ropelog::{
    payload, plan, read, run, step, Geometry, Plan, PlanAction, PlanAnswer, Refusal, ReplicaSet,
    RunAnswer, StepAnswer, Store, StoreKind, Verdict,
};

/// Five replicas of four slots, led by 1. Replicas 1 to 4 have slots 1 and 2 in epoch 1; the leader
/// alone has slot 3 in epoch 2. Replica 5 is fresh.
fn five() -> Cluster {
    let mut cluster = Cluster::fresh(5, 4);
    cluster.append(&[1, 2, 3, 4], 1, b"one");
    cluster.append(&[1, 2, 3, 4], 1, b"two");
    cluster.append(&[1], 2, b"tail");
    cluster
}

fn planned(cluster: &Cluster, present: ReplicaSet) -> Plan {
    plan(
        &cluster.bytes,
        cluster.geometry,
        cluster.replica(1),
        present,
    )
    .unwrap()
}

fn stepped(cluster: &mut Cluster, present: ReplicaSet) -> StepAnswer {
    let leader = cluster.replica(1);
    step(&mut cluster.bytes, cluster.geometry, leader, present).unwrap()
}

fn ran(cluster: &mut Cluster, present: ReplicaSet, budget: u64) -> RunAnswer {
    let leader = cluster.replica(1);
    run(
        &mut cluster.bytes,
        cluster.geometry,
        leader,
        present,
        budget,
    )
    .unwrap()
}

fn stored(cluster: &Cluster, replica: usize, slot: usize, kind: StoreKind) -> StepAnswer {
    StepAnswer::Stored(Store {
        replica: cluster.replica(replica),
        slot,
        kind,
    })
}

/// The leader alone has slot 1, and its entry is spoilt: so many don't-haves of n cut it, fewer wait.
#[test]
fn dont_haves_of_every_n() {
    for (n, needed) in [(3, 2), (4, 2), (5, 3), (6, 3), (7, 4)] {
        let mut cluster = Cluster::fresh(n, 1);
        cluster.append(&[1], 1, b"one");
        cluster.spoil_entry(1, 1);
        for dont_have in 0..n {
            let present: Vec<usize> = (1..=1 + dont_have).collect();
            let plan = planned(&cluster, cluster.set(&present));
            let (action, answer) = if dont_have < needed {
                (PlanAction::Wait, PlanAnswer::Waiting { slot: 1 })
            } else {
                (PlanAction::Truncate, PlanAnswer::Ready { length: 0 })
            };
            assert_eq!(plan.actions(), [action], "{dont_have} of {n}");
            assert_eq!(plan.answer(), answer, "{dont_have} of {n}");
        }
    }
}

/// A cluster of each even size is recovered, and every replica then holds the log.
#[test]
fn even_clusters_recover() {
    for n in [4, 6] {
        let mut cluster = Cluster::fresh(n, 2);
        let holders: Vec<usize> = (1..=n / 2 + 1).collect();
        cluster.append(&holders, 1, b"one");
        cluster.spoil_entry(1, 1);
        cluster.spoil_record(2, 1);
        let all = cluster.geometry.all_present();
        let enough = cluster.geometry.enough_stores();
        assert!(matches!(
            ran(&mut cluster, all, enough),
            RunAnswer::Recovered { .. }
        ));
        for number in 1..=n {
            let replica = cluster.replica(number);
            let found = payload(cluster.image(number), cluster.geometry, replica, 1);
            assert_eq!(found, b"one", "{number} of {n}");
        }
    }
}

#[test]
fn every_action() {
    let mut cluster = Cluster::fresh(5, 7);
    for text in ["one", "two", "three"] {
        cluster.append(&[1, 2, 3, 4, 5], 1, text.as_bytes());
    }
    for text in ["four", "five", "six"] {
        cluster.append(&[1], 1, text.as_bytes());
    }
    cluster.spoil_entry(1, 1);
    cluster.spoil_entry(2, 1);
    cluster.spoil_record(1, 2);
    cluster.spoil_entry(1, 4);
    let all = cluster.geometry.all_present();
    let plan = planned(&cluster, all);
    let expected = [
        PlanAction::Fetch(cluster.replica(3)),
        PlanAction::RewriteRecord,
        PlanAction::Whole,
        PlanAction::Truncate,
        PlanAction::TruncatedAfter,
        PlanAction::TruncatedAfter,
        PlanAction::Unused,
    ];
    assert_eq!(plan.actions(), expected);
    assert_eq!(plan.action(4), Some(PlanAction::Truncate));
    assert_eq!((plan.action(0), plan.action(8)), (None, None));
    assert_eq!(plan.answer(), PlanAnswer::Ready { length: 3 });
    let two = cluster.set(&[1, 2]);
    let plan = planned(&cluster, two);
    assert_eq!(plan.action(1), Some(PlanAction::Wait));
    assert_eq!(plan.action(4), Some(PlanAction::Wait));
    assert_eq!(plan.answer(), PlanAnswer::Waiting { slot: 1 });
}

#[test]
fn rows() {
    let mut cluster = five();
    cluster.spoil_header(3);
    let plan = planned(&cluster, cluster.set(&[1, 2, 3, 5]));
    let row = |number| plan.row(cluster.replica(number)).unwrap();
    assert_eq!(plan.rows().len(), 5);
    for (number, readable, length, last) in [
        (1, true, 3, Some(epoch(2))),
        (2, true, 2, Some(epoch(1))),
        (3, false, 0, None),
        (4, false, 0, None),
        (5, true, 0, None),
    ] {
        let found = row(number);
        assert_eq!(found.readable, readable, "replica {number}");
        assert_eq!(found.length, length, "replica {number}");
        assert_eq!(found.last_epoch, last, "replica {number}");
    }
    let beyond = Geometry::new(7, 1).unwrap().replica(6).unwrap();
    assert_eq!(plan.row(beyond), None);
}

#[test]
fn steps_in_order() {
    let mut cluster = five();
    cluster.spoil_entry(1, 1);
    cluster.spoil_record(1, 2);
    cluster.spoil_entry(1, 3);
    let all = cluster.geometry.all_present();
    let expected = [
        (1, 3, StoreKind::BlankRecord),
        (1, 1, StoreKind::Entry),
        (1, 2, StoreKind::Record),
        (5, 1, StoreKind::Entry),
        (5, 1, StoreKind::Record),
        (5, 2, StoreKind::Entry),
        (5, 2, StoreKind::Record),
    ];
    for (replica, slot, kind) in expected {
        let answer = stepped(&mut cluster, all);
        assert_eq!(answer, stored(&cluster, replica, slot, kind));
    }
    let before = cluster.bytes.clone();
    assert_eq!(stepped(&mut cluster, all), StepAnswer::Recovered);
    assert_eq!(cluster.bytes, before);
    for replica in cluster.geometry.replicas() {
        let image = cluster.image(replica.number());
        let log = read(image, cluster.geometry, replica).unwrap();
        assert_eq!(log.length(), 2);
        assert_eq!(log.slot(1).unwrap().verdict, Verdict::Intact);
        let found = payload(image, cluster.geometry, replica, 2);
        assert_eq!(found, b"two");
    }
}

#[test]
fn budgets() {
    let mut cluster = five();
    cluster.spoil_entry(1, 3);
    let all = cluster.geometry.all_present();
    // One record blanked, and two slots of replica 5.
    let before = cluster.bytes.clone();
    assert_eq!(ran(&mut cluster, all, 0), RunAnswer::Spent { stores: 0 });
    assert_eq!(cluster.bytes, before);
    assert_eq!(ran(&mut cluster, all, 2), RunAnswer::Spent { stores: 2 });
    assert_ne!(cluster.bytes, before);
    assert_eq!(
        ran(&mut cluster, all, 3),
        RunAnswer::Recovered { stores: 3 }
    );
    assert_eq!(
        ran(&mut cluster, all, 0),
        RunAnswer::Recovered { stores: 0 }
    );
    let mut at_once = five();
    at_once.spoil_entry(1, 3);
    let enough = at_once.geometry.enough_stores();
    assert_eq!(
        ran(&mut at_once, all, enough),
        RunAnswer::Recovered { stores: 5 }
    );
    assert_eq!(at_once.bytes, cluster.bytes);
}

#[test]
fn waiting_writes_nothing() {
    let mut cluster = five();
    cluster.spoil_entry(1, 2);
    cluster.spoil_entry(1, 3);
    let present = cluster.set(&[1, 5]);
    let before = cluster.bytes.clone();
    assert_eq!(
        planned(&cluster, present).answer(),
        PlanAnswer::Waiting { slot: 2 }
    );
    assert_eq!(
        stepped(&mut cluster, present),
        StepAnswer::Waiting { slot: 2 }
    );
    assert_eq!(
        ran(&mut cluster, present, u64::MAX),
        RunAnswer::Waiting { slot: 2, stores: 0 }
    );
    assert_eq!(cluster.bytes, before);
}

#[test]
fn away_and_unreadable_replicas_keep_their_bytes() {
    let mut cluster = five();
    cluster.spoil_entry(1, 1);
    cluster.spoil_entry(2, 1);
    cluster.spoil_entry(3, 1);
    cluster.spoil_header(3);
    let before = cluster.bytes.clone();
    let present = cluster.set(&[1, 3, 4, 5]);
    // The leader fetches slot 1, replica 4 gets slot 3, and replica 5 all three.
    let answer = ran(&mut cluster, present, 100);
    assert_eq!(answer, RunAnswer::Recovered { stores: 1 + 2 + 6 });
    for number in [2, 3] {
        let range = cluster.geometry.image_range(cluster.replica(number));
        assert_eq!(cluster.image(number), &before[range], "replica {number}");
    }
}

/// Steps until none makes a store, and the stores.
fn all_stores(cluster: &mut Cluster) -> Vec<Store> {
    let all = cluster.geometry.all_present();
    let mut stores = Vec::new();
    while let StepAnswer::Stored(store) = stepped(cluster, all) {
        stores.push(store);
    }
    stores
}

/// The same cluster in edition 1 and, under several first indexes, in edition 2: one plan, the same
/// stores, the same payloads.
#[test]
fn a_first_index_changes_no_plan() {
    let damaged = |mut cluster: Cluster| {
        cluster.append(&[1, 2, 3, 4], 1, b"one");
        cluster.append(&[1, 2, 3, 4], 1, b"two");
        cluster.append(&[1], 2, b"tail");
        cluster.spoil_entry(1, 1);
        cluster.spoil_record(1, 2);
        cluster.spoil_entry(1, 3);
        cluster
    };
    let mut one = damaged(Cluster::fresh(5, 4));
    let all = one.geometry.all_present();
    let plan = planned(&one, all);
    let stores = all_stores(&mut one);
    assert_eq!(stores.len(), 7);
    for first in [1, 2, 1205, u32::MAX - 3] {
        let mut two = damaged(Cluster::fresh_from(5, 4, first));
        let found = planned(&two, all);
        assert_eq!(found.actions(), plan.actions());
        assert_eq!((found.answer(), found.rows()), (plan.answer(), plan.rows()));
        assert_eq!(all_stores(&mut two), stores);
        for replica in two.geometry.replicas() {
            let image = two.image(replica.number());
            assert_eq!(read(image, two.geometry, replica).unwrap().first(), first);
            assert_eq!(payload(image, two.geometry, replica, 2), b"two");
        }
    }
}

/// 21 as long as one that is present and readable begins elsewhere; behind 12.
#[test]
fn refused_first_indexes() {
    let mut cluster = Cluster::fresh_from(5, 2, 7);
    cluster.append(&[1, 2], 1, b"one");
    cluster.format_from(4, 8);
    let (geometry, leader) = (cluster.geometry, cluster.replica(1));
    let (fourth, all) = (cluster.replica(4), geometry.all_present());
    assert_cluster_refused(&cluster.bytes, geometry, leader, all, Refusal::FirstDiffers);
    assert_cluster_refused(&cluster.bytes, geometry, fourth, all, Refusal::FirstDiffers);
    let without = all.without(leader);
    assert_cluster_refused(&cluster.bytes, geometry, leader, without, Refusal::Leader);
    let answer = planned(&cluster, all.without(fourth)).answer();
    assert_eq!(answer, PlanAnswer::Ready { length: 1 });
    cluster.spoil_header(4);
    assert_eq!(planned(&cluster, all).answer(), answer);
    cluster.spoil_header(1);
    assert_cluster_refused(&cluster.bytes, geometry, leader, all, Refusal::Leader);
}

#[test]
fn refused_buffers() {
    let cluster = five();
    let (geometry, leader) = (cluster.geometry, cluster.replica(1));
    let all = geometry.all_present();
    let mut longer = cluster.bytes.clone();
    longer.push(b' ');
    for bytes in [&[][..], &cluster.bytes[1..], &longer] {
        assert_cluster_refused(bytes, geometry, leader, all, Refusal::BufferLength);
    }
    for other in [Geometry::new(5, 3), Geometry::edition_2(5, 4)] {
        let other = other.unwrap();
        assert_cluster_refused(&cluster.bytes, other, leader, all, Refusal::BufferLength);
    }
}

#[test]
fn refused_sets_and_leaders() {
    let cluster = five();
    let (geometry, leader) = (cluster.geometry, cluster.replica(1));
    let all = geometry.all_present();
    let seven = Geometry::new(7, 4).unwrap();
    let beyond = seven.replica(7).unwrap();
    assert_cluster_refused(
        &cluster.bytes,
        geometry,
        leader,
        seven.all_present(),
        Refusal::Present,
    );
    assert_cluster_refused(
        &cluster.bytes,
        geometry,
        beyond,
        all.with(beyond),
        Refusal::Present,
    );
    assert_cluster_refused(&cluster.bytes, geometry, beyond, all, Refusal::Leader);
    for present in [ReplicaSet::EMPTY, all.without(leader)] {
        assert_cluster_refused(&cluster.bytes, geometry, leader, present, Refusal::Leader);
    }
}

#[test]
fn refused_images_of_the_leader() {
    let spoilt: [fn(&mut Cluster); 3] = [
        |cluster| cluster.spoil_header(1),
        |cluster| cluster.blank_record(1, 1),
        |cluster| {
            cluster.spoil_entry(1, 2);
            cluster.spoil_record(1, 2);
        },
    ];
    for spoil in spoilt {
        let mut cluster = five();
        spoil(&mut cluster);
        let (geometry, leader) = (cluster.geometry, cluster.replica(1));
        assert_cluster_refused(
            &cluster.bytes,
            geometry,
            leader,
            geometry.all_present(),
            Refusal::Leader,
        );
    }
}
