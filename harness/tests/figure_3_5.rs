//! Log recovery on five replicas, case by case as source document 003 tells it in section 3.2.5.

#![deny(dead_code)]

use harness::code::Code;
use harness::generate::Cluster;
use harness::model::*;
use harness::on_both_sides;

on_both_sides! {
    a_i_an_intact_leader_fixes_lagging_and_faulty_followers,
    a_ii_a_faulty_entry_of_another_epoch_is_replaced,
    b_i_one_fault_on_the_leader_is_fetched,
    b_ii_a_log_is_put_together_from_faulty_ones,
    c_i_an_entry_without_copies_is_truncated,
    c_ii_a_partly_replicated_entry_is_fetched,
    d_i_waits_until_a_replica_with_the_entry_returns,
    d_ii_waits_until_a_majority_does_not_have_it,
    d_iii_a_faulty_copy_decides_nothing,
}

const ALL: u32 = 0b11111;

/// A cluster of five; each string is a log, one letter a slot.
///
/// `1` and `2` are epochs, `x` is a faulty entry of epoch 1 and `y` one of epoch 2.
fn cluster(logs: [&str; 5]) -> Cluster {
    let mut cluster = Cluster::fresh(5, 3);
    for (at, log) in logs.iter().enumerate() {
        for (before, letter) in log.chars().enumerate() {
            let (replica, slot) = (at + 1, before + 1);
            let epoch = if letter == '2' || letter == 'y' { 2 } else { 1 };
            cluster.put(replica, slot, epoch, &[b'a' + slot as u8]);
            if letter == 'x' || letter == 'y' {
                cluster.entry_mut(replica, slot).fill(b'#');
            }
        }
    }
    cluster
}

/// Recovers under leader 1 and answers the end and the leader's length.
fn recovered(on: Code, cluster: &mut Cluster, present: u32) -> (RunEnd, usize) {
    let before = cluster.clone();
    let answer = on
        .run(&mut cluster.bytes, cluster.shape, 1, present, 3 * 5 * 3)
        .unwrap();
    if answer.end != RunEnd::Done {
        assert_eq!(*cluster, before);
    }
    let log = on.judge_image(cluster.image(1), cluster.shape, 1).unwrap();
    (answer.end, log.length)
}

/// Whether a replica holds slots 1 to `length` of epoch 1 with their payloads, and no more.
fn holds(on: Code, cluster: &Cluster, replica: usize, length: usize) -> bool {
    let image = cluster.image(replica);
    let log = on.judge_image(image, cluster.shape, replica).unwrap();
    let slots = 1..=length;
    log.length == length
        && slots.into_iter().all(|slot| {
            log.verdict(slot) == Verdict::Intact
                && log.epoch(slot) == 1
                && on.payload(image, cluster.shape, replica, slot) == [b'a' + slot as u8]
        })
}

fn a_i_an_intact_leader_fixes_lagging_and_faulty_followers(on: Code) {
    let mut cluster = cluster(["111", "x11", "1x", "11x", "1"]);
    assert_eq!(recovered(on, &mut cluster, ALL), (RunEnd::Done, 3));
    assert!((1..=5).all(|replica| holds(on, &cluster, replica, 3)));
}

fn a_ii_a_faulty_entry_of_another_epoch_is_replaced(on: Code) {
    let mut cluster = cluster(["111", "111", "11", "11", "11y"]);
    assert_eq!(recovered(on, &mut cluster, ALL), (RunEnd::Done, 3));
    assert!((1..=5).all(|replica| holds(on, &cluster, replica, 3)));
}

fn b_i_one_fault_on_the_leader_is_fetched(on: Code) {
    let mut cluster = cluster(["x11", "11", "11", "111", "111"]);
    // Two replicas are down; those that remain lag.
    assert_eq!(recovered(on, &mut cluster, 0b00111), (RunEnd::Done, 3));
    assert!((1..=3).all(|replica| holds(on, &cluster, replica, 3)));
}

fn b_ii_a_log_is_put_together_from_faulty_ones(on: Code) {
    let mut cluster = cluster(["x11", "1x1", "11x", "", ""]);
    assert_eq!(recovered(on, &mut cluster, 0b00111), (RunEnd::Done, 3));
    assert!((1..=3).all(|replica| holds(on, &cluster, replica, 3)));
}

fn c_i_an_entry_without_copies_is_truncated(on: Code) {
    let mut cluster = cluster(["11x", "11", "11", "11", "11"]);
    assert_eq!(recovered(on, &mut cluster, ALL), (RunEnd::Done, 2));
    assert!((1..=5).all(|replica| holds(on, &cluster, replica, 2)));
}

fn c_ii_a_partly_replicated_entry_is_fetched(on: Code) {
    // Either would be safe; having it goes first.
    let mut cluster = cluster(["11x", "111", "11", "11", "11"]);
    assert_eq!(recovered(on, &mut cluster, ALL), (RunEnd::Done, 3));
    assert!((1..=5).all(|replica| holds(on, &cluster, replica, 3)));
}

fn d_i_waits_until_a_replica_with_the_entry_returns(on: Code) {
    let start = cluster(["11x", "11", "11", "111", "111"]);
    assert_eq!(
        recovered(on, &mut start.clone(), 0b00111),
        (RunEnd::Waiting(3), 3)
    );
    for present in [0b01111, 0b10111, ALL] {
        let mut later = start.clone();
        assert_eq!(recovered(on, &mut later, present), (RunEnd::Done, 3));
        assert!((1..=3).all(|replica| holds(on, &later, replica, 3)));
    }
}

fn d_ii_waits_until_a_majority_does_not_have_it(on: Code) {
    let start = cluster(["11x", "11", "11", "11", "11"]);
    assert_eq!(
        recovered(on, &mut start.clone(), 0b00111),
        (RunEnd::Waiting(3), 3)
    );
    for present in [0b01111, 0b10111, ALL] {
        assert_eq!(
            recovered(on, &mut start.clone(), present),
            (RunEnd::Done, 2)
        );
    }
}

fn d_iii_a_faulty_copy_decides_nothing(on: Code) {
    let without = cluster(["11x", "11", "11", "11x", "11"]);
    let with = cluster(["11x", "11", "11", "11x", "111"]);
    let faulty = cluster(["11x", "11", "11", "11x", "11x"]);
    let end = |start: &Cluster, present| recovered(on, &mut start.clone(), present);
    for start in [&without, &with, &faulty] {
        assert_eq!(end(start, 0b00111), (RunEnd::Waiting(3), 3));
        assert_eq!(end(start, 0b01111), (RunEnd::Waiting(3), 3));
    }
    assert_eq!(end(&without, ALL), (RunEnd::Done, 2));
    assert_eq!(end(&with, ALL), (RunEnd::Done, 3));
    assert_eq!(end(&faulty, ALL), (RunEnd::Waiting(3), 3));
}
