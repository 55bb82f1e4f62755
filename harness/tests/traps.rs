//! What a natural implementation gets wrong, and other open points as they are read here.

#![deny(dead_code)]

use harness::code::Code;
use harness::generate::Cluster;
use harness::model::*;
use harness::on_both_sides;

on_both_sides! {
    a_used_slot_after_a_blank_beats_a_falling_epoch_before_it,
    both_lost_beats_a_falling_epoch_before_it,
    a_wrong_lent_buffer_is_found_last,
    an_old_entry_of_the_right_epoch_is_overwritten,
    the_last_used_slot_is_ambiguous_whatever_stands_behind_it,
    only_the_first_unused_slot_is_partial,
    an_empty_payload_is_a_payload,
    the_payload_is_part_of_the_image,
    records_that_are_bad,
    a_record_torn_between_two_sectors,
    append_compares_with_the_last_slot_even_if_it_is_faulty,
    plan_bytes_show_everything_while_waiting,
    a_fault_behind_the_truncation_never_waits,
    an_unreadable_replica_is_away_and_never_written,
    entries_stay_behind_a_truncation,
    a_budget_of_exactly_the_outstanding_stores_ends_done,
    order_of_a_followers_stores,
    order_of_the_leaders_stores,
    the_most_stores_a_run_makes,
    a_lost_record_is_a_copy_within_reach,
    truncated_slots_are_printed,
}

fn verdicts(on: Code, cluster: &Cluster, replica: usize) -> Result<Vec<u8>, u8> {
    let mut epochs = vec![0; cluster.shape.m];
    let mut verdicts = vec![0; cluster.shape.m];
    on.read(
        cluster.image(replica),
        cluster.shape,
        replica,
        &mut epochs,
        &mut verdicts,
    )
    .map_err(Refusal::number)?;
    Ok(verdicts)
}

fn planned(on: Code, cluster: &Cluster, leader: usize, present: u32) -> (Answer, Vec<u8>) {
    let (answer, bytes, _) = on.planned(&cluster.bytes, cluster.shape, leader, present);
    (answer.unwrap(), bytes)
}

fn stores(on: Code, cluster: &mut Cluster, leader: usize, present: u32) -> Vec<(usize, usize, u8)> {
    let (made, end) = on.stores(&mut cluster.bytes, cluster.shape, leader, present);
    end.unwrap();
    let named = made.into_iter();
    named
        .map(|(replica, slot, kind)| (replica, slot, kind as u8))
        .collect()
}

/// Refusals go by number over the whole image, not by slot.
fn a_used_slot_after_a_blank_beats_a_falling_epoch_before_it(on: Code) {
    let mut cluster = Cluster::fresh(3, 4);
    cluster.put(1, 1, 5, b"");
    cluster.put(1, 2, 4, b"");
    assert_eq!(verdicts(on, &cluster, 1), Err(7));
    cluster.put(1, 4, 9, b"");
    assert_eq!(verdicts(on, &cluster, 1), Err(5));
}

fn both_lost_beats_a_falling_epoch_before_it(on: Code) {
    let mut cluster = Cluster::fresh(3, 3);
    cluster.put(1, 1, 5, b"");
    cluster.put(1, 2, 4, b"");
    cluster.put_record(1, 3, 6);
    cluster.record_mut(1, 3)[33] = b' ';
    assert_eq!(verdicts(on, &cluster, 1), Err(6));
}

/// 13 comes after everything else that applies.
fn a_wrong_lent_buffer_is_found_last(on: Code) {
    let mut cluster = Cluster::fresh(3, 2);
    cluster.put(1, 1, 5, b"");
    cluster.put(1, 2, 4, b"");
    let answer = on.read(cluster.image(1), cluster.shape, 1, &mut [], &mut []);
    assert_eq!(answer, Err(Refusal::EpochFalls));
    let answer = on.plan(&cluster.bytes, cluster.shape, 2, 15, &mut [], &mut []);
    assert_eq!(answer, Err(Refusal::Present));
    let answer = on.plan(&cluster.bytes, cluster.shape, 1, 7, &mut [], &mut []);
    assert_eq!(answer, Err(Refusal::Leader));
    let answer = on.plan(&cluster.bytes, cluster.shape, 2, 7, &mut [], &mut []);
    assert_eq!(answer, Err(Refusal::LentLength));
}

/// A missing slot's entry is skipped only if all 240 bytes equal the leader's.
fn an_old_entry_of_the_right_epoch_is_overwritten(on: Code) {
    let mut cluster = Cluster::fresh(3, 1);
    cluster.put(1, 1, 1, b"new");
    cluster.put_entry(2, 1, 1, b"old");
    cluster.put_entry(3, 1, 1, b"new");
    assert_eq!(
        stores(on, &mut cluster, 1, 7),
        [(2, 1, 1), (2, 1, 2), (3, 1, 2)]
    );
    assert_eq!(on.payload(cluster.image(2), cluster.shape, 2, 1), b"new");
}

fn the_last_used_slot_is_ambiguous_whatever_stands_behind_it(on: Code) {
    let mut cluster = Cluster::fresh(3, 3);
    cluster.put(1, 1, 1, b"x");
    cluster.entry_mut(1, 1).fill(b'?');
    cluster.put_entry(1, 2, 1, b"y");
    assert_eq!(verdicts(on, &cluster, 1), Ok(vec![4, 5, 0]));
}

fn only_the_first_unused_slot_is_partial(on: Code) {
    let mut cluster = Cluster::fresh(3, 3);
    cluster.put_entry(1, 2, 1, b"y");
    assert_eq!(verdicts(on, &cluster, 1), Ok(vec![0, 0, 0]));
    cluster.entry_mut(1, 1)[239] = 0;
    assert_eq!(verdicts(on, &cluster, 1), Ok(vec![5, 0, 0]));
    for slot in 1..=3 {
        cluster.put(1, slot, 1, b"");
    }
    assert_eq!(verdicts(on, &cluster, 1), Ok(vec![1, 1, 1]));
}

fn an_empty_payload_is_a_payload(on: Code) {
    let mut cluster = Cluster::fresh(3, 3);
    cluster.put(1, 1, 1, b"");
    cluster.put(1, 2, 2, b"stale");
    cluster.put_entry(1, 2, 1, b"stale");
    cluster.put_entry(1, 3, 2, b"behind");
    let image = cluster.image(1);
    let has = |slot| on.has_payload(image, Shape::edition_1(3, 3), 1, slot);
    assert_eq!(has(1), Ok(true));
    assert_eq!(on.payload(image, Shape::edition_1(3, 3), 1, 1), b"");
    for slot in [0, 2, 3, 4, usize::MAX] {
        assert_eq!(has(slot), Ok(false), "{slot}");
        assert_eq!(on.payload(image, Shape::edition_1(3, 3), 1, slot), b"");
    }
    assert_eq!(
        on.has_payload(image, Shape::edition_1(3, 3), 2, 0),
        Err(Refusal::Header)
    );
    assert_eq!(on.payload(image, Shape::edition_1(3, 3), 2, 1), b"");
}

fn the_payload_is_part_of_the_image(on: Code) {
    let mut cluster = Cluster::fresh(3, 2);
    cluster.put(1, 1, 1, b"x");
    cluster.put(1, 2, 1, b"payload");
    cluster.record_mut(1, 2).fill(1);
    let image = cluster.image(1);
    let part = on.payload(image, Shape::edition_1(3, 2), 1, 2);
    assert_eq!(part, b"payload");
    let start = entry_offset(cluster.shape, 2) + 26;
    assert_eq!(part.as_ptr(), image[start..].as_ptr());
}

fn records_that_are_bad(on: Code) {
    let wrong_slot = on.write_record(1, 2);
    let epoch_0 = on.write_record(0, 1);
    let mut too_large = on.blank_record();
    on.write_column(&mut too_large[0..11], 4_294_967_296);
    on.write_column(&mut too_large[11..22], 1);
    let sum = on.checksum(&too_large[..22]);
    on.write_column(&mut too_large[22..33], u64::from(sum));
    let spaces = [b' '; RECORD_LEN];
    for record in [wrong_slot, epoch_0, too_large, spaces] {
        assert_eq!(on.judge_record(&record, 1), RecordState::Bad);
    }
    assert_eq!(on.judge_record(&on.blank_record(), 1), RecordState::Blank);
    assert_eq!(
        on.judge_record(&on.write_record(u32::MAX, 64), 64),
        RecordState::Good(u32::MAX)
    );
}

/// New bytes on one side of a boundary of 512 alone, of a record that is written or blanked.
fn a_record_torn_between_two_sectors(on: Code) {
    for slot in [15, 30, 45, 60] {
        let mut whole = Cluster::fresh(3, slot);
        for before in 1..=slot {
            whole.put(1, before, 1_234_567_890, b"x");
        }
        let split = 512 - record_offset(whole.shape, slot) % 512;
        let (record, blank) = (whole.record(1, slot).to_vec(), on.blank_record());
        for torn in [
            [&record[..split], &blank[split..]].concat(),
            [&blank[..split], &record[split..]].concat(),
        ] {
            assert_eq!(on.judge_record(&torn, slot as u32), RecordState::Bad);
            let mut cluster = whole.clone();
            cluster.record_mut(1, slot).copy_from_slice(&torn);
            let read = verdicts(on, &cluster, 1).unwrap();
            assert_eq!((read[slot - 2], read[slot - 1]), (1, 2));
            cluster.entry_mut(1, slot).fill(0);
            assert_eq!(verdicts(on, &cluster, 1), Err(6));
        }
    }
}

fn append_compares_with_the_last_slot_even_if_it_is_faulty(on: Code) {
    let mut cluster = Cluster::fresh(3, 2);
    cluster.put(1, 1, 5, b"x");
    cluster.entry_mut(1, 1).fill(0);
    assert_eq!(
        on.append(cluster.image_mut(1), Shape::edition_1(3, 2), 1, 4, b""),
        Err(Refusal::AppendEpoch)
    );
    cluster.put_entry(1, 1, 6, b"x");
    cluster.record_mut(1, 1).fill(0);
    assert_eq!(
        on.append(cluster.image_mut(1), Shape::edition_1(3, 2), 1, 5, b""),
        Err(Refusal::AppendEpoch)
    );
    assert_eq!(
        on.append(cluster.image_mut(1), Shape::edition_1(3, 2), 1, 6, b""),
        Ok(2)
    );
}

fn plan_bytes_show_everything_while_waiting(on: Code) {
    let mut cluster = Cluster::fresh(3, 6);
    for slot in 1..=5 {
        cluster.put(1, slot, 1, b"x");
        if slot <= 3 {
            cluster.put(2, slot, 1, b"x");
            cluster.put(3, slot, 1, b"x");
        }
    }
    cluster.record_mut(1, 1).fill(0);
    for slot in 2..=5 {
        cluster.entry_mut(1, slot).fill(0);
    }
    cluster.entry_mut(2, 2).fill(0);
    cluster.entry_mut(3, 2).fill(0);
    cluster.entry_mut(2, 3).fill(0);
    assert_eq!(
        planned(on, &cluster, 1, 7),
        (Answer::Waiting(2), vec![2, 3, 13, 4, 5, 0])
    );
}

fn a_fault_behind_the_truncation_never_waits(on: Code) {
    let mut cluster = Cluster::fresh(5, 3);
    cluster.put(1, 1, 1, b"x");
    cluster.put(1, 2, 3, b"x");
    for replica in 2..=4 {
        cluster.put(replica, 1, 2, b"y");
        cluster.put(replica, 2, 3, b"y");
        cluster.entry_mut(replica, 2).fill(0);
    }
    // Slot 2 alone waits: three replicas have it, all of them faulty.
    cluster.entry_mut(1, 2).fill(0);
    assert_eq!(
        planned(on, &cluster, 1, 0b01111),
        (Answer::Waiting(2), vec![1, 3, 0])
    );
    cluster.entry_mut(1, 1).fill(0);
    assert_eq!(
        planned(on, &cluster, 1, 0b01111),
        (Answer::Ready(0), vec![4, 5, 0])
    );
}

fn an_unreadable_replica_is_away_and_never_written(on: Code) {
    let mut cluster = Cluster::fresh(3, 1);
    cluster.put(1, 1, 1, b"x");
    cluster.header_mut(2)[27] = b' ';
    let before = cluster.clone();
    assert_eq!(stores(on, &mut cluster, 1, 7), [(3, 1, 1), (3, 1, 2)]);
    assert_eq!(cluster.image(2), before.image(2));
}

fn entries_stay_behind_a_truncation(on: Code) {
    let mut cluster = Cluster::fresh(3, 2);
    for slot in 1..=2 {
        cluster.put(1, slot, 1, b"x");
    }
    cluster.entry_mut(1, 1).fill(b'?');
    let before = cluster.clone();
    assert_eq!(stores(on, &mut cluster, 1, 7), [(1, 2, 3), (1, 1, 3)]);
    assert_eq!(verdicts(on, &cluster, 1), Ok(vec![5, 0]));
    assert_eq!(cluster.entry(1, 1), before.entry(1, 1));
    assert_eq!(cluster.entry(1, 2), before.entry(1, 2));
}

fn a_budget_of_exactly_the_outstanding_stores_ends_done(on: Code) {
    let mut cluster = Cluster::fresh(3, 1);
    cluster.put(1, 1, 1, b"x");
    for (budget, end) in [(3, RunEnd::Spent), (4, RunEnd::Done), (5, RunEnd::Done)] {
        let mut copy = cluster.clone();
        let answer = on.run(&mut copy.bytes, copy.shape, 1, 7, budget).unwrap();
        assert_eq!((answer.end, answer.stores), (end, budget.min(4)));
    }
    let answer = on
        .run(&mut cluster.bytes, cluster.shape, 1, 7, u64::MAX)
        .unwrap();
    assert_eq!((answer.end, answer.stores), (RunEnd::Done, 4));
}

/// A follower loses its diverging tail from the end, mends what stays, then catches up.
fn order_of_a_followers_stores(on: Code) {
    let mut cluster = Cluster::fresh(3, 6);
    for slot in 1..=5 {
        cluster.put(1, slot, 2, b"x");
    }
    for slot in 1..=4 {
        cluster.put(2, slot, 2, b"x");
    }
    for slot in 5..=6 {
        cluster.put(2, slot, 3, b"other");
    }
    cluster.record_mut(2, 1).fill(0);
    cluster.entry_mut(2, 2).fill(0);
    cluster.record_mut(2, 3).fill(0);
    cluster.entry_mut(2, 4).fill(0);
    cluster.record_mut(2, 6).fill(0);
    assert_eq!(
        stores(on, &mut cluster, 1, 3),
        [
            (2, 6, 3),
            (2, 5, 3),
            (2, 2, 1),
            (2, 4, 1),
            (2, 1, 2),
            (2, 3, 2),
            (2, 5, 1),
            (2, 5, 2),
        ]
    );
}

/// The leader is truncated, then fetches, then rewrites lost records.
fn order_of_the_leaders_stores(on: Code) {
    let mut cluster = Cluster::fresh(3, 6);
    for slot in 1..=6 {
        cluster.put(1, slot, 1, b"x");
    }
    for slot in 1..=4 {
        cluster.put(2, slot, 1, b"x");
        cluster.put(3, slot, 1, b"x");
    }
    cluster.record_mut(1, 1).fill(0);
    cluster.entry_mut(1, 2).fill(0);
    cluster.record_mut(1, 3).fill(0);
    cluster.entry_mut(1, 4).fill(0);
    cluster.entry_mut(1, 5).fill(0);
    assert_eq!(
        stores(on, &mut cluster, 1, 7),
        [
            (1, 6, 3),
            (1, 5, 3),
            (1, 2, 1),
            (1, 4, 1),
            (1, 1, 2),
            (1, 3, 2),
        ]
    );
}

/// m x (3 x n - 2) stores are attained: the leader's records are lost, all else is replaced.
fn the_most_stores_a_run_makes(on: Code) {
    for (n, m) in [(3, 2), (4, 2), (5, 3), (6, 1), (7, 1)] {
        let mut cluster = Cluster::fresh(n, m);
        for slot in 1..=m {
            cluster.put(1, slot, 2, b"x");
            cluster.record_mut(1, slot).fill(0);
            for replica in 2..=n {
                cluster.put(replica, slot, 1, b"y");
            }
        }
        let present = (1 << n) - 1;
        let answer = on
            .run(&mut cluster.bytes, cluster.shape, 1, present, u64::MAX)
            .unwrap();
        assert_eq!(answer.end, RunEnd::Done);
        assert_eq!(answer.stores, (m * (3 * n - 2)) as u64);
    }
}

fn a_lost_record_is_a_copy_within_reach(on: Code) {
    let mut cluster = Cluster::fresh(3, 1);
    for replica in 1..=3 {
        cluster.put(replica, 1, 1, b"x");
    }
    cluster.entry_mut(1, 1).fill(0);
    cluster.record_mut(2, 1).fill(0);
    assert_eq!(planned(on, &cluster, 1, 7), (Answer::Ready(1), vec![12]));
}

fn truncated_slots_are_printed(on: Code) {
    let mut cluster = Cluster::fresh(3, 2);
    cluster.put(1, 1, 1, b"x");
    cluster.put(1, 2, u32::MAX, b"x");
    cluster.entry_mut(1, 1).fill(0);
    let mut input = b"  3  2  1   7\n".to_vec();
    input.extend(&cluster.bytes);
    let expected = "   3   1   0   0\n   1          1   4\n   2 4294967295   5\n";
    assert_eq!(String::from_utf8(on.report(&input)).unwrap(), expected);
}
