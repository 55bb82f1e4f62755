//! Document 02, request Six: editions, the first index, and refusals 20 and 21.

#![deny(dead_code)]

use harness::code::{Code, Planned, Stores};
use harness::generate::arbitrary::arbitrary_case_of;
use harness::generate::damage::header_of;
use harness::generate::history::agreed_case_of;
use harness::generate::{misdirected, some_first, some_shape_of, some_witnesses, Case, Cluster};
use harness::model::*;
use harness::on_both_sides;
use harness::property::case_rng;

on_both_sides! {
    lengths_of_edition_2,
    header_bytes_of_edition_2,
    a_card_of_edition_1_keeps_its_bytes,
    a_card_of_edition_2,
    refusal_20_in_its_three_ways,
    refusal_20_comes_after_2_and_before_3,
    the_last_index_is_accepted_and_one_more_is_refused,
    a_header_with_such_a_first_index_is_4,
    any_other_edition_is_2,
    an_image_of_the_other_edition_is_3,
    a_padded_image_of_the_other_edition_is_4,
    reading_answers_the_first_index,
    a_refused_read_hands_out_no_first_index,
    slots_stay_slots,
    verdicts_from_index_7_on,
    payloads_from_index_7_on,
    what_is_written_from_1_on_is_not_read_from_7_on,
    an_entry_of_another_index_is_noise_and_not_stale,
    refusal_21_comes_after_12_and_before_13,
    refusal_21_of_one_replica_several_and_the_leader,
    those_away_and_unreadable_may_begin_elsewhere,
    a_store_writes_no_header,
    a_record_is_rewritten_under_its_index,
    the_same_plan_and_stores_from_any_index_on,
    a_header_damaged_into_a_good_one_loses_a_reading,
}

/// Four slots of three replicas from index 7 on: slots 1 to 3 are used by all.
fn from_seven() -> Cluster {
    let mut cluster = Cluster::fresh_from(3, 4, 7);
    for replica in 1..=3 {
        for (slot, payload) in [(1, b"seven"), (2, b"eight"), (3, b"nine.")] {
            cluster.put(replica, slot, 2, payload);
        }
    }
    cluster
}

type Read = (usize, u32, Vec<u32>, Vec<u8>);

/// Length, first index, epochs and verdicts of one image.
fn read(on: Code, image: &[u8], shape: Shape, replica: usize) -> Result<Read, u8> {
    let (mut epochs, mut verdicts) = (vec![77; shape.m], vec![77; shape.m]);
    let (length, first) = on
        .read(image, shape, replica, &mut epochs, &mut verdicts)
        .map_err(Refusal::number)?;
    Ok((length, first, epochs, verdicts))
}

fn verdicts(on: Code, cluster: &Cluster, replica: usize) -> Result<Vec<u8>, u8> {
    read(on, cluster.image(replica), cluster.shape, replica).map(|read| read.3)
}

/// Asks for a fresh image in a buffer of this length. A refusal leaves it as it was.
fn format(on: Code, length: usize, shape: Shape, replica: usize, first: u32) -> Result<(), u8> {
    let mut image = vec![77; length];
    let answer = on.fresh_image(&mut image, shape, replica, first);
    assert!(answer.is_ok() || image.iter().all(|&byte| byte == 77));
    answer.map_err(Refusal::number)
}

/// The same in a buffer of the right length.
fn formatted(on: Code, shape: Shape, first: u32) -> Result<(), u8> {
    format(on, card_len(shape), shape, 1, first)
}

fn planned(on: Code, cluster: &Cluster, leader: usize, present: u32) -> Planned {
    on.planned(&cluster.bytes, cluster.shape, leader, present)
}

/// The refusal that plan, step and run share; none of them changes anything.
fn cluster_number(on: Code, cluster: &Cluster, leader: usize, present: u32) -> Option<u8> {
    on.refused_by(&cluster.bytes, cluster.shape, leader, present)
}

/// Steps until none makes a store.
fn stores(on: Code, case: &Case, cluster: &mut [u8]) -> Stores {
    on.stores(cluster, case.shape, case.leader, case.present)
}

fn lengths_of_edition_2(on: Code) {
    for (m, length) in [(1, 313), (2, 587), (64, 17_575)] {
        let shape = Shape::edition_2(7, m);
        assert_eq!(card_len(shape), length);
        assert_eq!(format(on, length, shape, 7, 5), Ok(()));
        assert_eq!(format(on, length - 1, shape, 7, 5), Err(3));
        assert_eq!(format(on, length + 1, shape, 7, 5), Err(3));
    }
}

fn header_bytes_of_edition_2(on: Code) {
    let shape = Shape::edition_2(3, 64);
    let header = on.write_header(shape, 2, 1205);
    assert_eq!(&header[..27], b"rope  2  2  3 64       1205");
    let sum = on.checksum(&header[..27]);
    assert_eq!(&header[27..], format!("{sum:>11}\n").as_bytes());
    assert_eq!(on.judge_header(&header, shape, 2), Some(1205));
    assert_eq!(on.judge_header(&header, shape, 1), None);
    assert_eq!(on.judge_header(&header[..38], shape, 2), None);
    assert_eq!(on.judge_header(&header, Shape::edition_1(3, 64), 2), None);
}

/// A fresh image and one append in epoch 1 of replica 2 of 3, with 2 slots.
fn card(on: Code, shape: Shape, first: u32) -> Vec<u8> {
    let mut image = vec![0; card_len(shape)];
    on.fresh_image(&mut image, shape, 2, first).unwrap();
    let slot = on.append(&mut image, shape, 2, 1, b"metre 1204, wire broken");
    assert_eq!(slot, Ok(1));
    image
}

/// Behind the header: a record, a blank one, an entry with its spaces, a fresh one.
fn card_of(header: &str, record: &str, entry: &str) -> Vec<u8> {
    let blank = " ".repeat(33);
    format!("{header}\n{record}\n{blank}\n{entry:<240}{:240}", "").into_bytes()
}

/// The card of docs/FORMAT.md as version 1.0.0 wrote it.
fn a_card_of_edition_1_keeps_its_bytes(on: Code) {
    let expected = card_of(
        "rope  1  2  3  2  607650687",
        "          1          1  546505443",
        "          1          1  23metre 1204, wire broken 3610446640\n",
    );
    assert_eq!(card(on, Shape::edition_1(3, 2), 1), expected);
}

fn a_card_of_edition_2(on: Code) {
    let sealed = |text: &str| format!("{text}{:>11}", on.checksum(text.as_bytes()));
    let header = sealed("rope  2  2  3  2       1205");
    let record = sealed("          1       1205");
    let entry = sealed("          1       1205  23metre 1204, wire broken");
    let expected = card_of(&header, &record, &format!("{entry}\n"));
    assert_eq!(card(on, Shape::edition_2(3, 2), 1205), expected);
}

fn refusal_20_in_its_three_ways(on: Code) {
    for m in [1, 2, 64] {
        let (one, two) = (Shape::edition_1(3, m), Shape::edition_2(3, m));
        for first in [0, 2, 3, 7, LAST_INDEX] {
            assert_eq!(formatted(on, one, first), Err(20));
        }
        assert_eq!(formatted(on, one, 1), Ok(()));
        assert_eq!(formatted(on, two, 0), Err(20));
        for first in [1, 2, 3, 7] {
            assert_eq!(formatted(on, two, first), Ok(()));
        }
        for beyond in 1..m as u32 {
            assert_eq!(formatted(on, two, LAST_INDEX - (beyond - 1)), Err(20));
        }
    }
}

fn refusal_20_comes_after_2_and_before_3(on: Code) {
    let length = card_len(Shape::edition_2(3, 2));
    for wrong in [0, LAST_INDEX] {
        assert_eq!(format(on, 0, Shape::edition_2(2, 65), 9, wrong), Err(1));
        assert_eq!(format(on, 0, Shape::edition_2(8, 2), 1, wrong), Err(2));
        assert_eq!(format(on, 0, Shape::edition_2(3, 2), 4, wrong), Err(2));
        let no_edition = Shape {
            edition: 3,
            ..Shape::edition_2(3, 2)
        };
        assert_eq!(format(on, length, no_edition, 1, wrong), Err(2));
        assert_eq!(format(on, 0, Shape::edition_2(3, 2), 1, wrong), Err(20));
        assert_eq!(
            format(on, length, Shape::edition_1(3, 2), 1, wrong),
            Err(20)
        );
    }
    assert_eq!(format(on, 0, Shape::edition_2(3, 2), 1, 7), Err(3));
    assert_eq!(format(on, length, Shape::edition_1(3, 2), 1, 1), Err(3));
}

/// A log that ends with index 4,294,967,295 is filled, read and recovered.
fn the_last_index_is_accepted_and_one_more_is_refused(on: Code) {
    for m in [1, 2, 3, 64] {
        let shape = Shape::edition_2(3, m);
        let first = LAST_INDEX - (m as u32 - 1);
        if let Some(more) = first.checked_add(1) {
            assert_eq!(formatted(on, shape, more), Err(20));
        }
        let mut cluster = Cluster::fresh_from(3, m, first);
        for slot in 1..=m {
            let appended = on.append(cluster.image_mut(2), shape, 2, 1, b"x");
            assert_eq!(appended, Ok(slot));
        }
        let record = on.judge_record(cluster.record(2, m), LAST_INDEX);
        assert_eq!(record, RecordState::Good(1));
        let expected = (m, first, vec![1; m], vec![1; m]);
        assert_eq!(read(on, cluster.image(2), shape, 2), Ok(expected));
        let full = on.append(cluster.image_mut(2), shape, 2, 1, b"x");
        assert_eq!(full, Err(Refusal::AppendFull));
        let ran = on.run(&mut cluster.bytes, shape, 2, 7, u64::MAX).unwrap();
        assert_eq!((ran.end, ran.stores), (RunEnd::Done, 4 * m as u64));
        for replica in 1..=3 {
            assert_eq!(cluster.entry(replica, m), cluster.entry(2, m));
            assert_eq!(cluster.record(replica, m), cluster.record(2, m));
        }
    }
}

/// The checksum of such a header is right.
fn a_header_with_such_a_first_index_is_4(on: Code) {
    for m in [1, 2, 64] {
        let mut cluster = Cluster::fresh_from(3, m, 7);
        let highest = u64::from(LAST_INDEX) - (m as u64 - 1);
        for first in [0, highest + 1, highest + 2, 1 << 32, 99_999_999_999] {
            let header = header_of(cluster.shape, 1, first);
            let sum = on.checksum(&header[..27]).to_string();
            assert!(header[27..].ends_with(format!("{sum}\n").as_bytes()));
            cluster.header_mut(1).copy_from_slice(&header);
            assert_eq!(read(on, cluster.image(1), cluster.shape, 1), Err(4));
            assert_eq!(on.judge_header(&header, cluster.shape, 1), None);
            assert_eq!(cluster_number(on, &cluster, 1, 7), Some(12));
            assert_eq!(cluster_number(on, &cluster, 2, 7), None);
        }
        for first in [1, 6, highest] {
            let header = header_of(cluster.shape, 1, first);
            cluster.header_mut(1).copy_from_slice(&header);
            let read = read(on, cluster.image(1), cluster.shape, 1);
            assert_eq!(read.map(|read| read.1.into()), Ok(first));
        }
    }
}

fn any_other_edition_is_2(on: Code) {
    let good = from_seven();
    for edition in [0, 3, 4, 258, 1 << 32, usize::MAX] {
        let shape = Shape {
            edition,
            ..good.shape
        };
        let mut cluster = Cluster {
            shape,
            ..good.clone()
        };
        let image = good.image(1);
        assert_eq!(format(on, image.len(), shape, 1, 7), Err(2));
        assert_eq!(read(on, image, shape, 1), Err(2));
        let refused = Refusal::ReplicaCount;
        assert_eq!(on.has_payload(image, shape, 1, 1), Err(refused));
        assert_eq!(on.payload(image, shape, 1, 1), b"");
        let mut copy = image.to_vec();
        let appended = on.append(&mut copy, shape, 1, 2, b"x");
        assert_eq!((appended, &copy[..]), (Err(refused), image));
        assert_eq!(cluster_number(on, &cluster, 1, 7), Some(2));
        // 1 comes before, and 3 behind.
        cluster.bytes.pop();
        assert_eq!(cluster_number(on, &cluster, 9, 99), Some(2));
        let no_slots = Shape { m: 0, ..shape };
        assert_eq!(format(on, 0, no_slots, 1, 7), Err(1));
    }
}

fn an_image_of_the_other_edition_is_3(on: Code) {
    for (mine, other) in [
        (Cluster::fresh(3, 2), Cluster::fresh_from(3, 2, 1)),
        (Cluster::fresh_from(3, 2, 1), Cluster::fresh(3, 2)),
    ] {
        let taken = Cluster {
            shape: mine.shape,
            ..other.clone()
        };
        assert_eq!(read(on, other.image(1), mine.shape, 1), Err(3));
        assert_eq!(cluster_number(on, &taken, 1, 7), Some(3));
        assert_eq!(cluster_number(on, &mine, 1, 7), None);
        assert_eq!(cluster_number(on, &other, 1, 7), None);
    }
}

/// Brought to the other edition's length it is no image of it.
fn a_padded_image_of_the_other_edition_is_4(on: Code) {
    let (one, two) = (Cluster::fresh(3, 2), Cluster::fresh_from(3, 2, 1));
    for (from, to) in [(&one, &two), (&two, &one)] {
        let mut image = from.image(1).to_vec();
        image.resize(card_len(to.shape), b' ');
        assert_eq!(read(on, &image, to.shape, 1), Err(4));
    }
}

fn reading_answers_the_first_index(on: Code) {
    for first in [1, 2, 7, 1_000_000_000, LAST_INDEX - 3] {
        let cluster = Cluster::fresh_from(3, 4, first);
        let expected = (0, first, vec![0; 4], vec![0; 4]);
        assert_eq!(read(on, cluster.image(3), cluster.shape, 3), Ok(expected));
    }
    let cluster = Cluster::fresh(3, 4);
    let read = read(on, cluster.image(3), cluster.shape, 3);
    assert_eq!(read.map(|read| read.1), Ok(1));
}

fn a_refused_read_hands_out_no_first_index(on: Code) {
    let mut cluster = from_seven();
    let read = |cluster: &Cluster, lent: usize| {
        let (mut epochs, mut verdicts) = (vec![77; lent], vec![77; lent]);
        let (mut used, mut first) = (77, 77);
        let number = (on.side.read)(
            cluster.image(1),
            cluster.shape,
            1,
            &mut epochs,
            &mut verdicts,
            &mut used,
            &mut first,
        );
        (number, used, first)
    };
    assert_eq!(read(&cluster, 3), (13, 77, 77));
    assert_eq!(read(&cluster, 4), (0, 3, 7));
    cluster.put_record(1, 3, 1);
    assert_eq!(read(&cluster, 4), (7, 77, 77));
    cluster.header_mut(1)[0] = b'R';
    assert_eq!(read(&cluster, 4), (4, 77, 77));
}

/// Every number of an answer is a slot's; only the bytes have the index.
fn slots_stay_slots(on: Code) {
    let mut cluster = from_seven();
    let shape = cluster.shape;
    assert_eq!(on.append(cluster.image_mut(1), shape, 1, 3, b"ten"), Ok(4));
    assert_eq!(cluster.record(1, 4), on.write_record(3, 10));
    assert_eq!(cluster.entry(1, 4), on.write_entry(3, 10, b"ten"));
    assert_eq!(on.payload(cluster.image(1), shape, 1, 4), b"ten");
    for index in 7..=10 {
        let has = on.has_payload(cluster.image(1), shape, 1, index);
        assert_eq!(has, Ok(false), "no slot has the number {index}");
    }
    // Slot 4 is cut; slot 2 is fetched, and waits if nobody is asked.
    cluster.entry_mut(1, 4).fill(b'#');
    cluster.entry_mut(1, 2).fill(b'#');
    let (answer, plan, rows) = planned(on, &cluster, 1, 7);
    assert_eq!((answer, plan), (Ok(Answer::Ready(3)), vec![1, 12, 1, 4]));
    assert_eq!((rows[0].length, rows[1].length), (4, 3));
    let (answer, plan, _) = planned(on, &cluster, 1, 1);
    assert_eq!((answer, plan), (Ok(Answer::Waiting(2)), vec![1, 3, 1, 3]));
    let waiting = on.step(&mut cluster.bytes, shape, 1, 1);
    assert_eq!(waiting, Ok(StepAnswer::Waiting(2)));
    let case = case_of(&cluster, 1, 7);
    let (made, _) = stores(on, &case, &mut cluster.bytes);
    assert_eq!(made, [(1, 4, StoreKind::Blank), (1, 2, StoreKind::Entry)]);
}

fn case_of(cluster: &Cluster, leader: usize, present: u32) -> Case {
    Case {
        shape: cluster.shape,
        leader,
        present,
        cluster: cluster.bytes.clone(),
    }
}

/// 1 to 6 and 0, each where it stands in a log from 1 on.
fn verdicts_from_index_7_on(on: Code) {
    for mut cluster in [Cluster::fresh(3, 7), Cluster::fresh_from(3, 7, 7)] {
        for slot in 1..=5 {
            cluster.put(1, slot, 2, b"x");
        }
        cluster.record_mut(1, 2).fill(b'#');
        cluster.entry_mut(1, 3).fill(b'#');
        cluster.put_entry(1, 4, 1, b"old");
        cluster.entry_mut(1, 5)[26] ^= 1;
        cluster.put_entry(1, 6, 2, b"behind");
        let expected = Ok(vec![1, 2, 3, 6, 4, 5, 0]);
        assert_eq!(verdicts(on, &cluster, 1), expected);
    }
}

fn payloads_from_index_7_on(on: Code) {
    let mut cluster = from_seven();
    cluster.record_mut(1, 2).fill(b'#');
    cluster.put_entry(1, 3, 1, b"old");
    let (image, shape) = (cluster.image(1), cluster.shape);
    for (slot, payload) in [
        (0, &b""[..]),
        (1, b"seven"),
        (2, b"eight"),
        (3, b""),
        (4, b""),
        (5, b""),
        (usize::MAX, b""),
    ] {
        assert_eq!(on.payload(image, shape, 1, slot), payload);
        let has = on.has_payload(image, shape, 1, slot);
        assert_eq!(has, Ok(!payload.is_empty()));
    }
}

/// Written for slot k of a log from 1 on, a record is bad and an entry is not intact.
fn what_is_written_from_1_on_is_not_read_from_7_on(on: Code) {
    for slot in 1..=4 {
        let (index, other) = (slot as u32, slot as u32 + 6);
        let (record, entry) = (on.write_record(2, index), on.write_entry(2, index, b"x"));
        assert_eq!(on.judge_record(&record, index), RecordState::Good(2));
        assert_eq!(on.judge_record(&record, other), RecordState::Bad);
        assert_eq!(on.judge_entry(&entry, index), EntryState::Intact(2, b"x"));
        assert_eq!(on.judge_entry(&entry, other), EntryState::NotIntact);
    }
    // Both of one slot, the record alone, the entry alone.
    let mut cluster = from_seven();
    let (record, entry) = (on.write_record(2, 2), on.write_entry(2, 2, b"eight"));
    cluster.record_mut(1, 2).copy_from_slice(&record);
    assert_eq!(verdicts(on, &cluster, 1), Ok(vec![1, 2, 1, 0]));
    cluster.entry_mut(1, 2).copy_from_slice(&entry);
    assert_eq!(verdicts(on, &cluster, 1), Err(6));
    cluster.put_record(1, 2, 2);
    assert_eq!(verdicts(on, &cluster, 1), Ok(vec![1, 3, 1, 0]));
    // A whole card from 1 on under a header from 7 on.
    let mut whole = Cluster::fresh_from(3, 2, 1);
    whole.put(1, 1, 2, b"one");
    assert_eq!(verdicts(on, &whole, 1), Ok(vec![1, 0]));
    let header = header_of(whole.shape, 1, 7);
    whole.header_mut(1).copy_from_slice(&header);
    assert_eq!(verdicts(on, &whole, 1), Err(6));
}

/// Also if it stands where its index would stand in a log from 1 on.
fn an_entry_of_another_index_is_noise_and_not_stale(on: Code) {
    for index in [1, 2, 3, 7, 9, 10, 64] {
        for epoch in [1, 2, 3] {
            let mut cluster = from_seven();
            let entry = on.write_entry(epoch, index, b"x");
            cluster.entry_mut(1, 2).copy_from_slice(&entry);
            assert_eq!(verdicts(on, &cluster, 1), Ok(vec![1, 3, 1, 0]));
        }
    }
}

/// The cluster of `from_seven` with a fresh image from 8 on in the place of one replica's.
fn with_one_from_eight(replica: usize) -> Cluster {
    let mut cluster = from_seven();
    let other = Cluster::fresh_from(3, 4, 8);
    let image = other.image(replica);
    cluster.image_mut(replica).copy_from_slice(image);
    cluster
}

fn refusal_21_comes_after_12_and_before_13(on: Code) {
    let mut cluster = with_one_from_eight(3);
    assert_eq!(cluster_number(on, &cluster, 1, 7), Some(21));
    assert_eq!(cluster_number(on, &cluster, 1, 15), Some(11));
    for leader in [0, 4, usize::MAX] {
        assert_eq!(cluster_number(on, &cluster, leader, 7), Some(12));
    }
    assert_eq!(cluster_number(on, &cluster, 1, 6), Some(12));
    let (bytes, shape) = (&cluster.bytes, cluster.shape);
    for (slots, rows) in [(4, 3), (3, 3), (4, 2), (0, 0)] {
        let (mut plan, mut rows) = (vec![77; slots], vec![ReplicaRow::default(); rows]);
        let answer = on.plan(bytes, shape, 1, 7, &mut plan, &mut rows);
        assert_eq!(answer, Err(Refusal::FirstDiffers));
        assert!(plan.iter().all(|&byte| byte == 77));
    }
    let answer = on.plan(bytes, shape, 1, 3, &mut [], &mut []);
    assert_eq!(answer, Err(Refusal::LentLength));
    cluster.header_mut(1)[0] = b'R';
    assert_eq!(cluster_number(on, &cluster, 1, 7), Some(12));
}

fn refusal_21_of_one_replica_several_and_the_leader(on: Code) {
    let mut cluster = with_one_from_eight(2);
    for leader in 1..=3 {
        assert_eq!(cluster_number(on, &cluster, leader, 7), Some(21));
    }
    // The leader alone begins elsewhere, or each at an index of its own.
    assert_eq!(cluster_number(on, &cluster, 2, 3), Some(21));
    let other = Cluster::fresh_from(3, 4, 9);
    cluster.image_mut(3).copy_from_slice(other.image(3));
    for leader in 1..=3 {
        assert_eq!(cluster_number(on, &cluster, leader, 7), Some(21));
        assert_eq!(
            cluster_number(on, &cluster, leader, 1 << (leader - 1)),
            None
        );
    }
    // Only the leader's is compared: two others that differ from it alike.
    let others = with_one_from_eight(1);
    assert_eq!(cluster_number(on, &others, 2, 6), None);
    assert_eq!(cluster_number(on, &others, 2, 7), Some(21));
}

/// They refuse no call, answer nothing and keep every byte.
fn those_away_and_unreadable_may_begin_elsewhere(on: Code) {
    let mut cluster = with_one_from_eight(3);
    cluster.entry_mut(1, 2).fill(b'#');
    let spoilt = {
        let mut cluster = cluster.clone();
        cluster.header_mut(3)[0] = b'R';
        cluster
    };
    for (start, present) in [(&cluster, 3), (&spoilt, 7), (&spoilt, 3)] {
        let (answer, plan, rows) = planned(on, start, 1, present);
        assert_eq!((answer, plan), (Ok(Answer::Ready(3)), vec![1, 12, 1, 0]));
        assert_eq!(rows[2], ReplicaRow::default());
        let mut recovered = start.clone();
        let ran = on.run(&mut recovered.bytes, start.shape, 1, present, 99);
        assert_eq!(ran.map(|ran| ran.stores), Ok(1));
        assert_eq!(recovered.image(3), start.image(3));
    }
}

/// So 21 neither comes nor goes while a cluster is recovered.
fn a_store_writes_no_header(on: Code) {
    let mut cluster = from_seven();
    for slot in 1..=3 {
        cluster.entry_mut(1, slot)[26] ^= 1;
        cluster.record_mut(2, slot).fill(b'#');
    }
    let fresh = Cluster::fresh_from(3, 4, 7);
    cluster.image_mut(3).copy_from_slice(fresh.image(3));
    let case = case_of(&cluster, 1, 7);
    let (made, answer) = stores(on, &case, &mut cluster.bytes);
    assert_eq!((made.len(), answer), (12, Ok(StepAnswer::Done)));
    let end = header_len(cluster.shape);
    for replica in 1..=3 {
        assert_eq!(cluster.image(replica)[..end], fresh.image(replica)[..end]);
    }
}

/// Lost, or missing on a follower.
fn a_record_is_rewritten_under_its_index(on: Code) {
    let mut cluster = from_seven();
    cluster.record_mut(1, 2).fill(b'#');
    cluster.put(1, 4, 3, b"ten");
    let case = case_of(&cluster, 1, 7);
    let (_, answer) = stores(on, &case, &mut cluster.bytes);
    assert_eq!(answer, Ok(StepAnswer::Done));
    assert_eq!(cluster.record(1, 2), on.write_record(2, 8));
    for replica in 1..=3 {
        assert_eq!(cluster.record(replica, 4), on.write_record(3, 10));
        assert_eq!(verdicts(on, &cluster, replica), Ok(vec![1; 4]));
    }
}

/// The epoch and the index that stand in the first two columns.
fn columns(piece: &[u8]) -> Option<(u32, u32)> {
    let number = |at: usize| u32::try_from(read_column(&piece[at..at + 11])?).ok();
    Some((number(0)?, number(11)?))
}

/// A record written for some index, written for one that lies so much behind it; other bytes stay.
fn moved_record(record: &[u8], by: u32) -> Vec<u8> {
    match columns(record).map(|(_, index)| (index, judge_record(record, index))) {
        Some((index, RecordState::Good(epoch))) if index <= LAST_INDEX - by => {
            write_record(epoch, index + by).to_vec()
        }
        _ => record.to_vec(),
    }
}

/// The same of an entry.
fn moved_entry(entry: &[u8], by: u32) -> Vec<u8> {
    match columns(entry).map(|(_, index)| (index, judge_entry(entry, index))) {
        Some((index, EntryState::Intact(epoch, payload))) if index <= LAST_INDEX - by => {
            write_entry(epoch, index + by, payload).to_vec()
        }
        _ => entry.to_vec(),
    }
}

/// A cluster of edition 1 as one of edition 2 that begins at this index.
fn moved(case: &Case, first: u32) -> Cluster {
    let (one, by) = (
        Cluster::of_bytes(case.shape, case.cluster.clone()),
        first - 1,
    );
    let Shape { n, m, .. } = case.shape;
    let shape = Shape {
        edition: 2,
        ..case.shape
    };
    let mut two = Cluster::of_firsts(shape, &vec![first; n]);
    for replica in 1..=n {
        if judge_header(&one.image(replica)[..HEADER_LEN], one.shape, replica).is_none() {
            two.header_mut(replica)[0] = b'#';
        }
        for slot in 1..=m {
            let record = moved_record(one.record(replica, slot), by);
            two.record_mut(replica, slot).copy_from_slice(&record);
            if shape.is_witness(replica) {
                continue;
            }
            let entry = moved_entry(one.entry(replica, slot), by);
            two.entry_mut(replica, slot).copy_from_slice(&entry);
        }
    }
    two
}

/// What is read, planned and stored of a cluster of edition 1, and what its stores leave, is that of the
/// same cluster of edition 2 from any one index on.
fn the_same_plan_and_stores_from_any_index_on(on: Code) {
    let (mut ready, mut waiting, mut refused) = (0, 0, 0);
    for number in 0..6_000 {
        let mut rng = case_rng(41, number);
        let cards = some_shape_of(&mut rng, 1);
        let shape = cards.with_witnesses(some_witnesses(&mut rng, cards.n));
        let case = match number % 2 {
            0 => arbitrary_case_of(&mut rng, shape),
            _ => agreed_case_of(&mut rng, shape).case,
        };
        // It may name a wrong set of witnesses.
        let shape = case.shape;
        let edition_2 = Shape {
            edition: 2,
            ..shape
        };
        let first = some_first(&mut rng, edition_2);
        let mut one = Cluster::of_bytes(shape, case.cluster.clone());
        let mut two = moved(&case, first);
        for replica in 1..=shape.n {
            let log = on.judge_image(one.image(replica), shape, replica);
            let expected = log.map(|log| Log { first, ..log });
            let log = on.judge_image(two.image(replica), edition_2, replica);
            assert_eq!(log, expected);
        }
        let (leader, present) = (case.leader, case.present);
        let plan = planned(on, &one, leader, present);
        assert_eq!(planned(on, &two, leader, present), plan);
        match plan.0 {
            Ok(Answer::Ready(_)) => ready += 1,
            Ok(Answer::Waiting(_)) => waiting += 1,
            Err(_) => refused += 1,
        }
        let made = stores(on, &case, &mut one.bytes);
        let other = case_of(&two, leader, present);
        assert_eq!(stores(on, &other, &mut two.bytes), made);
        let recovered = case_of(&one, leader, present);
        assert_eq!(moved(&recovered, first).bytes, two.bytes);
    }
    let counts = [ready, waiting, refused];
    assert!(counts.iter().all(|&count| count > 100), "{counts:?}");
}

/// Why a damaged header is supposed to be a refused one.
fn a_header_damaged_into_a_good_one_loses_a_reading(on: Code) {
    let mut cluster = misdirected();
    let (shape, record) = (cluster.shape, on.write_record(1, 3));

    // Under its own header the leader's copy is fetched.
    let mut own = cluster.clone();
    assert_eq!(verdicts(on, &own, 1), Ok(vec![4]));
    let ran = on.run(&mut own.bytes, shape, 1, 3, 9).unwrap();
    assert_eq!((ran.end, ran.stores), (RunEnd::Done, 1));
    assert_eq!(on.payload(own.image(1), shape, 1, 1), b"kept");

    // Under a header that is refused nothing is written.
    let mut refused = cluster.clone();
    let header = header_of(shape, 1, 0);
    refused.header_mut(1).copy_from_slice(&header);
    assert_eq!(cluster_number(on, &refused, 1, 1), Some(12));
    assert_eq!(refused.record(1, 1), record);

    // Under a good one from 4 on the entry is whole, the record passes for a lost one, and the first
    // store writes over the record of the reading.
    let header = on.write_header(shape, 1, 4);
    cluster.header_mut(1).copy_from_slice(&header);
    let expected = (1, 4, vec![2], vec![2]);
    assert_eq!(read(on, cluster.image(1), shape, 1), Ok(expected));
    assert_eq!(cluster_number(on, &cluster, 1, 3), Some(21));
    assert_eq!(cluster.record(1, 1), record);
    let stored = StepAnswer::Store {
        replica: 1,
        slot: 1,
        kind: StoreKind::Record,
    };
    assert_eq!(on.step(&mut cluster.bytes, shape, 1, 1), Ok(stored));
    assert_eq!(cluster.record(1, 1), on.write_record(2, 4));
    // With the header as it was the leader no longer has the slot, and one of three copies is left.
    let header = on.write_header(shape, 1, 3);
    cluster.header_mut(1).copy_from_slice(&header);
    assert_eq!(verdicts(on, &cluster, 1), Err(6));
    assert_eq!(verdicts(on, &cluster, 2), Ok(vec![1]));
    assert_eq!(verdicts(on, &cluster, 3), Ok(vec![0]));
}
