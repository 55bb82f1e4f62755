//! Document 02, request Seven: witnesses, which have records and no entries, and refusal 22.

#![deny(dead_code)]

use harness::code::Code;
use harness::generate::arbitrary::arbitrary_case_of;
use harness::generate::history::agreed_case_of;
use harness::generate::shapes::other_witnesses;
use harness::generate::{some_shape, Cluster, Rng};
use harness::model::planner::{PLAN_FETCH, PLAN_TRUNCATE, PLAN_WAIT};
use harness::model::*;
use harness::on_both_sides;
use harness::property::case_rng;

on_both_sides! {
    lengths_of_a_witness,
    lengths_and_offsets_of_a_cluster_are_sums,
    header_bytes_of_a_witness,
    a_number_without_a_bit_is_no_witness,
    a_witness_byte_by_byte,
    the_header_of_the_other_kind_is_4,
    a_fresh_witness_is_refused_by_1_2_20_and_3,
    a_call_of_the_wrong_kind_is_3_whatever_the_length,
    a_call_of_the_wrong_kind_is_refused_by_1_and_2_first,
    any_bad_record_is_6,
    refusals_5_6_and_7_of_a_witness,
    an_append_is_one_record,
    an_append_is_refused_by_8_and_10_and_never_9,
    reading_fills_epochs_alone,
    a_bit_for_no_replica_matters_to_no_call_about_one_image,
    refusal_22_comes_after_11_and_before_12,
    a_stray_bit_adds_nothing_to_the_length,
    leading_a_witness_is_12_readable_or_not,
    all_replicas_may_be_witnesses,
    a_record_of_a_witness_keeps_a_slot_from_being_cut,
    a_record_of_another_epoch_does_not,
    a_witness_that_is_away_or_unreadable_says_nothing,
    a_used_slot_of_a_witness_needs_no_store,
    a_witness_never_donates,
    witnesses_alone_as_the_majority_wait,
    rows_of_a_witness,
    records_are_blanked_down_to_the_first_difference,
    missing_records_are_added_from_below,
    stores_go_by_number,
    a_witness_with_a_bad_record_is_never_mended,
    another_first_index_of_a_witness_is_21,
    records_of_a_witness_have_their_index,
    no_run_makes_more_stores_than_the_bound,
    a_wrong_set_of_the_same_size_is_safe,
    a_set_of_another_size_is_3,
    no_store_writes_an_entry_of_a_witness,
    the_printing_program_has_no_witnesses,
}

/// The epoch of every record here.
const EPOCH: u32 = 5;

/// Two cards and a witness, replica 3, of two slots.
const SHAPE: Shape = Shape::edition_1(3, 2).with_witnesses(0b100);

fn blank(cluster: &mut Cluster, replica: usize, slot: usize) {
    let record = cluster.record_mut(replica, slot);
    record.copy_from_slice(&BLANK_RECORD);
}

/// A cluster of this shape in which every replica has this many slots.
fn used(shape: Shape, length: usize) -> Cluster {
    let mut cluster = Cluster::of_shape(shape);
    for replica in 1..=shape.n {
        for slot in 1..=length {
            cluster.put(replica, slot, EPOCH, &[b'a', slot as u8]);
        }
    }
    cluster
}

/// Asks for a fresh image in a buffer of this length. A refusal leaves it as it was.
fn format(on: Code, length: usize, shape: Shape, replica: usize, first: u32) -> Result<(), u8> {
    let mut image = vec![77; length];
    let answer = on.fresh_image(&mut image, shape, replica, first);
    assert!(answer.is_ok() || image.iter().all(|&byte| byte == 77));
    answer.map_err(Refusal::number)
}

/// Length, first index and epochs of a witness. A refusal leaves the epochs as they were.
fn read(
    on: Code,
    image: &[u8],
    shape: Shape,
    replica: usize,
) -> Result<(usize, u32, Vec<u32>), u8> {
    let mut epochs = vec![77; shape.m.min(100)];
    let answer = on.witness_read(image, shape, replica, &mut epochs);
    assert!(answer.is_ok() || epochs.iter().all(|&epoch| epoch == 77));
    let (length, first) = answer.map_err(Refusal::number)?;
    Ok((length, first, epochs))
}

/// Appends to a copy. A refusal leaves it as it was.
fn append(
    on: Code,
    image: &[u8],
    shape: Shape,
    replica: usize,
    epoch: u32,
) -> Result<(usize, Vec<u8>), u8> {
    let mut copy = image.to_vec();
    let answer = on.witness_append(&mut copy, shape, replica, epoch);
    assert!(answer.is_ok() || copy == image);
    let slot = answer.map_err(Refusal::number)?;
    Ok((slot, copy))
}

/// The number by which both calls about a witness refuse an image.
fn witness_number(on: Code, image: &[u8], shape: Shape, replica: usize) -> u8 {
    let number = read(on, image, shape, replica).expect_err("it is refused");
    let appended = append(on, image, shape, replica, u32::MAX);
    assert_eq!(appended, Err(number));
    number
}

/// The number by which every call about a card refuses an image; nothing changes.
fn card_number(on: Code, image: &[u8], shape: Shape, replica: usize) -> u8 {
    let (mut epochs, mut verdicts) = (vec![77; shape.m.min(100)], vec![77; shape.m.min(100)]);
    let answer = on.read(image, shape, replica, &mut epochs, &mut verdicts);
    let refusal = answer.expect_err("it is refused");
    assert!(epochs.iter().all(|&epoch| epoch == 77));
    assert!(verdicts.iter().all(|&verdict| verdict == 77));
    let mut copy = image.to_vec();
    let appended = on.append(&mut copy, shape, replica, u32::MAX, b"x");
    assert_eq!((appended, &copy[..]), (Err(refusal), image));
    for slot in 0..=3 {
        let has = on.has_payload(image, shape, replica, slot);
        assert_eq!(has, Err(refusal));
        assert_eq!(on.payload(image, shape, replica, slot), b"");
    }
    refusal.number()
}

/// The refusal that plan, step and run share; none of them changes anything.
fn cluster_number(on: Code, cluster: &Cluster, leader: usize, present: u32) -> Option<u8> {
    on.refused_by(&cluster.bytes, cluster.shape, leader, present)
}

fn planned(on: Code, cluster: &Cluster, leader: usize, present: u32) -> (Answer, Vec<u8>) {
    let (answer, bytes, _) = on.planned(&cluster.bytes, cluster.shape, leader, present);
    (answer.expect("it is planned"), bytes)
}

/// Every store until none is outstanding: replica, slot and kind.
fn stores(on: Code, cluster: &mut Cluster, leader: usize, present: u32) -> Vec<(usize, usize, u8)> {
    let (made, end) = on.stores(&mut cluster.bytes, cluster.shape, leader, present);
    assert_eq!(end, Ok(StepAnswer::Done));
    let named = made.into_iter();
    named
        .map(|(replica, slot, kind)| (replica, slot, kind as u8))
        .collect()
}

fn lengths_of_a_witness(on: Code) {
    for (m, one, two) in [(1, 62, 73), (2, 96, 107), (64, 2204, 2215)] {
        for (shape, length) in [(Shape::edition_1(7, m), one), (Shape::edition_2(7, m), two)] {
            let shape = shape.with_witnesses(0b1000000);
            assert_eq!(image_len(shape, 7), length);
            assert_eq!(format(on, length, shape, 7, 1), Ok(()));
            for other in [0, length - 1, length + 1, card_len(shape)] {
                assert_eq!(format(on, other, shape, 7, 1), Err(3));
            }
            // The others have cards.
            assert_eq!(format(on, length, shape, 6, 1), Err(3));
            assert_eq!(format(on, card_len(shape), shape, 6, 1), Ok(()));
        }
    }
}

/// The witnesses may stand anywhere.
fn lengths_and_offsets_of_a_cluster_are_sums(on: Code) {
    for witnesses in 0..8 {
        let shape = Shape::edition_1(3, 2).with_witnesses(witnesses);
        let count = witnesses.count_ones() as usize;
        assert_eq!(cluster_len(shape), (3 - count) * 576 + count * 96);
        let mut cluster = Cluster::of_shape(shape);
        for leader in (1..=3).filter(|&replica| !shape.is_witness(replica)) {
            cluster.put(leader, 1, EPOCH, b"x");
            let made = stores(on, &mut cluster, leader, 7);
            let records = made.iter().filter(|store| store.2 == 2).count();
            let entries = made.iter().filter(|store| store.2 == 1).count();
            assert_eq!((records, entries), (2, 2 - count));
            for replica in 1..=3 {
                let log = on.judge_image(cluster.image(replica), shape, replica);
                assert_eq!(log.map(|log| log.epochs), Ok(vec![EPOCH, 0]));
                blank(&mut cluster, replica, 1);
            }
            cluster = Cluster::of_shape(shape);
        }
        cluster.bytes.push(b' ');
        assert_eq!(cluster_number(on, &cluster, 1, 7), Some(3));
    }
}

fn header_bytes_of_a_witness(on: Code) {
    let (one, two) = (SHAPE, Shape::edition_2(3, 2).with_witnesses(0b100));
    let header = on.write_header(one, 3, 1);
    assert_eq!(&header[..16], b"wits  1  3  3  2");
    let sum = on.checksum(&header[..16]);
    assert_eq!(&header[16..], format!("{sum:>11}\n").as_bytes());
    assert_eq!(on.judge_header(&header, one, 3), Some(1));
    let later = on.write_header(two, 3, 1205);
    assert_eq!(&later[..27], b"wits  2  3  3  2       1205");
    let sum = on.checksum(&later[..27]);
    assert_eq!(&later[27..], format!("{sum:>11}\n").as_bytes());
    assert_eq!(on.judge_header(&later, two, 3), Some(1205));
    // The other two have cards.
    for replica in [1, 2] {
        assert_eq!(&on.write_header(one, replica, 1)[..4], b"rope");
    }
    // The checksum covers the word.
    let mut other = header.clone();
    other[..4].copy_from_slice(b"rope");
    assert_eq!(on.judge_header(&other, one, 3), None);
    assert_eq!(on.judge_header(&other, one.with_witnesses(0), 3), None);
}

/// Its header is a card's, whatever the set. Every bit stands for the replica of its number.
fn a_number_without_a_bit_is_no_witness(on: Code) {
    for replica in [0, 33, 34, 64, 65, 999] {
        let shape = SHAPE.with_witnesses(u32::MAX);
        let header = on.write_header(shape, replica, 1);
        assert_eq!(&header[..4], b"rope");
        assert_eq!(on.judge_header(&header, shape, replica), Some(1));
    }
    for replica in 1..=32 {
        for witness in 1..=32 {
            let shape = SHAPE.with_witnesses(1 << (witness - 1));
            let word = &on.write_header(shape, replica, 1)[..4];
            assert_eq!(word == b"wits", replica == witness);
            assert_eq!(word == b"rope", replica != witness);
        }
    }
}

/// A fresh witness and one append in epoch 1, in both editions.
fn a_witness_byte_by_byte(on: Code) {
    let (one, two) = (SHAPE, Shape::edition_2(3, 2).with_witnesses(0b100));
    let sealed = |text: &str| format!("{text}{:>11}\n", on.checksum(text.as_bytes()));
    let blank = format!("{:33}\n", "");
    for (shape, first, header, record) in [
        (one, 1, "wits  1  3  3  2", "          1          1"),
        (
            two,
            1205,
            "wits  2  3  3  2       1205",
            "          1       1205",
        ),
    ] {
        let mut image = vec![0; witness_len(shape)];
        on.fresh_image(&mut image, shape, 3, first).unwrap();
        let fresh = format!("{}{blank}{blank}", sealed(header));
        assert_eq!(image, fresh.as_bytes());
        let slot = on.witness_append(&mut image, shape, 3, 1);
        let expected = format!("{}{}{blank}", sealed(header), sealed(record));
        assert_eq!((slot, &image[..]), (Ok(1), expected.as_bytes()));
    }
    // The record is the one that a card has.
    let mut image = vec![0; witness_len(one)];
    on.fresh_image(&mut image, one, 3, 1).unwrap();
    on.witness_append(&mut image, one, 3, 1).unwrap();
    assert_eq!(&image[50..61], b"  546505443");
}

/// A card's header above records alone, and a witness's above records and entries.
fn the_header_of_the_other_kind_is_4(on: Code) {
    let (witness, card) = (SHAPE, SHAPE.with_witnesses(0));
    let mut image = Cluster::of_shape(witness).image(3).to_vec();
    image[..28].copy_from_slice(&on.write_header(card, 3, 1));
    assert_eq!(witness_number(on, &image, witness, 3), 4);
    let mut image = Cluster::of_shape(card).image(3).to_vec();
    image[..28].copy_from_slice(&on.write_header(witness, 3, 1));
    assert_eq!(card_number(on, &image, card, 3), 4);
    // A witness's header is its own for no other replica and shape.
    let shape = SHAPE.with_witnesses(0b110);
    let mut image = Cluster::of_shape(shape).image(3).to_vec();
    assert_eq!(witness_number(on, &image, shape, 2), 4);
    let other = Shape { n: 4, ..shape };
    assert_eq!(witness_number(on, &image, other, 3), 4);
    for at in 0..28 {
        image[at] ^= 1;
        assert_eq!(witness_number(on, &image, shape, 3), 4);
        image[at] ^= 1;
    }
}

fn a_fresh_witness_is_refused_by_1_2_20_and_3(on: Code) {
    let two = Shape::edition_2(3, 2).with_witnesses(0b100);
    for wrong in [0, LAST_INDEX] {
        let no_slots = Shape { m: 65, ..two };
        assert_eq!(format(on, 0, no_slots, 9, wrong), Err(1));
        assert_eq!(format(on, 0, two, 4, wrong), Err(2));
        assert_eq!(format(on, 0, two, 3, wrong), Err(20));
        assert_eq!(format(on, witness_len(two), two, 3, wrong), Err(20));
    }
    assert_eq!(format(on, witness_len(SHAPE), SHAPE, 3, 2), Err(20));
    assert_eq!(format(on, witness_len(two), two, 3, LAST_INDEX - 1), Ok(()));
    assert_eq!(format(on, witness_len(two) - 1, two, 3, 7), Err(3));
    assert_eq!(format(on, card_len(two), two, 3, 7), Err(3));
}

/// Also if it has the bytes of a good image of the kind that the call is for.
fn a_call_of_the_wrong_kind_is_3_whatever_the_length(on: Code) {
    let (witness, card) = (used(SHAPE, 1), used(SHAPE.with_witnesses(0), 1));
    let of_witness = witness.image(3);
    let of_card = card.image(3);
    for image in [of_witness, of_card, b""] {
        assert_eq!(card_number(on, image, SHAPE, 3), 3);
        assert_eq!(witness_number(on, image, SHAPE, 1), 3);
        assert_eq!(witness_number(on, image, card.shape, 3), 3);
    }
    // Each is read by the call of its own kind.
    assert_eq!(read(on, of_witness, SHAPE, 3), Ok((1, 1, vec![EPOCH, 0])));
    assert!(on.judge_image(of_card, card.shape, 3).is_ok());
}

fn a_call_of_the_wrong_kind_is_refused_by_1_and_2_first(on: Code) {
    let cluster = used(SHAPE, 1);
    let image = cluster.image(3);
    let all = SHAPE.with_witnesses(u32::MAX);
    for m in [0, 65, usize::MAX] {
        let shape = Shape { n: 99, m, ..all };
        assert_eq!(card_number(on, image, shape, 3), 1);
        assert_eq!(witness_number(on, image, shape.with_witnesses(0), 3), 1);
    }
    for (n, replica, edition) in [(2, 3, 1), (8, 3, 1), (3, 0, 1), (3, 4, 1), (3, 3, 3)] {
        let shape = Shape { n, edition, ..all };
        assert_eq!(card_number(on, image, shape, replica), 2);
        let cards = shape.with_witnesses(0);
        assert_eq!(witness_number(on, image, cards, replica), 2);
    }
}

/// Nothing on a witness tells the epoch of a lost record.
fn any_bad_record_is_6(on: Code) {
    for slot in 1..=2 {
        for at in 0..RECORD_LEN {
            let mut cluster = used(SHAPE, 2);
            cluster.record_mut(3, slot)[at] ^= 1;
            assert_eq!(witness_number(on, cluster.image(3), SHAPE, 3), 6);
        }
        // A good record of another slot, or of epoch 0.
        let index = 3 - slot as u32;
        for record in [on.write_record(EPOCH, index), on.write_record(0, 3 - index)] {
            let mut cluster = used(SHAPE, 2);
            cluster.record_mut(3, slot).copy_from_slice(&record);
            assert_eq!(witness_number(on, cluster.image(3), SHAPE, 3), 6);
        }
    }
    // On a card the entry tells it.
    let mut cluster = used(SHAPE, 2);
    cluster.record_mut(2, 1).fill(b'#');
    let log = on.judge_image(cluster.image(2), SHAPE, 2).unwrap();
    assert_eq!(log.verdict(1), Verdict::RecordLost);
}

/// Over the whole image, by their numbers.
fn refusals_5_6_and_7_of_a_witness(on: Code) {
    let shape = Shape::edition_1(3, 4).with_witnesses(0b100);
    let mut cluster = Cluster::of_shape(shape);
    cluster.put_record(3, 1, 5);
    cluster.put_record(3, 2, 4);
    assert_eq!(witness_number(on, cluster.image(3), shape, 3), 7);
    cluster.put_record(3, 3, 9);
    assert_eq!(witness_number(on, cluster.image(3), shape, 3), 7);
    cluster.record_mut(3, 3).fill(0);
    assert_eq!(witness_number(on, cluster.image(3), shape, 3), 6);
    cluster.put_record(3, 3, 9);
    blank(&mut cluster, 3, 2);
    assert_eq!(witness_number(on, cluster.image(3), shape, 3), 5);
    // A bad record counts as used.
    cluster.record_mut(3, 3).fill(0);
    assert_eq!(witness_number(on, cluster.image(3), shape, 3), 5);
    cluster.header_mut(3)[0] = b'W';
    assert_eq!(witness_number(on, cluster.image(3), shape, 3), 4);
}

/// In the first unused slot, and nothing else is written.
fn an_append_is_one_record(on: Code) {
    let shape = Shape::edition_2(3, 3).with_witnesses(0b010);
    let mut cluster = Cluster::of_firsts(shape, &[7; 3]);
    let mut image = cluster.image(2).to_vec();
    for (slot, epoch) in [(1, 1), (2, 1), (3, u32::MAX)] {
        let (appended, after) = append(on, &image, shape, 2, epoch).unwrap();
        assert_eq!(appended, slot);
        cluster.put_record(2, slot, epoch);
        assert_eq!(after, cluster.image(2));
        image = after;
    }
    let expected = (3, 7, vec![1, 1, u32::MAX]);
    assert_eq!(read(on, &image, shape, 2), Ok(expected));
    assert_eq!(cluster.record(2, 3), on.write_record(u32::MAX, 9));
}

/// No payload is given, so that none is too long.
fn an_append_is_refused_by_8_and_10_and_never_9(on: Code) {
    let cluster = used(SHAPE, 1);
    let number = |image: &[u8], epoch| append(on, image, SHAPE, 3, epoch).map(|(slot, _)| slot);
    assert_eq!(number(cluster.image(3), 0), Err(8));
    assert_eq!(number(cluster.image(3), EPOCH - 1), Err(8));
    for epoch in [EPOCH, EPOCH + 1, u32::MAX] {
        assert_eq!(number(cluster.image(3), epoch), Ok(2));
    }
    let full = used(SHAPE, 2);
    assert_eq!(number(full.image(3), EPOCH - 1), Err(8));
    assert_eq!(number(full.image(3), EPOCH), Err(10));
    let fresh = Cluster::of_shape(SHAPE);
    assert_eq!(number(fresh.image(3), 0), Err(8));
    assert_eq!(number(fresh.image(3), 1), Ok(1));
    // The last epoch is accepted, and none behind it but itself.
    let mut last = Cluster::of_shape(SHAPE);
    last.put_record(3, 1, u32::MAX);
    assert_eq!(number(last.image(3), u32::MAX), Ok(2));
    assert_eq!(number(last.image(3), u32::MAX - 1), Err(8));
}

fn reading_fills_epochs_alone(on: Code) {
    let mut cluster = used(SHAPE, 2);
    cluster.put_record(3, 2, 9);
    let (image, expected) = (cluster.image(3), Ok((2, 1, vec![EPOCH, 9])));
    assert_eq!(read(on, image, SHAPE, 3), expected);
    let fresh = Cluster::of_shape(SHAPE);
    assert_eq!(read(on, fresh.image(3), SHAPE, 3), Ok((0, 1, vec![0, 0])));
    for lent in [0, 1, 3, 64] {
        let mut epochs = vec![77; lent];
        let answer = on.witness_read(image, SHAPE, 3, &mut epochs);
        assert_eq!((answer, epochs), (Err(Refusal::LentLength), vec![77; lent]));
    }
    // 13 comes last, and a refused read hands out nothing.
    cluster.put_record(3, 2, 1);
    let (mut used, mut first) = (77, 77);
    let refused =
        (on.side.witness_read)(cluster.image(3), SHAPE, 3, &mut [], &mut used, &mut first);
    assert_eq!((refused, used, first), (7, 77, 77));
}

fn a_bit_for_no_replica_matters_to_no_call_about_one_image(on: Code) {
    let cluster = used(SHAPE, 1);
    for stray in [0b1000, 1 << 31, 0xffff_fff8] {
        let shape = SHAPE.with_witnesses(SHAPE.witnesses | stray);
        let image = cluster.image(3);
        assert_eq!(format(on, 96, shape, 3, 1), Ok(()));
        assert_eq!(read(on, image, shape, 3), Ok((1, 1, vec![EPOCH, 0])));
        assert_eq!(append(on, image, shape, 3, EPOCH).map(|done| done.0), Ok(2));
        let card = cluster.image(1);
        assert!(on.judge_image(card, shape, 1).is_ok());
        assert_eq!(on.has_payload(card, shape, 1, 1), Ok(true));
        let mut copy = card.to_vec();
        assert_eq!(on.append(&mut copy, shape, 1, EPOCH, b"x"), Ok(2));
    }
}

fn refusal_22_comes_after_11_and_before_12(on: Code) {
    for bit in 3..32 {
        let mut cluster = used(SHAPE, 1);
        cluster.shape.witnesses |= 1 << bit;
        assert_eq!(cluster_number(on, &cluster, 1, 7), Some(22));
        assert_eq!(cluster_number(on, &cluster, 1, 7 | 1 << bit), Some(11));
        // No leader, one that is not present, and a witness.
        for (leader, present) in [
            (0, 7),
            (4, 7),
            (usize::MAX, 7),
            (1, 6),
            (3, 7),
            (bit + 1, 7),
        ] {
            assert_eq!(cluster_number(on, &cluster, leader, present), Some(22));
        }
        cluster.header_mut(1)[0] = b'R';
        assert_eq!(cluster_number(on, &cluster, 1, 7), Some(22));
        let (bytes, shape) = (&cluster.bytes, cluster.shape);
        let answer = on.plan(bytes, shape, 1, 7, &mut [], &mut []);
        assert_eq!(answer, Err(Refusal::Witnesses));
        cluster.bytes.pop();
        assert_eq!(cluster_number(on, &cluster, 1, 99), Some(3));
        cluster.shape.edition = 3;
        assert_eq!(cluster_number(on, &cluster, 1, 99), Some(2));
    }
    // 21 comes behind it.
    let shape = Shape::edition_2(3, 2).with_witnesses(0b100);
    let mut cluster = Cluster::of_firsts(shape, &[7, 8, 7]);
    assert_eq!(cluster_number(on, &cluster, 1, 7), Some(21));
    cluster.shape.witnesses |= 0b1000;
    assert_eq!(cluster_number(on, &cluster, 1, 7), Some(22));
}

/// So 3 is decided without it.
fn a_stray_bit_adds_nothing_to_the_length(on: Code) {
    for n in MIN_REPLICAS..=MAX_REPLICAS {
        for witnesses in [0, 0b100, (1 << n) - 1] {
            let shape = Shape::edition_1(n, 2).with_witnesses(witnesses);
            let cluster = Cluster::of_shape(shape);
            for stray in [1 << n, 1 << 31, !0 << n] {
                let mut other = cluster.clone();
                other.shape.witnesses |= stray;
                assert_eq!(cluster_len(other.shape), cluster_len(shape));
                assert_eq!(cluster_number(on, &other, 1, 1), Some(22));
                other.bytes.extend([b' '; 96]);
                assert_eq!(cluster_number(on, &other, 1, 1), Some(3));
            }
        }
    }
}

fn leading_a_witness_is_12_readable_or_not(on: Code) {
    let mut cluster = used(SHAPE, 2);
    for present in [7, 4, 3] {
        assert_eq!(cluster_number(on, &cluster, 3, present), Some(12));
        assert_eq!(cluster_number(on, &cluster, 1, present | 1), None);
    }
    cluster.record_mut(3, 1).fill(b'#');
    assert_eq!(cluster_number(on, &cluster, 3, 7), Some(12));
    cluster.header_mut(3)[0] = b'W';
    assert_eq!(cluster_number(on, &cluster, 3, 7), Some(12));
    // Before 21, and before 13.
    let shape = Shape::edition_2(3, 2).with_witnesses(0b100);
    let later = Cluster::of_firsts(shape, &[7, 7, 8]);
    assert_eq!(cluster_number(on, &later, 1, 7), Some(21));
    assert_eq!(cluster_number(on, &later, 3, 7), Some(12));
    let answer = on.plan(&later.bytes, shape, 3, 7, &mut [], &mut []);
    assert_eq!(answer, Err(Refusal::Leader));
}

fn all_replicas_may_be_witnesses(on: Code) {
    for n in MIN_REPLICAS..=MAX_REPLICAS {
        let all = (1 << n) - 1;
        let cluster = used(Shape::edition_1(n, 2).with_witnesses(all), 1);
        for leader in 0..=n + 1 {
            assert_eq!(cluster_number(on, &cluster, leader, all), Some(12));
        }
    }
}

/// Three replicas, one slot: the leader's entry is faulty, card 2 never had it, and replica 3 is a witness
/// with this epoch in its record, or without one.
fn asked(witness: Option<u32>) -> Cluster {
    let mut cluster = Cluster::of_shape(Shape::edition_1(3, 1).with_witnesses(0b100));
    cluster.put(1, 1, EPOCH, b"x");
    cluster.entry_mut(1, 1)[26] ^= 1;
    if let Some(epoch) = witness {
        cluster.put_record(3, 1, epoch);
    }
    cluster
}

fn a_record_of_a_witness_keeps_a_slot_from_being_cut(on: Code) {
    let mut cluster = asked(Some(EPOCH));
    let waits = (Answer::Waiting(1), vec![PLAN_WAIT]);
    assert_eq!(planned(on, &cluster, 1, 7), waits);
    let before = cluster.clone();
    let ran = on.run(&mut cluster.bytes, cluster.shape, 1, 7, 9).unwrap();
    assert_eq!((ran.end, ran.stores), (RunEnd::Waiting(1), 0));
    assert_eq!(cluster, before);
    blank(&mut cluster, 3, 1);
    let cut = (Answer::Ready(0), vec![PLAN_TRUNCATE]);
    assert_eq!(planned(on, &cluster, 1, 7), cut);
    assert_eq!(stores(on, &mut cluster, 1, 7), [(1, 1, 3)]);
}

fn a_record_of_another_epoch_does_not(on: Code) {
    for epoch in [1, EPOCH - 1, EPOCH + 1, u32::MAX] {
        let mut cluster = asked(Some(epoch));
        let cut = (Answer::Ready(0), vec![PLAN_TRUNCATE]);
        assert_eq!(planned(on, &cluster, 1, 7), cut);
        assert_eq!(stores(on, &mut cluster, 1, 7), [(1, 1, 3), (3, 1, 3)]);
    }
}

/// A blank record is a don't-have only if the witness can be asked.
fn a_witness_that_is_away_or_unreadable_says_nothing(on: Code) {
    let waits = (Answer::Waiting(1), vec![PLAN_WAIT]);
    let blank = asked(None);
    assert_eq!(planned(on, &blank, 1, 3), waits);
    let mut spoilt = blank.clone();
    spoilt.header_mut(3)[0] = b'W';
    assert_eq!(planned(on, &spoilt, 1, 7), waits);
    let mut bad = blank;
    bad.record_mut(3, 1).fill(b'#');
    assert_eq!(planned(on, &bad, 1, 7), waits);
}

/// Its have-faulty brings no entry store.
fn a_used_slot_of_a_witness_needs_no_store(on: Code) {
    for witnesses in [0b100, 0b110] {
        let shape = SHAPE.with_witnesses(witnesses);
        let mut cluster = used(shape, 2);
        assert_eq!(stores(on, &mut cluster, 1, 7), []);
        // Not even while the leader fetches that very slot.
        cluster.entry_mut(1, 1)[26] ^= 1;
        match witnesses {
            0b100 => assert_eq!(stores(on, &mut cluster, 1, 7), [(1, 1, 1)]),
            _ => assert_eq!(planned(on, &cluster, 1, 7).0, Answer::Waiting(1)),
        }
    }
}

/// Of the lowest number with a copy: replica 3, behind two witnesses with the record.
fn a_witness_never_donates(on: Code) {
    let shape = Shape::edition_1(4, 1).with_witnesses(0b0011);
    let mut cluster = used(shape, 1);
    cluster.entry_mut(4, 1)[26] ^= 1;
    let fetched = (Answer::Ready(1), vec![PLAN_FETCH + 3]);
    assert_eq!(planned(on, &cluster, 4, 15), fetched);
    // Without it nobody has a copy.
    let waits = (Answer::Waiting(1), vec![PLAN_WAIT]);
    assert_eq!(planned(on, &cluster, 4, 0b1011), waits);
    assert_eq!(stores(on, &mut cluster, 4, 15), [(4, 1, 1)]);
    assert_eq!(on.payload(cluster.image(4), shape, 4, 1), [b'a', 1]);
}

/// The reading was stored by a majority, and no copy of its payload is left.
fn witnesses_alone_as_the_majority_wait(on: Code) {
    for n in MIN_REPLICAS..=MAX_REPLICAS {
        // The leader is the last, and one other replica that never had it may be a card.
        let all = (1u32 << n) - 1;
        for others in [0, 1] {
            let witnesses = all & !(1 << (n - 1)) & !others;
            let shape = Shape::edition_1(n, 1).with_witnesses(witnesses);
            let mut cluster = used(shape, 1);
            if others == 1 {
                blank(&mut cluster, 1, 1);
                cluster.entry_mut(1, 1).fill(b' ');
            }
            cluster.entry_mut(n, 1).fill(b'#');
            let before = cluster.clone();
            let waits = (Answer::Waiting(1), vec![PLAN_WAIT]);
            assert_eq!(planned(on, &cluster, n, all), waits);
            let ran = on.run(&mut cluster.bytes, shape, n, all, 99).unwrap();
            assert_eq!(ran.end, RunEnd::Waiting(1));
            assert_eq!(cluster, before);
        }
    }
}

/// As of a card: whether it is within reach, its length and its last epoch.
fn rows_of_a_witness(on: Code) {
    let mut cluster = used(SHAPE, 2);
    cluster.put_record(3, 2, 9);
    let rows = |cluster: &Cluster, present| on.planned(&cluster.bytes, SHAPE, 1, present).2[2];
    let row = |length, last_epoch| ReplicaRow {
        readable: 1,
        length,
        last_epoch,
    };
    assert_eq!(rows(&cluster, 7), row(2, 9));
    assert_eq!(rows(&cluster, 3), ReplicaRow::default());
    blank(&mut cluster, 3, 2);
    assert_eq!(rows(&cluster, 7), row(1, EPOCH));
    blank(&mut cluster, 3, 1);
    assert_eq!(rows(&cluster, 7), row(0, 0));
    cluster.record_mut(3, 1).fill(b'#');
    assert_eq!(rows(&cluster, 7), ReplicaRow::default());
}

/// From the last one on; what agrees stays.
fn records_are_blanked_down_to_the_first_difference(on: Code) {
    let shape = Shape::edition_1(3, 4).with_witnesses(0b100);
    let mut cluster = used(shape, 4);
    for slot in [2, 3, 4] {
        cluster.put_record(3, slot, EPOCH + 1);
    }
    let blanked = [(3, 4, 3), (3, 3, 3), (3, 2, 3)];
    let added = [(3, 2, 2), (3, 3, 2), (3, 4, 2)];
    let made = stores(on, &mut cluster, 1, 7);
    assert_eq!(made, [blanked, added].concat());
    assert_eq!(cluster, used(shape, 4));
    // Beyond the leader's length.
    for replica in [1, 2] {
        for slot in [4, 3] {
            blank(&mut cluster, replica, slot);
        }
    }
    let made = stores(on, &mut cluster, 1, 7);
    assert_eq!(made, [(3, 4, 3), (3, 3, 3)]);
    assert_eq!(cluster.image(3), used(shape, 2).image(3));
}

fn missing_records_are_added_from_below(on: Code) {
    let shape = Shape::edition_1(3, 3).with_witnesses(0b100);
    let mut cluster = used(shape, 3);
    for slot in [3, 2] {
        blank(&mut cluster, 3, slot);
    }
    assert_eq!(stores(on, &mut cluster, 1, 7), [(3, 2, 2), (3, 3, 2)]);
    assert_eq!(cluster, used(shape, 3));
    // The leader's lost record and the fetched entry come first.
    cluster.record_mut(1, 1).fill(b'#');
    cluster.entry_mut(1, 3)[26] ^= 1;
    blank(&mut cluster, 3, 3);
    let made = stores(on, &mut cluster, 1, 7);
    assert_eq!(made, [(1, 3, 1), (1, 1, 2), (3, 3, 2)]);
    assert_eq!(cluster, used(shape, 3));
}

/// A witness has its turn among the cards.
fn stores_go_by_number(on: Code) {
    let shape = Shape::edition_1(5, 1).with_witnesses(0b01010);
    let mut cluster = Cluster::of_shape(shape);
    cluster.put(3, 1, EPOCH, b"x");
    let made = stores(on, &mut cluster, 3, 31);
    let expected = [
        (1, 1, 1),
        (1, 1, 2),
        (2, 1, 2),
        (4, 1, 2),
        (5, 1, 1),
        (5, 1, 2),
    ];
    assert_eq!(made, expected);
}

/// It is away and keeps every byte, though every record that it lacks is known.
fn a_witness_with_a_bad_record_is_never_mended(on: Code) {
    for slot in 1..=2 {
        let mut cluster = used(SHAPE, 2);
        cluster.record_mut(3, slot).fill(b'#');
        cluster.entry_mut(2, 1)[26] ^= 1;
        let before = cluster.image(3).to_vec();
        assert_eq!(stores(on, &mut cluster, 1, 7), [(2, 1, 1)]);
        assert_eq!(cluster.image(3), before);
        let rows = on.planned(&cluster.bytes, SHAPE, 1, 7).2;
        assert_eq!(rows[2], ReplicaRow::default());
    }
}

fn another_first_index_of_a_witness_is_21(on: Code) {
    let shape = Shape::edition_2(3, 2).with_witnesses(0b100);
    let mut cluster = Cluster::of_firsts(shape, &[7, 7, 8]);
    for leader in [1, 2] {
        assert_eq!(cluster_number(on, &cluster, leader, 7), Some(21));
        assert_eq!(cluster_number(on, &cluster, leader, 3), None);
    }
    cluster.record_mut(3, 1).fill(b'#');
    assert_eq!(cluster_number(on, &cluster, 1, 7), None);
}

fn records_of_a_witness_have_their_index(on: Code) {
    for first in [7, LAST_INDEX - 1] {
        let shape = Shape::edition_2(3, 2).with_witnesses(0b100);
        let mut cluster = Cluster::of_firsts(shape, &[first; 3]);
        for slot in 1..=2 {
            cluster.put(1, slot, EPOCH, b"x");
            cluster.put(2, slot, EPOCH, b"x");
        }
        assert_eq!(stores(on, &mut cluster, 1, 7), [(3, 1, 2), (3, 2, 2)]);
        assert_eq!(cluster.record(3, 2), on.write_record(EPOCH, first + 1));
        let expected = (2, first, vec![EPOCH; 2]);
        assert_eq!(read(on, cluster.image(3), shape, 3), Ok(expected));
        // A record for the slot's number is a bad one.
        let record = on.write_record(EPOCH, 2);
        cluster.record_mut(3, 2).copy_from_slice(&record);
        assert_eq!(witness_number(on, cluster.image(3), shape, 3), 6);
    }
}

/// Each slot of a witness is blanked and written once at most: the most stores that there can be.
fn no_run_makes_more_stores_than_the_bound(on: Code) {
    for (n, witnesses) in [(3, 0b100), (3, 0b110), (7, 0b1111110), (7, 0b1010100)] {
        let m = 3;
        let shape = Shape::edition_1(n, m).with_witnesses(witnesses);
        let mut cluster = Cluster::of_shape(shape);
        for slot in 1..=m {
            cluster.put(1, slot, EPOCH, b"x");
            for replica in 2..=n {
                cluster.put(replica, slot, EPOCH + 1, b"other");
            }
        }
        let count = witnesses.count_ones() as usize;
        let present = (1 << n) - 1;
        let ran = on
            .run(&mut cluster.bytes, shape, 1, present, u64::MAX)
            .unwrap();
        let expected = m * (3 * (n - 1 - count) + 2 * count);
        assert_eq!((ran.end, ran.stores), (RunEnd::Done, expected as u64));
        assert!(ran.stores <= 3 * (n * m) as u64);
    }
}

/// The images that it takes for others are refused: they answer nothing and keep every byte.
fn a_wrong_set_of_the_same_size_is_safe(on: Code) {
    let mut cluster = used(SHAPE, 2);
    cluster.entry_mut(1, 1)[26] ^= 1;
    cluster.shape.witnesses = 0b010;
    assert_eq!(cluster_len(cluster.shape), cluster_len(SHAPE));
    let (answer, plan, rows) = on.planned(&cluster.bytes, cluster.shape, 1, 7);
    assert_eq!((answer, plan), (Ok(Answer::Waiting(1)), vec![PLAN_WAIT, 1]));
    assert_eq!(rows[1..], [ReplicaRow::default(); 2]);
    assert_eq!(cluster_number(on, &cluster, 2, 7), Some(12));
    assert_eq!(cluster_number(on, &cluster, 3, 7), Some(12));
    cluster.shape.witnesses = 0b001;
    for leader in 1..=3 {
        assert_eq!(cluster_number(on, &cluster, leader, 7), Some(12));
    }
    // Whatever is stored under a wrong set, the images that it has right alone are written.
    let mut planned = 0;
    for number in 0..4_000 {
        let mut rng = case_rng(51, number);
        planned += u64::from(is_safe(on, &mut rng));
    }
    assert!(planned > 500, "{planned}");
}

/// Recovers an agreed cluster under a wrong set; whether it was not refused.
fn is_safe(on: Code, rng: &mut Rng) -> bool {
    let shape = some_shape(rng);
    let agreed = agreed_case_of(rng, shape).case;
    let wrong = shape.with_witnesses(other_witnesses(rng, shape));
    if wrong == shape {
        return false;
    }
    let mut after = agreed.cluster.clone();
    let ran = on.run(&mut after, wrong, agreed.leader, agreed.present, u64::MAX);
    let (before, after) = (
        Cluster::of_bytes(shape, agreed.cluster),
        Cluster::of_bytes(shape, after),
    );
    for replica in 1..=shape.n {
        let same_place = image_offset(shape, replica) == image_offset(wrong, replica)
            && shape.is_witness(replica) == wrong.is_witness(replica);
        assert!(same_place || before.image(replica) == after.image(replica));
    }
    ran.is_ok()
}

fn a_set_of_another_size_is_3(on: Code) {
    for n in MIN_REPLICAS..=MAX_REPLICAS {
        for right in 0..1 << n {
            let mut cluster = Cluster::of_shape(Shape::edition_1(n, 1).with_witnesses(right));
            for wrong in [0, 1, right ^ 1, (1 << n) - 1, !right & ((1 << n) - 1)] {
                cluster.shape.witnesses = wrong;
                let refused = cluster_number(on, &cluster, 1, 1) == Some(3);
                assert_eq!(refused, wrong.count_ones() != right.count_ones());
            }
        }
    }
}

/// Of any cluster: a store on a witness is a record or a blank one, and lies in its image.
fn no_store_writes_an_entry_of_a_witness(on: Code) {
    let mut on_witnesses = 0;
    for number in 0..4_000 {
        let mut rng = case_rng(52, number);
        let shape = some_shape(&mut rng);
        let case = match number % 2 {
            0 => arbitrary_case_of(&mut rng, shape),
            _ => agreed_case_of(&mut rng, shape).case,
        };
        let mut cluster = case.cluster.clone();
        let (made, _) = on.stores(&mut cluster, case.shape, case.leader, case.present);
        for (replica, _, kind) in made {
            if case.shape.is_witness(replica) {
                assert_ne!(kind, StoreKind::Entry);
                on_witnesses += 1;
            }
        }
    }
    assert!(on_witnesses > 1_000, "{on_witnesses}");
}

/// A cluster with a witness has another length than its command line says.
fn the_printing_program_has_no_witnesses(on: Code) {
    let cluster = used(SHAPE, 1);
    let input = [&b"  3  2  1   7\n"[..], &cluster.bytes].concat();
    assert_eq!(on.report(&input), b"refused   3\n");
    // A witness's image in the place of a card is unreadable.
    let mut cards = used(SHAPE.with_witnesses(0), 1);
    let at = image_offset(cards.shape, 3);
    cards.bytes[at..at + 96].copy_from_slice(cluster.image(3));
    cards.entry_mut(1, 1)[26] ^= 1;
    let input = [&b"  3  2  1   5\n"[..], &cards.bytes].concat();
    let printed = b"   3   1   1   1\n   1          5   3\n";
    assert_eq!(on.report(&input), printed);
}
