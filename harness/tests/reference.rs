//! The reference places of the paper, and the printed example byte for byte.

#![deny(dead_code)]

use harness::code::{Code, Planned};
use harness::generate::Cluster;
use harness::model::planner::Reply;
use harness::model::*;
use harness::on_both_sides;

on_both_sides! {
    checksum_of_no_bytes,
    checksum_of_byte_65,
    checksum_takes_both_sums_modulo_65535,
    record_of_epoch_1_index_1,
    image_lengths,
    slot_counts_0_and_65_are_refused,
    payload_of_200_stored_and_201_refused,
    append_at_the_last_epoch_and_one_lower,
    bad_record_beside_an_intact_entry,
    both_lost_is_refused,
    blank_record_before_a_good_one_is_refused,
    noise_beside_the_last_good_record_is_ambiguous,
    one_more_used_slot_behind_it_makes_it_corrupt,
    three_dont_have_one_away_truncates,
    two_dont_have_two_away_waits,
    two_dont_have_one_faulty_one_away_waits,
    three_dont_have_one_intact_fetches,
    two_dont_have_one_away_of_four_truncates,
    one_dont_have_two_away_of_four_waits,
    three_dont_have_two_away_of_six_truncates,
    two_dont_have_three_away_of_six_waits,
    two_dont_have_one_intact_of_four_fetches,
    dont_haves_that_cut_of_each_n,
    every_set_of_replies,
    budget_0_is_done_if_no_store_is_outstanding,
    budget_0_is_spent_if_a_store_is_outstanding,
    budget_0_waits_if_the_plan_waits,
    printed_example,
    printed_example_recovers,
    rows_of_the_printed_example,
    header_bytes,
    entry_bytes,
    one_or_two_changed_payload_bytes_are_noticed,
    strict_columns,
}

fn planned(on: Code, cluster: &Cluster, leader: usize, present: u32) -> Planned {
    on.planned(&cluster.bytes, cluster.shape, leader, present)
}

/// Reads replica 1 and answers length, epochs and verdicts.
fn read_first(on: Code, cluster: &Cluster) -> Result<(usize, Vec<u32>, Vec<u8>), Refusal> {
    let mut epochs = vec![7; cluster.shape.m];
    let mut verdicts = vec![7; cluster.shape.m];
    let (length, first) = on.read(
        cluster.image(1),
        cluster.shape,
        1,
        &mut epochs,
        &mut verdicts,
    )?;
    assert_eq!(first, 1);
    Ok((length, epochs, verdicts))
}

fn spoil(cluster: &mut Cluster, replica: usize, slot: usize) {
    cluster.entry_mut(replica, slot).fill(b'#');
}

fn checksum_of_no_bytes(on: Code) {
    assert_eq!(on.checksum(b""), 1);
}

fn checksum_of_byte_65(on: Code) {
    assert_eq!(on.checksum(b"A"), 4_325_442);
}

fn checksum_takes_both_sums_modulo_65535(on: Code) {
    let mut a: u64 = 1;
    let mut b: u64 = 0;
    let bytes = [255u8; 700];
    for byte in bytes {
        a += u64::from(byte);
        b += a;
    }
    let expected = (b % 65_535) * 65_536 + a % 65_535;
    assert_eq!(u64::from(on.checksum(&bytes)), expected);
}

fn record_of_epoch_1_index_1(on: Code) {
    assert_eq!(
        &on.write_record(1, 1),
        b"          1          1  546505443\n"
    );
}

fn image_lengths(on: Code) {
    assert_eq!(card_len(Shape::edition_1(3, 1)), 302);
    assert_eq!(card_len(Shape::edition_1(7, 64)), 17_564);
    let mut one = vec![0; 302];
    assert_eq!(
        on.fresh_image(&mut one, Shape::edition_1(3, 1), 1, 1),
        Ok(())
    );
    let mut most = vec![0; 17_564];
    assert_eq!(
        on.fresh_image(&mut most, Shape::edition_1(7, 64), 7, 1),
        Ok(())
    );
}

fn slot_counts_0_and_65_are_refused(on: Code) {
    let mut image = vec![1; card_len(Shape::edition_1(3, 65))];
    for m in [0, 65, usize::MAX] {
        assert_eq!(
            on.fresh_image(&mut image, Shape::edition_1(3, m), 1, 1)
                .map_err(Refusal::number),
            Err(1)
        );
    }
    assert!(image.iter().all(|&byte| byte == 1));
}

fn payload_of_200_stored_and_201_refused(on: Code) {
    let mut cluster = Cluster::fresh(3, 2);
    let bytes = [0x80; 201];
    assert_eq!(
        on.append(
            cluster.image_mut(1),
            Shape::edition_1(3, 2),
            1,
            1,
            &bytes[..200]
        ),
        Ok(1)
    );
    assert_eq!(
        on.payload(cluster.image(1), cluster.shape, 1, 1),
        &bytes[..200]
    );
    let before = cluster.clone();
    assert_eq!(
        on.append(cluster.image_mut(1), Shape::edition_1(3, 2), 1, 1, &bytes),
        Err(Refusal::AppendPayload)
    );
    assert_eq!(cluster, before);
}

fn append_at_the_last_epoch_and_one_lower(on: Code) {
    let mut cluster = Cluster::fresh(3, 3);
    assert_eq!(
        on.append(cluster.image_mut(1), Shape::edition_1(3, 3), 1, 5, b"x"),
        Ok(1)
    );
    assert_eq!(
        on.append(cluster.image_mut(1), Shape::edition_1(3, 3), 1, 5, b"y"),
        Ok(2)
    );
    assert_eq!(
        on.append(cluster.image_mut(1), Shape::edition_1(3, 3), 1, 4, b"z")
            .map_err(Refusal::number),
        Err(8)
    );
    // The largest epoch is an epoch like any other.
    assert_eq!(
        on.append(
            cluster.image_mut(1),
            Shape::edition_1(3, 3),
            1,
            u32::MAX,
            b""
        ),
        Ok(3)
    );
}

fn bad_record_beside_an_intact_entry(on: Code) {
    let mut cluster = Cluster::fresh(3, 1);
    cluster.put(1, 1, 9, b"x");
    cluster.record_mut(1, 1)[0] = b'x';
    assert_eq!(read_first(on, &cluster), Ok((1, vec![9], vec![2])));
}

fn both_lost_is_refused(on: Code) {
    let mut cluster = Cluster::fresh(3, 1);
    cluster.put(1, 1, 9, b"x");
    cluster.record_mut(1, 1)[0] = b'x';
    spoil(&mut cluster, 1, 1);
    assert_eq!(read_first(on, &cluster).map_err(Refusal::number), Err(6));
}

fn blank_record_before_a_good_one_is_refused(on: Code) {
    let mut cluster = Cluster::fresh(3, 2);
    cluster.put(1, 2, 1, b"x");
    assert_eq!(read_first(on, &cluster).map_err(Refusal::number), Err(5));
}

fn noise_beside_the_last_good_record_is_ambiguous(on: Code) {
    let mut cluster = Cluster::fresh(3, 3);
    cluster.put(1, 1, 1, b"x");
    spoil(&mut cluster, 1, 1);
    assert_eq!(
        read_first(on, &cluster),
        Ok((1, vec![1, 0, 0], vec![4, 0, 0]))
    );
}

fn one_more_used_slot_behind_it_makes_it_corrupt(on: Code) {
    let mut cluster = Cluster::fresh(3, 3);
    cluster.put(1, 1, 1, b"x");
    cluster.put(1, 2, 1, b"y");
    spoil(&mut cluster, 1, 1);
    assert_eq!(
        read_first(on, &cluster),
        Ok((2, vec![1, 1, 0], vec![3, 1, 0]))
    );
}

/// The leader's only slot is faulty; `replies` are those of the other replicas, of which one that is
/// away has the slot.
fn replicas(on: Code, replies: &[Option<Reply>]) -> (Answer, u8) {
    let mut cluster = Cluster::fresh(1 + replies.len(), 1);
    cluster.put(1, 1, 1, b"x");
    spoil(&mut cluster, 1, 1);
    let mut present = 1;
    for (at, &reply) in replies.iter().enumerate() {
        let replica = at + 2;
        present |= u32::from(reply.is_some()) << (replica - 1);
        if reply != NO {
            cluster.put(replica, 1, 1, b"x");
        }
        if reply == FAULTY {
            spoil(&mut cluster, replica, 1);
        }
    }
    let (answer, bytes, _) = planned(on, &cluster, 1, present);
    (answer.unwrap(), bytes[0])
}

fn five_replicas(on: Code, replies: [Option<Reply>; 4]) -> (Answer, u8) {
    replicas(on, &replies)
}

const NO: Option<Reply> = Some(Reply::DontHave);
const FAULTY: Option<Reply> = Some(Reply::HaveFaulty);
const YES: Option<Reply> = Some(Reply::Have);

fn three_dont_have_one_away_truncates(on: Code) {
    assert_eq!(five_replicas(on, [NO, NO, NO, None]), (Answer::Ready(0), 4));
    assert_eq!(five_replicas(on, [None, NO, NO, NO]), (Answer::Ready(0), 4));
}

fn two_dont_have_two_away_waits(on: Code) {
    assert_eq!(
        five_replicas(on, [NO, NO, None, None]),
        (Answer::Waiting(1), 3)
    );
}

fn two_dont_have_one_faulty_one_away_waits(on: Code) {
    let replies = [NO, NO, FAULTY, None];
    assert_eq!(five_replicas(on, replies), (Answer::Waiting(1), 3));
}

fn three_dont_have_one_intact_fetches(on: Code) {
    assert_eq!(five_replicas(on, [NO, NO, NO, YES]), (Answer::Ready(1), 15));
    assert_eq!(
        five_replicas(on, [NO, YES, NO, YES]),
        (Answer::Ready(1), 13)
    );
}

fn two_dont_have_one_away_of_four_truncates(on: Code) {
    assert_eq!(replicas(on, &[NO, NO, None]), (Answer::Ready(0), 4));
    assert_eq!(replicas(on, &[None, NO, NO]), (Answer::Ready(0), 4));
    // A faulty copy is one that may have been there, like one that is away.
    assert_eq!(replicas(on, &[NO, FAULTY, NO]), (Answer::Ready(0), 4));
}

fn one_dont_have_two_away_of_four_waits(on: Code) {
    assert_eq!(replicas(on, &[NO, None, None]), (Answer::Waiting(1), 3));
    assert_eq!(replicas(on, &[None, FAULTY, NO]), (Answer::Waiting(1), 3));
}

fn three_dont_have_two_away_of_six_truncates(on: Code) {
    let replies = [NO, NO, NO, None, None];
    assert_eq!(replicas(on, &replies), (Answer::Ready(0), 4));
    let replies = [None, NO, FAULTY, NO, NO];
    assert_eq!(replicas(on, &replies), (Answer::Ready(0), 4));
}

fn two_dont_have_three_away_of_six_waits(on: Code) {
    let replies = [NO, NO, None, None, None];
    assert_eq!(replicas(on, &replies), (Answer::Waiting(1), 3));
}

fn two_dont_have_one_intact_of_four_fetches(on: Code) {
    assert_eq!(replicas(on, &[NO, NO, YES]), (Answer::Ready(1), 14));
    assert_eq!(replicas(on, &[YES, NO, NO]), (Answer::Ready(1), 12));
}

/// For each n: so many don't-haves cut, and fewer wait, the others being away.
fn dont_haves_that_cut_of_each_n(on: Code) {
    for (n, needed) in [(3, 2), (4, 2), (5, 3), (6, 3), (7, 4)] {
        for dont_have in 0..n {
            let mut replies = vec![None; n - 1];
            replies[..dont_have].fill(NO);
            let expected = if dont_have < needed {
                (Answer::Waiting(1), 3)
            } else {
                (Answer::Ready(0), 4)
            };
            assert_eq!(replicas(on, &replies), expected, "{dont_have} of {n}");
            // Whoever they are.
            replies.reverse();
            assert_eq!(
                replicas(on, &replies),
                expected,
                "the last {dont_have} of {n}"
            );
        }
    }
}

/// All replies that the others of n may give. The plan is that of document 01, which truncates if a
/// majority does not have the slot, except that exactly half is enough too.
fn every_set_of_replies(on: Code) {
    let mut earlier = 0;
    for n in 3..=7 {
        for choice in 0..4usize.pow(n as u32 - 1) {
            let of = |at: usize| [NO, FAULTY, YES, None][choice / 4usize.pow(at as u32) % 4];
            let replies: Vec<_> = (0..n - 1).map(of).collect();
            let dont_have = replies.iter().filter(|&&reply| reply == NO).count();
            let has = replies.iter().position(|&reply| reply == YES);
            let before = match has {
                Some(at) => (Answer::Ready(1), 12 + at as u8),
                None if dont_have > n / 2 => (Answer::Ready(0), 4),
                None => (Answer::Waiting(1), 3),
            };
            let now = replicas(on, &replies);
            if now != before {
                assert_eq!((has, 2 * dont_have), (None, n), "{replies:?}");
                assert_eq!(now, (Answer::Ready(0), 4), "{replies:?}");
                earlier += 1;
            }
        }
    }
    // Two of 3 others or three of 5, and the rest faulty or away.
    assert_eq!(earlier, 3 * 2 + 10 * 4);
}

/// How a run of this budget ends that makes no store.
fn end_without_stores(on: Code, cluster: &Cluster, budget: u64) -> RunEnd {
    let mut bytes = cluster.bytes.clone();
    let shape = cluster.shape;
    let answer = on.run(&mut bytes, shape, 1, 7, budget).unwrap();
    assert_eq!((answer.stores, &bytes), (0, &cluster.bytes));
    answer.end
}

fn budget_0_is_done_if_no_store_is_outstanding(on: Code) {
    let cluster = Cluster::fresh(3, 1);
    assert_eq!(end_without_stores(on, &cluster, 0), RunEnd::Done);
}

fn budget_0_is_spent_if_a_store_is_outstanding(on: Code) {
    let mut cluster = Cluster::fresh(3, 1);
    cluster.put(1, 1, 1, b"x");
    assert_eq!(end_without_stores(on, &cluster, 0), RunEnd::Spent);
}

/// Slots 3 and 4 are faulty everywhere. A record, a fetch and a lagging follower wait with them.
fn budget_0_waits_if_the_plan_waits(on: Code) {
    let mut cluster = Cluster::fresh(3, 5);
    for slot in 1..=4 {
        for replica in 1..=3 {
            cluster.put(replica, slot, 1, b"x");
            if slot > 2 {
                spoil(&mut cluster, replica, slot);
            }
        }
    }
    cluster.put(1, 5, 1, b"behind");
    cluster.record_mut(1, 1).fill(b'#');
    spoil(&mut cluster, 1, 2);
    let (answer, bytes, _) = planned(on, &cluster, 1, 7);
    assert_eq!(answer, Ok(Answer::Waiting(3)));
    assert_eq!(bytes, [2, 12, 3, 3, 1]);
    for budget in [0, 1, u64::MAX] {
        assert_eq!(end_without_stores(on, &cluster, budget), RunEnd::Waiting(3));
    }
}

/// The cluster of the printed example.
fn printed_cluster() -> Cluster {
    let mut cluster = Cluster::fresh(3, 2);
    cluster.put(1, 1, 1, b"one");
    cluster.put(1, 2, 1, b"two");
    spoil(&mut cluster, 1, 1);
    cluster.put(2, 1, 1, b"one");
    cluster
}

fn printed_example(on: Code) {
    let mut input = b"  3  2  1   7\n".to_vec();
    input.extend(&printed_cluster().bytes);
    let expected = "   3   1   0   2\n   1          1  12\n   2          1   1\n";
    assert_eq!(String::from_utf8(on.report(&input)).unwrap(), expected);
    // A blank present word means the leader alone, so the intact copy is not fetched.
    input[12] = b' ';
    let alone = "   3   1   1   1\n   1          1   3\n   2          1   1\n";
    assert_eq!(String::from_utf8(on.report(&input)).unwrap(), alone);
}

fn printed_example_recovers(on: Code) {
    let mut cluster = printed_cluster();
    let mut stores = Vec::new();
    while let StepAnswer::Store {
        replica,
        slot,
        kind,
    } = on.step(&mut cluster.bytes, cluster.shape, 1, 7).unwrap()
    {
        stores.push((replica, slot, kind as u8));
    }
    assert_eq!(
        stores,
        [
            (1, 1, 1),
            (2, 2, 1),
            (2, 2, 2),
            (3, 1, 1),
            (3, 1, 2),
            (3, 2, 1),
            (3, 2, 2),
        ]
    );
    for replica in 1..=3 {
        assert_eq!(
            on.payload(cluster.image(replica), cluster.shape, replica, 1),
            b"one"
        );
        assert_eq!(
            on.payload(cluster.image(replica), cluster.shape, replica, 2),
            b"two"
        );
    }
}

fn rows_of_the_printed_example(on: Code) {
    let (answer, bytes, rows) = planned(on, &printed_cluster(), 1, 7);
    assert_eq!(answer, Ok(Answer::Ready(2)));
    assert_eq!(bytes, [12, 1]);
    let row = |readable, length, last_epoch| ReplicaRow {
        readable,
        length,
        last_epoch,
    };
    assert_eq!(rows, [row(1, 2, 1), row(1, 1, 1), row(1, 0, 0)]);
}

fn header_bytes(on: Code) {
    let shape = Shape::edition_1(3, 64);
    let header = on.write_header(shape, 2, 1);
    assert_eq!(&header[..16], b"rope  1  2  3 64");
    let sum = on.checksum(&header[..16]).to_string();
    assert_eq!(&header[16..], format!("{sum:>11}\n").as_bytes());
    assert_eq!(on.judge_header(&header, shape, 2), Some(1));
    assert_eq!(on.judge_header(&header, shape, 1), None);
}

fn entry_bytes(on: Code) {
    let entry = on.write_entry(12, 3, b"abc");
    assert_eq!(&entry[..29], b"         12          3   3abc");
    let sum = on.checksum(&entry[..29]).to_string();
    assert_eq!(&entry[29..41], format!("{sum:>11}\n").as_bytes());
    assert!(entry[41..].iter().all(|&byte| byte == b' '));
    assert_eq!(on.judge_entry(&entry, 3), EntryState::Intact(12, b"abc"));
    assert_eq!(on.judge_entry(&entry, 4), EntryState::NotIntact);
}

fn one_or_two_changed_payload_bytes_are_noticed(on: Code) {
    let entry = on.write_entry(1, 1, &[100; 200]);
    for first in 26..226 {
        for second in first..226 {
            // Opposite changes leave the first of the two sums as it was.
            for change in [1u8, 100, 155] {
                let mut changed = entry;
                changed[first] += change;
                if second > first {
                    changed[second] = changed[second].wrapping_sub(change);
                }
                assert_eq!(on.judge_entry(&changed, 1), EntryState::NotIntact);
            }
        }
    }
}

fn strict_columns(on: Code) {
    let mut column = [b'x'; 4];
    on.write_column(&mut column, 0);
    assert_eq!(&column, b"   0");
    on.write_column(&mut column, 9999);
    assert_eq!(&column, b"9999");
    assert_eq!(on.read_column(b"   0"), Some(0));
    assert_eq!(on.read_column(b"  10"), Some(10));
    for wrong in [
        b"    ", b"  00", b" 01 ", b"1   ", b" 1 1", b"  +1", b"  -1", b"\t  1", b"   x",
    ] {
        assert_eq!(on.read_column(wrong), None, "{wrong:?}");
    }
}

/// Four ways of recovering that the paper rules out by name.
mod ruled_out {
    use super::*;

    on_both_sides! {
        truncating_at_any_faulty_entry,
        counting_away_replicas_as_dont_have,
        matching_by_index_without_epoch,
        a_later_truncation_despite_a_lower_wait,
    }

    fn truncating_at_any_faulty_entry(on: Code) {
        let mut cluster = Cluster::fresh(3, 1);
        for replica in 1..=3 {
            cluster.put(replica, 1, 1, b"x");
            spoil(&mut cluster, replica, 1);
        }
        assert_eq!(planned(on, &cluster, 1, 7).0, Ok(Answer::Waiting(1)));
    }

    fn counting_away_replicas_as_dont_have(on: Code) {
        let mut cluster = Cluster::fresh(3, 1);
        cluster.put(1, 1, 1, b"x");
        spoil(&mut cluster, 1, 1);
        assert_eq!(planned(on, &cluster, 1, 1).0, Ok(Answer::Waiting(1)));
        assert_eq!(planned(on, &cluster, 1, 3).0, Ok(Answer::Waiting(1)));
        assert_eq!(planned(on, &cluster, 1, 7).0, Ok(Answer::Ready(0)));
        // Of four, one that is away or unreadable does not make up the second don't-have.
        let mut cluster = Cluster::fresh(4, 1);
        cluster.put(1, 1, 1, b"x");
        spoil(&mut cluster, 1, 1);
        assert_eq!(planned(on, &cluster, 1, 7).0, Ok(Answer::Ready(0)));
        assert_eq!(planned(on, &cluster, 1, 3).0, Ok(Answer::Waiting(1)));
        cluster.header_mut(3)[0] = b'#';
        assert_eq!(planned(on, &cluster, 1, 7).0, Ok(Answer::Waiting(1)));
        assert_eq!(planned(on, &cluster, 1, 15).0, Ok(Answer::Ready(0)));
    }

    fn matching_by_index_without_epoch(on: Code) {
        let mut cluster = Cluster::fresh(3, 1);
        cluster.put(1, 1, 2, b"x");
        spoil(&mut cluster, 1, 1);
        cluster.put(2, 1, 1, b"other");
        cluster.put(3, 1, 3, b"other");
        let (answer, bytes, _) = planned(on, &cluster, 1, 7);
        assert_eq!((answer, bytes), (Ok(Answer::Ready(0)), vec![4]));
    }

    fn a_later_truncation_despite_a_lower_wait(on: Code) {
        let mut cluster = Cluster::fresh(3, 3);
        for replica in 1..=3 {
            cluster.put(replica, 1, 1, b"x");
            spoil(&mut cluster, replica, 1);
        }
        cluster.put(1, 2, 1, b"y");
        cluster.put(1, 3, 1, b"z");
        spoil(&mut cluster, 1, 2);
        let (answer, bytes, _) = planned(on, &cluster, 1, 7);
        assert_eq!((answer, bytes), (Ok(Answer::Waiting(1)), vec![3, 4, 5]));
        let before = cluster.clone();
        assert_eq!(
            on.step(&mut cluster.bytes, cluster.shape, 1, 7),
            Ok(StepAnswer::Waiting(1))
        );
        assert_eq!(cluster, before);
    }
}
