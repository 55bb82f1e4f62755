//! Every refusal by its number. A refused call leaves everything it was lent alone.

#![deny(dead_code)]

use harness::code::Code;
use harness::generate::Cluster;
use harness::model::*;
use harness::on_both_sides;

on_both_sides! {
    refusal_1,
    refusal_2,
    refusal_3,
    refusal_4,
    refusal_5,
    refusal_6,
    refusal_7,
    refusals_8_9_and_10,
    refusal_11,
    refusal_12,
    refusal_13,
    refusal_14_and_the_order_of_the_printing_program,
    refusals_of_sizes_and_offsets,
}

/// Reads with buffers of the given lengths and checks that a refusal leaves them alone.
fn read_number(
    on: Code,
    image: &[u8],
    replica: usize,
    n: usize,
    m: usize,
    lengths: (usize, usize),
) -> Result<usize, u8> {
    let mut epochs = vec![77; lengths.0];
    let mut verdicts = vec![77; lengths.1];
    let shape = Shape::edition_1(n, m);
    let answer = on.read(image, shape, replica, &mut epochs, &mut verdicts);
    if answer.is_err() {
        assert!(epochs.iter().all(|&epoch| epoch == 77));
        assert!(verdicts.iter().all(|&verdict| verdict == 77));
    }
    let (length, first) = answer.map_err(Refusal::number)?;
    assert_eq!(first, 1);
    Ok(length)
}

/// The refusal number shared by planner, step and run; none of them writes anything.
fn cluster_number(
    on: Code,
    cluster: &[u8],
    n: usize,
    m: usize,
    leader: usize,
    present: u32,
) -> Option<u8> {
    let mut bytes = vec![77; m.min(100)];
    let row = ReplicaRow {
        readable: 7,
        length: 7,
        last_epoch: 7,
    };
    let mut rows = vec![row; n.min(100)];
    let shape = Shape::edition_1(n, m);
    let planned = on
        .plan(cluster, shape, leader, present, &mut bytes, &mut rows)
        .err()?;
    assert!(bytes.iter().all(|&byte| byte == 77));
    assert!(rows.iter().all(|&other| other == row));
    let mut copy = cluster.to_vec();
    assert_eq!(on.step(&mut copy, shape, leader, present), Err(planned));
    assert_eq!(on.run(&mut copy, shape, leader, present, 9), Err(planned));
    assert_eq!(copy, cluster);
    Some(planned.number())
}

/// One slot used by all three replicas.
fn small() -> Cluster {
    let mut cluster = Cluster::fresh(3, 2);
    for replica in 1..=3 {
        cluster.put(replica, 1, 4, b"x");
    }
    cluster
}

/// The model's own numbers; a side answers with numbers.
#[test]
fn numbers_are_the_ones_of_the_table() {
    let all = [
        Refusal::SlotCount,
        Refusal::ReplicaCount,
        Refusal::BufferLength,
        Refusal::Header,
        Refusal::UsedAfterBlank,
        Refusal::BothLost,
        Refusal::EpochFalls,
        Refusal::AppendEpoch,
        Refusal::AppendPayload,
        Refusal::AppendFull,
        Refusal::Present,
        Refusal::Leader,
        Refusal::LentLength,
        Refusal::CommandLine,
        Refusal::FirstIndex,
        Refusal::FirstDiffers,
        Refusal::Witnesses,
    ];
    for (refusal, number) in all.into_iter().zip((1..=14).chain(20..=22)) {
        assert_eq!(refusal.number(), number);
    }
}

fn refusal_1(on: Code) {
    let cluster = small();
    for m in [0, 65, 1000, usize::MAX] {
        assert_eq!(read_number(on, cluster.image(1), 9, 4, m, (0, 0)), Err(1));
        assert_eq!(cluster_number(on, &cluster.bytes, 4, m, 9, 99), Some(1));
        let mut image = cluster.image(1).to_vec();
        assert_eq!(
            on.append(&mut image, Shape::edition_1(3, m), 1, 0, b"")
                .map_err(Refusal::number),
            Err(1)
        );
        assert_eq!(
            on.has_payload(&image, Shape::edition_1(3, m), 1, 1),
            Err(Refusal::SlotCount)
        );
        assert_eq!(image, cluster.image(1));
    }
}

fn refusal_2(on: Code) {
    let cluster = small();
    for n in [0, 1, 2, 8, 9, usize::MAX] {
        assert_eq!(read_number(on, cluster.image(1), 1, n, 2, (2, 2)), Err(2));
        assert_eq!(cluster_number(on, &cluster.bytes, n, 2, 1, 7), Some(2));
    }
    // Four to seven are a cluster, of which this is no image and not all of them.
    for n in [4, 5, 6, 7] {
        assert_eq!(read_number(on, cluster.image(1), 1, n, 2, (2, 2)), Err(4));
        assert_eq!(cluster_number(on, &cluster.bytes, n, 2, 1, 7), Some(3));
    }
    for replica in [0, 4, usize::MAX] {
        assert_eq!(
            read_number(on, cluster.image(1), replica, 3, 2, (2, 2)),
            Err(2)
        );
        let mut image = cluster.image(1).to_vec();
        assert_eq!(
            on.fresh_image(&mut image, Shape::edition_1(3, 2), replica, 1)
                .map_err(Refusal::number),
            Err(2)
        );
        assert_eq!(image, cluster.image(1));
    }
}

fn refusal_3(on: Code) {
    let cluster = small();
    let image = cluster.image(1);
    assert_eq!(
        read_number(on, &image[..image.len() - 1], 1, 3, 2, (2, 2)),
        Err(3)
    );
    assert_eq!(read_number(on, &[], 1, 3, 2, (2, 2)), Err(3));
    assert_eq!(read_number(on, image, 1, 3, 3, (3, 3)), Err(3));
    let mut long = cluster.bytes.clone();
    long.push(b' ');
    assert_eq!(cluster_number(on, &long, 3, 2, 0, 99), Some(3));
    assert_eq!(
        on.fresh_image(&mut long, Shape::edition_1(3, 2), 1, 1)
            .map_err(Refusal::number),
        Err(3)
    );
    assert_eq!(cluster_number(on, &cluster.bytes, 5, 2, 1, 7), Some(3));
}

fn refusal_4(on: Code) {
    let cluster = small();
    assert_eq!(read_number(on, cluster.image(1), 2, 3, 2, (2, 2)), Err(4));
    for at in 0..HEADER_LEN {
        let mut image = cluster.image(1).to_vec();
        image[at] ^= 1;
        assert_eq!(read_number(on, &image, 1, 3, 2, (2, 2)), Err(4));
    }
    // The right numbers under a lower word, with the checksum to match.
    let mut image = cluster.image(1).to_vec();
    image[0] = b'R';
    let sum = on.checksum(&image[..16]);
    on.write_column(&mut image[16..27], u64::from(sum));
    assert_eq!(read_number(on, &image, 1, 3, 2, (2, 2)), Err(4));
}

fn refusal_5(on: Code) {
    let mut cluster = small();
    cluster.put_record(1, 1, 1);
    cluster.put(1, 2, 1, b"");
    cluster.record_mut(1, 1).copy_from_slice(&BLANK_RECORD);
    assert_eq!(read_number(on, cluster.image(1), 1, 3, 2, (2, 2)), Err(5));
    // A bad record counts as used.
    cluster.record_mut(1, 2).fill(0);
    assert_eq!(read_number(on, cluster.image(1), 1, 3, 2, (2, 2)), Err(5));
}

fn refusal_6(on: Code) {
    let mut cluster = small();
    cluster.record_mut(1, 1).fill(0);
    assert_eq!(read_number(on, cluster.image(1), 1, 3, 2, (2, 2)), Ok(1));
    cluster.entry_mut(1, 1).fill(b' ');
    assert_eq!(read_number(on, cluster.image(1), 1, 3, 2, (2, 2)), Err(6));
}

fn refusal_7(on: Code) {
    let mut cluster = small();
    cluster.put(1, 2, 3, b"");
    assert_eq!(read_number(on, cluster.image(1), 1, 3, 2, (2, 2)), Err(7));
    // An epoch known from the entry alone counts as well.
    cluster.record_mut(1, 2).fill(0);
    assert_eq!(read_number(on, cluster.image(1), 1, 3, 2, (2, 2)), Err(7));
    cluster.put_entry(1, 2, 4, b"");
    assert_eq!(read_number(on, cluster.image(1), 1, 3, 2, (2, 2)), Ok(2));
}

fn refusals_8_9_and_10(on: Code) {
    let mut cluster = small();
    let mut number = |epoch, payload: &[u8]| {
        on.append(
            cluster.image_mut(1),
            Shape::edition_1(3, 2),
            1,
            epoch,
            payload,
        )
        .map_err(Refusal::number)
    };
    assert_eq!(number(0, b""), Err(8));
    assert_eq!(number(3, &[0; 201]), Err(8));
    assert_eq!(number(4, &[0; 201]), Err(9));
    assert_eq!(number(4, b""), Ok(2));
    assert_eq!(number(3, &[0; 201]), Err(8));
    assert_eq!(number(4, &[0; 201]), Err(9));
    assert_eq!(number(4, b""), Err(10));
}

fn refusal_11(on: Code) {
    let cluster = small();
    for bit in 3..32 {
        assert_eq!(
            cluster_number(on, &cluster.bytes, 3, 2, 0, 7 | 1 << bit),
            Some(11)
        );
    }
}

fn refusal_12(on: Code) {
    let mut cluster = small();
    for leader in [0, 4, 32, 33, usize::MAX] {
        assert_eq!(
            cluster_number(on, &cluster.bytes, 3, 2, leader, 7),
            Some(12)
        );
    }
    assert_eq!(cluster_number(on, &cluster.bytes, 3, 2, 1, 6), Some(12));
    assert_eq!(cluster_number(on, &cluster.bytes, 3, 2, 1, 0), Some(12));
    cluster.header_mut(1)[0] = b'R';
    assert_eq!(cluster_number(on, &cluster.bytes, 3, 2, 1, 7), Some(12));
    assert_eq!(cluster_number(on, &cluster.bytes, 3, 2, 2, 7), None);
}

fn refusal_13(on: Code) {
    let cluster = small();
    for lengths in [(1, 2), (2, 1), (3, 2), (2, 3), (0, 0)] {
        assert_eq!(read_number(on, cluster.image(1), 1, 3, 2, lengths), Err(13));
    }
    for (m, n) in [(1, 3), (3, 3), (2, 2), (2, 4), (0, 0)] {
        let mut bytes = vec![77; m];
        let mut rows = vec![ReplicaRow::default(); n];
        let answer = on.plan(&cluster.bytes, cluster.shape, 1, 7, &mut bytes, &mut rows);
        assert_eq!(answer, Err(Refusal::LentLength));
        assert!(bytes.iter().all(|&byte| byte == 77));
        assert!(rows.iter().all(|&row| row == ReplicaRow::default()));
    }
}

fn refusal_14_and_the_order_of_the_printing_program(on: Code) {
    let cluster = small();
    let printed = |command: &[u8], cluster: &[u8]| {
        let mut input = command.to_vec();
        input.extend_from_slice(cluster);
        String::from_utf8(on.report(&input)).unwrap()
    };
    for command in [
        &b""[..],
        b"  3  2  1   7",
        b"  3  2  1   7 ",
        b"     2  1   7\n",
        b"  3     1   7\n",
        b"  3  2      7\n",
        b"03   2  1   7\n",
        b" 03  2  1   7\n",
        b"  3  2  1  07\n",
        b"  3  2  1  7 \n",
        b" +3  2  1   7\n",
        b"  3  2 -1   7\n",
        b"3    2  1   7\n",
    ] {
        assert_eq!(printed(command, &cluster.bytes), "refused  14\n");
    }
    assert_eq!(
        printed(b"  3  2  1   7\n", &vec![0; 65_523]),
        "refused   3\n"
    );
    assert_eq!(printed(b"", &vec![0; 65_537]), "refused   3\n");
    assert_eq!(printed(b"", &vec![0; 65_536]), "refused  14\n");
    assert_eq!(printed(b"  4  0  9 999\n", &cluster.bytes), "refused   1\n");
    assert_eq!(printed(b"  4 65  9 999\n", b""), "refused   1\n");
    for n in [b"  2", b"  8"] {
        let command = [&n[..], b"  2  9 999\n"].concat();
        assert_eq!(printed(&command, &cluster.bytes), "refused   2\n");
    }
    assert_eq!(printed(b"  4  2  9 999\n", &cluster.bytes), "refused   3\n");
    assert_eq!(printed(b"999  2  9    \n", &cluster.bytes), "refused   2\n");
    assert_eq!(printed(b"  3  1  9 999\n", &cluster.bytes), "refused   3\n");
    assert_eq!(printed(b"  3  2  9   8\n", &cluster.bytes), "refused  11\n");
    assert_eq!(printed(b"  3  2  9   7\n", &cluster.bytes), "refused  12\n");
    assert_eq!(printed(b"  3  2  0    \n", &cluster.bytes), "refused  12\n");
    assert_eq!(printed(b"  3  2  1   0\n", &cluster.bytes), "refused  12\n");
    let mut long = cluster.bytes.clone();
    long.push(b'\n');
    assert_eq!(printed(b"  3  2  1   7\n", &long), "refused   3\n");
}

/// The refusals of both sizes, then of all three offsets.
fn measure_numbers(on: Code, shape: Shape, replica: usize, slot: usize) -> [Option<u8>; 5] {
    let answers = [
        on.image_size(shape, replica),
        on.cluster_size(shape),
        on.image_at(shape, replica),
        on.record_at(shape, replica, slot),
        on.entry_at(shape, replica, slot),
    ];
    answers.map(|answer| answer.err().map(Refusal::number))
}

/// 1 before 2 before 3. A witness that is no replica is none of them.
fn refusals_of_sizes_and_offsets(on: Code) {
    let shape = Shape::edition_1(3, 2).with_witnesses(0b10);
    let none = Shape {
        edition: 3,
        ..Shape::edition_1(2, 2)
    };
    let numbers = |shape, replica, slot| measure_numbers(on, shape, replica, slot);
    for m in [0, 65, usize::MAX] {
        assert_eq!(numbers(Shape { m, ..shape }, 2, 1), [Some(1); 5]);
        assert_eq!(numbers(Shape { m, ..none }, 0, 0), [Some(1); 5]);
    }
    for slot in [0, 3, usize::MAX] {
        let slotless = [None, None, None, Some(1), Some(1)];
        assert_eq!(numbers(shape, 2, slot), slotless);
        let slotless = [Some(2), Some(2), Some(2), Some(1), Some(1)];
        assert_eq!(numbers(none, 2, slot), slotless);
    }
    for n in [0, 2, 8, usize::MAX] {
        assert_eq!(numbers(Shape { n, ..shape }, 2, 1), [Some(2); 5]);
    }
    for edition in [0, 3, usize::MAX] {
        assert_eq!(numbers(Shape { edition, ..shape }, 2, 1), [Some(2); 5]);
    }
    for replica in [0, 4, 34, usize::MAX] {
        let expected = [Some(2), None, Some(2), Some(2), Some(2)];
        assert_eq!(numbers(shape, replica, 1), expected);
    }
    assert_eq!(numbers(shape, 2, 1), [None, None, None, None, Some(3)]);
    assert_eq!(numbers(shape, 1, 1), [None; 5]);
    let stray = shape.with_witnesses(0x8000_000a);
    assert_eq!(numbers(stray, 1, 1), [None; 5]);
    assert_eq!(on.cluster_size(stray), on.cluster_size(shape));
}
