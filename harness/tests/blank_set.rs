//! A blank set means the leader alone (document 02, request Ten), printed by the model and by the built
//! program.

use harness::generate::arbitrary::arbitrary_case_of;
use harness::generate::history::agreed_case_of;
use harness::generate::{some_shape_of, Case, Cluster};
use harness::model::{report, Shape};
use harness::program;
use harness::property::case_rng;
use harness::samples::samples;

const BLANK: &str = "";

/// An input with this text in the set's column.
fn input(n: usize, m: usize, leader: usize, set: &str, cluster: &[u8]) -> Vec<u8> {
    let mut input = format!("{n:>3}{m:>3}{leader:>3}{set:>4}\n").into_bytes();
    input.extend_from_slice(cluster);
    input
}

/// What both print.
fn printed(input: &[u8]) -> String {
    let model = String::from_utf8(report(input)).unwrap();
    let command = String::from_utf8_lossy(&input[..input.len().min(13)]);
    assert_eq!(
        String::from_utf8(program::report(input)).unwrap(),
        model,
        "{command:?}"
    );
    model
}

/// The word in which a replica stands alone.
fn word_of(replica: usize) -> String {
    (1u32 << (replica - 1)).to_string()
}

/// The plan bytes of what is printed.
fn plan_bytes(printed: &str) -> Vec<u8> {
    printed
        .lines()
        .skip(1)
        .map(|line| line.split_whitespace().nth(2).unwrap().parse().unwrap())
        .collect()
}

#[test]
fn it_is_printed_as_the_leader_in_full_and_nothing_is_cut() {
    let (mut plans, mut waiting) = (0, 0);
    for number in 0..200 {
        let mut rng = case_rng(31, number);
        let shape = some_shape_of(&mut rng, 1);
        let agreed = agreed_case_of(&mut rng, shape).case;
        for case in [agreed, arbitrary_case_of(&mut rng, shape)] {
            let Case { shape, cluster, .. } = case;
            let Shape { n, m, .. } = shape;
            for leader in 1..=n {
                let blank = printed(&input(n, m, leader, BLANK, &cluster));
                assert_eq!(
                    blank,
                    printed(&input(n, m, leader, &word_of(leader), &cluster)),
                    "case {number}, leader {leader}"
                );
                if blank.starts_with("refused") {
                    let refusal = if cluster.len() > 65_522 { 3 } else { 12 };
                    assert_eq!(blank, format!("refused{refusal:>4}\n"));
                    continue;
                }
                let bytes = plan_bytes(&blank);
                assert!(bytes.iter().all(|byte| (1..=3).contains(byte)), "{blank}");
                plans += 1;
                waiting += usize::from(bytes.contains(&3));
            }
        }
    }
    assert!(
        plans > 500 && waiting > 200,
        "{plans} plans, {waiting} wait"
    );
}

#[test]
fn a_leader_that_is_no_replica_is_12() {
    for n in 3..=7 {
        let cluster = Cluster::fresh(n, 1).bytes;
        // Every number that the column can hold, by the model; the ones at which a shift goes wrong, by both.
        for leader in 0..=999 {
            let input = input(n, 1, leader, BLANK, &cluster);
            let expected = if (1..=n).contains(&leader) {
                format!("{n:>4}{leader:>4}   0   0\n")
            } else {
                "refused  12\n".to_string()
            };
            assert_eq!(String::from_utf8(report(&input)).unwrap(), expected);
            if leader <= 34 || [63, 64, 65, 128, 256, 512, 999].contains(&leader) {
                assert_eq!(printed(&input), expected);
            }
        }
    }
}

#[test]
fn one_two_and_three_come_before() {
    let cluster = Cluster::fresh(3, 2).bytes;
    let longer = [&cluster[..], b" "].concat();
    for leader in [0, 4, 31, 32, 33, 64, 999] {
        for (n, m, cluster, refusal) in [
            (2, 0, &cluster[..], 1),
            (3, 65, &cluster, 1),
            (2, 2, &cluster, 2),
            (8, 2, &longer, 2),
            (999, 2, &cluster, 2),
            (3, 2, &cluster[1..], 3),
            (3, 2, &longer, 3),
            (3, 1, &cluster, 3),
            (3, 2, &cluster, 12),
        ] {
            assert_eq!(
                printed(&input(n, m, leader, BLANK, cluster)),
                format!("refused{refusal:>4}\n"),
                "n {n}, m {m}, leader {leader}"
            );
        }
    }
}

#[test]
fn a_set_in_full_finds_11_before_12() {
    for n in 3..=7 {
        let cluster = Cluster::fresh(n, 1).bytes;
        for leader in [0, n + 1, 32, 33, 999] {
            for (set, refusal) in [
                (1 << n, 11),
                ((1 << n) + 1, 11),
                (9999, 11),
                ((1 << n) - 1, 12),
                (0, 12),
            ] {
                assert_eq!(
                    printed(&input(n, 1, leader, &format!("{set}"), &cluster)),
                    format!("refused{refusal:>4}\n"),
                    "n {n}, leader {leader}, set {set}"
                );
            }
        }
    }
}

/// Slot 1 is whole, slot 2 faulty and slot 3 without its record, at replicas 1 and 3; replica 4 has all
/// three intact and is not asked. The card of replica 2 is refused.
#[test]
fn only_the_leaders_own_card_counts() {
    let mut cluster = Cluster::fresh(4, 3);
    for replica in 1..=4 {
        for slot in 1..=3 {
            cluster.put(replica, slot, 1, b"x");
        }
    }
    for replica in [1, 3] {
        cluster.entry_mut(replica, 2).fill(b'#');
        cluster.record_mut(replica, 3).fill(b'#');
    }
    cluster.header_mut(2)[0] = b'#';
    let of = |leader| printed(&input(4, 3, leader, BLANK, &cluster.bytes));
    for leader in [1, 3] {
        let slots = "   1          1   1\n   2          1   3\n   3          1   2\n";
        assert_eq!(of(leader), format!("   4{leader:>4}   1   2\n{slots}"));
    }
    assert_eq!(of(2), "refused  12\n");
    assert_eq!(plan_bytes(&of(4)), [1, 1, 1]);
}

/// A lost record is mended from its own entry: the plan is ready.
#[test]
fn a_lost_record_does_not_wait() {
    let mut cluster = Cluster::fresh(3, 1);
    cluster.put(1, 1, 1, b"x");
    cluster.record_mut(1, 1).fill(b'#');
    assert_eq!(
        printed(&input(3, 1, 1, BLANK, &cluster.bytes)),
        "   3   1   0   1\n   1          1   2\n"
    );
}

/// Document 02's story: with the swapped card in the set, a reading that two of three had stored is cut.
#[test]
fn the_sample_waits_and_would_be_cut_with_the_swapped_card() {
    let all = samples();
    let sample = all
        .iter()
        .find(|sample| sample.name == "blank-set")
        .unwrap();
    assert_eq!(&sample.input[..14], b"  3  4  1    \n");
    let cluster = &sample.input[14..];
    let blank = printed(&sample.input);
    assert_eq!(blank.lines().next(), Some("   3   1   1   3"));
    assert_eq!(plan_bytes(&blank), [1, 1, 3]);
    for (set, bytes) in [
        ("1", [1, 1, 3]),
        // Neither the swapped card alone nor replica 3 alone allows a cut, but both do.
        ("3", [1, 1, 3]),
        ("5", [1, 1, 3]),
        ("7", [1, 1, 4]),
    ] {
        assert_eq!(plan_bytes(&printed(&input(3, 4, 1, set, cluster))), bytes);
    }
}
