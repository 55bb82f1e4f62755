//! The built printing program against the model, on its standard input and output.

use std::collections::BTreeSet;
use std::fs;
use std::path::{Path, PathBuf};
use std::time::Duration;

use harness::generate::arbitrary::arbitrary_case_of;
use harness::generate::history::agreed_case_of;
use harness::generate::{example_input, noise_report_input, some_shape_of, Case, Cluster};
use harness::model::{cluster_len, report, Shape};
use harness::program::{self, report_of_pieces};
use harness::property::case_rng;

const EXAMPLE_OUTPUT: &str = "   3   1   0   2\n   1          1  12\n   2          1   1\n";
const MAX_INPUT: usize = 65_536;

fn repository() -> PathBuf {
    Path::new(env!("CARGO_MANIFEST_DIR")).join("..")
}

/// The program prints what the model prints; the answer is that.
fn assert_report(name: &str, input: &[u8]) -> String {
    let expected = report(input);
    let output = program::report(input);
    let output = String::from_utf8_lossy(&output).into_owned();
    assert_eq!(
        output,
        String::from_utf8_lossy(&expected),
        "{name}: {} bytes, beginning {:?}",
        input.len(),
        String::from_utf8_lossy(&input[..input.len().min(20)])
    );
    output
}

fn input_of(command: &[u8], cluster: &[u8]) -> Vec<u8> {
    [command, cluster].concat()
}

fn command_of(case: &Case) -> Vec<u8> {
    let Shape { n, m, .. } = case.shape;
    let (leader, present) = (case.leader, case.present);
    format!("{n:>3}{m:>3}{leader:>3}{present:>4}\n").into_bytes()
}

/// A used slot that one replica holds and one that all hold.
fn small_cluster() -> Vec<u8> {
    let mut cluster = Cluster::fresh(3, 2);
    for replica in 1..=3 {
        cluster.put(replica, 1, 4, b"x");
    }
    cluster.put(1, 2, 5, b"y");
    cluster.entry_mut(1, 2).fill(b'#');
    cluster.bytes
}

#[test]
fn the_stored_run_is_the_printed_example() {
    let folder = repository().join("crates/ropeplan");
    let stdin = fs::read(folder.join("stdin")).unwrap();
    let stdout = fs::read(folder.join("stdout")).unwrap();
    assert_eq!(stdin, example_input());
    assert_eq!(stdout, EXAMPLE_OUTPUT.as_bytes());
    assert_report("the stored run", &stdin);
}

#[test]
fn malformed_command_lines() {
    let cluster = small_cluster();
    let good = b"  3  2  1   7\n";
    assert_report("well formed", &input_of(good, &cluster));
    // Every byte of the command line replaced by every byte that the format knows, and some it does not.
    for at in 0..good.len() {
        for &byte in b" 0123456789+-\n\r\t\0x\xff" {
            let mut command = good.to_vec();
            command[at] = byte;
            assert_report("one byte", &input_of(&command, &cluster));
        }
    }
    // Columns that are blank, zero-filled, signed, left-justified or beyond what is accepted.
    for number in [
        &b"   "[..],
        b"003",
        b"03 ",
        b"3  ",
        b" 3 ",
        b"+ 3",
        b" +3",
        b"-3 ",
        b"  0",
        b"000",
        b"999",
        b"3.0",
    ] {
        for at in [0, 3, 6] {
            let mut command = good.to_vec();
            command[at..at + 3].copy_from_slice(number);
            assert_report("a column", &input_of(&command, &cluster));
        }
    }
    for set in [
        &b"    "[..],
        b"0007",
        b"  07",
        b"7   ",
        b" 7  ",
        b"   0",
        b"   1",
        b"   8",
        b"9999",
        b"4096",
        b"- 7 ",
        b"  -7",
        b"\0\0\0\0",
    ] {
        let mut command = good.to_vec();
        command[9..13].copy_from_slice(set);
        assert_report("a set", &input_of(&command, &cluster));
    }
    // Nothing, a piece of a command line, a command line alone, one shifted by a byte.
    for length in 0..=good.len() {
        assert_report("a front", &good[..length]);
    }
    assert_report("shifted", &input_of(b" ", &input_of(good, &cluster)));
    assert_report("no newline", &input_of(&good[..13], &cluster));
}

#[test]
fn which_refusal_comes_first() {
    let cluster = small_cluster();
    for command in [
        &b"  0  0  0    \n"[..],
        b"  0 65  9 999\n",
        b"  4  2  9 999\n",
        b"  3  2  9 999\n",
        b"  3  2  9   7\n",
        b"  3  2  2   5\n",
        b"  3  1  9 999\n",
        b"999 64  1    \n",
        b" 31  2  1    \n",
        b" 32  2  1    \n",
        b" 33  2  1    \n",
        b" 64  2  1    \n",
    ] {
        assert_report("refusals", &input_of(command, &cluster));
        assert_report("refusals", command);
    }
    // Too long comes before a malformed command line, which comes before all else.
    for length in [MAX_INPUT, MAX_INPUT + 1] {
        assert_report("too long and malformed", &vec![b' '; length]);
        let mut input = b"  0  0  0    \n".to_vec();
        input.resize(length, b' ');
        assert_report("too long", &input);
    }
}

#[test]
fn lengths_around_the_largest_input() {
    for (n, m) in [(3, 64), (4, 59), (5, 47), (6, 39), (7, 34), (7, 35)] {
        let cluster = Cluster::fresh(n, m).bytes;
        assert_eq!(cluster.len(), cluster_len(Shape::edition_1(n, m)));
        let command = format!("{n:>3}{m:>3}  1    \n").into_bytes();
        let mut input = input_of(&command, &cluster);
        assert_report("as long as it should be", &input);
        for length in [
            input.len() - 1,
            input.len() + 1,
            MAX_INPUT - 1,
            MAX_INPUT,
            MAX_INPUT + 1,
            MAX_INPUT + 2,
            4096,
            8192,
        ] {
            input.resize(length, b' ');
            assert_report("a length", &input);
        }
    }
}

#[test]
fn far_too_long_inputs() {
    for length in [MAX_INPUT * 2, 1 << 20] {
        for byte in [b' ', b'\n', 0] {
            assert_report("far too long", &vec![byte; length]);
        }
    }
    let mut input = example_input();
    input.resize(1 << 20, b' ');
    assert_report("far too long", &input);
}

/// The kinds of output: a refusal's line, or a plan's status and its plan bytes.
fn note_kinds(output: &str, kinds: &mut BTreeSet<String>) {
    if output.starts_with("refused") {
        kinds.insert(output.trim_end().to_string());
        return;
    }
    for (at, line) in output.lines().enumerate() {
        let columns: Vec<&str> = line.split_whitespace().collect();
        kinds.insert(match at {
            0 => format!("status {}", columns[2]),
            _ => format!("byte {}", columns[2]),
        });
    }
}

#[test]
fn generated_clusters() {
    let mut kinds = BTreeSet::new();
    for number in 0..1500 {
        let mut rng = case_rng(23, number);
        let shape = some_shape_of(&mut rng, 1);
        let agreed = agreed_case_of(&mut rng, shape).case;
        for case in [agreed, arbitrary_case_of(&mut rng, shape)] {
            let mut command = command_of(&case);
            let input = input_of(&command, &case.cluster);
            note_kinds(
                &assert_report(&format!("case {number}"), &input),
                &mut kinds,
            );
            command[9..13].fill(b' ');
            let input = input_of(&command, &case.cluster);
            assert_report(&format!("case {number}, the leader alone"), &input);
        }
    }
    let fetched = (11..=17).map(|byte| format!("byte {byte}"));
    let others = (1..=5).map(|byte| format!("byte {byte}"));
    for kind in fetched
        .chain(others)
        .chain(["status 0".to_string(), "status 1".to_string()])
    {
        assert!(kinds.contains(&kind), "no {kind} among {kinds:?}");
    }
}

/// The program stays with edition 1: a cluster of edition 2 has another length.
#[test]
fn clusters_of_edition_2() {
    for (n, m) in [(3, 1), (3, 2), (7, 5)] {
        let cluster = Cluster::fresh_from(n, m, 1).bytes;
        let command = format!("{n:>3}{m:>3}  1   7\n").into_bytes();
        let output = assert_report("edition 2", &input_of(&command, &cluster));
        assert_eq!(output, "refused   3\n");
    }
}

#[test]
fn noise() {
    let mut kinds = BTreeSet::new();
    for number in 0..2500 {
        let input = noise_report_input(&mut case_rng(24, number));
        note_kinds(
            &assert_report(&format!("noise {number}"), &input),
            &mut kinds,
        );
    }
    for refusal in [1, 2, 3, 11, 12, 14] {
        let kind = format!("refused{refusal:>4}");
        assert!(kinds.contains(&kind), "no {kind} among {kinds:?}");
    }
}

#[test]
fn input_in_small_pieces() {
    let input = example_input();
    let mut long = input_of(b"  3 64  1    \n", &Cluster::fresh(3, 64).bytes);
    let pause = Duration::from_millis(3);
    for size in [1, 13, 14, 15, 100, 1000] {
        let front = size * 20;
        let mut pieces: Vec<&[u8]> = input[..front.min(input.len())].chunks(size).collect();
        pieces.push(&input[front.min(input.len())..]);
        assert_eq!(
            report_of_pieces(&pieces, pause),
            report(&input),
            "pieces of {size}"
        );
    }
    for length in [long.len(), MAX_INPUT, MAX_INPUT + 1] {
        long.resize(length, b' ');
        for size in [3000, 4096, 4097, 60_000] {
            let pieces: Vec<&[u8]> = long.chunks(size).collect();
            assert_eq!(
                report_of_pieces(&pieces, pause),
                report(&long),
                "{length} bytes in pieces of {size}"
            );
        }
    }
}
