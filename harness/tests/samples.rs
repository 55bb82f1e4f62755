//! The stored samples: what the subcommand writes, what the model prints and what the built printing
//! program prints; and the cluster with a witness, which both plan alike.

use std::collections::{BTreeMap, BTreeSet};
use std::fs::{self, File};
use std::path::{Path, PathBuf};
use std::process::{Command, Output, Stdio};

use harness::code::{MODEL, PROVED};
use harness::generate::Cluster;
use harness::model::{report, BLANK_RECORD};
use harness::samples::{samples, witness};

fn repository() -> PathBuf {
    Path::new(env!("CARGO_MANIFEST_DIR")).join("..")
}

fn harness(arguments: &[&str]) -> Output {
    Command::new(env!("CARGO_BIN_EXE_harness"))
        .args(arguments)
        .stdin(Stdio::null())
        .output()
        .expect("the program starts")
}

/// Every file of a folder, by name.
fn files(folder: &Path) -> BTreeMap<String, Vec<u8>> {
    fs::read_dir(folder)
        .unwrap_or_else(|error| panic!("{}: {error}", folder.display()))
        .map(|entry| {
            let path = entry.unwrap().path();
            let name = path.file_name().unwrap().to_string_lossy().into_owned();
            (name, fs::read(&path).unwrap())
        })
        .collect()
}

/// The names of the stored inputs. Each has a plan beside it, and so has the cluster with a witness.
fn stored_names() -> BTreeSet<String> {
    let of = |ending: &str| -> BTreeSet<String> {
        files(&repository().join("samples"))
            .keys()
            .filter_map(|name| name.strip_suffix(ending).map(str::to_string))
            .collect()
    };
    let (names, clusters) = (of(".in"), of(".cluster"));
    assert_eq!(clusters, BTreeSet::from(["witness".to_string()]));
    assert_eq!(&names | &clusters, of(".plan"));
    assert_eq!(names.len(), samples().len());
    names
}

fn stored(name: &str, ending: &str) -> Vec<u8> {
    fs::read(repository().join(format!("samples/{name}{ending}"))).unwrap()
}

#[test]
fn the_subcommand_writes_the_stored_files() {
    let folder = std::env::temp_dir().join(format!("harness-samples-{}", std::process::id()));
    let output = harness(&["samples", folder.to_str().unwrap()]);
    assert!(output.status.success(), "{output:?}");
    assert!(output.stdout.is_empty(), "{output:?}");
    let written = files(&folder);
    fs::remove_dir_all(&folder).unwrap();
    let kept = files(&repository().join("samples"));
    let names = |files: &BTreeMap<String, Vec<u8>>| files.keys().cloned().collect::<Vec<_>>();
    assert_eq!(names(&written), names(&kept));
    for (name, bytes) in &written {
        assert!(kept[name] == *bytes, "samples/{name} is another one");
    }
}

#[test]
fn the_model_prints_the_stored_plans() {
    for name in stored_names() {
        let printed = report(&stored(&name, ".in"));
        assert_eq!(
            String::from_utf8_lossy(&printed),
            String::from_utf8_lossy(&stored(&name, ".plan")),
            "{name}"
        );
    }
}

#[test]
fn the_printing_program_prints_the_stored_plans() {
    let program = repository().join("target/bin/ropeplan");
    assert!(
        program.is_file(),
        "{} is missing: run `.ci/build` first",
        program.display()
    );
    for name in stored_names() {
        let input = File::open(repository().join(format!("samples/{name}.in"))).unwrap();
        let output = Command::new(&program)
            .stdin(input)
            .output()
            .expect("the program starts");
        assert!(output.status.success(), "{name}: {output:?}");
        assert!(output.stderr.is_empty(), "{name}: {output:?}");
        assert_eq!(
            String::from_utf8_lossy(&output.stdout),
            String::from_utf8_lossy(&stored(&name, ".plan")),
            "{name}"
        );
    }
}

/// Each sample shows what its name says.
#[test]
fn the_plans_are_the_named_ones() {
    let lines = |name: &str| -> Vec<Vec<String>> {
        String::from_utf8(stored(name, ".plan"))
            .unwrap()
            .lines()
            .map(|line| line.split_whitespace().map(str::to_string).collect())
            .collect()
    };
    // The status, the answer's number, and the plan byte of each used slot.
    for (name, status, number, bytes) in [
        ("healthy", "0", "3", &["1", "1", "1"][..]),
        ("damaged-entry", "0", "3", &["1", "13", "1"]),
        ("lost-record", "0", "3", &["1", "2", "1"]),
        ("unconfirmed-tail", "0", "3", &["1", "1", "1", "4"]),
        ("waiting", "1", "3", &["1", "1", "3"]),
        ("blank-set", "1", "3", &["1", "1", "3"]),
        ("four-replicas", "0", "2", &["1", "1", "4"]),
        ("six-replicas", "0", "2", &["1", "1", "4"]),
        ("unreadable-follower", "0", "3", &["13", "1", "1"]),
    ] {
        let lines = lines(name);
        assert_eq!(lines[0][2], status, "{name}");
        assert_eq!(lines[0][3], number, "{name}");
        let found: Vec<&str> = lines[1..].iter().map(|line| line[2].as_str()).collect();
        assert_eq!(found, bytes, "{name}");
    }
    assert_eq!(lines("refused-header"), [["refused", "12"]]);
}

/// Fetched from the other card, and kept from being cut by the witness's record. Without the record it is
/// cut, and with the other card away nothing is fetched.
#[test]
fn the_cluster_with_a_witness() {
    for code in [MODEL, PROVED] {
        let mut sample = witness();
        assert_eq!(stored("witness", ".cluster"), sample.case.cluster);
        let plan = String::from_utf8(stored("witness", ".plan")).unwrap();
        assert_eq!(sample.plan(code), plan, "{}", code.name);
        assert_eq!(plan_bytes(&plan), ["1", "12", "1", "3"]);
        sample.case.present = 0b101;
        assert_eq!(plan_bytes(&sample.plan(code)), ["1", "3", "1", "3"]);
        sample.case.present = 0b111;
        let mut cluster = Cluster::of_bytes(sample.case.shape, sample.case.cluster);
        let record = cluster.record_mut(3, 4);
        record.copy_from_slice(&BLANK_RECORD);
        sample.case.cluster = cluster.bytes;
        assert_eq!(plan_bytes(&sample.plan(code)), ["1", "12", "1", "4"]);
    }
}

/// The last column of each line behind the first.
fn plan_bytes(plan: &str) -> Vec<&str> {
    let lines = plan.lines().skip(1);
    lines
        .filter_map(|line| line.split_whitespace().last())
        .collect()
}

/// Only one sample leaves the set blank.
#[test]
fn the_set_is_written_in_full() {
    for name in stored_names() {
        let input = stored(&name, ".in");
        assert_eq!(&input[9..13] == b"    ", name == "blank-set", "{name}");
    }
}

#[test]
fn wrong_arguments() {
    for (arguments, word) in [
        (&["samples"][..], "one DIR"),
        (&["samples", "a", "b"], "one DIR"),
        (&["samples", "--all"], "unknown flag '--all'"),
        (
            &["samples", "/dev/null/here"],
            "cannot write '/dev/null/here'",
        ),
    ] {
        let output = harness(arguments);
        assert!(!output.status.success(), "{arguments:?}");
        assert!(output.stdout.is_empty(), "{arguments:?}");
        let message = String::from_utf8(output.stderr).unwrap();
        assert!(message.starts_with("harness: "), "{message}");
        assert!(message.contains(word), "{arguments:?}: {message}");
    }
}
