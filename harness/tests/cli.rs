//! The command line: what it prints, that every mistake is told with the usage and ends with 2, and
//! every failure with 1.

use std::fs;
use std::io::Write;
use std::process::{Command, Output, Stdio};

use harness::comparisons::KINDS;
use harness::generate::Cluster;
use harness::model::report;

fn harness(arguments: &[&str]) -> Output {
    Command::new(env!("CARGO_BIN_EXE_harness"))
        .args(arguments)
        .stdin(Stdio::null())
        .output()
        .expect("the program starts")
}

fn stdout(output: &Output) -> String {
    assert!(output.status.success(), "{output:?}");
    assert!(output.stderr.is_empty(), "{output:?}");
    String::from_utf8(output.stdout.clone()).unwrap()
}

/// Nothing is printed but a message on the error channel, which is answered without its name.
fn message(arguments: &[&str], status: i32) -> String {
    let output = harness(arguments);
    assert_eq!(output.status.code(), Some(status), "{arguments:?}");
    assert!(output.stdout.is_empty(), "{arguments:?}");
    let message = String::from_utf8(output.stderr).unwrap();
    let told = message.strip_prefix("harness: ");
    told.unwrap_or_else(|| panic!("{message}")).into()
}

/// A mistake of the caller: it is told in the first line, and the usage follows.
fn assert_mistake(arguments: &[&str], word: &str) {
    let message = message(arguments, 2);
    let (told, usage) = message.split_once('\n').unwrap();
    assert!(told.contains(word), "{arguments:?}: {message}");
    assert_eq!(usage, stdout(&harness(&["help"])), "{arguments:?}");
}

fn example_input() -> Vec<u8> {
    let mut cluster = Cluster::fresh(3, 2);
    cluster.put(1, 1, 1, b"one");
    cluster.put(1, 2, 1, b"two");
    cluster.entry_mut(1, 1).fill(b'#');
    cluster.put(2, 1, 1, b"one");
    let mut input = b"  3  2  1   7\n".to_vec();
    input.extend(&cluster.bytes);
    input
}

const EXAMPLE_OUTPUT: &str = "   3   1   0   2\n   1          1  12\n   2          1   1\n";

#[test]
fn report_of_a_file() {
    let name = format!("harness-cli-{}.input", std::process::id());
    let file = std::env::temp_dir().join(name);
    fs::write(&file, example_input()).unwrap();
    let output = harness(&["report", file.to_str().unwrap()]);
    fs::remove_file(&file).unwrap();
    assert_eq!(stdout(&output), EXAMPLE_OUTPUT);
}

#[test]
fn report_of_standard_input() {
    for input in [example_input(), Vec::new(), vec![b' '; 65_537]] {
        let mut child = Command::new(env!("CARGO_BIN_EXE_harness"))
            .args(["report", "-"])
            .stdin(Stdio::piped())
            .stdout(Stdio::piped())
            .stderr(Stdio::piped())
            .spawn()
            .expect("the program starts");
        child.stdin.take().unwrap().write_all(&input).unwrap();
        let output = child.wait_with_output().unwrap();
        assert_eq!(stdout(&output).as_bytes(), report(&input));
    }
}

#[test]
fn sample_is_an_input_of_the_printed_example() {
    let output = harness(&["sample"]);
    assert!(output.status.success(), "{output:?}");
    assert_eq!(report(&output.stdout), EXAMPLE_OUTPUT.as_bytes());
}

#[test]
fn table_prints_its_counts() {
    let printed = stdout(&harness(&["table"]));
    assert_eq!(printed, "recovered 2401\nwaiting 1695\nharmed 0\n");
}

#[test]
fn property_prints_a_summary() {
    let first = stdout(&harness(&["property", "--cases", "20", "--seed", "5"]));
    assert!(first.ends_with("all conclusions hold\n"), "{first}");
    let swapped = stdout(&harness(&["property", "--seed", "5", "--cases", "20"]));
    assert_eq!(first, swapped);
}

#[test]
fn compare_prints_every_kind() {
    let printed = stdout(&harness(&["compare", "--cases", "200", "--seed", "5"]));
    for (kind, _) in KINDS {
        let heading = format!("{kind}: 200 cases\n  ");
        assert!(printed.contains(&heading), "{printed}");
    }
    assert!(printed.ends_with("no difference\n"), "{printed}");
    let swapped = stdout(&harness(&["compare", "--seed", "5", "--cases", "200"]));
    assert_eq!(printed, swapped);
}

#[test]
fn wrong_arguments_of_compare() {
    assert_mistake(&["compare"], "--cases is missing");
    assert_mistake(&["compare", "--cases", "1"], "--seed is missing");
    let word = ["compare", "--cases", "all", "--seed", "1"];
    assert_mistake(&word, "--cases needs a number, not 'all'");
    assert_mistake(&["compare", "--clusters", "1"], "unknown flag '--clusters'");
}

#[test]
fn fuzz_finds_nothing() {
    let printed = stdout(&harness(&["fuzz", "--seconds", "1", "--seed", "5"]));
    assert!(printed.starts_with("seed 5: "), "{printed}");
    assert!(printed.ends_with("no difference\n"), "{printed}");
    let swapped = stdout(&harness(&["fuzz", "--seed", "5", "--seconds", "0"]));
    assert_eq!(swapped, "seed 5: 1 rounds of 26 calls\nno difference\n");
}

#[test]
fn wrong_arguments_of_fuzz() {
    assert_mistake(&["fuzz"], "--seconds is missing");
    assert_mistake(&["fuzz", "--seconds", "1"], "--seed is missing");
    assert_mistake(&["fuzz", "--seed"], "--seed needs a value");
    let word = ["fuzz", "--seconds", "one", "--seed", "1"];
    assert_mistake(&word, "--seconds needs a number, not 'one'");
    let negative = ["fuzz", "--seconds", "1", "--seed", "-1"];
    assert_mistake(&negative, "--seed needs a number, not '-1'");
    assert_mistake(&["fuzz", "--cases", "1"], "unknown flag '--cases'");
    assert_mistake(&["fuzz", "1"], "unknown flag '1'");
    let twice = ["fuzz", "--seconds", "1", "--seconds", "2", "--seed", "1"];
    assert_mistake(&twice, "--seconds is given twice");
}

/// Progress is for a terminal: in a pipe nothing but the result is printed, however long it takes.
#[test]
fn long_commands_are_quiet_in_a_pipe() {
    let long: [&[&str]; 4] = [
        &["property", "--cases", "600", "--seed", "1"],
        &["compare", "--cases", "2000", "--seed", "1"],
        &["fuzz", "--seconds", "1", "--seed", "1"],
        &["table"],
    ];
    for arguments in long {
        let output = harness(arguments);
        assert!(output.status.success(), "{output:?}");
        assert!(output.stderr.is_empty(), "{arguments:?}: {output:?}");
        let printed = String::from_utf8(output.stdout).unwrap();
        let control = |letter: char| letter.is_control() && letter != '\n';
        assert!(!printed.contains(control), "{arguments:?}: {printed}");
    }
}

#[test]
fn unknown_or_missing_subcommands() {
    assert_mistake(&[], "subcommand is missing");
    assert_mistake(&["nonsense"], "unknown subcommand 'nonsense'");
    assert_mistake(&["--cases", "1"], "unknown subcommand '--cases'");
}

#[test]
fn wrong_arguments_of_report() {
    assert_mistake(&["report"], "one FILE");
    assert_mistake(&["report", "a", "b"], "one FILE");
    assert_mistake(&["report", "--file"], "unknown flag '--file'");
}

/// The call is right, so no usage is shown.
#[test]
fn what_cannot_be_done_fails() {
    let unread = message(&["report", "/no/such/file"], 1);
    assert!(unread.starts_with("cannot read '/no/such/file': "));
    assert_eq!(unread.lines().count(), 1, "{unread}");
    let unwritten = message(&["samples", "/dev/null/folder"], 1);
    assert!(unwritten.starts_with("cannot write '/dev/null/folder': "));
    assert_eq!(unwritten.lines().count(), 1, "{unwritten}");
}

#[test]
fn help_names_every_subcommand() {
    let help = stdout(&harness(&["help"]));
    assert!(help.starts_with("usage:\n"), "{help}");
    for subcommand in [
        "report", "sample", "samples", "property", "compare", "fuzz", "table", "bench", "help",
    ] {
        assert!(
            help.contains(&format!("\n  harness {subcommand} ")),
            "{help}"
        );
    }
    for arguments in [
        &["-h"][..],
        &["--help"],
        &["help", "fuzz"],
        &["fuzz", "--help"],
        &["report", "-h"],
        &["table", "extra", "--help"],
    ] {
        assert_eq!(stdout(&harness(arguments)), help, "{arguments:?}");
    }
}

#[test]
fn wrong_arguments_of_property() {
    assert_mistake(&["property"], "--cases is missing");
    assert_mistake(&["property", "--cases", "1"], "--seed is missing");
    assert_mistake(&["property", "--cases"], "--cases needs a value");
    assert_mistake(
        &["property", "--cases", "x", "--seed", "1"],
        "needs a number",
    );
    assert_mistake(
        &["property", "--cases", "-1", "--seed", "1"],
        "needs a number",
    );
    assert_mistake(&["property", "--case", "1"], "unknown flag '--case'");
    let twice = ["property", "--seed", "1", "--seed", "2", "--cases", "1"];
    assert_mistake(&twice, "given twice");
}

#[test]
fn wrong_arguments_of_table_and_sample() {
    assert_mistake(&["table", "extra"], "no argument");
    assert_mistake(&["sample", "extra"], "no argument");
    assert_mistake(&["table", "--all"], "unknown flag '--all'");
}

/// Only the form of the tables: times depend on the machine and its load.
#[test]
fn bench_prints_its_tables() {
    let printed = stdout(&harness(&["bench"]));
    let headings: Vec<&str> = printed
        .lines()
        .filter(|line| line.contains("ratio |"))
        .collect();
    assert_eq!(headings.len(), 4, "{printed}");
    let timed = |start: &str| {
        let rows = printed.lines().filter(|line| line.contains(" | "));
        rows.filter(|line| line.starts_with(start)).count()
    };
    let rows = [
        ("     226 ", 1),
        ("    4096 ", 1),
        ("read ", 2),
        ("append ", 2),
        ("plan ", 4),
        ("step ", 4),
        ("recovery ", 4),
        ("      64 ", 2),
        ("     256 ", 1),
    ];
    for (start, shapes) in rows {
        assert_eq!(timed(start), shapes, "{start}: {printed}");
    }
}

#[test]
fn wrong_arguments_of_bench() {
    assert_mistake(&["bench", "extra"], "bench takes no argument, not 'extra'");
    assert_mistake(&["bench", "--rounds"], "unknown flag '--rounds'");
    assert_mistake(&["bench", "--rounds", "5"], "unknown flag '--rounds'");
}
