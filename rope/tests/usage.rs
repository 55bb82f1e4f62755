//! The help is enough, and whoever calls the program wrongly is told what was expected.

mod common;

use std::fs::{self, File};
use std::io::pipe;
use std::process::{Command, Stdio};

use common::{rope, stderr, stdout, Cards, Folder, ROPE};
use ropelog::Geometry;

const COMMANDS: [&str; 5] = ["show", "plan", "recover", "append", "format"];

#[test]
fn help_of_the_program_and_of_each_command() {
    let folder = Folder::new();
    for arguments in [&["--help"][..], &["-h"], &["help"]] {
        let output = rope(&folder, arguments);
        assert_eq!(output.status.code(), Some(0));
        let text = stdout(&output);
        for command in COMMANDS {
            assert!(text.contains(&format!("rope {command} ")), "{command}");
        }
        for code in 0..=5 {
            assert!(text.contains(&format!("\n  {code}  ")), "exit code {code}");
        }
    }
    for command in COMMANDS {
        let asked = [
            rope(&folder, &[command, "--help"]),
            rope(&folder, &["help", command]),
        ];
        for output in &asked {
            assert_eq!(output.status.code(), Some(0));
            assert!(stdout(output).starts_with(&format!("rope {command} ")));
            assert!(stdout(output).contains("Exit codes:"));
            assert!(output.stderr.is_empty());
        }
        assert_eq!(asked[0].stdout, asked[1].stdout);
    }
    let version = rope(&folder, &["--version"]);
    assert_eq!(
        stdout(&version),
        concat!("rope ", env!("CARGO_PKG_VERSION"), "\n")
    );
}

/// Every option that a command takes stands in its help, and none that it does not take.
#[test]
fn the_help_names_the_options_that_there_are() {
    let folder = Folder::new();
    for command in COMMANDS {
        let text = stdout(&rope(&folder, &[command, "--help"]));
        let said = stderr(&rope(&folder, &[command, "--no-such-option"]));
        let (_, options) = said.split_once("expected one of ").expect("the options");
        let options: Vec<&str> = options.lines().next().unwrap().split(", ").collect();
        assert!(options.len() >= 3);
        let fleet = stdout(&rope(&folder, &["plan", "--help"]));
        for option in options {
            let is_there = text.contains(option);
            let is_plans = text.contains("The options of `rope plan`") && fleet.contains(option);
            assert!(is_there || is_plans, "{command} {option}");
        }
    }
}

#[test]
fn wrong_calls_end_with_2_and_say_what_was_expected() {
    let folder = Folder::new();
    Cards::fresh(Geometry::new(3, 4).unwrap(), 1).write(&folder);
    let card = "card1.img";
    let cases: &[(&[&str], &str)] = &[
        (&[], "expected a command"),
        (&["mend"], "there is no command mend; expected show"),
        (&["help", "mend"], "there is no command mend"),
        (&["show"], "expected the files of cards"),
        (
            &["show", card, "--frist"],
            "there is no option --frist; expected one of",
        ),
        (&["show", card, "-x"], "there is no option -x"),
        (
            &["show", card, "--places", "65"],
            "--places takes a number from 1 to 64, not 65",
        ),
        (
            &["show", card, "--of", "two"],
            "--of takes a number from 3 to 7, not two",
        ),
        (&["show", card, "--of"], "--of expects something behind it"),
        (
            &["show", card, "card2.img", "--cabinet", "1"],
            "of several write C=FILE",
        ),
        (&["show", card, "--of=3", "--of=3"], "--of stands twice"),
        (&["show", "9=card1.img"], "a cabinet is 1 to 7"),
        (&["plan", card], "--lead L is missing"),
        (
            &["plan", card, "--lead", "8"],
            "--lead takes a number from 1 to 7",
        ),
        (
            &["plan", card, "--lead", "0"],
            "--lead takes a number from 1 to 7",
        ),
        (
            &["plan", card, "--lead=1", "--off"],
            "--off expects numbers of cabinets",
        ),
        (
            &["plan", card, "--lead=1", "--off", "4"],
            "--off 4: the fleet has cabinets 1 to 3",
        ),
        (
            &["plan", card, "--lead=1", "--off=x"],
            "--off takes numbers of cabinets, 1 to 7, not x",
        ),
        (
            &["plan", card, "--lead=1", "--witness=5"],
            "--witness 5: the fleet has cabinets 1 to 3",
        ),
        (
            &["plan", "5=card1.img", "--lead=1"],
            "the fleet has cabinets 1 to 3",
        ),
        (
            &["plan", card, "--lead=1", "--numbers=3"],
            "--numbers takes nothing behind it",
        ),
        (
            &["plan", card, "--lead=1", "--numbers", "--html=x"],
            "take one",
        ),
        (
            &["plan", card, "--lead=1", "--html=card1.img", "--over"],
            "that is a card",
        ),
        (&["append", card], "--epoch E is missing"),
        (
            &["append", card, "--epoch", "0", "--text", "x"],
            "--epoch takes a number from 1 to 4294967295",
        ),
        (
            &["append", card, "--epoch", "1"],
            "a card takes a reading: --text TEXT or --file FILE",
        ),
        (
            &["append", card, "--epoch=1", "--text=x", "--file=y"],
            "--text and --file: take one",
        ),
        (
            &["append", card, "card2.img", "--epoch=1"],
            "expected one card, not 2",
        ),
        (
            &["format", "new.img"],
            "expected --cabinet C, --of N and --places M",
        ),
        (
            &["format", "new.img", "--cabinet=4", "--of=3", "--places=4"],
            "there are 3 cabinets",
        ),
    ];
    for (arguments, words) in cases {
        let output = rope(&folder, arguments);
        assert_eq!(output.status.code(), Some(2), "{arguments:?}");
        assert!(output.stdout.is_empty());
        assert!(
            stderr(&output).contains(words),
            "{arguments:?}: {}",
            stderr(&output)
        );
        assert!(stderr(&output).contains("rope --help"));
    }
    assert_eq!(folder.names().len(), 3, "something was made");
}

/// A lead that the fleet does not have is the proved planner's refusal.
#[test]
fn a_lead_beyond_the_fleet_is_refused_by_12() {
    let folder = Folder::new();
    Cards::fresh(Geometry::new(3, 4).unwrap(), 1).write(&folder);
    let output = rope(&folder, &["plan", "card1.img", "--lead=5", "--numbers"]);
    assert_eq!(
        (output.status.code(), stdout(&output)),
        (Some(3), "refused  12\n".to_string())
    );
    let output = rope(&folder, &["plan", "card1.img", "--lead=5"]);
    assert_eq!(output.status.code(), Some(3));
}

/// A full disk and a closed output are noticed.
#[test]
fn an_output_that_cannot_be_written() {
    let folder = Folder::new();
    Cards::fresh(Geometry::new(3, 4).unwrap(), 1).write(&folder);
    let full = File::options().write(true).open("/dev/full").unwrap();
    let output = Command::new(ROPE)
        .args(["show", "card1.img"])
        .current_dir(folder.path())
        .stdout(full)
        .stderr(Stdio::piped())
        .output()
        .unwrap();
    assert_eq!(output.status.code(), Some(1));
    assert!(stderr(&output).contains("the output could not be written"));
    // Nobody reads the pipe from before the start on: what is printed cannot be taken in time.
    let (reader, closed) = pipe().unwrap();
    drop(reader);
    let output = Command::new(ROPE)
        .args(["show", "card1.img"])
        .current_dir(folder.path())
        .stdout(closed)
        .stderr(Stdio::piped())
        .output()
        .unwrap();
    assert!(!output.status.success());
}

/// A file whose name looks like a number or an option is named by its folder, or behind `--`.
#[test]
fn odd_names() {
    let folder = Folder::new();
    Cards::fresh(Geometry::new(3, 4).unwrap(), 1).write(&folder);
    for name in ["--help", "5", "2=x.img"] {
        fs::copy(folder.file("card1.img"), folder.file(name)).unwrap();
    }
    assert!(rope(&folder, &["show", "--", "--help"]).status.success());
    assert!(rope(&folder, &["show", "5"]).status.success());
    assert!(rope(&folder, &["show", "./2=x.img"]).status.success());
}
