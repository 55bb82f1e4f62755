//! `rope recover`: what it asks, writes and says, and what it does about files that are not as they should be.

mod common;

use std::fs::{self, File};
use std::io::{BufRead, BufReader, Read, Write};
use std::os::unix::fs::PermissionsExt;
use std::process::{Child, Command, Stdio};

use common::{card_name, generated, rope, stderr, stdout, Cards, Folder, Kinds, Rng, ROPE};
use ropelog::{plan, Geometry, PlanAnswer};

/// Three cards with 4 places: place 2 is damaged at the lead, place 3 lacks at cabinet 3.
fn three() -> Cards {
    let mut cards = Cards::fresh(Geometry::new(3, 4).unwrap(), 1);
    for number in 1..=3 {
        for reading in ["metre 1204, wire broken", "metre 1207, no signal"] {
            cards.append(number, 1, reading.as_bytes());
        }
    }
    cards.append(1, 1, b"metre 1212");
    cards.append(2, 1, b"metre 1212");
    cards.spoil_entry(1, 2);
    cards
}

fn recover(folder: &Folder, cards: &Cards, more: &[&str]) -> (Option<i32>, String, String) {
    let arguments = cards.arguments();
    let mut all = vec!["recover"];
    all.extend(arguments.iter().map(String::as_str));
    all.extend(more);
    let output = rope(folder, &all);
    (output.status.code(), stdout(&output), stderr(&output))
}

/// Cards that are written, recovered, and found as they were.
fn expect_untouched(cards: &Cards, folder: &Folder, more: &[&str], code: i32, words: &str) {
    let (ended, said, failure) = recover(folder, cards, more);
    assert_eq!(ended, Some(code), "{said}{failure}");
    assert!(
        format!("{said}{failure}").contains(words),
        "{words}\n{said}{failure}"
    );
    assert!(cards.read(folder) == cards.images, "it wrote");
}

#[test]
fn what_is_done_is_said() {
    let cards = three();
    let folder = Folder::new();
    cards.write(&folder);
    let (code, said, failure) = recover(&folder, &cards, &["--yes"]);
    assert_eq!((code, &*failure), (Some(0), ""));
    for words in [
        "fetch from cabinet 2\n                     damaged at the lead; cabinets 2 and 3 have it whole\n",
        "Ready: the log will have 3 readings.\n",
        "To be written, 3 stores:\n  cabinet 1: 1 cell\n  cabinet 3: 1 cell, 1 line\n",
        "Recovered: 3 stores made, each on its card before the next; the log has 3 readings.\n",
    ] {
        assert!(said.contains(words), "{words}\n{said}");
    }
    assert!(cards.read(&folder) == cards.recovered().unwrap().0.images);
    let (code, said, _) = recover(&folder, &cards, &[]);
    assert_eq!(code, Some(0));
    assert!(
        said.contains("Nothing is to be written: the cards are recovered."),
        "{said}"
    );
}

/// On a terminal, which `script` makes, it says how far it is; elsewhere it does not.
#[test]
fn a_terminal_sees_how_far_it_is() {
    let cards = three();
    let folder = Folder::new();
    cards.write(&folder);
    let line = format!("{ROPE} recover {} --yes", cards.arguments().join(" "));
    let output = Command::new("script")
        .args(["-qec", &line, "/dev/null"])
        .current_dir(folder.path())
        .stdin(Stdio::null())
        .output()
        .expect("script starts");
    assert!(output.status.success(), "{output:?}");
    let said = stdout(&output);
    for words in [
        "\r\u{1b}[Kstore 1 of 3: cabinet 1, place 2, cell",
        "\r\u{1b}[Kstore 3 of 3: cabinet 3, place 3, line",
    ] {
        assert!(said.contains(words), "{said:?}");
    }
    cards.write(&folder);
    let (_, said, failure) = recover(&folder, &cards, &["--yes"]);
    assert!(!said.contains("store 1 of 3") && failure.is_empty());
}

#[test]
fn a_dry_run_and_a_no_write_nothing() {
    let cards = three();
    let folder = Folder::new();
    cards.write(&folder);
    expect_untouched(
        &cards,
        &folder,
        &["--dry-run"],
        0,
        "A dry run: nothing was written.",
    );
    // Standard input is at its end: that is no yes.
    expect_untouched(&cards, &folder, &[], 5, "Nothing was written.");
    for (answer, code) in [("no\n", 5), ("y\n", 5), ("\n", 5), ("yes\n", 0)] {
        cards.write(&folder);
        let mut child = asking(&folder, &cards);
        child
            .0
            .stdin
            .take()
            .unwrap()
            .write_all(answer.as_bytes())
            .unwrap();
        assert_eq!(child.0.wait().unwrap().code(), Some(code), "{answer:?}");
        assert_eq!(cards.read(&folder) == cards.images, code == 5);
    }
}

/// The program when it has asked and waits for the answer.
fn asking(folder: &Folder, cards: &Cards) -> (Child, BufReader<std::process::ChildStdout>) {
    let mut child = Command::new(ROPE)
        .arg("recover")
        .args(cards.arguments())
        .current_dir(folder.path())
        .stdin(Stdio::piped())
        .stdout(Stdio::piped())
        .stderr(Stdio::piped())
        .spawn()
        .unwrap();
    let mut out = BufReader::new(child.stdout.take().unwrap());
    let mut said = Vec::new();
    while !said.ends_with(b"Type yes:") {
        assert!(
            out.read_until(b':', &mut said).unwrap() > 0,
            "{}",
            String::from_utf8_lossy(&said)
        );
    }
    (child, out)
}

#[test]
fn a_waiting_plan_and_a_refused_one_write_nothing() {
    let folder = Folder::new();
    let mut cards = three();
    cards.present = vec![1];
    cards.write(&folder);
    expect_untouched(
        &cards,
        &folder,
        &["--yes"],
        4,
        "Waiting for place 2: nothing is written.",
    );
    let mut cards = three();
    cards.spoil_header(1);
    cards.write(&folder);
    expect_untouched(
        &cards,
        &folder,
        &["--yes"],
        3,
        "The plan is refused by 12: ",
    );
}

#[test]
fn generated_clusters_end_as_the_proved_run() {
    let folder = Folder::new();
    let (mut recovered, mut waiting, mut refused) = (0, 0, 0);
    for case in 5000..5400 {
        let cards = generated(&mut Rng::new(case), Kinds::Any);
        cards.write(&folder);
        let numbers = cards.numbers();
        let mut more = vec!["--yes"];
        more.extend(numbers.iter().map(String::as_str));
        let (code, said, failure) = recover(&folder, &cards, &more);
        let leader = cards.geometry.replica(cards.leader).unwrap();
        let planned = plan(
            &cards.cluster(),
            cards.geometry,
            leader,
            cards.present_set(),
        );
        let (expected, images) = match planned.map(|plan| plan.answer()) {
            Ok(PlanAnswer::Ready { .. }) => {
                recovered += 1;
                (0, cards.recovered().unwrap().0.images)
            }
            Ok(PlanAnswer::Waiting { .. }) => {
                waiting += 1;
                (4, cards.images.clone())
            }
            Err(_) => {
                refused += 1;
                (3, cards.images.clone())
            }
        };
        assert_eq!(code, Some(expected), "case {case}: {said}{failure}");
        assert!(cards.read(&folder) == images, "case {case}");
    }
    assert!(
        recovered > 50 && waiting > 10 && refused > 5,
        "{recovered} {waiting} {refused}"
    );
}

/// The folder has the cards and one more file, which is another program's lock on the way.
#[test]
fn a_busy_card() {
    let cards = three();
    let folder = Folder::new();
    cards.write(&folder);
    let held = File::open(folder.file(&card_name(2))).unwrap();
    held.lock_shared().unwrap();
    expect_untouched(&cards, &folder, &["--yes"], 1, "card2.img: is busy");
    assert!(rope(&folder, &["show", &card_name(2)]).status.success());
    held.unlock().unwrap();
    held.lock().unwrap();
    let output = rope(&folder, &["show", &card_name(2)]);
    assert_eq!(output.status.code(), Some(1));
    held.unlock().unwrap();
    // While it asks, it holds the cards itself.
    let mut child = asking(&folder, &cards);
    expect_untouched(&cards, &folder, &["--yes"], 1, "is busy");
    child.0.stdin.take();
    assert_eq!(child.0.wait().unwrap().code(), Some(5));
    let (code, _, _) = recover(&folder, &cards, &["--yes"]);
    assert_eq!(code, Some(0));
}

#[test]
fn a_short_and_a_long_card() {
    let folder = Folder::new();
    let mut cards = three();
    cards.images[2].pop();
    cards.write(&folder);
    expect_untouched(&cards, &folder, &["--yes"], 3, "card3.img: refused by 3: ");
    expect_untouched(
        &cards,
        &folder,
        &["--yes", "--off", "3", "--dry-run"],
        0,
        "cabinet 3: off",
    );
    cards.images[2].extend(b"  ");
    cards.write(&folder);
    expect_untouched(
        &cards,
        &folder,
        &["--yes"],
        3,
        "The file has 1125 bytes; a card of these numbers has 1124.",
    );
}

/// A card that is marked read-only is written by nobody, not even by whoever could; one that needs no store may be.
#[test]
fn a_read_only_card() {
    let cards = three();
    let folder = Folder::new();
    for (number, code) in [(1, 1), (3, 1), (2, 0)] {
        cards.write(&folder);
        let file = folder.file(&card_name(number));
        fs::set_permissions(&file, fs::Permissions::from_mode(0o444)).unwrap();
        let (ended, said, failure) = recover(&folder, &cards, &["--yes"]);
        assert_eq!(ended, Some(code), "{said}{failure}");
        if code == 1 {
            assert!(
                failure.contains(&format!("card{number}.img: cannot be written to: ")),
                "{failure}"
            );
            assert!(cards.read(&folder) == cards.images);
        }
    }
}

/// Whatever somebody else does to a card before the first store, nothing is written over it.
#[test]
fn a_card_that_was_changed_meanwhile() {
    let cards = three();
    let folder = Folder::new();
    type Change = fn(&std::path::Path);
    let changes: [Change; 4] = [
        |file| {
            let mut bytes = fs::read(file).unwrap();
            *bytes.last_mut().unwrap() = b'x';
            fs::write(file, bytes).unwrap();
        },
        |file| {
            File::options()
                .write(true)
                .open(file)
                .unwrap()
                .set_len(100)
                .unwrap()
        },
        |file| {
            File::options()
                .append(true)
                .open(file)
                .unwrap()
                .write_all(b" ")
                .unwrap()
        },
        |file| {
            let copy = file.with_extension("new");
            fs::copy(file, &copy).unwrap();
            fs::rename(&copy, file).unwrap();
        },
    ];
    for change in changes {
        for number in 1..=3 {
            cards.write(&folder);
            let (mut child, _out) = asking(&folder, &cards);
            change(&folder.file(&card_name(number)));
            let before = cards.read(&folder);
            child.stdin.take().unwrap().write_all(b"yes\n").unwrap();
            assert_eq!(child.wait().unwrap().code(), Some(1));
            let mut failure = String::new();
            child.stderr.unwrap().read_to_string(&mut failure).unwrap();
            let words = format!("card{number}.img: was changed by somebody else meanwhile");
            assert!(
                failure.contains(&words) || failure.contains("cannot be read"),
                "{failure}"
            );
            assert!(cards.read(&folder) == before);
        }
    }
}

#[test]
fn after_a_cut_a_new_epoch_is_asked_for() {
    let mut cards = three();
    cards.append(1, 1, b"never sent");
    cards.spoil_entry(1, 4);
    let folder = Folder::new();
    cards.write(&folder);
    let (code, said, _) = recover(&folder, &cards, &["--yes"]);
    assert_eq!(code, Some(0));
    assert!(
        said.contains("no majority can have held it: doubtful at the lead"),
        "{said}"
    );
    assert!(said.contains("append under a new epoch"), "{said}");
}

/// An intent that was not finished stands for a store that had not begun.
#[test]
fn an_intent_that_is_not_whole_is_dropped() {
    let cards = three();
    let folder = Folder::new();
    for text in [&b"torn"[..], b"", &[b' '; 134]] {
        cards.write(&folder);
        fs::write(folder.file("card1.img.intent"), text).unwrap();
        let (ended, said, failure) = recover(&folder, &cards, &["--yes"]);
        assert_eq!(ended, Some(0), "{said}{failure}");
        assert!(cards.read(&folder) == cards.recovered().unwrap().0.images);
    }
    // A file that is longer than any intent is somebody's: it stays, and nothing is written.
    cards.write(&folder);
    fs::write(folder.file("card1.img.intent"), [b' '; 135]).unwrap();
    let (ended, _, failure) = recover(&folder, &cards, &["--yes"]);
    assert_eq!(ended, Some(1));
    assert!(failure.contains("leave this one out"), "{failure}");
    assert!(folder.file("card1.img.intent").exists());
    fs::remove_file(folder.file("card1.img.intent")).unwrap();
    assert!(cards.read(&folder) == cards.images);
}
