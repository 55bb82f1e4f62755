//! `rope append` and `rope format` write what the proved calls write, and nothing where they refuse.

mod common;

use std::fs;
use std::io::Write;
use std::process::{Command, Stdio};

use common::{card_name, rope, stderr, stdout, Cards, Folder, ROPE};
use ropelog::{Geometry, ReplicaSet};

fn geometry(edition: usize, witness: bool) -> Geometry {
    let geometry = match edition {
        1 => Geometry::new(3, 16).unwrap(),
        _ => Geometry::edition_2(3, 16).unwrap(),
    };
    let three = geometry.replica(3).unwrap();
    geometry.with_witnesses(ReplicaSet::from_iter(witness.then_some(three)))
}

/// Cards and a box of both editions are made and filled, byte for byte as the proved calls do it in memory.
#[test]
fn cards_are_made_and_filled_as_the_proved_calls_do() {
    for (edition, first) in [(1, 1), (2, 1205)] {
        let folder = Folder::new();
        let mut expected = Cards::fresh(geometry(edition, true), first);
        for number in 1..=3 {
            let name = card_name(number);
            let (cabinet, edition, first) =
                (number.to_string(), edition.to_string(), first.to_string());
            let mut arguments = vec![
                "format",
                &name,
                "--of=3",
                "--places=16",
                "--cabinet",
                &cabinet,
            ];
            arguments.extend(["--edition", &edition, "--first", &first]);
            arguments.extend((number == 3).then_some("--witness"));
            let output = rope(&folder, &arguments);
            assert!(output.status.success(), "{}", stderr(&output));
        }
        assert!(expected.read(&folder) == expected.images);
        for slot in 1..=16 {
            for number in 1..=3 {
                let (name, epoch, text) = (
                    card_name(number),
                    (slot / 4 + 1).to_string(),
                    format!("metre {slot}"),
                );
                let mut arguments = vec!["append", &name, "--epoch", &epoch];
                arguments.extend(
                    (number != 3)
                        .then_some(["--text", &*text])
                        .into_iter()
                        .flatten(),
                );
                let output = rope(&folder, &arguments);
                assert!(output.status.success(), "{}", stderr(&output));
                assert_eq!(
                    stdout(&output),
                    format!("{name}: stored in place {slot}, epoch {epoch}\n")
                );
                expected.append(number, slot / 4 + 1, text.as_bytes());
            }
            assert!(expected.read(&folder) == expected.images);
        }
    }
}

#[test]
fn refused_appends_write_nothing() {
    let folder = Folder::new();
    let mut cards = Cards::fresh(Geometry::new(3, 2).unwrap(), 1);
    cards.append(1, 5, b"one");
    cards.append(2, 5, b"one");
    cards.append(2, 5, b"two");
    cards.spoil_header(3);
    cards.write(&folder);
    let long = "x".repeat(201);
    for (arguments, number) in [
        (["card1.img", "--epoch=4", "--text=x"], 8),
        (["card1.img", "--epoch=5", &format!("--text={long}")], 9),
        (["card2.img", "--epoch=5", "--text=x"], 10),
        (["card3.img", "--epoch=5", "--text=x"], 4),
        (["2=card1.img", "--epoch=5", "--text=x"], 4),
    ] {
        let output = rope(&folder, &[&["append"], &arguments[..]].concat());
        assert_eq!(output.status.code(), Some(3), "{arguments:?}");
        assert!(
            stderr(&output).contains(&format!("refused by {number}: ")),
            "{}",
            stderr(&output)
        );
        assert!(cards.read(&folder) == cards.images);
    }
    let full = format!("--text={}", "x".repeat(200));
    assert!(rope(&folder, &["append", "card1.img", "--epoch=5", &full])
        .status
        .success());
}

/// A reading from a file or from standard input, of any bytes.
#[test]
fn a_reading_from_a_file() {
    let bytes: Vec<u8> = (0..=199).collect();
    let mut expected = Cards::fresh(Geometry::new(3, 4).unwrap(), 1);
    expected.append(1, 1, &bytes);
    let folder = Folder::new();
    Cards::fresh(expected.geometry, 1).write(&folder);
    let mut child = Command::new(ROPE)
        .args(["append", "card1.img", "--epoch=1", "--file", "-"])
        .current_dir(folder.path())
        .stdin(Stdio::piped())
        .stdout(Stdio::null())
        .spawn()
        .unwrap();
    child.stdin.take().unwrap().write_all(&bytes).unwrap();
    assert!(child.wait().unwrap().success());
    assert!(expected.read(&folder) == expected.images);
    fs::write(folder.file("reading"), &bytes).unwrap();
    let output = rope(
        &folder,
        &["append", "card2.img", "--epoch=1", "--file=reading"],
    );
    assert!(output.status.success());
    fs::remove_file(folder.file("reading")).unwrap();
    expected.append(2, 1, &bytes);
    assert!(expected.read(&folder) == expected.images);
    let output = rope(
        &folder,
        &["append", "card2.img", "--epoch=1", "--file=nowhere"],
    );
    assert_eq!(output.status.code(), Some(1));
}

#[test]
fn nothing_is_written_over_without_being_told() {
    let folder = Folder::new();
    let mut cards = Cards::fresh(Geometry::new(3, 4).unwrap(), 1);
    cards.append(1, 1, b"metre 1204");
    cards.write(&folder);
    let format = ["format", "card1.img", "--cabinet=1", "--of=3", "--places=4"];
    let output = rope(&folder, &format);
    assert_eq!(output.status.code(), Some(1));
    assert!(
        stderr(&output).contains("is there already"),
        "{}",
        stderr(&output)
    );
    assert!(cards.read(&folder) == cards.images);
    let output = rope(&folder, &[&format[..], &["--over"]].concat());
    assert_eq!(output.status.code(), Some(0));
    assert!(cards.read(&folder) == Cards::fresh(cards.geometry, 1).images);
    // Another size: the file has the length of the new card.
    let output = rope(
        &folder,
        &[
            "format",
            "card1.img",
            "--cabinet=1",
            "--of=5",
            "--places=2",
            "--over",
        ],
    );
    assert_eq!(output.status.code(), Some(0));
    assert_eq!(
        fs::read(folder.file("card1.img")).unwrap().len(),
        28 + 274 * 2
    );
    let output = rope(
        &folder,
        &[
            "format",
            ".",
            "--cabinet=1",
            "--of=5",
            "--places=2",
            "--over",
        ],
    );
    assert_eq!(output.status.code(), Some(1));
}

#[test]
fn a_first_number_that_no_log_has_is_refused_by_20() {
    let folder = Folder::new();
    for more in [
        &["--first=2"][..],
        &["--edition=2", "--first=0"],
        &["--edition=2", "--first=4294967295"],
    ] {
        let output = rope(
            &folder,
            &[
                &["format", "x", "--cabinet=1", "--of=3", "--places=4"],
                more,
            ]
            .concat(),
        );
        assert_eq!(output.status.code(), Some(3));
        assert!(
            stderr(&output).contains("refused by 20: "),
            "{}",
            stderr(&output)
        );
    }
    assert!(folder.names().is_empty());
}

/// An intent that an interrupted store left beside a card is gone when the card is written over: its record would
/// otherwise be written to the fresh card.
#[test]
fn an_intent_does_not_outlive_its_card() {
    let folder = Folder::new();
    let cards = Cards::fresh(Geometry::new(3, 4).unwrap(), 1);
    cards.write(&folder);
    fs::write(folder.file("card1.img.intent"), b"whatever").unwrap();
    let format = ["format", "card1.img", "--cabinet=1", "--of=3", "--places=4"];
    assert!(rope(&folder, &[&format[..], &["--over"]].concat())
        .status
        .success());
    assert!(cards.read(&folder) == cards.images);
    fs::write(folder.file("card1.img.intent"), b"whatever").unwrap();
    fs::remove_file(folder.file("card1.img")).unwrap();
    assert!(rope(&folder, &format).status.success());
    assert!(cards.read(&folder) == cards.images);
}
