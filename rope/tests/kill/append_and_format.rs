//! Appends and formats that are killed.

use std::fs;
use std::process::Command;

use ropelog::{read, Geometry, Verdict};

use crate::common::{card_name, rope, stdout, Cards, Folder, ROPE};
use crate::program::{killed, watched, How};
use crate::scene::{has_intents, parts};

/// An append that is killed leaves the log as it was or with the reading, and no byte of another place is changed.
#[test]
fn an_append_killed_at_every_event() {
    for slots in [14, 15] {
        let mut cards = Cards::fresh(Geometry::new(3, 16).unwrap(), 1);
        for _ in 1..slots {
            cards.append(1, 1, b"metre 1204, wire broken");
        }
        let mut after = cards.clone();
        let slot = after.append(1, 2, b"metre 1207, no signal");
        assert_eq!(slot, slots);
        let append = || {
            let mut command = Command::new(ROPE);
            let name = card_name(1);
            command.args([
                "append",
                &name,
                "--epoch",
                "2",
                "--text",
                "metre 1207, no signal",
            ]);
            command
        };
        let folder = Folder::new();
        cards.write(&folder);
        let (output, events) = watched(&folder, append());
        assert!(output.status.success(), "{output:?}");
        assert!(after.read(&folder) == after.images);
        assert_eq!(has_intents(&events), slot == 15);
        for at in 0..events.len() {
            let inside = parts(&events, at).into_iter().map(How::Inside);
            for how in inside.chain([How::Before, How::After]) {
                cards.write(&folder);
                killed(&folder, append(), at, how);
                expect_old_or_new(&folder, &cards, &after, slot);
            }
        }
    }
}

/// What a reader finds once an interrupted store is finished: an append under another epoch finishes it.
fn expect_old_or_new(folder: &Folder, before: &Cards, after: &Cards, slot: usize) {
    let (geometry, replica) = (before.geometry, before.geometry.replica(1).unwrap());
    let shown = rope(folder, &["show", &card_name(1)]);
    assert!(shown.status.success(), "{shown:?}");
    let more = rope(
        folder,
        &["append", &card_name(1), "--epoch", "3", "--text", "next"],
    );
    assert!(more.status.success(), "{more:?}");
    let image = fs::read(folder.file(&card_name(1))).unwrap();
    let log = read(&image, geometry, replica).unwrap();
    assert!(log.states()[..log.length()]
        .iter()
        .all(|state| state.verdict == Verdict::Intact));
    let mut expected = if log.length() == slot {
        before.clone()
    } else {
        after.clone()
    };
    expected.append(1, 3, b"next");
    assert!(image == expected.images[0]);
    assert_eq!(folder.names().len(), before.images.len());
}

/// A card that is written over, or made, is the old one, refused, or the fresh one; never another that is readable.
#[test]
fn a_format_killed_at_every_event() {
    let mut cards = Cards::fresh(Geometry::new(3, 16).unwrap(), 1);
    cards.append(1, 1, b"metre 1204, wire broken");
    let fresh = Cards::fresh(cards.geometry, 1).images[0].clone();
    let format = |over: bool| {
        let mut command = Command::new(ROPE);
        command.args([
            "format",
            &card_name(1),
            "--cabinet=1",
            "--of=3",
            "--places=16",
        ]);
        command.args(over.then_some("--over"));
        command
    };
    let folder = Folder::new();
    let file = folder.file(&card_name(1));
    for over in [true, false] {
        let prepare = || {
            cards.write(&folder);
            if !over {
                fs::remove_file(&file).unwrap();
            }
        };
        prepare();
        let (output, events) = watched(&folder, format(over));
        assert!(output.status.success(), "{output:?}");
        assert!(fs::read(&file).unwrap() == fresh);
        for (at, event) in events.iter().enumerate() {
            for how in [
                How::Before,
                How::Inside(0),
                How::Inside(event.length / 2),
                How::After,
            ] {
                prepare();
                killed(&folder, format(over), at, how);
                let left = fs::read(&file).unwrap_or_default();
                let replica = cards.geometry.replica(1).unwrap();
                let is_refused = read(&left, cards.geometry, replica).is_err();
                assert!(
                    is_refused || left == cards.images[0] || left == fresh,
                    "{at} {how:?}"
                );
                let again = rope(
                    &folder,
                    &[
                        "format",
                        &card_name(1),
                        "--cabinet=1",
                        "--of=3",
                        "--places=16",
                        "--over",
                    ],
                );
                assert!(again.status.success(), "{}", stdout(&again));
                assert!(fs::read(&file).unwrap() == fresh);
            }
        }
    }
}
