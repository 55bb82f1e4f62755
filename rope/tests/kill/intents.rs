//! Intents that an interruption left: of torn records, of whole ones, and beside other cards.

use std::fs;
use std::process::Command;

use ropelog::{read, Geometry};

use crate::common::{card_name, rope, stderr, stdout, Cards, Folder, ROPE};
use crate::program::{killed, watched, How, Program};
use crate::scene::{declared, scene, torn_record};

/// A torn record is finished before anything else is written, and an intent of a whole one is dropped.
#[test]
fn a_torn_record_is_finished_first() {
    let (cards, folder) = (scene(), Folder::new());
    for program in [Program::Rope, Program::CardsC] {
        let number = torn_record(&folder, &cards);
        let (_, events) = watched(&folder, program.recover(&cards));
        let write = events
            .iter()
            .position(|event| event.kind == "write")
            .expect("a write");
        let kinds: Vec<&str> = events[write..].iter().map(|event| &*event.kind).collect();
        assert_eq!(
            kinds[..4],
            ["write", "sync", "remove", "sync-folder"],
            "{program:?}"
        );
        let range = cards.geometry.record_range(15);
        assert_eq!((events[write].at, events[write].length), (range.start, 34));
        assert_eq!(events[write].file, card_name(number));
        // The intent is whole, and its record has not been touched.
        let made = declared(&folder, &cards, 1);
        let (_, events) = watched(&folder, program.recover(&cards));
        let kinds: Vec<&str> = events[cards.present.len()..]
            .iter()
            .map(|event| &*event.kind)
            .collect();
        assert_eq!(
            kinds[..3],
            ["remove", "sync-folder", "make"],
            "{program:?} {made}"
        );
    }
}

/// Cards are copied anew under their names while an intent of the old copies lies there. It announced that line 15 is
/// blanked; on the new copies all have place 15 whole, and none of them loses it.
#[test]
fn an_intent_beside_new_copies_changes_nothing() {
    let folder = Folder::new();
    for program in [Program::Rope, Program::CardsC] {
        let cards = scene();
        let number = declared(&folder, &cards, 2);
        let intent = format!("{}.intent", card_name(number));
        let kept = fs::read(folder.file(&intent)).unwrap();
        let mut copies = Cards::fresh(cards.geometry, 1);
        for number in 1..=3 {
            for _ in 1..=13 {
                copies.append(number, 1, b"metre 1204, wire broken");
            }
            for _ in 14..=16 {
                copies.append(number, 2, b"confirmed");
            }
        }
        copies.spoil_entry(1, 2);
        copies.write(&folder);
        fs::write(folder.file(&intent), &kept).unwrap();
        let output = program
            .recover(&copies)
            .current_dir(folder.path())
            .output()
            .unwrap();
        assert!(output.status.success(), "{output:?}");
        assert!(copies.read(&folder) == copies.recovered().unwrap().0.images);
        let leader = copies.geometry.replica(1).unwrap();
        let image = fs::read(folder.file(&card_name(1))).unwrap();
        assert_eq!(read(&image, copies.geometry, leader).unwrap().length(), 16);
    }
}

/// Until it is finished an interrupted store is shown as it will be, and nothing is written by showing it.
#[test]
fn an_interrupted_store_is_shown_finished() {
    let (cards, folder) = (scene(), Folder::new());
    let name = card_name(torn_record(&folder, &cards));
    let before = fs::read(folder.file(&name)).unwrap();
    let shown = rope(&folder, &["show", &name]);
    assert_eq!(shown.status.code(), Some(0), "{}", stdout(&shown));
    assert!(
        stdout(&shown).contains("a store was interrupted"),
        "{}",
        stdout(&shown)
    );
    let arguments = cards.arguments();
    let mut all = vec!["recover", "--dry-run"];
    all.extend(arguments.iter().map(String::as_str));
    let dry = rope(&folder, &all);
    assert!(
        stdout(&dry).contains(": first, a torn line is finished"),
        "{}",
        stdout(&dry)
    );
    assert!(fs::read(folder.file(&name)).unwrap() == before);
    // Without the intent it is what a torn record is.
    fs::remove_file(folder.file(&format!("{name}.intent"))).unwrap();
    assert!(!stdout(&rope(&folder, &["show", &name])).contains("interrupted"));
}

const FOREIGN: &str = "this is not the card that it was left for";

/// An intent that does not fit its card is not applied: the card was exchanged or changed since.
#[test]
fn an_intent_of_another_card_is_left_alone() {
    let (cards, folder) = (scene(), Folder::new());
    let number = torn_record(&folder, &cards);
    let (name, other) = (card_name(number), card_name(number % 3 + 1));
    let intent = format!("{name}.intent");
    let left = fs::read(folder.file(&name)).unwrap();
    let kept = fs::read(folder.file(&intent)).unwrap();
    let at = cards.geometry.record_range(15).start;
    let mut changed = left.clone();
    changed[at + 3] = b'!';
    let others = fs::read(folder.file(&other)).unwrap();
    for image in [others.clone(), changed] {
        fs::write(folder.file(&name), &image).unwrap();
        let shown = rope(&folder, &["show", &name]);
        assert!(stdout(&shown).contains(FOREIGN), "{}", stdout(&shown));
        let appended = rope(&folder, &["append", &name, "--epoch=9", "--text=x"]);
        assert_eq!(appended.status.code(), Some(1));
        assert!(stderr(&appended).contains(FOREIGN), "{}", stderr(&appended));
        for program in [Program::Rope, Program::CardsC] {
            let output = program
                .recover(&cards)
                .current_dir(folder.path())
                .output()
                .unwrap();
            // The C program takes a card of another cabinet for unreadable, and goes on without it.
            let is_off = program == Program::CardsC && image == others;
            let expected = if is_off { 0 } else { 1 };
            assert_eq!(output.status.code(), Some(expected), "{program:?}");
        }
        assert!(fs::read(folder.file(&name)).unwrap() == image);
        assert!(fs::read(folder.file(&intent)).unwrap() == kept);
    }
    // A refused card counts as off: it keeps every byte, and its intent too.
    let mut headless = left.clone();
    headless[..20].fill(b'?');
    let mut both_lost = left;
    both_lost[cards.geometry.record_range(1)].fill(b'#');
    both_lost[cards.geometry.entry_range(1)].fill(b'#');
    for spoilt in [headless, both_lost] {
        for program in [Program::Rope, Program::CardsC] {
            fs::write(folder.file(&name), &spoilt).unwrap();
            let output = program
                .recover(&cards)
                .current_dir(folder.path())
                .output()
                .unwrap();
            assert!(
                matches!(output.status.code(), Some(0 | 3 | 4)),
                "{output:?}"
            );
            assert!(fs::read(folder.file(&name)).unwrap() == spoilt);
            assert!(fs::read(folder.file(&intent)).unwrap() == kept);
        }
    }
}

/// The intent that docs/FORMAT.md shows byte by byte is the one that an append of place 15 leaves if it is killed.
#[test]
fn the_intent_of_the_page_is_written() {
    let page = concat!(env!("CARGO_MANIFEST_DIR"), "/../docs/FORMAT.md");
    let page = fs::read_to_string(page).unwrap();
    let (_, block) = page.split_once("```intent\n").expect("an intent");
    let (block, _) = block.split_once("```").unwrap();
    let mut shown = Vec::new();
    for line in block.lines() {
        let mut words = line.trim_start().splitn(2, ' ');
        assert_eq!(
            words.next().unwrap().parse::<usize>().unwrap(),
            shown.len(),
            "{line}"
        );
        let rest = words.next().unwrap().trim_start();
        let (length, rest) = rest.split_once(' ').unwrap();
        let rest = rest.trim_start();
        let begins = shown.len();
        if let Some(quoted) = rest.strip_prefix('"') {
            shown.extend(quoted.split_once('"').unwrap().0.bytes());
        } else if rest.starts_with("spaces") {
            shown.extend(vec![b' '; length.parse().unwrap()]);
        } else {
            assert!(rest.starts_with("newline"), "{line}");
            shown.push(b'\n');
        }
        assert_eq!(
            shown.len() - begins,
            length.parse::<usize>().unwrap(),
            "{line}"
        );
    }
    assert_eq!(
        String::from_utf8_lossy(&shown),
        String::from_utf8_lossy(&intent_of_place_15())
    );
}

/// The intent of an append to a card with 14 readings, which is killed when its intent is written.
fn intent_of_place_15() -> Vec<u8> {
    let mut cards = Cards::fresh(Geometry::new(3, 16).unwrap(), 1);
    for _ in 1..15 {
        cards.append(2, 1, b"metre 1204, wire broken");
    }
    let append = || {
        let mut command = Command::new(ROPE);
        command.args([
            "append",
            "card2.img",
            "--epoch=1",
            "--text=metre 1207, no signal",
        ]);
        command
    };
    let folder = Folder::new();
    cards.write(&folder);
    let (_, events) = watched(&folder, append());
    let made = events
        .iter()
        .position(|event| event.kind == "make")
        .expect("an intent");
    cards.write(&folder);
    killed(&folder, append(), made + 1, How::After);
    fs::read(folder.file("card2.img.intent")).unwrap()
}
