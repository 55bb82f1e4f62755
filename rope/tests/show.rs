//! `rope show`: each card in words, and a refused one with its number, what it means and what to do.

mod common;

use std::fs;

use common::{card_name, rope, stderr, stdout, Cards, Folder};
use ropelog::{pieces, Geometry};

/// Three cards with 4 places and three readings each.
fn three() -> Cards {
    let mut cards = Cards::fresh(Geometry::new(3, 4).unwrap(), 1);
    for number in 1..=3 {
        for reading in [
            "metre 1204, wire broken",
            "metre 1207, no signal",
            "metre 1212",
        ] {
            cards.append(number, 1, reading.as_bytes());
        }
    }
    cards
}

fn shown(cards: &Cards, arguments: &[&str]) -> (Option<i32>, String) {
    let folder = Folder::new();
    cards.write(&folder);
    let mut all = vec!["show"];
    all.extend(arguments);
    let output = rope(&folder, &all);
    assert!(output.stderr.is_empty(), "{}", stderr(&output));
    assert!(cards.read(&folder) == cards.images, "showing wrote");
    (output.status.code(), stdout(&output))
}

#[test]
fn a_card_in_words() {
    let mut cards = three();
    cards.spoil_record(1, 1);
    cards.spoil_entry(1, 2);
    cards.spoil_entry(1, 3);
    cards.spoil_entry(1, 4);
    let (code, text) = shown(&cards, &["card1.img"]);
    assert_eq!(code, Some(0));
    assert_eq!(
        text,
        "card1.img: the card of cabinet 1 of 3, 4 places, edition 1, first 1\n  \
         3 of 4 places used\n  \
         place       epoch  verdict, bytes and reading\n      \
         1           1  whole, its line is lost, 23 bytes: metre 1204, wire broken\n      \
         2           1  damaged. The mending writes the cell again\n      \
         3           1  doubtful: damage, or a write cut short. The plan decides\n      \
         4              unfinished write\n"
    );
}

#[test]
fn a_stale_place_is_told() {
    let mut cards = three();
    let range = cards.geometry.entry_range(2);
    let entry: &mut [u8; 240] = (&mut cards.images[0][range]).try_into().unwrap();
    pieces::write_entry(entry, 7, 2, b"older").unwrap();
    let (_, text) = shown(&cards, &["card1.img"]);
    assert!(
        text.contains("stale: an older reading stands here"),
        "{text}"
    );
}

#[test]
fn several_cards_of_edition_2_and_a_witness() {
    let geometry = Geometry::edition_2(3, 3).unwrap();
    let witness = geometry.replica(3).unwrap();
    let set = [witness].into_iter().collect();
    let mut cards = Cards::fresh(geometry.with_witnesses(set), 1205);
    for number in 1..=3 {
        cards.append(number, 9, b"metre 1204");
    }
    let (code, text) = shown(&cards, &["card1.img", "card3.img"]);
    assert_eq!(code, Some(0));
    assert!(text.contains("card1.img: the card of cabinet 1 of 3, 3 places, edition 2, first 1205"));
    assert!(
        text.contains("      1        1205           9  whole, 10 bytes: metre 1204\n"),
        "{text}"
    );
    assert!(text.contains("card3.img: the witness box of cabinet 3 of 3"));
    assert!(text.contains("      1        1205           9  stored\n"));
    assert!(text.contains("      2        1206              unused\n"));
}

/// Bytes that a terminal would take for a command are spelt out, and a long reading is cut.
#[test]
fn a_reading_is_shown_readable() {
    let mut cards = Cards::fresh(Geometry::new(3, 4).unwrap(), 1);
    cards.append(1, 1, b"\x1b[2Jgone\n\xff\\");
    cards.append(1, 1, "Seil n\u{e4}chst".as_bytes());
    cards.append(1, 1, &[b'x'; 200]);
    cards.append(1, 1, b"");
    let (_, text) = shown(&cards, &["card1.img"]);
    assert!(
        text.contains("whole, 11 bytes: \\u{1b}[2Jgone\\n\\xff\\\\\n"),
        "{text}"
    );
    assert!(
        text.contains("whole, 12 bytes: Seil n\u{e4}chst\n"),
        "{text}"
    );
    assert!(text.contains(&format!("whole, 200 bytes: {}..\n", "x".repeat(46))));
    assert!(text.contains("whole, 0 bytes: \n"));
    assert!(!text.contains('\u{1b}'));
}

#[test]
fn every_refused_card_says_number_meaning_and_advice() {
    let mut behind_blank = three();
    let range = behind_blank.geometry.record_range(2);
    let record: &mut [u8; 34] = (&mut behind_blank.images[0][range]).try_into().unwrap();
    pieces::write_blank_record(record);
    let mut both = three();
    both.spoil_record(1, 2);
    both.spoil_entry(1, 2);
    let mut falling = three();
    let range = falling.geometry.record_range(2);
    let record: &mut [u8; 34] = (&mut falling.images[0][range]).try_into().unwrap();
    pieces::write_record(record, 5, 2);
    for (cards, number) in [(behind_blank, 5), (both, 6), (falling, 7)] {
        let (code, text) = shown(&cards, &["card1.img"]);
        assert_eq!(code, Some(3));
        assert!(text.contains(&format!("  refused by {number}: ")), "{text}");
        assert!(
            text.contains("  What to do: leave the card as it is"),
            "{text}"
        );
        assert!(text.contains("piece by piece (no plan uses it)"), "{text}");
        assert!(text
            .contains("      3  line good, epoch 1; cell whole, epoch 1, 10 bytes: metre 1212\n"));
    }
}

/// Of a damaged first line nothing is guessed; options say whose card it is.
#[test]
fn a_damaged_first_line() {
    let mut cards = three();
    cards.spoil_header(2);
    let (code, text) = shown(&cards, &["card2.img"]);
    assert_eq!(code, Some(3));
    assert!(
        text.contains("card2.img: the first line cannot be read\n  refused by 4: "),
        "{text}"
    );
    assert!(text.contains("--cabinet C --of N --places M"));
    assert!(!text.contains("metre"), "{text}");
    for named in [
        &["card2.img", "--cabinet", "2", "--of", "3", "--places", "4"][..],
        &["2=card2.img", "--of=3", "--places=4"],
    ] {
        let (code, text) = shown(&cards, named);
        assert_eq!(code, Some(3));
        assert!(text.contains("refused by 4: "));
        assert!(
            text.contains("      1  line good, epoch 1; cell whole, epoch 1, 23 bytes: metre 1204"),
            "{text}"
        );
    }
    // A good card that is named as another cabinet's is refused as such.
    let (code, text) = shown(&cards, &["2=card1.img"]);
    assert_eq!(code, Some(3));
    assert!(text.contains("the card of cabinet 1 of 3") && text.contains("refused by 4: "));
}

#[test]
fn short_long_and_empty_files_are_refused_by_3() {
    let cards = three();
    let folder = Folder::new();
    cards.write(&folder);
    let image = &cards.images[0];
    fs::write(folder.file("short"), &image[..image.len() - 1]).unwrap();
    fs::write(folder.file("long"), [&image[..], b" "].concat()).unwrap();
    fs::write(folder.file("huge"), [&image[..], &[b' '; 100_000]].concat()).unwrap();
    for (name, length) in [("short", 1123), ("long", 1125), ("huge", 101_124)] {
        let output = rope(&folder, &["show", name]);
        assert_eq!(output.status.code(), Some(3));
        let text = stdout(&output);
        assert!(text.contains("refused by 3: "), "{text}");
        let lengths = format!("the file has {length} bytes, and should have 1124");
        assert!(text.contains(&lengths), "{text}");
    }
    fs::write(folder.file("empty"), b"").unwrap();
    let output = rope(&folder, &["show", "empty"]);
    assert_eq!(output.status.code(), Some(3));
}

/// A file that is not there does not keep the others from being shown.
#[test]
fn a_missing_file_is_told_beside_the_others() {
    let cards = three();
    let folder = Folder::new();
    cards.write(&folder);
    let output = rope(&folder, &["show", "nowhere.img", &card_name(1), "."]);
    assert_eq!(output.status.code(), Some(1));
    let text = stdout(&output);
    assert!(
        text.contains("nowhere.img: cannot be opened: No such file"),
        "{text}"
    );
    assert!(text.contains("card1.img: the card of cabinet 1"));
    assert!(text.contains(".: is no file"), "{text}");
}
