//! The images that docs/FORMAT.md shows byte by byte are those that are written.

#![deny(dead_code)]

use std::fs;
use std::path::{Path, PathBuf};

use harness::code::Code;
use harness::model::{
    card_len, entry_offset, image_len, record_offset, Shape, MAX_SLOTS, RECORD_LEN,
};
use harness::on_both_sides;

on_both_sides! {
    the_cards_are_written,
    the_cards_are_read,
    the_witness_is_written_and_read,
    every_checksum_is_of_the_bytes_that_are_named,
}

const REPLICA: usize = 2;
const M: usize = 2;
const PAYLOAD: &[u8] = b"metre 1204, wire broken";

/// A block of the page, and the log that it shows.
struct Card {
    block: &'static str,
    shape: Shape,
    first: u32,
}

const CARD: Card = Card {
    block: "```card\n",
    shape: Shape::edition_1(3, M),
    first: 1,
};

const LATER: Card = Card {
    block: "```later-card\n",
    shape: Shape::edition_2(3, M),
    first: 1205,
};

const WITNESS: Card = Card {
    block: "```witness\n",
    shape: Shape::edition_1(3, M).with_witnesses(1 << (REPLICA - 1)),
    first: 1,
};

fn repository() -> PathBuf {
    Path::new(env!("CARGO_MANIFEST_DIR")).join("..")
}

fn page() -> String {
    fs::read_to_string(repository().join("docs/FORMAT.md")).unwrap()
}

/// One line of the card: the bytes that stand there, and what the page says of them.
struct Part {
    at: usize,
    bytes: Vec<u8>,
    meaning: String,
}

/// A line is an offset, a length, then `newline`, `spaces` or a text in quotes, then its meaning.
fn part(line: &str) -> Part {
    let mut rest = line;
    let mut number = || {
        let (number, behind) = rest.trim_start().split_once(' ').unwrap();
        rest = behind.trim_start();
        number.parse::<usize>().unwrap()
    };
    let (at, length) = (number(), number());
    let (bytes, meaning) = if let Some(quoted) = rest.strip_prefix('"') {
        let (text, meaning) = quoted.split_once('"').unwrap();
        (text.as_bytes().to_vec(), meaning)
    } else if let Some(meaning) = rest.strip_prefix("spaces") {
        (vec![b' '; length], meaning)
    } else {
        let meaning = rest.strip_prefix("newline");
        let meaning = meaning.unwrap_or_else(|| panic!("what stands there? {line}"));
        (vec![b'\n'], meaning)
    };
    assert_eq!(bytes.len(), length, "{line}");
    Part {
        at,
        bytes,
        meaning: meaning.trim().to_string(),
    }
}

impl Card {
    /// Its lines, each of which begins where the one before it ends.
    fn parts(&self) -> Vec<Part> {
        let page = page();
        let (_, block) = page.split_once(self.block).expect("a card");
        let (block, _) = block.split_once("```").expect("the card's end");
        let parts: Vec<Part> = block.lines().map(part).collect();
        let mut end = 0;
        for part in &parts {
            assert_eq!(part.at, end, "{}", part.meaning);
            end += part.bytes.len();
        }
        assert_eq!(end, image_len(self.shape, REPLICA));
        parts
    }

    fn bytes(&self) -> Vec<u8> {
        self.parts()
            .into_iter()
            .flat_map(|part| part.bytes)
            .collect()
    }
}

fn the_cards_are_written(on: Code) {
    for card in [CARD, LATER] {
        let mut image = vec![0; card_len(card.shape)];
        on.fresh_image(&mut image, card.shape, REPLICA, card.first)
            .unwrap();
        let slot = on.append(&mut image, card.shape, REPLICA, 1, PAYLOAD);
        assert_eq!((slot, image), (Ok(1), card.bytes()));
    }
}

fn the_cards_are_read(on: Code) {
    for card in [CARD, LATER] {
        let (bytes, shape) = (card.bytes(), card.shape);
        let (mut epochs, mut verdicts) = ([9; M], [9; M]);
        let read = on.read(&bytes, shape, REPLICA, &mut epochs, &mut verdicts);
        assert_eq!(
            (read, epochs, verdicts),
            (Ok((1, card.first)), [1, 0], [1, 0])
        );
        assert_eq!(on.payload(&bytes, shape, REPLICA, 1), PAYLOAD);
        let at = entry_offset(shape, 1) + 26;
        assert_eq!(&bytes[at..at + PAYLOAD.len()], PAYLOAD);
    }
}

fn the_witness_is_written_and_read(on: Code) {
    let shape = WITNESS.shape;
    let mut image = vec![0; image_len(shape, REPLICA)];
    on.fresh_image(&mut image, shape, REPLICA, WITNESS.first)
        .unwrap();
    let slot = on.witness_append(&mut image, shape, REPLICA, 1);
    assert_eq!((slot, &image), (Ok(1), &WITNESS.bytes()));
    let mut epochs = [9; M];
    let read = on.witness_read(&image, shape, REPLICA, &mut epochs);
    assert_eq!((read, epochs), (Ok((1, WITNESS.first)), [1, 0]));
}

/// "checksum of bytes 0 to 15" is what it says: of the header, of a record, and of an entry if there is one.
fn every_checksum_is_of_the_bytes_that_are_named(on: Code) {
    for (card, sealed) in [(CARD, 3), (LATER, 3), (WITNESS, 2)] {
        let (bytes, mut found) = (card.bytes(), 0);
        for part in card.parts() {
            let Some(range) = part.meaning.strip_prefix("checksum of bytes ") else {
                continue;
            };
            let (first, last) = range.split_once(" to ").unwrap();
            let (first, last): (usize, usize) = (first.parse().unwrap(), last.parse().unwrap());
            let mut column = [0; 11];
            on.write_column(&mut column, on.checksum(&bytes[first..=last]).into());
            assert_eq!(part.bytes, column, "{range}");
            assert_eq!(part.at, last + 1, "{range}");
            found += 1;
        }
        assert_eq!(found, sealed);
    }
}

/// The command that the page gives cuts the card out of the printing program's stored input.
#[test]
fn the_command_prints_the_card() {
    let command = "`tail -c +591 crates/ropeplan/stdin | head -c 576`";
    assert!(page().contains(command));
    let input = fs::read(repository().join("crates/ropeplan/stdin")).unwrap();
    assert_eq!(&input[590..590 + 576], CARD.bytes());
}

/// The records that lie on both sides of a boundary if the image begins so far behind one.
fn straddling(shape: Shape, unit: usize, start: usize) -> Vec<usize> {
    let crosses = |slot: &usize| {
        let first = start + record_offset(shape, *slot);
        first / unit != (first + RECORD_LEN - 1) / unit
    };
    (1..=MAX_SLOTS).filter(crosses).collect()
}

/// What the documents say of records that straddle a boundary of 512 bytes: these words, and where they are.
fn straddle_as_said(shape: Shape, slots: [usize; 4], words: &str) {
    assert_eq!(straddling(shape, 512, 0), slots);
    let page = page().replace('\n', " ");
    for slot in slots {
        let first = record_offset(shape, slot);
        let range = format!("{} to {}", spelt(first), spelt(first + RECORD_LEN - 1));
        assert!(page.contains(&range), "{range}");
    }
    for file in [
        "docs/FORMAT.md",
        "docs/DECISIONS.md",
        "README.md",
        "include/ropelog.h",
    ] {
        let text = fs::read_to_string(repository().join(file)).unwrap();
        let text: Vec<&str> = text
            .split_whitespace()
            .filter(|word| *word != "*")
            .collect();
        assert!(text.join(" ").contains(words), "{file}: {words}");
    }
    // What README.md says of other units, and of another start of the image.
    assert!(straddling(shape, 4096, 0).is_empty());
    assert!((0..512).all(|start| straddling(shape, 512, start).len() >= 3));
}

#[test]
fn records_in_two_sectors() {
    let slots = [15, 30, 45, 60];
    straddle_as_said(
        Shape::edition_1(3, MAX_SLOTS),
        slots,
        "ecords 15, 30, 45 and 60",
    );
}

/// In edition 2, whose header is longer, they are others.
#[test]
fn records_in_two_sectors_of_edition_2() {
    let slots = [14, 29, 45, 60];
    let words = "in edition 2 records 14, 29, 45 and 60";
    straddle_as_said(Shape::edition_2(3, MAX_SLOTS), slots, words);
}

/// A number with a comma before its last three digits.
fn spelt(number: usize) -> String {
    match number {
        0..=999 => number.to_string(),
        _ => format!("{},{:03}", number / 1000, number % 1000),
    }
}
