//! What README.md shows of the program is what it prints, with the cards in `cards/`.

mod common;

use std::fs;
use std::path::{Path, PathBuf};

use common::{card_name, rope, stderr, stdout, Cards, Folder};
use ropelog::Geometry;

fn package() -> PathBuf {
    PathBuf::from(env!("CARGO_MANIFEST_DIR"))
}

/// The cards of `examples/recovery.c` after the damage: five cabinets with six places.
fn stored() -> Cards {
    let mut cards = Cards::fresh(Geometry::new(5, 6).unwrap(), 1);
    let readings = [
        ("metre 1204, wire broken", &[1, 2, 3, 4, 5][..]),
        ("metre 1207, no signal", &[1, 2, 3, 4, 5]),
        ("metre 1212, wire broken", &[1, 2, 3, 4, 5]),
        ("metre 1219, strand loose", &[1, 2, 3, 5]),
        ("metre 1223, wire broken", &[1]),
    ];
    for (reading, numbers) in readings {
        for &number in numbers {
            cards.append(number, 1, reading.as_bytes());
        }
    }
    let entry = |slot: usize| cards.geometry.entry_range(slot).start;
    let (one, two, five) = (entry(1), entry(2), entry(5));
    cards.images[0][five + 40..five + 140].fill(0);
    cards.images[0][two + 26] ^= 1;
    cards.images[1][two + 30] ^= 1;
    cards.spoil_record(1, 3);
    cards.images[2][one..one + 240].fill(0);
    cards
}

/// `ROPE_WRITE_CARDS=1` writes them anew.
#[test]
fn the_stored_cards_are_those_of_the_worked_example() {
    let cards = stored();
    for (at, image) in cards.images.iter().enumerate() {
        let file = package().join("cards").join(card_name(at + 1));
        if std::env::var_os("ROPE_WRITE_CARDS").is_some() {
            fs::write(&file, image).unwrap();
        }
        assert!(fs::read(&file).unwrap() == *image, "{}", file.display());
    }
}

/// The blocks of a page that begin with `$ rope`: the command, and what is printed below it.
fn blocks(page: &Path) -> Vec<(String, String)> {
    let text = fs::read_to_string(page).unwrap();
    let mut found: Vec<(String, String)> = Vec::new();
    let mut is_inside = false;
    for line in text.lines() {
        let indented = line.strip_prefix("    ");
        if let Some(command) = indented.and_then(|line| line.strip_prefix("$ rope ")) {
            found.push((command.to_string(), String::new()));
            is_inside = true;
        } else if let (true, Some(last)) = (is_inside, found.last_mut()) {
            match indented {
                Some(line) => last.1 += &format!("{line}\n"),
                None if line.is_empty() => last.1.push('\n'),
                None => is_inside = false,
            }
        }
    }
    for (_, text) in &mut found {
        *text = text.trim_end().to_string();
    }
    found
}

#[test]
fn readme_shows_what_is_printed() {
    let shown = blocks(&package().join("../README.md"));
    assert!(shown.len() >= 3, "{shown:?}");
    for command in ["show", "plan", "recover"] {
        assert!(
            shown.iter().any(|(line, _)| line.starts_with(command)),
            "{command}"
        );
    }
    let folder = Folder::new();
    stored().write(&folder);
    for (line, expected) in shown {
        let arguments: Vec<&str> = line.split(' ').collect();
        let output = rope(&folder, &arguments);
        assert!(output.stderr.is_empty(), "{line}: {}", stderr(&output));
        let printed = stdout(&output);
        // Two dots stand for lines that are left out.
        match expected.strip_prefix("..\n") {
            Some(end) => assert!(printed.trim_end().ends_with(end), "{line}\n{printed}"),
            None => assert_eq!(printed.trim_end(), expected, "{line}"),
        }
    }
}
