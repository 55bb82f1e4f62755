//! `rope plan`: words that say what the proved planner says, and the printing program's numbers.

mod common;

use std::collections::BTreeMap;
use std::fs;
use std::io::Write;
use std::path::{Path, PathBuf};
use std::process::{Command, Stdio};

use common::{card_name, generated, rope, stderr, stdout, Cards, Folder, Kinds, Rng};
use ropelog::{plan, Geometry, Plan, PlanAction, PlanAnswer, Refusal};

fn repository() -> PathBuf {
    Path::new(env!("CARGO_MANIFEST_DIR")).join("..")
}

fn planned(cards: &Cards) -> Result<Plan, Refusal> {
    let leader = cards.geometry.replica(cards.leader).unwrap();
    plan(
        &cards.cluster(),
        cards.geometry,
        leader,
        cards.present_set(),
    )
}

fn called(folder: &Folder, cards: &Cards, more: &[&str]) -> (Option<i32>, String) {
    let arguments = cards.arguments();
    let mut all = vec!["plan"];
    all.extend(arguments.iter().map(String::as_str));
    all.extend(more);
    let output = rope(folder, &all);
    assert!(output.stderr.is_empty(), "{all:?}: {}", stderr(&output));
    (output.status.code(), stdout(&output))
}

/// The cards of a stored sample, as the line before them names them.
fn sample(name: &str) -> (Cards, Vec<u8>) {
    let input = fs::read(repository().join(format!("samples/{name}.in"))).unwrap();
    let number = |range: std::ops::Range<usize>| {
        let text = std::str::from_utf8(&input[range]).unwrap().trim();
        text.parse::<usize>().ok()
    };
    let (n, m, leader) = (
        number(0..3).unwrap(),
        number(3..6).unwrap(),
        number(6..9).unwrap(),
    );
    let set = number(9..13).unwrap_or(1 << (leader - 1));
    let geometry = Geometry::new(n, m).unwrap();
    let image = |replica| input[14..][geometry.image_range(replica)].to_vec();
    let cards = Cards {
        geometry,
        images: geometry.replicas().map(image).collect(),
        leader,
        present: (1..=n).filter(|c| set >> (c - 1) & 1 == 1).collect(),
    };
    (cards, input)
}

fn sample_names() -> Vec<String> {
    let files = fs::read_dir(repository().join("samples")).unwrap();
    let names = files.map(|file| file.unwrap().file_name().into_string().unwrap());
    names
        .filter_map(|name| name.strip_suffix(".in").map(str::to_string))
        .collect()
}

#[test]
fn the_numbers_of_every_sample_are_the_stored_ones() {
    let folder = Folder::new();
    let names = sample_names();
    assert!(names.len() >= 10);
    for name in names {
        let (cards, _) = sample(&name);
        cards.write(&folder);
        let (code, text) = called(
            &folder,
            &cards,
            &[
                "--numbers",
                "--of",
                &cards.geometry.replica_count().to_string(),
            ],
        );
        let stored = fs::read_to_string(repository().join(format!("samples/{name}.plan"))).unwrap();
        assert_eq!(text, stored, "{name}");
        let expected = match stored.split_whitespace().collect::<Vec<_>>()[..] {
            ["refused", ..] => 3,
            [_, _, "1", ..] => 4,
            _ => 0,
        };
        assert_eq!(code, Some(expected), "{name}");
    }
}

/// What the built printing program prints of the same cards.
fn printed(cards: &Cards) -> String {
    let program = repository().join("target/bin/ropeplan");
    assert!(
        program.is_file(),
        "{} is missing: run `.ci/build` first",
        program.display()
    );
    let mut input = format!(
        "{:>3}{:>3}{:>3}{:>4}\n",
        cards.geometry.replica_count(),
        cards.geometry.slot_count(),
        cards.leader,
        cards.present_set().word()
    )
    .into_bytes();
    // The program takes at most 65,536 bytes, and refuses more by 3.
    input.extend(cards.cluster());
    let mut child = Command::new(program)
        .stdin(Stdio::piped())
        .stdout(Stdio::piped())
        .spawn()
        .unwrap();
    // It may have read enough before all is written.
    let _ = child.stdin.take().unwrap().write_all(&input);
    stdout(&child.wait_with_output().unwrap())
}

#[test]
fn the_numbers_of_generated_cards_are_the_printing_programs() {
    let folder = Folder::new();
    let mut starts: BTreeMap<String, usize> = BTreeMap::new();
    let mut too_long = 0;
    for case in 0..300 {
        let cards = generated(&mut Rng::new(case), Kinds::Plain);
        cards.write(&folder);
        let (n, m) = (
            cards.geometry.replica_count().to_string(),
            cards.geometry.slot_count().to_string(),
        );
        let (_, text) = called(&folder, &cards, &["--numbers", "--of", &n, "--places", &m]);
        assert_eq!(text, printed(&cards), "case {case}");
        let status = text.split_whitespace().nth(2).unwrap_or("refused");
        *starts.entry(status.to_string()).or_default() += 1;
        too_long += usize::from(cards.geometry.cluster_len() + 14 > 65_536);
    }
    // Ready, waiting and refused all come up, and so does a cluster that is too long for it.
    assert!(too_long > 5, "{too_long}");
    assert!(
        starts.len() == 3 && starts.values().all(|&count| count > 5),
        "{starts:?}"
    );
}

/// The words of a place say its action; the last lines say ready or waiting; the exit code too.
#[test]
fn the_words_are_the_plans() {
    let folder = Folder::new();
    let mut seen: BTreeMap<&str, usize> = BTreeMap::new();
    for case in 1000..1300 {
        let cards = generated(&mut Rng::new(case), Kinds::Any);
        cards.write(&folder);
        let numbers = cards.numbers();
        let numbers: Vec<&str> = numbers.iter().map(String::as_str).collect();
        let (code, text) = called(&folder, &cards, &numbers);
        let plan = match planned(&cards) {
            Ok(plan) => plan,
            Err(refusal) => {
                assert_eq!(code, Some(3));
                let words = format!("The plan is refused by {}: ", refusal.number());
                assert!(text.contains(&words), "{text}");
                continue;
            }
        };
        match plan.answer() {
            PlanAnswer::Ready { length } => {
                assert_eq!(code, Some(0));
                assert!(text.contains(&format!("Ready: the log will have {length} reading")));
            }
            PlanAnswer::Waiting { slot } => {
                assert_eq!(code, Some(4));
                assert!(text.contains(&format!("Waiting for place {slot}: nothing is written.")));
            }
        }
        for (at, action) in plan.actions().iter().enumerate() {
            let (slot, line) = (at + 1, line_of(&text, at + 1));
            let words = words_of(*action);
            match (words, line) {
                (None, line) => assert_eq!(line, None, "{case} {slot}"),
                (Some(words), Some(line)) => {
                    assert!(line.starts_with(&words), "{case} {slot}: {line}");
                    *seen.entry(key(*action)).or_default() += 1;
                }
                (Some(_), None) => panic!("{case}: no line for place {slot}\n{text}"),
            }
        }
    }
    assert_eq!(seen.len(), 6, "{seen:?}");
}

fn words_of(action: PlanAction) -> Option<String> {
    Some(match action {
        PlanAction::Unused => return None,
        PlanAction::Whole => "nothing to do".to_string(),
        PlanAction::RewriteRecord => "write the line anew".to_string(),
        PlanAction::Wait => "wait".to_string(),
        PlanAction::Truncate => "cut here".to_string(),
        PlanAction::TruncatedAfter => "cut with it".to_string(),
        PlanAction::Fetch(from) => format!("fetch from cabinet {}", from.number()),
        _ => panic!("a new action"),
    })
}

fn key(action: PlanAction) -> &'static str {
    match action {
        PlanAction::Whole => "whole",
        PlanAction::RewriteRecord => "record",
        PlanAction::Wait => "wait",
        PlanAction::Truncate => "cut",
        PlanAction::TruncatedAfter => "after",
        _ => "fetch",
    }
}

/// What the line of a place says behind its epoch. In a log that begins later the place has its reading's number.
fn line_of(text: &str, slot: usize) -> Option<String> {
    let table = text.split("  place       epoch  plan\n").nth(1)?;
    let table = table.split("\n\n").next()?;
    table.lines().find_map(|line| {
        let (place, rest) = line.trim_start().split_once("  ")?;
        let place = place.split(',').next()?;
        if place != slot.to_string() {
            return None;
        }
        let (_, words) = rest.trim_start().split_once("  ")?;
        Some(words.to_string())
    })
}

/// What is said of the end of a wait is so: with the reading a named cabinet ends it, and without it a cut comes
/// exactly when it is said to.
#[test]
fn what_would_end_a_wait_ends_it() {
    let folder = Folder::new();
    let (mut fetched, mut cut, mut not_cut) = (0, 0, 0);
    for case in 2000..3200 {
        let cards = generated(&mut Rng::new(case), Kinds::Any);
        let Some((slot, away)) = waiting_for(&cards) else {
            continue;
        };
        cards.write(&folder);
        let (_, text) = called(&folder, &cards, &[]);
        let start = format!("  place {slot}: ");
        let (_, told) = text.split_once(&start).expect("what ends it");
        let mut told = told.lines();
        let (who, how) = (told.next().unwrap(), told.next().unwrap_or(""));
        let line = &format!("{who}: {}", how.trim_start());
        if away.is_empty() {
            assert!(line.starts_with("every cabinet has answered"), "{line}");
            continue;
        }
        let named = format!("switch on or make readable {}: ", cabinets(&away));
        assert!(line.starts_with(&named), "case {case}: {line}");
        let is_card = |number: &&usize| {
            !cards
                .geometry
                .is_witness(cards.geometry.replica(**number).unwrap())
        };
        for number in away.iter().filter(is_card) {
            let with = with_reading(&cards, *number, slot);
            assert!(
                matches!(
                    planned(&with).unwrap().action(slot),
                    Some(PlanAction::Fetch(_))
                ),
                "case {case}"
            );
            fetched += 1;
        }
        let needed = if line.contains("would not be enough") {
            assert!(
                action_without(&cards, &away, slot) == PlanAction::Wait,
                "case {case}"
            );
            not_cut += 1;
            continue;
        } else if line.ends_with("if it never had it the place is cut") {
            1
        } else if line.contains("if none of them ever had it") {
            away.len()
        } else if line.contains("if one of them never had it") {
            1
        } else {
            let number = line.split("if ").last().unwrap().split(' ').next().unwrap();
            number.parse().unwrap()
        };
        assert!(
            action_without(&cards, &away[..needed], slot) == PlanAction::Truncate,
            "case {case}: {line}"
        );
        if needed > 1 {
            assert!(
                action_without(&cards, &away[..needed - 1], slot) == PlanAction::Wait,
                "case {case}: {line}"
            );
        }
        cut += 1;
    }
    assert!(
        fetched > 20 && cut > 20 && not_cut > 5,
        "{fetched} {cut} {not_cut}"
    );
}

/// The lowest waiting place, and the cabinets that do not answer.
fn waiting_for(cards: &Cards) -> Option<(usize, Vec<usize>)> {
    let plan = planned(cards).ok()?;
    let PlanAnswer::Waiting { slot } = plan.answer() else {
        return None;
    };
    let rows = plan.rows();
    let away = (1..=rows.len()).filter(|c| !rows[c - 1].readable).collect();
    Some((slot, away))
}

fn cabinets(numbers: &[usize]) -> String {
    let words: Vec<String> = numbers.iter().map(usize::to_string).collect();
    match words.split_last() {
        Some((last, [])) => format!("cabinet {last}"),
        Some((last, before)) => format!("cabinets {} and {last}", before.join(", ")),
        None => String::new(),
    }
}

/// The cards if a cabinet is switched on that has the lead's log, with a reading of its own at the place.
fn with_reading(cards: &Cards, number: usize, slot: usize) -> Cards {
    let mut with = switched_on(cards, &[number]);
    let leader = cards.geometry.replica(cards.leader).unwrap();
    let log = ropelog::read(&cards.images[cards.leader - 1], cards.geometry, leader).unwrap();
    for place in 1..=slot {
        with.append(
            number,
            log.slot(place).unwrap().epoch.unwrap().number(),
            b"the reading",
        );
    }
    with
}

/// What becomes of the place if these are switched on and never had anything.
fn action_without(cards: &Cards, numbers: &[usize], slot: usize) -> PlanAction {
    let with = switched_on(cards, numbers);
    planned(&with).unwrap().action(slot).unwrap()
}

/// The cards if these cabinets are on, with fresh cards.
fn switched_on(cards: &Cards, numbers: &[usize]) -> Cards {
    let leader = cards.geometry.replica(cards.leader).unwrap();
    let log = ropelog::read(&cards.images[cards.leader - 1], cards.geometry, leader).unwrap();
    let fresh = Cards::fresh(cards.geometry, log.first());
    let mut with = cards.clone();
    for &number in numbers {
        with.images[number - 1] = fresh.images[number - 1].clone();
        if !with.present.contains(&number) {
            with.present.push(number);
        }
    }
    with
}

#[test]
fn who_has_it_who_does_not_and_who_is_off() {
    let (cards, _) = sample("waiting");
    let folder = Folder::new();
    cards.write(&folder);
    let (code, text) = called(&folder, &cards, &[]);
    assert_eq!(code, Some(4));
    for words in [
        "5 cabinets with 4 places, edition 1. Cabinet 1 leads.",
        "  cabinet 1: 3 places used, last epoch 1, leads\n",
        "  cabinet 2: 2 places used, last epoch 1\n",
        "  cabinet 4: off\n",
        "  wait\n                     doubtful at the lead; damaged at cabinet 3 too; cabinet 2 never had it; \
         cabinets 4 and 5 are off\n",
        "  place 3: switch on or make readable cabinets 4 and 5\n           each of them ends the wait if it has \
         the reading whole; if none of them ever had it the place is cut\n\
         Until then leave all cards as they are, and format nothing.\n",
    ] {
        assert!(text.contains(words), "{words}\n{text}");
    }
}

/// Cards that are not given are off, and a fresh card is warned of.
#[test]
fn cards_that_are_not_given_and_fresh_ones() {
    let (cards, _) = sample("waiting");
    let folder = Folder::new();
    cards.write(&folder);
    let output = rope(
        &folder,
        &[
            "plan",
            &card_name(1),
            &card_name(2),
            &card_name(3),
            "--lead",
            "1",
        ],
    );
    assert_eq!(output.status.code(), Some(4));
    assert!(stdout(&output).contains("  cabinet 5: off: no card of it was given\n"));
    let mut swapped = cards.clone();
    swapped.images[3] = Cards::fresh(cards.geometry, 1).images[3].clone();
    swapped.present = vec![1, 2, 3, 4];
    swapped.write(&folder);
    let (_, text) = called(&folder, &swapped, &[]);
    assert!(
        text.contains("Note: the card of cabinet 4 is empty"),
        "{text}"
    );
    assert!(text.contains("--off 4"));
}

/// A witness box says itself that it is one; named as one, a damaged box is taken for what it is.
#[test]
fn witnesses_are_known_by_their_boxes() {
    let geometry = Geometry::new(3, 4).unwrap();
    let set = [geometry.replica(3).unwrap()].into_iter().collect();
    let geometry = geometry.with_witnesses(set);
    let bytes = fs::read(repository().join("samples/witness.cluster")).unwrap();
    let mut cards = Cards::fresh(geometry, 1);
    assert_eq!(bytes.len(), geometry.cluster_len());
    for replica in geometry.replicas() {
        cards.images[replica.number() - 1] = bytes[geometry.image_range(replica)].to_vec();
    }
    let folder = Folder::new();
    cards.write(&folder);
    let (code, text) = called(&folder, &cards, &["--numbers"]);
    let stored = fs::read_to_string(repository().join("samples/witness.plan")).unwrap();
    assert_eq!((code, text), (Some(4), stored));
    let (_, text) = called(&folder, &cards, &[]);
    assert!(text.contains("  cabinet 3: witness box, "), "{text}");
    assert!(
        text.contains("cabinet 3, a witness box, has its line"),
        "{text}"
    );
    cards.spoil_header(3);
    cards.write(&folder);
    let (_, text) = called(&folder, &cards, &["--witness", "3"]);
    assert!(
        text.contains("  cabinet 3: unreadable, refused by 4: "),
        "{text}"
    );
    // Without that it is a card of the wrong length.
    let arguments = cards.arguments();
    let mut all = vec!["plan"];
    all.extend(arguments.iter().map(String::as_str));
    let output = rope(&folder, &all);
    assert_eq!(output.status.code(), Some(3));
    assert!(
        stderr(&output).contains("refused by 3: "),
        "{}",
        stderr(&output)
    );
    let output = rope(
        &folder,
        &["plan", "card1.img", "card2.img", "--lead=1", "--witness=2"],
    );
    assert_eq!(output.status.code(), Some(2));
}

#[test]
fn cards_that_do_not_belong_together() {
    let folder = Folder::new();
    let three = Cards::fresh(Geometry::new(3, 4).unwrap(), 1);
    three.write(&folder);
    let five = Cards::fresh(Geometry::new(5, 4).unwrap(), 1);
    fs::write(folder.file("five.img"), &five.images[4]).unwrap();
    fs::copy(folder.file("card2.img"), folder.file("copy.img")).unwrap();
    fs::hard_link(folder.file("card2.img"), folder.file("link.img")).unwrap();
    let code_of = |arguments: &[&str]| {
        let output = rope(&folder, arguments);
        assert!(output.stdout.is_empty(), "{}", stdout(&output));
        (output.status.code(), stderr(&output))
    };
    let (code, text) = code_of(&["plan", "card1.img", "five.img", "--lead=1"]);
    assert!(
        code == Some(3) && text.contains("not of one fleet"),
        "{text}"
    );
    let (code, text) = code_of(&["plan", "card1.img", "card2.img", "copy.img", "--lead=1"]);
    assert!(
        code == Some(2) && text.contains("are both of cabinet 2"),
        "{text}"
    );
    let (code, text) = code_of(&["plan", "card1.img", "card2.img", "link.img", "--lead=1"]);
    assert!(code == Some(2) && text.contains("are one file"), "{text}");
    fs::write(folder.file("noise.img"), [7; 1124]).unwrap();
    let (code, text) = code_of(&["plan", "noise.img", "--lead=1"]);
    assert!(
        code == Some(3) && text.contains("--of N and --places M"),
        "{text}"
    );
    let output = rope(
        &folder,
        &["plan", "card1.img", "card2.img", "noise.img", "--lead=1"],
    );
    assert_eq!(output.status.code(), Some(0));
    let text = stdout(&output);
    assert!(
        text.contains("noise.img: refused by 4: ") && text.contains("It counts as off"),
        "{text}"
    );
}
