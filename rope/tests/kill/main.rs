//! Killed anywhere and started again: the bytes in the end are those of an uninterrupted run, and of the proved
//! run in memory.
//!
//! The kill is a real SIGKILL, made by `shim.c` at a write, a sync, or where a file is made or removed: before
//! it, inside it or after it. `ROPE_KILL_CASES` gives the number of generated cases; the gate has 1,000.

mod append_and_format;
#[path = "../common/mod.rs"]
mod common;
mod intents;
mod program;
mod scene;
mod stores;

use std::fs;
use std::thread;

use common::{card_name, generated, stderr, Cards, Folder, Kinds, Rng};
use program::{failed, killed, stopped, watched, Event, How, Program};
use scene::{cut_scene, has_intents, killed_once, parts, scene, uninterrupted};

/// Every event of a recovery, before, inside and after. Answers the number of kills.
fn killed_at_every_event(cards: &Cards, programs: [Program; 2]) -> usize {
    let folder = Folder::new();
    let (expected, events) = uninterrupted(&folder, cards, programs[0]);
    let mut kills = 0;
    for at in 0..events.len() {
        let inside = parts(&events, at).into_iter().map(How::Inside);
        for how in inside.chain([How::Before, How::After]) {
            killed_once(&folder, cards, programs, at, how);
            assert!(
                cards.read(&folder) == expected,
                "{at} {how:?} {:?}",
                events[at]
            );
            kills += 1;
        }
    }
    kills
}

#[test]
fn killed_at_every_event_of_a_recovery() {
    for cards in [scene(), cut_scene()] {
        let (_, events) = uninterrupted(&Folder::new(), &cards, Program::Rope);
        assert!(has_intents(&events), "{events:?}");
        let kills = killed_at_every_event(&cards, [Program::Rope; 2]);
        assert!(kills >= 2 * events.len(), "{kills}");
    }
}

#[test]
fn the_c_program_killed_at_every_event() {
    for cards in [scene(), cut_scene()] {
        let (_, events) = uninterrupted(&Folder::new(), &cards, Program::CardsC);
        assert!(has_intents(&events), "{events:?}");
        killed_at_every_event(&cards, [Program::CardsC; 2]);
    }
}

/// What one program was interrupted at the other one finishes.
#[test]
fn killed_and_gone_on_with_by_the_other_program() {
    for cards in [scene(), cut_scene()] {
        killed_at_every_event(&cards, [Program::Rope, Program::CardsC]);
        killed_at_every_event(&cards, [Program::CardsC, Program::Rope]);
    }
}

/// A call of the system that fails ends the program with 1 and a message, and the next start finishes the work.
#[test]
fn a_failing_disk_at_every_event() {
    const NO_SPACE: i32 = 28;
    const BAD_DISK: i32 = 5;
    let cards = scene();
    let folder = Folder::new();
    for program in [Program::Rope, Program::CardsC] {
        let (expected, events) = uninterrupted(&folder, &cards, program);
        for (at, error) in (0..events.len()).flat_map(|at| [(at, NO_SPACE), (at, BAD_DISK)]) {
            cards.write(&folder);
            let output = failed(&folder, program.recover(&cards), at, error);
            assert_eq!(output.status.code(), Some(1), "{at}: {output:?}");
            assert!(stderr(&output).contains("card"), "{at}: {output:?}");
            let (output, _) = watched(&folder, program.recover(&cards));
            assert!(output.status.success(), "{at}: {output:?}");
            assert!(cards.read(&folder) == expected, "{at}");
        }
    }
}

/// Somebody else writes to a card in the middle of a recovery: it stops before its next store, what they wrote stays,
/// and nothing else is stored.
#[test]
fn a_card_that_is_changed_in_the_middle() {
    let (cards, folder) = (scene(), Folder::new());
    let (_, events) = uninterrupted(&folder, &cards, Program::Rope);
    let syncs = (cards.present.len()..events.len()).filter(|&at| events[at].kind == "sync");
    for at in syncs {
        for number in 1..=3 {
            cards.write(&folder);
            let file = folder.file(&card_name(number));
            let output = stopped(&folder, Program::Rope.recover(&cards), at, || {
                let mut bytes = fs::read(&file).unwrap();
                *bytes.last_mut().unwrap() ^= 1;
                fs::write(&file, bytes).unwrap();
            });
            assert_eq!(output.status.code(), Some(1), "{at}: {output:?}");
            let words = format!(
                "{}: was changed by somebody else meanwhile",
                card_name(number)
            );
            assert!(stderr(&output).contains(&words), "{at}: {output:?}");
            let left = fs::read(&file).unwrap();
            let before = &cards.images[number - 1];
            assert!(left.last() != before.last(), "{at}: it was written over");
        }
    }
}

/// One entry torn at every byte boundary, by a write that ends there and by a power failure that keeps the old bytes
/// before it; one record in two blocks likewise, and its intent.
#[test]
fn torn_at_every_byte_boundary() {
    let first = |events: &[Event], length: usize| {
        let mut numbers = 0..events.len();
        numbers.find(|&at| events[at].length == length)
    };
    torn_at_every_byte(&scene(), |events| first(events, 240).expect("an entry"));
    torn_at_every_byte(&cut_scene(), |events| {
        first(events, 123).expect("an intent")
    });
    torn_at_every_byte(&cut_scene(), |events| {
        let intent = first(events, 123).expect("an intent");
        intent + first(&events[intent..], 34).expect("its record")
    });
}

/// The write that is picked and the sync behind it, torn at every byte.
fn torn_at_every_byte(cards: &Cards, pick: impl Fn(&[Event]) -> usize) {
    let folder = Folder::new();
    let (expected, events) = uninterrupted(&folder, cards, Program::Rope);
    let at = pick(&events);
    let kinds = (&*events[at].kind, &*events[at + 1].kind);
    assert_eq!(kinds, ("write", "sync"));
    for event in [at, at + 1] {
        for part in 0..=events[at].length {
            let how = How::Inside(part);
            killed_once(&folder, cards, [Program::Rope; 2], event, how);
            assert!(cards.read(&folder) == expected, "{event} {part}");
        }
    }
}

/// Generated clusters, killed up to three times in a row, each time anywhere.
#[test]
fn killed_anywhere_in_generated_recoveries() {
    let cases = std::env::var("ROPE_KILL_CASES");
    let cases: u64 = cases.map_or(1000, |text| text.parse().expect("a number of cases"));
    let threads = thread::available_parallelism().map_or(2, |number| number.get() as u64);
    thread::scope(|scope| {
        for thread in 0..threads {
            scope.spawn(move || {
                let folder = Folder::new();
                for case in (0..cases).filter(|case| case % threads == thread) {
                    generated_case(&folder, case);
                }
            });
        }
    });
}

fn generated_case(folder: &Folder, case: u64) {
    let mut rng = Rng::new(case);
    let program = rng.pick(&[Program::Rope, Program::Rope, Program::CardsC]);
    let kinds = match program {
        Program::Rope => Kinds::Any,
        Program::CardsC => Kinds::Plain,
    };
    let cards = loop {
        let cards = generated(&mut rng, kinds);
        if cards.recovered().is_some_and(|(_, stores)| stores > 0) {
            break cards;
        }
    };
    let (expected, mut events) = uninterrupted(folder, &cards, program);
    cards.write(folder);
    for _ in 0..=rng.below(3) {
        if events.is_empty() {
            break;
        }
        let at = rng.below(events.len());
        let how = match rng.below(3) {
            0 => How::Before,
            1 => How::After,
            _ => How::Inside(rng.pick(&parts(&events, at))),
        };
        killed(folder, program.recover(&cards), at, how);
        events = left(folder, &cards, program);
    }
    let (output, _) = watched(folder, program.recover(&cards));
    assert!(output.status.success(), "case {case}: {output:?}");
    assert!(cards.read(folder) == expected, "case {case}");
}

/// What a recovery of the cards as they are now does, tried on a copy.
fn left(folder: &Folder, cards: &Cards, program: Program) -> Vec<Event> {
    let copy = Folder::new();
    for name in folder.names() {
        fs::copy(folder.file(&name), copy.file(&name)).unwrap();
    }
    watched(&copy, program.recover(cards)).1
}
