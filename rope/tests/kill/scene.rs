//! A cluster whose recovery has every kind of store, and recoveries that are interrupted.

use ropelog::Geometry;

use crate::common::{card_name, Cards, Folder};
use crate::program::{killed, watched, Event, How, Program};

/// Three cabinets with 16 places. The lead's place 16 is cut, its place 2 fetched and its line 3 lost; cabinet 2 has
/// damage and lacks places from 13 on; cabinet 3 has readings of another lead from 14 on. So lines 15 are blanked
/// and added, which lie in two blocks.
pub fn scene() -> Cards {
    let mut cards = Cards::fresh(Geometry::new(3, 16).unwrap(), 1);
    for number in 1..=3 {
        let own = match number {
            1 => 16,
            2 => 12,
            _ => 13,
        };
        for slot in 1..=own {
            cards.append(
                number,
                1,
                format!("metre {}, wire broken", 1200 + slot).as_bytes(),
            );
        }
    }
    for _ in 14..=16 {
        cards.append(3, 2, b"of another lead");
    }
    cards.spoil_entry(1, 16);
    cards.spoil_entry(1, 2);
    cards.spoil_record(1, 3);
    cards.spoil_entry(2, 5);
    cards
}

/// The lead's place 15 is damaged and nobody else has it, so its line is blanked beside a cell that is no reading. Torn
/// there, it would make the whole card unreadable.
pub fn cut_scene() -> Cards {
    let mut cards = Cards::fresh(Geometry::new(3, 16).unwrap(), 1);
    for number in 1..=3 {
        for _ in 1..=14 {
            cards.append(number, 1, b"metre 1204, wire broken");
        }
    }
    cards.append(1, 1, b"metre 1223, wire broken");
    cards.append(1, 1, b"metre 1225, no signal");
    cards.spoil_entry(1, 15);
    cards
}

/// The cards in a folder, recovered without an interruption; what was done on the way.
pub fn uninterrupted(
    folder: &Folder,
    cards: &Cards,
    program: Program,
) -> (Vec<Vec<u8>>, Vec<Event>) {
    let (expected, stores) = cards.recovered().expect("a cluster that is recovered");
    cards.write(folder);
    let (output, events) = watched(folder, program.recover(cards));
    assert!(output.status.success(), "{output:?}");
    assert!(cards.read(folder) == expected.images, "not the proved run");
    let writes = |event: &&Event| event.kind == "write";
    assert!(events.iter().filter(writes).count() as u64 >= stores);
    (expected.images, events)
}

pub fn has_intents(events: &[Event]) -> bool {
    events.iter().any(|event| event.kind == "make")
}

/// The part of an entry or an intent that is torn has any length; a record that lies in one block is old or new.
fn is_torn_anywhere(event: &Event) -> bool {
    let is_record = event.length == ropelog::RECORD_LEN;
    !is_record || event.at / 512 != (event.at + event.length - 1) / 512
}

/// The lengths of a part that an event can leave.
pub fn parts(events: &[Event], at: usize) -> Vec<usize> {
    let event = match events[at].kind.as_str() {
        "write" => &events[at],
        // What a sync has to bring to the disk is what was written just before it.
        "sync" if events[at].length > 0 => match events[..at].last() {
            Some(before) if before.kind == "write" => before,
            _ => return vec![0],
        },
        _ => return vec![0],
    };
    let (length, half) = (event.length, event.length / 2);
    if is_torn_anywhere(event) {
        vec![0, 1, half, length - 1, length]
    } else {
        vec![0, length]
    }
}

/// Killed once there, and started again by either program.
pub fn killed_once(folder: &Folder, cards: &Cards, programs: [Program; 2], at: usize, how: How) {
    cards.write(folder);
    killed(folder, programs[0].recover(cards), at, how);
    let (output, _) = watched(folder, programs[1].recover(cards));
    assert!(output.status.success(), "{at} {how:?}: {output:?}");
}

/// A recovery that was killed inside the write of a record in two blocks, and the number of the card that has it.
pub fn torn_record(folder: &Folder, cards: &Cards) -> usize {
    let (_, events) = uninterrupted(folder, cards, Program::Rope);
    let made = events
        .iter()
        .position(|event| event.kind == "make")
        .expect("an intent");
    let record = made
        + events[made..]
            .iter()
            .position(|event| event.length == 34)
            .expect("a record");
    cards.write(folder);
    killed(
        folder,
        Program::Rope.recover(cards),
        record,
        How::Inside(20),
    );
    card_with_intent(folder, cards)
}

/// A recovery that was killed when its nth intent was on the disk and the record not yet written; the card.
pub fn declared(folder: &Folder, cards: &Cards, nth: usize) -> usize {
    let (_, events) = uninterrupted(folder, cards, Program::Rope);
    let mut makes = (0..events.len()).filter(|&at| events[at].kind == "make");
    let made = makes.nth(nth - 1).expect("an intent");
    cards.write(folder);
    killed(folder, Program::Rope.recover(cards), made + 3, How::After);
    card_with_intent(folder, cards)
}

pub fn card_with_intent(folder: &Folder, cards: &Cards) -> usize {
    let has_intent = |number: &usize| {
        folder
            .file(&format!("{}.intent", card_name(*number)))
            .exists()
    };
    (1..=cards.images.len())
        .find(has_intent)
        .expect("an intent")
}
