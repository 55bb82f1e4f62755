//! What a recovery does to its files, one thing after another.

use ropelog::{step, StepAnswer, StoreKind};

use crate::common::{card_name, generated, Cards, Folder, Kinds, Rng};
use crate::program::{Event, Program};
use crate::scene::{has_intents, uninterrupted};

/// What the stores of the proved steps are on files: each one write and a sync before the next, a record in two
/// blocks by way of its intent.
fn expected_events(cards: &Cards, folder: &Folder) -> Vec<Event> {
    let (geometry, mut cluster) = (cards.geometry, cards.cluster());
    let leader = geometry.replica(cards.leader).unwrap();
    let header = geometry.header_len();
    // What a program that was killed left unsynced is on the disk first.
    let synced = |number: &usize| Event {
        kind: "sync".to_string(),
        at: 0,
        length: 0,
        file: card_name(*number),
    };
    let mut events: Vec<Event> = cards.present.iter().map(synced).collect();
    while let StepAnswer::Stored(store) =
        step(&mut cluster, geometry, leader, cards.present_set()).unwrap()
    {
        let card = card_name(store.replica.number());
        let intent = format!("{card}.intent");
        let place = folder.path().file_name().unwrap().to_str().unwrap();
        let mut event = |kind: &str, at: usize, length: usize, file: &str| {
            events.push(Event {
                kind: kind.to_string(),
                at,
                length,
                file: file.to_string(),
            });
        };
        let range = match store.kind {
            StoreKind::Entry => geometry.entry_range(store.slot),
            _ => geometry.record_range(store.slot),
        };
        let is_by_intent = range.len() == 34 && range.start / 512 != (range.end - 1) / 512;
        if is_by_intent {
            event("make", 0, 0, &intent);
            event("write", 0, header + 95, &intent);
            event("sync", 0, header + 95, &intent);
            event("sync-folder", 0, 0, place);
        }
        event("write", range.start, range.len(), &card);
        event("sync", 0, range.len(), &card);
        if is_by_intent {
            event("remove", 0, 0, &intent);
            event("sync-folder", 0, 0, place);
        }
    }
    events
}

/// Each store is one write of its bytes to its card alone, and a sync before the next.
#[test]
fn every_store_is_on_its_card_before_the_next() {
    let folder = Folder::new();
    let mut by_intent = 0;
    for case in 0..200 {
        let mut rng = Rng::new(90_000 + case);
        let (program, kinds) =
            rng.pick(&[(Program::Rope, Kinds::Any), (Program::CardsC, Kinds::Plain)]);
        let cards = generated(&mut rng, kinds);
        if cards.recovered().is_none() {
            continue;
        }
        let (_, events) = uninterrupted(&folder, &cards, program);
        let expected = expected_events(&cards, &folder);
        let differs = events
            .iter()
            .zip(&expected)
            .find(|(is, should)| is != should);
        assert_eq!(differs, None, "case {case}, {program:?}");
        assert_eq!(events.len(), expected.len(), "case {case}, {program:?}");
        by_intent += usize::from(has_intents(&events));
    }
    assert!(by_intent > 10, "{by_intent}");
}
