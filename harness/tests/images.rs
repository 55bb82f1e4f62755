//! The proved calls about one image against the model's, on generated images: the same answers, the
//! same bytes in everything that was lent, and nothing written outside.

use harness::compare::agree;
use harness::comparisons::images::{self, compare, compare_read, compare_witness_read};
use harness::comparisons::ENOUGH;
use harness::generate::{image_calls, ImageCalls, Rng};
use harness::model::{image_len, Shape, LAST_INDEX, MAX_SLOTS};
use harness::property::case_rng;
use harness::tally::Tally;

/// `harness compare` makes as many as are asked for.
const IMAGES: u64 = 500_000;
const _: () = assert!(IMAGES >= ENOUGH);

#[test]
fn images() {
    images::images(1, IMAGES);
}

#[test]
fn images_of_every_slot_count() {
    for m in 1..=MAX_SLOTS {
        let mut tally = Tally::default();
        for number in 0..12 {
            let mut rng = case_rng(2, 100 * number + m as u64);
            let calls = image_calls(&mut rng, m);
            compare(&mut rng, &calls, &mut tally);
        }
        let read = tally.of("read", 0) + tally.of("witness read", 0);
        assert!(read > 0, "none of {m} slots is read");
    }
}

/// A log is made and filled, every image on the way is compared, and it is full.
#[test]
fn filled_logs() {
    for m in 1..=MAX_SLOTS {
        fill_log(Shape::edition_1(5, m), 1);
        // The last slot has the last index.
        fill_log(Shape::edition_2(5, m), LAST_INDEX - (m as u32 - 1));
    }
}

/// The same of a witness.
#[test]
fn filled_logs_of_witnesses() {
    for m in 1..=MAX_SLOTS {
        let (one, two) = (Shape::edition_1(5, m), Shape::edition_2(5, m));
        let witnesses = 1 << (m % 5);
        fill_witness(one.with_witnesses(witnesses), 1);
        let first = LAST_INDEX - (m as u32 - 1);
        fill_witness(two.with_witnesses(witnesses), first);
    }
}

/// The calls about a log that is yet to be made, of replica 1 to 5.
fn calls_of(shape: Shape, first: u32) -> ImageCalls {
    let (m, replica) = (shape.m, 1 + shape.m % 5);
    ImageCalls {
        shape,
        replica,
        image: vec![0; image_len(shape, replica)],
        first,
        epochs: m,
        verdicts: m,
        epoch: 0,
        payload: Vec::new(),
    }
}

fn fill_witness(shape: Shape, first: u32) {
    let m = shape.m;
    let mut rng = case_rng(4, m as u64);
    let mut calls = calls_of(shape, first);
    let format = agree(&mut rng, &calls.format());
    calls.image.copy_from_slice(format.bytes("image"));
    for expected in 1..=m {
        calls.epoch += rng.below(3) as u32 + u32::from(expected == 1);
        let mut tally = Tally::default();
        assert_eq!(compare_witness_read(&mut rng, &calls, &mut tally), 0);
        let append = agree(&mut rng, &calls.witness_append());
        assert_eq!(append.number("slot"), expected as u64);
        calls.image.copy_from_slice(append.bytes("image"));
    }
    let mut tally = Tally::default();
    compare(&mut rng, &calls, &mut tally);
    let counts = [tally.of("witness read", 0), tally.of("witness append", 10)];
    assert_eq!((counts, tally.of("read", 3)), ([1, 1], 1));
}

fn fill_log(shape: Shape, first: u32) {
    let m = shape.m;
    let mut rng = case_rng(3, m as u64);
    let mut calls = calls_of(shape, first);
    let format = agree(&mut rng, &calls.format());
    calls.image.copy_from_slice(format.bytes("image"));
    for expected in 1..=m {
        calls.epoch += rng.below(3) as u32 + u32::from(expected == 1);
        calls.payload = vec![b'7'; rng.below(201)];
        let mut tally = Tally::default();
        compare_read(&mut rng, &calls, &mut tally);
        assert_eq!(tally.of("read", 0), 1);
        let append = agree(&mut rng, &calls.append());
        assert_eq!(append.number("slot"), expected as u64);
        calls.image.copy_from_slice(append.bytes("image"));
    }
    let mut tally = Tally::default();
    compare(&mut rng, &calls, &mut tally);
    assert_eq!((tally.of("read", 0), tally.of("append", 10)), (1, 1));
    let payloads = [tally.of("payload", 0), tally.of("payload", 1)];
    assert_eq!(payloads, [3, m as u64]);
}

/// An empty payload stands at its offset.
#[test]
fn an_empty_payload() {
    let calls = ImageCalls {
        shape: Shape::edition_1(3, 1),
        replica: 1,
        first: 1,
        image: b"rope  1  1  3  1  607126397\n          7          1  551224041\n          7          1   0  768541561\n                                                                                                                                                                                                          ".to_vec(),
        epochs: 1,
        verdicts: 1,
        epoch: 7,
        payload: b"\x80\"".to_vec(),
    };
    let mut rng = Rng::new(1);
    let payload = agree(&mut rng, &calls.payload(1));
    assert_eq!((payload.number("at"), payload.number("size")), (88, 0));
    let append = agree(&mut rng, &calls.append());
    assert_eq!(append.answer.code(), 10);
}
