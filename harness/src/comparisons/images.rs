//! The calls about one image.

use super::{before, first_kind, one_of, FIRST_KINDS};
use crate::compare::{agree, Outcome};
use crate::generate::{image_calls, ImageCalls, Rng};
use crate::model::read::check_numbers;
use crate::model::{card_len, image_len, index_of, witness_len, Shape, MAX_SLOTS};
use crate::tally::{each_case, Tally};

/// Makes all calls by both, those about cards and those about witnesses.
pub fn compare(rng: &mut Rng, calls: &ImageCalls, tally: &mut Tally) {
    let read = compare_read(rng, calls, tally);
    for slot in 0..=calls.shape.m.min(MAX_SLOTS) + 1 {
        compare_payload(rng, calls, slot, tally);
    }
    let has = compare_payload(rng, calls, usize::MAX, tally);
    let append = agree(rng, &calls.append()).answer.code();
    tally.count("append", append);
    let format = agree(rng, &calls.format());
    tally.count("format", format.answer.code());
    count_format(calls, &format, tally);
    let witness_read = compare_witness_read(rng, calls, tally);
    let witness_append = agree(rng, &calls.witness_append()).answer.code();
    tally.count("witness append", witness_append);
    let of_cards = [read, has, append];
    count_wrong_kind(calls, &of_cards, &[witness_read, witness_append], tally);
}

/// Reads by both as a witness's image, and answers the refusal.
pub fn compare_witness_read(rng: &mut Rng, calls: &ImageCalls, tally: &mut Tally) -> usize {
    let read = agree(rng, &calls.witness_read());
    let refusal = read.answer.code();
    tally.count("witness read", refusal);
    if refusal == 0 {
        let first = read.number("first") as u32;
        tally.count("witness edition", calls.shape.edition);
        tally.count("witness first", first_kind(calls.shape, first));
    }
    refusal
}

/// The calls for the other kind of image are refused by 3, behind 1 and 2. It is counted whether the
/// replica is a witness, and whether the image has the length that they would take.
fn count_wrong_kind(
    calls: &ImageCalls,
    of_cards: &[usize],
    of_witnesses: &[usize],
    tally: &mut Tally,
) {
    let ImageCalls { shape, replica, .. } = *calls;
    if check_numbers(shape, replica).is_err() {
        return;
    }
    let (kind, refusals, length) = if shape.is_witness(replica) {
        (2, of_cards, card_len(shape))
    } else {
        (0, of_witnesses, witness_len(shape))
    };
    assert!(refusals.iter().all(|&refusal| refusal == 3), "{calls:?}");
    let fits = usize::from(calls.image.len() == length);
    tally.count("wrong kind", kind + fits);
}

/// Which of its three ways 20 came in, and where an accepted log begins.
fn count_format(calls: &ImageCalls, format: &Outcome, tally: &mut Tally) {
    let (shape, first) = (calls.shape, calls.first);
    match format.answer.code() {
        0 => tally.count("fresh first", first_kind(shape, first)),
        20 => tally.count(
            "refused first",
            match (first, shape.edition) {
                (0, _) => 0,
                (_, 1) => 1,
                _ => 2,
            },
        ),
        _ => {}
    }
}

/// Reads by both as a card, and answers the refusal.
pub fn compare_read(rng: &mut Rng, calls: &ImageCalls, tally: &mut Tally) -> usize {
    let read = agree(rng, &calls.read());
    let refusal = read.answer.code();
    tally.count("read", refusal);
    if refusal == 0 {
        let first = read.number("first") as u32;
        tally.count("edition", calls.shape.edition);
        tally.count("first", first_kind(calls.shape, first));
        for &verdict in read.bytes("verdicts") {
            tally.count("verdict", usize::from(verdict));
        }
        compare_before(calls, &read, tally);
    } else if !(1..=2).contains(&calls.shape.edition) {
        tally.count("no edition", refusal);
    } else if (1..=MAX_SLOTS).contains(&calls.shape.m) && is_of_the_other_edition(calls) {
        tally.count("other edition", refusal);
    }
    refusal
}

/// Whether the image has the length of one of the other edition.
fn is_of_the_other_edition(calls: &ImageCalls) -> bool {
    let other = Shape {
        edition: 3 - calls.shape.edition,
        ..calls.shape
    };
    calls.image.len() == image_len(other, calls.replica)
}

/// Only 3 and 4 of document 01 became another verdict: 6, beside an entry that is intact.
fn compare_before(calls: &ImageCalls, read: &Outcome, tally: &mut Tally) {
    let (length, first) = (read.number("used") as usize, read.number("first") as u32);
    for (slot, &verdict) in (1..).zip(read.bytes("verdicts")) {
        let index = index_of(first, slot);
        let (before, intact) = before::verdict(&calls.image, calls.shape, length, slot, index);
        if intact && (before == 3 || before == 4) {
            assert_eq!(verdict, 6);
            tally.count("became stale", usize::from(before));
        } else {
            assert_eq!(verdict, before);
        }
    }
}

/// A slot is asked for, or one that there is not; answers the refusal.
fn compare_payload(rng: &mut Rng, calls: &ImageCalls, slot: usize, tally: &mut Tally) -> usize {
    let has = agree(rng, &calls.has_payload(slot));
    let payload = agree(rng, &calls.payload(slot));
    let found = has.answer.code() == 0 && has.number("has") == 1;
    assert_eq!(found, payload.number("at") != 0);
    tally.count("payload", usize::from(found));
    has.answer.code()
}

/// Mostly few slots, since each is asked for and each asking reads the image.
fn few_slots(rng: &mut Rng) -> usize {
    match rng.below(32) {
        0..=15 => 1,
        16..=25 => 2,
        26..=30 => 3,
        _ => rng.between(4, 8),
    }
}

/// Images of few slots.
pub fn images(seed: u64, images: u64) -> Tally {
    let tally = each_case(seed, images, |rng, tally| {
        let m = few_slots(rng);
        let calls = image_calls(rng, m);
        compare(rng, &calls, tally);
    });
    assert_eq!(tally.all("read"), images);
    let some = one_of(1000, images);
    tally.assert_each("read", &[0, 1, 2, 3, 4, 5, 6, 7, 13], some);
    let append = [0, 1, 2, 3, 4, 5, 6, 7, 8, 9, 10];
    tally.assert_each("append", &append, some);
    tally.assert_each("format", &[0, 1, 2, 3, 20], some);
    tally.assert_each("fresh first", &FIRST_KINDS, some);
    tally.assert_each("refused first", &[0, 1, 2], some);
    tally.assert_each("edition", &[1, 2], one_of(10, images));
    tally.assert_each("first", &FIRST_KINDS, some);
    tally.assert_each("no edition", &[2], some);
    tally.assert_each("other edition", &[3], some);
    tally.assert_each("verdict", &[0, 1, 2, 3, 4, 5, 6], some);
    tally.assert_each("became stale", &[3, 4], some);
    tally.assert_each("payload", &[0, 1], some);
    tally.assert_each("witness read", &[0, 1, 2, 3, 4, 5, 6, 7, 13], some);
    let append = [0, 1, 2, 3, 4, 5, 6, 7, 8, 10];
    tally.assert_each("witness append", &append, some);
    tally.assert_each("witness edition", &[1, 2], one_of(20, images));
    tally.assert_each("witness first", &FIRST_KINDS, some);
    tally.assert_each("wrong kind", &[0, 1, 2, 3], some);
    assert_eq!(tally.of("witness append", 9), 0);
    tally
}
