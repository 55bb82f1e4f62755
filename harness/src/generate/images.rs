//! One image, a card's or a witness's, and the calls about it: written as it should be, damaged, spoilt,
//! or not an image.

use super::damage::{damage_entry, damage_header, damage_record, flip_one_byte};
use super::damage::{some_entry, some_epoch, some_payload};
use super::pieces::{payload_of, some_word};
use super::rng::Rng;
use super::shapes::{asked_first, other_edition, some_edition, some_first};
use crate::model::{
    card_len, entry_offset, fresh_image, header_len, image_len, index_of, record_offset,
    witness_len, write_entry, write_record, Shape, BLANK_RECORD, ENTRY_LEN, MAX_PAYLOAD,
    MAX_REPLICAS, MIN_REPLICAS, RECORD_LEN,
};

/// An image, and what the calls about it name and lend.
#[derive(Clone, Debug, PartialEq, Eq)]
pub struct ImageCalls {
    pub shape: Shape,
    pub replica: usize,
    pub image: Vec<u8>,
    /// Where the log of a fresh image is to begin.
    pub first: u32,
    /// How long the buffers are that a read fills.
    pub epochs: usize,
    pub verdicts: usize,
    /// What is appended.
    pub epoch: u32,
    pub payload: Vec<u8>,
}

/// Calls about an image of m slots, or of what was one.
pub fn image_calls(rng: &mut Rng, m: usize) -> ImageCalls {
    let n = rng.between(MIN_REPLICAS, MAX_REPLICAS);
    let edition = some_edition(rng);
    let replica = rng.between(1, n);
    let shape = Shape {
        n,
        m,
        edition,
        witnesses: some_witnesses(rng, replica),
    };
    let first = some_first(rng, shape);
    let mut image = vec![0; image_len(shape, replica)];
    fresh_image(&mut image, shape, replica, first).expect("the numbers are accepted");
    let of_witness = shape.is_witness(replica);
    let last = if of_witness {
        fill_witness(rng, &mut image, shape, first)
    } else {
        fill_card(rng, &mut image, shape, first)
    };
    match rng.below(16) {
        0 | 1 => {
            for _ in 0..rng.between(1, 3) {
                flip_one_byte(rng, &mut image);
            }
        }
        2 => damage_header(rng, &mut image[..header_len(shape)], shape, replica),
        3 | 4 if of_witness => spoil_record(rng, &mut image, shape, first),
        3 | 4 => spoil_slot(rng, &mut image, shape, first),
        5 => other_length(rng, &mut image, shape),
        6 if rng.chance(50) => rng.fill_noise(&mut image),
        _ => {}
    }
    let mut calls = ImageCalls {
        shape,
        replica,
        image,
        first: asked_first(rng, shape),
        epochs: m,
        verdicts: m,
        epoch: appended_epoch(rng, last),
        payload: appended_payload(rng),
    };
    match rng.below(20) {
        0 => other_numbers(rng, &mut calls),
        1 => calls.epochs = rng.below(m + 2),
        2 => calls.verdicts = rng.below(m + 2),
        3 => (calls.epochs, calls.verdicts) = (m + 1, m + 1),
        4 => calls.shape.edition = other_edition(rng, edition),
        5 => in_the_other_edition(rng, &mut calls),
        6 => of_the_other_kind(rng, &mut calls),
        _ => {}
    }
    calls
}

/// Any set of witnesses, bits for no replica included; this replica is one of them in two of five.
fn some_witnesses(rng: &mut Rng, replica: usize) -> u32 {
    let others = if rng.chance(50) {
        rng.draw() as u32 >> rng.below(32)
    } else {
        0
    };
    let bit = 1 << (replica - 1);
    if rng.chance(40) {
        others | bit
    } else {
        others & !bit
    }
}

/// How many of m slots are used, and the first epoch.
fn some_log(rng: &mut Rng, m: usize) -> (usize, u32) {
    let length = if rng.chance(40) { m } else { rng.below(m + 1) };
    let epoch = *rng.pick(&[1, 1, 2, 7, 999_999_999, u32::MAX - 1, u32::MAX]);
    (length, epoch)
}

/// The epoch of the next slot, never a lower one.
fn next_epoch(rng: &mut Rng, epoch: u32) -> u32 {
    if rng.chance(30) {
        epoch.saturating_add(*rng.pick(&[1, 2, 1000]))
    } else {
        epoch
    }
}

/// Records under epochs that never fall, rarely a damaged one among them. Answers the last epoch.
fn fill_witness(rng: &mut Rng, image: &mut [u8], shape: Shape, first: u32) -> u32 {
    let (length, mut epoch) = some_log(rng, shape.m);
    let rate = *rng.pick(&[0, 0, 0, 20]);
    for slot in 1..=length {
        let index = index_of(first, slot);
        epoch = next_epoch(rng, epoch);
        record_mut(image, shape, slot).copy_from_slice(&write_record(epoch, index));
        if rng.chance(rate) {
            damage_record(rng, record_mut(image, shape, slot), index);
        }
    }
    if length == 0 {
        0
    } else {
        epoch
    }
}

/// Used slots under epochs that never fall, some of them damaged; now and then something in the
/// unused ones. Answers the last epoch.
fn fill_card(rng: &mut Rng, image: &mut [u8], shape: Shape, first: u32) -> u32 {
    let m = shape.m;
    let (length, mut epoch) = some_log(rng, m);
    let rate = *rng.pick(&[0, 0, 10, 40]);
    for slot in 1..=m {
        let index = index_of(first, slot);
        if slot > length {
            if rng.chance(10) {
                let bytes = some_entry(rng, index, epoch);
                entry_mut(image, shape, slot).copy_from_slice(&bytes);
            }
            continue;
        }
        epoch = next_epoch(rng, epoch);
        let entry = write_entry(epoch, index, &some_payload(rng));
        entry_mut(image, shape, slot).copy_from_slice(&entry);
        record_mut(image, shape, slot).copy_from_slice(&write_record(epoch, index));
        if rng.chance(rate) {
            if rng.chance(30) {
                damage_record(rng, record_mut(image, shape, slot), index);
            } else {
                damage_entry(rng, entry_mut(image, shape, slot), index, epoch);
            }
        }
    }
    if length == 0 {
        0
    } else {
        epoch
    }
}

/// One record of a witness written anew: a gap, a record of any epoch, or a bad one.
fn spoil_record(rng: &mut Rng, image: &mut [u8], shape: Shape, first: u32) {
    let slot = rng.between(1, shape.m);
    let index = index_of(first, slot);
    let epoch = some_epoch(rng, 2);
    let record = record_mut(image, shape, slot);
    match rng.below(3) {
        0 => record.copy_from_slice(&BLANK_RECORD),
        1 => record.copy_from_slice(&write_record(epoch, index)),
        _ => damage_record(rng, record, index),
    }
}

/// One slot written anew: a gap, a record of any epoch, or nothing left of either.
fn spoil_slot(rng: &mut Rng, image: &mut [u8], shape: Shape, first: u32) {
    let slot = rng.between(1, shape.m);
    let index = index_of(first, slot);
    let epoch = some_epoch(rng, 2);
    match rng.below(4) {
        0 => record_mut(image, shape, slot).copy_from_slice(&BLANK_RECORD),
        1 => {
            record_mut(image, shape, slot).copy_from_slice(&write_record(epoch, index));
        }
        2 => {
            let bytes = write_entry(epoch, index, &some_payload(rng));
            entry_mut(image, shape, slot).copy_from_slice(&bytes);
            damage_record(rng, record_mut(image, shape, slot), index);
        }
        _ => {
            damage_record(rng, record_mut(image, shape, slot), index);
            damage_entry(rng, entry_mut(image, shape, slot), index, epoch);
        }
    }
}

/// Too short or too long, by a byte, a slot, or any number; or as long as an image of the other kind.
fn other_length(rng: &mut Rng, image: &mut Vec<u8>, shape: Shape) {
    let right = image.len();
    let any = rng.below(2 * right);
    let slot = RECORD_LEN + ENTRY_LEN;
    let other_kind = card_len(shape) + witness_len(shape) - right;
    let (less, more) = (right.saturating_sub(slot), right + slot);
    let length = *rng.pick(&[right - 1, right + 1, less, more, other_kind, 0, any]);
    image.resize(length, b' ');
}

/// The shape says that it is an image of the other kind, whose length it has or not.
fn of_the_other_kind(rng: &mut Rng, calls: &mut ImageCalls) {
    calls.shape.witnesses ^= 1 << (calls.replica - 1);
    if rng.chance(50) {
        let length = image_len(calls.shape, calls.replica);
        calls.image.resize(length, b' ');
    }
}

/// The image as it is, lengthened or shortened to what an image of the other edition has.
fn in_the_other_edition(rng: &mut Rng, calls: &mut ImageCalls) {
    calls.shape.edition = 3 - calls.shape.edition;
    let filler = *rng.pick(b" \n0");
    let length = image_len(calls.shape, calls.replica);
    calls.image.resize(length, filler);
}

/// One of the numbers that a call names is another.
fn other_numbers(rng: &mut Rng, calls: &mut ImageCalls) {
    let ImageCalls { shape, replica, .. } = calls;
    let Shape { n, m, .. } = shape;
    match rng.below(3) {
        0 => *replica = *rng.pick(&[0, *replica - 1, *replica + 1, *n + 1, usize::MAX]),
        1 => *n = *rng.pick(&[0, 1, 2, 3, 4, 5, 6, 7, 8, 9, usize::MAX]),
        _ => *m = *rng.pick(&[0, *m - 1, *m + 1, 64, 65, usize::MAX]),
    }
}

fn appended_epoch(rng: &mut Rng, last: u32) -> u32 {
    match rng.below(8) {
        0 => 0,
        1 => last.saturating_sub(1),
        2 => some_word(rng),
        3 => u32::MAX,
        4 | 5 => last.saturating_add(1),
        _ => last.max(1),
    }
}

/// A payload, often as long as one may be, or longer.
fn appended_payload(rng: &mut Rng) -> Vec<u8> {
    let length = match rng.below(10) {
        0 => 0,
        1..=5 => rng.below(30),
        6 => rng.below(MAX_PAYLOAD),
        7 => MAX_PAYLOAD,
        _ => *rng.pick(&[MAX_PAYLOAD - 1, MAX_PAYLOAD + 1, MAX_PAYLOAD + 2, 240, 1000]),
    };
    payload_of(rng, length)
}

fn record_mut(image: &mut [u8], shape: Shape, slot: usize) -> &mut [u8] {
    let at = record_offset(shape, slot);
    &mut image[at..at + RECORD_LEN]
}

fn entry_mut(image: &mut [u8], shape: Shape, slot: usize) -> &mut [u8] {
    let at = entry_offset(shape, slot);
    &mut image[at..at + ENTRY_LEN]
}
