//! The payload of one slot of a card.

use super::entry::{judge_entry, EntryState};
use super::layout::entry_offset;
use super::read::{judge_card, Log};
use super::refusal::Refusal;
use super::shape::Shape;

/// The part of the image that is the slot's payload, or the empty part.
pub fn payload(image: &[u8], shape: Shape, replica: usize, slot: usize) -> &[u8] {
    let Ok(log) = judge_card(image, shape, replica) else {
        return &[];
    };
    if !holds_payload(&log, shape, slot) {
        return &[];
    }
    match judge_entry(&image[entry_offset(shape, slot)..], log.index(slot)) {
        EntryState::Intact(_, payload) => payload,
        EntryState::NotIntact => &[],
    }
}

/// Whether the slot has a payload. An empty payload is one too.
pub fn has_payload(
    image: &[u8],
    shape: Shape,
    replica: usize,
    slot: usize,
) -> Result<bool, Refusal> {
    let log = judge_card(image, shape, replica)?;
    Ok(holds_payload(&log, shape, slot))
}

/// A slot that the image does not have holds none.
fn holds_payload(log: &Log, shape: Shape, slot: usize) -> bool {
    (1..=shape.m).contains(&slot) && log.verdict(slot).has_payload()
}
