//! Appending a payload at the first unused slot of a card.

use super::entry::write_entry;
use super::layout::{entry_offset, record_offset, ENTRY_LEN, MAX_PAYLOAD, RECORD_LEN};
use super::read::judge_card;
use super::record::write_record;
use super::refusal::Refusal;
use super::shape::Shape;

/// Writes the entry, then the record, and answers the slot.
pub fn append(
    image: &mut [u8],
    shape: Shape,
    replica: usize,
    epoch: u32,
    payload: &[u8],
) -> Result<usize, Refusal> {
    let log = judge_card(image, shape, replica)?;
    if epoch == 0 || epoch < log.last_epoch() {
        return Err(Refusal::AppendEpoch);
    }
    if payload.len() > MAX_PAYLOAD {
        return Err(Refusal::AppendPayload);
    }
    if log.length == shape.m {
        return Err(Refusal::AppendFull);
    }
    let slot = log.length + 1;
    let index = log.index(slot);
    let at = entry_offset(shape, slot);
    image[at..at + ENTRY_LEN].copy_from_slice(&write_entry(epoch, index, payload));
    let at = record_offset(shape, slot);
    image[at..at + RECORD_LEN].copy_from_slice(&write_record(epoch, index));
    Ok(slot)
}
