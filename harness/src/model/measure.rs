//! A size or an offset of any numbers, or why there is none.

use super::layout::{cluster_len, entry_offset, image_len, image_offset, record_offset};
use super::read::{check_numbers, check_shape};
use super::refusal::Refusal;
use super::shape::Shape;

/// Bytes of the image of a replica, a card's or a witness's.
pub fn image_size(shape: Shape, replica: usize) -> Result<usize, Refusal> {
    check_numbers(shape, replica)?;
    Ok(image_len(shape, replica))
}

/// Bytes of a cluster.
pub fn cluster_size(shape: Shape) -> Result<usize, Refusal> {
    check_shape(shape)?;
    Ok(cluster_len(shape))
}

/// Where the image of a replica begins in its cluster.
pub fn image_at(shape: Shape, replica: usize) -> Result<usize, Refusal> {
    check_numbers(shape, replica)?;
    Ok(image_offset(shape, replica))
}

/// Where the record of a slot begins in the image of a replica.
pub fn record_at(shape: Shape, replica: usize, slot: usize) -> Result<usize, Refusal> {
    check_slot(shape, replica, slot)?;
    Ok(record_offset(shape, slot))
}

/// Where the entry of a slot begins on the card of a replica; a witness has none.
pub fn entry_at(shape: Shape, replica: usize, slot: usize) -> Result<usize, Refusal> {
    check_slot(shape, replica, slot)?;
    if shape.is_witness(replica) {
        return Err(Refusal::BufferLength);
    }
    Ok(entry_offset(shape, slot))
}

/// Refusals 1 and 2 of a call that names a slot. A slot that there is not is 1, as an m of no image is.
fn check_slot(shape: Shape, replica: usize, slot: usize) -> Result<(), Refusal> {
    if slot < 1 || slot > shape.m {
        return Err(Refusal::SlotCount);
    }
    check_numbers(shape, replica)
}
