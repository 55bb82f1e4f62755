//! One image: each call answers 0, or the refusal's number, and then nothing that was lent has
//! changed. Only `payload` answers nothing.

use super::exported;
use crate::model::Shape;

/// Writes a fresh image, a card's or a witness's, over the whole lent buffer.
pub fn format(image: &mut [u8], shape: Shape, replica: usize, first: u32) -> u8 {
    let (image, len) = (image.as_mut_ptr(), image.len());
    // SAFETY: the slice is lent for the call.
    unsafe { exported::rope_format(image, len, shape.into(), replica, first) }
}

/// Appends to a card, and hands out the slot.
pub fn append(
    image: &mut [u8],
    shape: Shape,
    replica: usize,
    epoch: u32,
    payload: &[u8],
    slot: &mut usize,
) -> u8 {
    let (image, len) = (image.as_mut_ptr(), image.len());
    let (payload, payload_len) = (payload.as_ptr(), payload.len());
    let shape = shape.into();
    // SAFETY: the slices and the number are lent for the call, and none overlaps another.
    unsafe {
        exported::rope_append(
            image,
            len,
            shape,
            replica,
            epoch,
            payload,
            payload_len,
            slot,
        )
    }
}

/// Reads a card into the two lent buffers, and hands out the log's length and its first index.
pub fn read(
    image: &[u8],
    shape: Shape,
    replica: usize,
    epochs: &mut [u32],
    verdicts: &mut [u8],
    used: &mut usize,
    first: &mut u32,
) -> u8 {
    let (image, len) = (image.as_ptr(), image.len());
    let (epochs, epochs_len) = (epochs.as_mut_ptr(), epochs.len());
    let (verdicts, verdicts_len) = (verdicts.as_mut_ptr(), verdicts.len());
    // SAFETY: the slices and the numbers are lent for the call, and none overlaps another.
    unsafe {
        exported::rope_read(
            image,
            len,
            shape.into(),
            replica,
            epochs,
            epochs_len,
            verdicts,
            verdicts_len,
            used,
            first,
        )
    }
}

/// Hands out 1 if the slot has a payload and 0 if not.
pub fn has_payload(image: &[u8], shape: Shape, replica: usize, slot: usize, has: &mut u8) -> u8 {
    let (pointer, len) = (image.as_ptr(), image.len());
    // SAFETY: the slice and the number are lent for the call, and do not overlap.
    unsafe { exported::rope_has_payload(pointer, len, shape.into(), replica, slot, has) }
}

/// Hands out the payload's offset in the image and its length, both 0 if there is none.
pub fn payload(
    image: &[u8],
    shape: Shape,
    replica: usize,
    slot: usize,
    at: &mut usize,
    size: &mut usize,
) {
    let (pointer, len) = (image.as_ptr(), image.len());
    // SAFETY: the slice and the numbers are lent for the call, and none overlaps another.
    unsafe { exported::rope_payload(pointer, len, shape.into(), replica, slot, at, size) }
}

/// Appends an epoch to a witness's image, and hands out the slot.
pub fn witness_append(
    image: &mut [u8],
    shape: Shape,
    replica: usize,
    epoch: u32,
    slot: &mut usize,
) -> u8 {
    let (pointer, len) = (image.as_mut_ptr(), image.len());
    // SAFETY: the slice and the number are lent for the call, and do not overlap.
    unsafe { exported::rope_witness_append(pointer, len, shape.into(), replica, epoch, slot) }
}

/// Reads a witness's image into the lent buffer, and hands out the log's length and its first index.
pub fn witness_read(
    image: &[u8],
    shape: Shape,
    replica: usize,
    epochs: &mut [u32],
    used: &mut usize,
    first: &mut u32,
) -> u8 {
    let (image, len) = (image.as_ptr(), image.len());
    let (epochs, epochs_len) = (epochs.as_mut_ptr(), epochs.len());
    let shape = shape.into();
    // SAFETY: the slices and the numbers are lent for the call, and none overlaps another.
    unsafe {
        exported::rope_witness_read(image, len, shape, replica, epochs, epochs_len, used, first)
    }
}
