//! A fresh image: a header, blank records, and on a card entries of spaces.

use super::header::write_header;
use super::layout::{header_len, image_len, record_offset, RECORD_LEN};
use super::read::check_numbers;
use super::record::BLANK_RECORD;
use super::refusal::Refusal;
use super::shape::Shape;

/// Writes a fresh image, a card's or a witness's, over the whole lent buffer. Refusal 20 is tried just before 3.
pub fn fresh_image(
    image: &mut [u8],
    shape: Shape,
    replica: usize,
    first: u32,
) -> Result<(), Refusal> {
    check_numbers(shape, replica)?;
    if !shape.may_begin_at(u64::from(first)) {
        return Err(Refusal::FirstIndex);
    }
    if image.len() != image_len(shape, replica) {
        return Err(Refusal::BufferLength);
    }
    image.fill(b' ');
    image[0..header_len(shape)].copy_from_slice(&write_header(shape, replica, first));
    for slot in 1..=shape.m {
        let at = record_offset(shape, slot);
        image[at..at + RECORD_LEN].copy_from_slice(&BLANK_RECORD);
    }
    Ok(())
}
