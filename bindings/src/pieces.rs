//! The pieces of an image: checksum, columns, header, record and entry; and where they stand.
//!
//! The writers write the numbers as they are, whatever they are; only the calls about an image, and those
//! about sizes and offsets, say which of them make sense. [`Geometry`](crate::Geometry) answers the same
//! sizes and offsets of numbers that it has judged.

use std::ops::Range;

use crate::exported::{self, no_such, Measure};
use crate::refusal::{accepted, Refusal};
use crate::{ENTRY_LEN, RECORD_LEN};

pub use crate::exported::Shape;

/// What stands in a column.
#[derive(Clone, Copy, Debug, PartialEq, Eq, Hash)]
pub enum Column {
    /// A number as [`write_number`] writes it.
    Number(u64),
    /// Spaces alone.
    Blank,
    /// Anything else.
    Malformed,
}

/// What a header is.
#[derive(Clone, Copy, Debug, PartialEq, Eq, Hash)]
pub enum Header {
    /// The one that is written for the replica, the shape and this first index.
    Good {
        /// The index of slot 1; in an edition that is not 2 it is 1.
        first: u32,
    },
    /// Other bytes, another length, or in edition 2 a first index that [`Refusal::FirstIndex`] refuses.
    Other,
}

/// What a record is.
#[derive(Clone, Copy, Debug, PartialEq, Eq, Hash)]
pub enum Record {
    /// The one that is written for the index and this epoch.
    Good {
        /// Its epoch.
        epoch: u32,
    },
    /// 33 spaces and a newline.
    Blank,
    /// Neither.
    Bad,
}

/// What an entry is.
#[derive(Clone, Copy, Debug, PartialEq, Eq, Hash)]
pub enum Entry {
    /// The one that is written for the index, this epoch and a payload of this size.
    Intact {
        /// Its epoch.
        epoch: u32,
        /// The bytes of its payload; [`payload_range`] says where they stand.
        size: usize,
    },
    /// Any other bytes.
    Broken,
}

/// The bytes of the image that a replica of a cluster of this shape has, a card's or a witness's.
///
/// # Errors
///
/// - [`Refusal::SlotCount`]: m is not 1 to 64.
/// - [`Refusal::ReplicaCount`]: n is not 3 to 7, the edition is not 1 or 2, or the replica is not 1 to n.
pub fn image_size(shape: Shape, replica: usize) -> Result<usize, Refusal> {
    // SAFETY: nothing is lent.
    measured("rope_image_size", unsafe {
        exported::rope_image_size(shape, replica)
    })
}

/// The bytes of a cluster of this shape. A witness that is no replica adds none.
///
/// # Errors
///
/// - [`Refusal::SlotCount`]: m is not 1 to 64.
/// - [`Refusal::ReplicaCount`]: n is not 3 to 7, or the edition is not 1 or 2.
pub fn cluster_size(shape: Shape) -> Result<usize, Refusal> {
    // SAFETY: nothing is lent.
    measured("rope_cluster_size", unsafe {
        exported::rope_cluster_size(shape)
    })
}

/// Where the image of a replica begins in its cluster.
///
/// # Errors
///
/// As for [`image_size`].
pub fn image_at(shape: Shape, replica: usize) -> Result<usize, Refusal> {
    // SAFETY: nothing is lent.
    measured("rope_image_at", unsafe {
        exported::rope_image_at(shape, replica)
    })
}

/// Where the record of a slot begins in the image of its replica, a card's or a witness's.
///
/// # Errors
///
/// As for [`image_size`]; [`Refusal::SlotCount`] also if the slot is not 1 to m.
pub fn record_at(shape: Shape, replica: usize, slot: usize) -> Result<usize, Refusal> {
    // SAFETY: nothing is lent.
    measured("rope_record_at", unsafe {
        exported::rope_record_at(shape, replica, slot)
    })
}

/// Where the entry of a slot begins in the image of its replica, a card's.
///
/// # Errors
///
/// As for [`record_at`]; then [`Refusal::BufferLength`]: the replica is a witness, which has no entries.
pub fn entry_at(shape: Shape, replica: usize, slot: usize) -> Result<usize, Refusal> {
    // SAFETY: nothing is lent.
    measured("rope_entry_at", unsafe {
        exported::rope_entry_at(shape, replica, slot)
    })
}

/// Where a payload of this size stands in its entry.
pub fn payload_range(size: usize) -> Range<usize> {
    26..26 + size
}

/// The checksum of some bytes.
pub fn checksum(bytes: &[u8]) -> u32 {
    // SAFETY: the slice is lent for the call.
    unsafe { exported::rope_checksum(bytes.as_ptr(), bytes.len()) }
}

/// Writes a number over the whole column, right-justified. Of a number that is too wide its last
/// digits stand there.
pub fn write_number(column: &mut [u8], number: u64) {
    // SAFETY: the slice is lent for the call.
    unsafe { exported::rope_write_number(column.as_mut_ptr(), column.len(), number) }
}

/// Reads a column strictly.
///
/// # Errors
///
/// [`Refusal::BufferLength`]: the column has over 19 bytes.
pub fn read_column(column: &[u8]) -> Result<Column, Refusal> {
    let mut value = 0;
    // SAFETY: the slice and the number are lent for the call, and do not overlap.
    match unsafe { exported::rope_read_column(column.as_ptr(), column.len(), &mut value) } {
        0 => Ok(Column::Number(value)),
        1 => Ok(Column::Blank),
        2 => Ok(Column::Malformed),
        3 => Err(Refusal::BufferLength),
        number => no_such("rope_read_column", number),
    }
}

/// Writes the header of a replica of a cluster of this shape: it begins with `rope`, that of a witness
/// with `wits`. Only in edition 2 the first index stands in it.
///
/// # Errors
///
/// [`Refusal::BufferLength`]: the header has not the bytes of its edition, [`HEADER_LEN`] or
/// [`HEADER_LEN_2`]. Nothing is written then.
///
/// [`HEADER_LEN`]: crate::HEADER_LEN
/// [`HEADER_LEN_2`]: crate::HEADER_LEN_2
pub fn write_header(
    header: &mut [u8],
    shape: Shape,
    replica: usize,
    first: u32,
) -> Result<(), Refusal> {
    let (pointer, len) = (header.as_mut_ptr(), header.len());
    // SAFETY: the slice is lent for the call.
    let number = unsafe { exported::rope_write_header(pointer, len, shape, replica, first) };
    accepted("rope_write_header", number)
}

/// Writes the record of an epoch and an index.
pub fn write_record(record: &mut [u8; RECORD_LEN], epoch: u32, index: u32) {
    // SAFETY: the array is lent for the call.
    let number =
        unsafe { exported::rope_write_record(record.as_mut_ptr(), record.len(), epoch, index) };
    sized("rope_write_record", number);
}

/// Writes a blank record.
pub fn write_blank_record(record: &mut [u8; RECORD_LEN]) {
    // SAFETY: the array is lent for the call.
    let number = unsafe { exported::rope_write_blank_record(record.as_mut_ptr(), record.len()) };
    sized("rope_write_blank_record", number);
}

/// Writes the entry of an epoch, an index and a payload.
///
/// # Errors
///
/// [`Refusal::AppendPayload`]: the payload has over 200 bytes. Nothing is written then.
pub fn write_entry(
    entry: &mut [u8; ENTRY_LEN],
    epoch: u32,
    index: u32,
    payload: &[u8],
) -> Result<(), Refusal> {
    // SAFETY: the array and the slice are lent for the call, and do not overlap.
    let number = unsafe {
        exported::rope_write_entry(
            entry.as_mut_ptr(),
            entry.len(),
            epoch,
            index,
            payload.as_ptr(),
            payload.len(),
        )
    };
    accepted("rope_write_entry", number)
}

/// Writes an entry of spaces.
pub fn write_fresh_entry(entry: &mut [u8; ENTRY_LEN]) {
    // SAFETY: the array is lent for the call.
    let number = unsafe { exported::rope_write_fresh_entry(entry.as_mut_ptr(), entry.len()) };
    sized("rope_write_fresh_entry", number);
}

/// Judges the header of a replica of a cluster of this shape, whose numbers are not judged. In an edition
/// that is not 2 a header gives no first index: the bytes alone decide.
pub fn judge_header(header: &[u8], shape: Shape, replica: usize) -> Header {
    let (pointer, len) = (header.as_ptr(), header.len());
    let mut first = 0;
    // SAFETY: the slice and the number are lent for the call, and do not overlap.
    match unsafe { exported::rope_judge_header(pointer, len, shape, replica, &mut first) } {
        0 => Header::Good { first },
        1 => Header::Other,
        number => no_such("rope_judge_header", number),
    }
}

/// Judges the record of an index.
pub fn judge_record(record: &[u8; RECORD_LEN], index: u32) -> Record {
    let mut epoch = 0;
    // SAFETY: the array and the number are lent for the call, and do not overlap.
    match unsafe { exported::rope_judge_record(record.as_ptr(), record.len(), index, &mut epoch) } {
        0 => Record::Good { epoch },
        1 => Record::Blank,
        2 => Record::Bad,
        number => no_such("rope_judge_record", number),
    }
}

/// Judges the entry of an index.
pub fn judge_entry(entry: &[u8; ENTRY_LEN], index: u32) -> Entry {
    let (mut epoch, mut size) = (0, 0);
    // SAFETY: the array and the numbers are lent for the call, and none overlaps another.
    match unsafe {
        exported::rope_judge_entry(entry.as_ptr(), entry.len(), index, &mut epoch, &mut size)
    } {
        0 => Entry::Intact { epoch, size },
        1 => Entry::Broken,
        number => no_such("rope_judge_entry", number),
    }
}

fn measured(function: &str, measure: Measure) -> Result<usize, Refusal> {
    accepted(function, measure.refusal)?;
    Ok(measure.value)
}

/// An array has the size that the writer wants, so it writes.
fn sized(function: &str, number: u8) {
    if number != 0 {
        no_such(function, number);
    }
}
