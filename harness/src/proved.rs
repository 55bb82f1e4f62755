//! The proved functions of `ropelog`, safe to call with any arguments.
//!
//! A number that a call hands out goes to a lent one, which keeps its value otherwise.

// The calls have as many arguments as the exported ones.
#[allow(clippy::too_many_arguments)]
pub mod clusters;
pub mod images;

// The very declarations that the Rust crate links.
#[path = "../../bindings/src/exported.rs"]
mod exported;

pub use exported::Measure;

use crate::model::Shape;
use exported::no_such;

/// The model's shape, laid out for the proved calls.
impl From<Shape> for exported::Shape {
    fn from(shape: Shape) -> exported::Shape {
        exported::Shape {
            n: shape.n,
            m: shape.m,
            edition: shape.edition,
            witnesses: shape.witnesses,
        }
    }
}

/// What a writer did. Unless it wrote, every byte is as it was.
#[derive(Clone, Copy, Debug, PartialEq, Eq)]
pub enum Written {
    Written,
    WrongLength,
    PayloadTooLong,
}

/// What stands in a column.
#[derive(Clone, Copy, Debug, PartialEq, Eq)]
pub enum Column {
    /// A number, which was handed out.
    Number,
    Blank,
    Malformed,
    WrongLength,
}

/// What a header is.
#[derive(Clone, Copy, Debug, PartialEq, Eq)]
pub enum Header {
    /// Good; its first index was handed out.
    Good,
    Other,
}

/// What a record is.
#[derive(Clone, Copy, Debug, PartialEq, Eq)]
pub enum Record {
    /// Good; its epoch was handed out.
    Good,
    Blank,
    Bad,
    WrongLength,
}

/// What an entry is.
#[derive(Clone, Copy, Debug, PartialEq, Eq)]
pub enum Entry {
    /// Intact; its epoch and its payload's length were handed out.
    Intact,
    Broken,
    WrongLength,
}

pub fn checksum(bytes: &[u8]) -> u32 {
    // SAFETY: the slice is lent for the call.
    unsafe { exported::rope_checksum(bytes.as_ptr(), bytes.len()) }
}

/// Writes over the whole column.
pub fn write_number(column: &mut [u8], number: u64) {
    // SAFETY: the slice is lent for the call.
    unsafe { exported::rope_write_number(column.as_mut_ptr(), column.len(), number) }
}

pub fn read_column(column: &[u8], value: &mut u64) -> Column {
    // SAFETY: the slice and the number are lent for the call, and do not overlap.
    match unsafe { exported::rope_read_column(column.as_ptr(), column.len(), value) } {
        0 => Column::Number,
        1 => Column::Blank,
        2 => Column::Malformed,
        3 => Column::WrongLength,
        code => no_such("rope_read_column", code),
    }
}

pub fn write_header(header: &mut [u8], shape: Shape, replica: usize, first: u32) -> Written {
    let (pointer, len) = (header.as_mut_ptr(), header.len());
    // SAFETY: the slice is lent for the call.
    written("rope_write_header", unsafe {
        exported::rope_write_header(pointer, len, shape.into(), replica, first)
    })
}

pub fn write_record(record: &mut [u8], epoch: u32, index: u32) -> Written {
    let (pointer, len) = (record.as_mut_ptr(), record.len());
    // SAFETY: the slice is lent for the call.
    written("rope_write_record", unsafe {
        exported::rope_write_record(pointer, len, epoch, index)
    })
}

pub fn write_blank_record(record: &mut [u8]) -> Written {
    let (pointer, len) = (record.as_mut_ptr(), record.len());
    // SAFETY: the slice is lent for the call.
    written("rope_write_blank_record", unsafe {
        exported::rope_write_blank_record(pointer, len)
    })
}

pub fn write_entry(entry: &mut [u8], epoch: u32, index: u32, payload: &[u8]) -> Written {
    let (pointer, len) = (entry.as_mut_ptr(), entry.len());
    let (payload, payload_len) = (payload.as_ptr(), payload.len());
    // SAFETY: the slices are lent for the call, and do not overlap.
    let code =
        unsafe { exported::rope_write_entry(pointer, len, epoch, index, payload, payload_len) };
    match code {
        9 => Written::PayloadTooLong,
        code => written("rope_write_entry", code),
    }
}

pub fn write_fresh_entry(entry: &mut [u8]) -> Written {
    let (pointer, len) = (entry.as_mut_ptr(), entry.len());
    // SAFETY: the slice is lent for the call.
    written("rope_write_fresh_entry", unsafe {
        exported::rope_write_fresh_entry(pointer, len)
    })
}

pub fn judge_header(header: &[u8], shape: Shape, replica: usize, first: &mut u32) -> Header {
    let (pointer, len) = (header.as_ptr(), header.len());
    // SAFETY: the slice and the number are lent for the call, and do not overlap.
    match unsafe { exported::rope_judge_header(pointer, len, shape.into(), replica, first) } {
        0 => Header::Good,
        1 => Header::Other,
        code => no_such("rope_judge_header", code),
    }
}

pub fn judge_record(record: &[u8], index: u32, epoch: &mut u32) -> Record {
    let (pointer, len) = (record.as_ptr(), record.len());
    // SAFETY: the slice and the number are lent for the call, and do not overlap.
    match unsafe { exported::rope_judge_record(pointer, len, index, epoch) } {
        0 => Record::Good,
        1 => Record::Blank,
        2 => Record::Bad,
        3 => Record::WrongLength,
        code => no_such("rope_judge_record", code),
    }
}

pub fn judge_entry(entry: &[u8], index: u32, epoch: &mut u32, size: &mut usize) -> Entry {
    let (pointer, len) = (entry.as_ptr(), entry.len());
    // SAFETY: the slice and the numbers are lent for the call, and none overlaps another.
    match unsafe { exported::rope_judge_entry(pointer, len, index, epoch, size) } {
        0 => Entry::Intact,
        1 => Entry::Broken,
        3 => Entry::WrongLength,
        code => no_such("rope_judge_entry", code),
    }
}

pub fn image_size(shape: Shape, replica: usize) -> Measure {
    // SAFETY: nothing is lent.
    unsafe { exported::rope_image_size(shape.into(), replica) }
}

pub fn cluster_size(shape: Shape) -> Measure {
    // SAFETY: nothing is lent.
    unsafe { exported::rope_cluster_size(shape.into()) }
}

pub fn image_at(shape: Shape, replica: usize) -> Measure {
    // SAFETY: nothing is lent.
    unsafe { exported::rope_image_at(shape.into(), replica) }
}

pub fn record_at(shape: Shape, replica: usize, slot: usize) -> Measure {
    // SAFETY: nothing is lent.
    unsafe { exported::rope_record_at(shape.into(), replica, slot) }
}

pub fn entry_at(shape: Shape, replica: usize, slot: usize) -> Measure {
    // SAFETY: nothing is lent.
    unsafe { exported::rope_entry_at(shape.into(), replica, slot) }
}

fn written(function: &str, code: u8) -> Written {
    match code {
        0 => Written::Written,
        3 => Written::WrongLength,
        code => no_such(function, code),
    }
}
