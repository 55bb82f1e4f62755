//! The functions of the archive as `include/ropelog.h` declares them. A slice is passed as its
//! address and then its length.

use std::mem::size_of;

/// What a call names of its cluster, whatever the numbers are. It is passed by value.
#[repr(C)]
#[derive(Clone, Copy, Debug, PartialEq, Eq, Hash)]
pub struct Shape {
    /// How many replicas there are.
    pub n: usize,
    /// How many slots each of their images has.
    pub m: usize,
    /// The edition of the images.
    pub edition: usize,
    /// The set of those replicas that are witnesses: bit c − 1 stands for replica c.
    pub witnesses: u32,
}

// Three words and the set, padded to a fourth, as the archive takes them.
const _: () = assert!(size_of::<Shape>() == 32);

/// A size or an offset in bytes, or why there is none. It is returned by value.
#[repr(C)]
#[derive(Clone, Copy, Debug, PartialEq, Eq)]
pub struct Measure {
    /// 0 if it is refused.
    pub value: usize,
    /// 0, or the refusal's number.
    pub refusal: u8,
}

// Two words, as the archive returns them.
const _: () = assert!(size_of::<Measure>() == 16);

/// A row of the planner's table, as the archive lays it out.
#[repr(C)]
#[derive(Clone, Copy, Debug, Default, PartialEq, Eq)]
pub struct RawRow {
    pub readable: u8,
    pub length: u32,
    pub last_epoch: u32,
}

extern "C" {
    pub fn rope_image_size(shape: Shape, replica: usize) -> Measure;
    pub fn rope_cluster_size(shape: Shape) -> Measure;
    pub fn rope_image_at(shape: Shape, replica: usize) -> Measure;
    pub fn rope_record_at(shape: Shape, replica: usize, slot: usize) -> Measure;
    pub fn rope_entry_at(shape: Shape, replica: usize, slot: usize) -> Measure;

    pub fn rope_format(image: *mut u8, len: usize, shape: Shape, replica: usize, first: u32) -> u8;
    pub fn rope_append(
        image: *mut u8,
        len: usize,
        shape: Shape,
        replica: usize,
        epoch: u32,
        payload: *const u8,
        payload_len: usize,
        slot: *mut usize,
    ) -> u8;
    pub fn rope_read(
        image: *const u8,
        len: usize,
        shape: Shape,
        replica: usize,
        epochs: *mut u32,
        epochs_len: usize,
        verdicts: *mut u8,
        verdicts_len: usize,
        length: *mut usize,
        first: *mut u32,
    ) -> u8;
    pub fn rope_has_payload(
        image: *const u8,
        len: usize,
        shape: Shape,
        replica: usize,
        slot: usize,
        has: *mut u8,
    ) -> u8;
    pub fn rope_payload(
        image: *const u8,
        len: usize,
        shape: Shape,
        replica: usize,
        slot: usize,
        at: *mut usize,
        size: *mut usize,
    );

    pub fn rope_witness_append(
        image: *mut u8,
        len: usize,
        shape: Shape,
        replica: usize,
        epoch: u32,
        slot: *mut usize,
    ) -> u8;
    pub fn rope_witness_read(
        image: *const u8,
        len: usize,
        shape: Shape,
        replica: usize,
        epochs: *mut u32,
        epochs_len: usize,
        length: *mut usize,
        first: *mut u32,
    ) -> u8;

    pub fn rope_plan(
        cluster: *const u8,
        len: usize,
        shape: Shape,
        leader: usize,
        present: u32,
        plan: *mut u8,
        plan_len: usize,
        rows: *mut RawRow,
        rows_len: usize,
        status: *mut u8,
        number: *mut usize,
    ) -> u8;
    pub fn rope_step(
        cluster: *mut u8,
        len: usize,
        shape: Shape,
        leader: usize,
        present: u32,
        status: *mut u8,
        replica: *mut usize,
        slot: *mut usize,
        kind: *mut u8,
    ) -> u8;
    pub fn rope_run(
        cluster: *mut u8,
        len: usize,
        shape: Shape,
        leader: usize,
        present: u32,
        budget: u64,
        status: *mut u8,
        stores: *mut u64,
        slot: *mut usize,
    ) -> u8;

    pub fn rope_checksum(bytes: *const u8, len: usize) -> u32;
    pub fn rope_write_number(column: *mut u8, len: usize, number: u64);
    pub fn rope_read_column(column: *const u8, len: usize, value: *mut u64) -> u8;
    pub fn rope_write_header(
        header: *mut u8,
        len: usize,
        shape: Shape,
        replica: usize,
        first: u32,
    ) -> u8;
    pub fn rope_write_record(record: *mut u8, len: usize, epoch: u32, index: u32) -> u8;
    pub fn rope_write_blank_record(record: *mut u8, len: usize) -> u8;
    pub fn rope_write_entry(
        entry: *mut u8,
        len: usize,
        epoch: u32,
        index: u32,
        payload: *const u8,
        payload_len: usize,
    ) -> u8;
    pub fn rope_write_fresh_entry(entry: *mut u8, len: usize) -> u8;
    pub fn rope_judge_header(
        header: *const u8,
        len: usize,
        shape: Shape,
        replica: usize,
        first: *mut u32,
    ) -> u8;
    pub fn rope_judge_record(record: *const u8, len: usize, index: u32, epoch: *mut u32) -> u8;
    pub fn rope_judge_entry(
        entry: *const u8,
        len: usize,
        index: u32,
        epoch: *mut u32,
        size: *mut usize,
    ) -> u8;
}

/// A number that the contract of a function rules out: the archive is not the one that these
/// declarations are for.
pub fn no_such(function: &str, number: u8) -> ! {
    panic!("{function} answered {number}, which its contract rules out")
}
