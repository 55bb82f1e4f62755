//! Every call in the form in which C and Rust link it, by whoever has written it.
//!
//! A number that a call hands out goes to a lent one, which keeps its value otherwise.

// The calls have as many arguments as the exported ones.
#[allow(clippy::too_many_arguments)]
mod model;

pub use model::MODEL;

use crate::model::Shape;
use crate::proved::clusters::{self, ReplicaRow};
use crate::proved::{self, images, Column, Entry, Header, Measure, Record, Written};

/// One who makes the calls. Those about images and clusters answer 0 or the refusal's number.
#[derive(Clone, Copy)]
pub struct Side {
    pub checksum: fn(&[u8]) -> u32,
    pub write_number: fn(&mut [u8], u64),
    pub read_column: fn(&[u8], &mut u64) -> Column,
    /// The header, the shape, the replica and the first index.
    pub write_header: fn(&mut [u8], Shape, usize, u32) -> Written,
    pub judge_header: fn(&[u8], Shape, usize, &mut u32) -> Header,
    /// The record, the epoch and the index.
    pub write_record: fn(&mut [u8], u32, u32) -> Written,
    pub write_blank_record: fn(&mut [u8]) -> Written,
    pub judge_record: fn(&[u8], u32, &mut u32) -> Record,
    /// The entry, the epoch, the index and the payload.
    pub write_entry: fn(&mut [u8], u32, u32, &[u8]) -> Written,
    pub write_fresh_entry: fn(&mut [u8]) -> Written,
    pub judge_entry: fn(&[u8], u32, &mut u32, &mut usize) -> Entry,
    /// The shape, the replica and the slot.
    pub image_size: fn(Shape, usize) -> Measure,
    pub cluster_size: fn(Shape) -> Measure,
    pub image_at: fn(Shape, usize) -> Measure,
    pub record_at: fn(Shape, usize, usize) -> Measure,
    pub entry_at: fn(Shape, usize, usize) -> Measure,
    /// The image, the shape and the replica, as in every call about one image; here the first index.
    pub format: fn(&mut [u8], Shape, usize, u32) -> u8,
    pub append: Append,
    pub read: Read,
    pub has_payload: fn(&[u8], Shape, usize, usize, &mut u8) -> u8,
    pub payload: fn(&[u8], Shape, usize, usize, &mut usize, &mut usize),
    /// Of a witness: the epoch.
    pub witness_append: fn(&mut [u8], Shape, usize, u32, &mut usize) -> u8,
    pub witness_read: WitnessRead,
    /// The cluster, the shape, the leader and the present word, as in every call about a cluster.
    pub plan: Plan,
    pub step: Step,
    pub run: Run,
}

pub type Append = fn(&mut [u8], Shape, usize, u32, &[u8], &mut usize) -> u8;
pub type Read = fn(&[u8], Shape, usize, &mut [u32], &mut [u8], &mut usize, &mut u32) -> u8;
pub type WitnessRead = fn(&[u8], Shape, usize, &mut [u32], &mut usize, &mut u32) -> u8;
pub type Plan =
    fn(&[u8], Shape, usize, u32, &mut [u8], &mut [ReplicaRow], &mut u8, &mut usize) -> u8;
pub type Step = fn(&mut [u8], Shape, usize, u32, &mut u8, &mut usize, &mut usize, &mut u8) -> u8;
pub type Run = fn(&mut [u8], Shape, usize, u32, u64, &mut u8, &mut u64, &mut usize) -> u8;

pub const PROVED: Side = Side {
    checksum: proved::checksum,
    write_number: proved::write_number,
    read_column: proved::read_column,
    write_header: proved::write_header,
    judge_header: proved::judge_header,
    write_record: proved::write_record,
    write_blank_record: proved::write_blank_record,
    judge_record: proved::judge_record,
    write_entry: proved::write_entry,
    write_fresh_entry: proved::write_fresh_entry,
    judge_entry: proved::judge_entry,
    image_size: proved::image_size,
    cluster_size: proved::cluster_size,
    image_at: proved::image_at,
    record_at: proved::record_at,
    entry_at: proved::entry_at,
    format: images::format,
    append: images::append,
    read: images::read,
    has_payload: images::has_payload,
    payload: images::payload,
    witness_append: images::witness_append,
    witness_read: images::witness_read,
    plan: clusters::plan,
    step: clusters::step,
    run: clusters::run,
};
