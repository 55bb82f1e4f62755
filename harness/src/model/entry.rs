//! The entry: a payload (the paper's reading) with the epoch and index it was written for.

use super::checksum::checksum;
use super::column::{read_column, read_epoch, write_column};
use super::layout::{ENTRY_LEN, MAX_PAYLOAD};

/// Where the payload begins in an entry.
pub const PAYLOAD_OFFSET: usize = 26;

/// What an entry turns out to be.
#[derive(Clone, Copy, Debug, PartialEq, Eq)]
pub enum EntryState<'a> {
    /// Written for this index, with its epoch and payload.
    Intact(u32, &'a [u8]),
    /// Anything else, a fresh entry included.
    NotIntact,
}

/// The entry of an index under an epoch. The payload is at most 200 bytes.
pub fn write_entry(epoch: u32, index: u32, payload: &[u8]) -> [u8; ENTRY_LEN] {
    let mut bytes = [b' '; ENTRY_LEN];
    write_column(&mut bytes[0..11], u64::from(epoch));
    write_column(&mut bytes[11..22], u64::from(index));
    write_column(&mut bytes[22..26], payload.len() as u64);
    let end = PAYLOAD_OFFSET + payload.len();
    bytes[PAYLOAD_OFFSET..end].copy_from_slice(payload);
    let sum = checksum(&bytes[0..end]);
    write_column(&mut bytes[end..end + 11], u64::from(sum));
    bytes[end + 11] = b'\n';
    bytes
}

/// Judges the 240 bytes at the start of `bytes` as the entry of an index.
pub fn judge_entry(bytes: &[u8], index: u32) -> EntryState<'_> {
    let bytes = &bytes[0..ENTRY_LEN];
    let Some(epoch) = read_epoch(&bytes[0..11]) else {
        return EntryState::NotIntact;
    };
    let Some(length) = read_column(&bytes[22..26]) else {
        return EntryState::NotIntact;
    };
    if length > MAX_PAYLOAD as u64 {
        return EntryState::NotIntact;
    }
    let payload = &bytes[PAYLOAD_OFFSET..PAYLOAD_OFFSET + length as usize];
    if bytes == write_entry(epoch, index, payload) {
        EntryState::Intact(epoch, payload)
    } else {
        EntryState::NotIntact
    }
}
