//! The record: which epoch a slot was written under, stored away from its entry.

use super::checksum::checksum;
use super::column::{read_epoch, write_column};
use super::layout::RECORD_LEN;

/// The record of an unused slot: 33 spaces and a newline.
pub const BLANK_RECORD: [u8; RECORD_LEN] = {
    let mut bytes = [b' '; RECORD_LEN];
    bytes[RECORD_LEN - 1] = b'\n';
    bytes
};

/// What a record turns out to be.
#[derive(Clone, Copy, Debug, PartialEq, Eq)]
pub enum RecordState {
    /// Written for this index under this epoch.
    Good(u32),
    /// Unused.
    Blank,
    /// Neither.
    Bad,
}

/// The record of an index under an epoch.
pub fn write_record(epoch: u32, index: u32) -> [u8; RECORD_LEN] {
    let mut bytes = BLANK_RECORD;
    write_column(&mut bytes[0..11], u64::from(epoch));
    write_column(&mut bytes[11..22], u64::from(index));
    let sum = checksum(&bytes[0..22]);
    write_column(&mut bytes[22..33], u64::from(sum));
    bytes
}

/// Judges the record of an index by writing it again and comparing.
pub fn judge_record(bytes: &[u8], index: u32) -> RecordState {
    if bytes == BLANK_RECORD {
        return RecordState::Blank;
    }
    let Some(epoch) = read_epoch(&bytes[0..11]) else {
        return RecordState::Bad;
    };
    if bytes == write_record(epoch, index) {
        RecordState::Good(epoch)
    } else {
        RecordState::Bad
    }
}
