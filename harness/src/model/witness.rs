//! A witness's image: a header and records, no entries. It is read and appended to by epochs alone.

use super::header::judge_header;
use super::layout::{header_len, record_offset, witness_len, RECORD_LEN};
use super::read::{check_numbers, epoch_falls, used_after_blank, Log};
use super::record::{judge_record, write_record, RecordState};
use super::refusal::Refusal;
use super::shape::{index_of, Shape};

/// Reads a witness's image into the lent buffer and answers its length and its first index.
pub fn witness_read(
    image: &[u8],
    shape: Shape,
    replica: usize,
    epochs: &mut [u32],
) -> Result<(usize, u32), Refusal> {
    let log = judge_witness(image, shape, replica)?;
    if epochs.len() != shape.m {
        return Err(Refusal::LentLength);
    }
    epochs.copy_from_slice(&log.epochs);
    Ok((log.length, log.first))
}

/// Writes the record of the first unused slot, and answers the slot.
pub fn witness_append(
    image: &mut [u8],
    shape: Shape,
    replica: usize,
    epoch: u32,
) -> Result<usize, Refusal> {
    let log = judge_witness(image, shape, replica)?;
    if epoch == 0 || epoch < log.last_epoch() {
        return Err(Refusal::AppendEpoch);
    }
    if log.length == shape.m {
        return Err(Refusal::AppendFull);
    }
    let slot = log.length + 1;
    let at = record_offset(shape, slot);
    image[at..at + RECORD_LEN].copy_from_slice(&write_record(epoch, log.index(slot)));
    Ok(slot)
}

/// Judges a witness's whole image; a replica with a card has none, whatever the length. Any bad record is
/// 6, for no entry tells its epoch.
pub fn judge_witness(image: &[u8], shape: Shape, replica: usize) -> Result<Log, Refusal> {
    check_numbers(shape, replica)?;
    if !shape.is_witness(replica) || image.len() != witness_len(shape) {
        return Err(Refusal::BufferLength);
    }
    let header = &image[0..header_len(shape)];
    let first = judge_header(header, shape, replica).ok_or(Refusal::Header)?;
    let records = judge_records(image, shape, first);
    let used = |record: &RecordState| *record != RecordState::Blank;
    if used_after_blank(records.iter().map(used)) {
        return Err(Refusal::UsedAfterBlank);
    }
    if records.contains(&RecordState::Bad) {
        return Err(Refusal::BothLost);
    }
    let length = records.iter().filter(|record| used(record)).count();
    let epochs: Vec<u32> = records.into_iter().map(record_epoch).collect();
    if epoch_falls(&epochs[0..length]) {
        return Err(Refusal::EpochFalls);
    }
    Ok(Log {
        length,
        first,
        epochs,
        verdicts: Vec::new(),
    })
}

fn judge_records(image: &[u8], shape: Shape, first: u32) -> Vec<RecordState> {
    let mut records = Vec::new();
    for slot in 1..=shape.m {
        let at = record_offset(shape, slot);
        let record = &image[at..at + RECORD_LEN];
        records.push(judge_record(record, index_of(first, slot)));
    }
    records
}

/// 0 if the slot is unused. Refusal 6 is already excluded.
fn record_epoch(record: RecordState) -> u32 {
    match record {
        RecordState::Good(epoch) => epoch,
        RecordState::Blank | RecordState::Bad => 0,
    }
}
