//! The pieces of an image. Where a wrong length is an answer, no length is wrong here.

use super::{accepted, Code};
use crate::model::{header_len, EntryState, RecordState, Refusal, Shape, ENTRY_LEN, RECORD_LEN};
use crate::proved::{Column, Entry, Header, Measure, Record, Written};

/// Where the payload begins in an entry.
const PAYLOAD_AT: usize = 26;

impl Code {
    pub fn checksum(&self, bytes: &[u8]) -> u32 {
        (self.side.checksum)(bytes)
    }

    pub fn write_column(&self, column: &mut [u8], number: u64) {
        (self.side.write_number)(column, number)
    }

    /// The number in a column; nothing if it is blank or malformed.
    pub fn read_column(&self, column: &[u8]) -> Option<u64> {
        let mut value = 0;
        match (self.side.read_column)(column, &mut value) {
            Column::Number => Some(value),
            Column::Blank | Column::Malformed => None,
            Column::WrongLength => panic!("a column of {} bytes", column.len()),
        }
    }

    pub fn write_header(&self, shape: Shape, replica: usize, first: u32) -> Vec<u8> {
        let mut header = vec![0; header_len(shape)];
        written((self.side.write_header)(&mut header, shape, replica, first));
        header
    }

    /// The first index of a good header.
    pub fn judge_header(&self, header: &[u8], shape: Shape, replica: usize) -> Option<u32> {
        let mut first = 0;
        match (self.side.judge_header)(header, shape, replica, &mut first) {
            Header::Good => Some(first),
            Header::Other => None,
        }
    }

    pub fn write_record(&self, epoch: u32, index: u32) -> [u8; RECORD_LEN] {
        let mut record = [0; RECORD_LEN];
        written((self.side.write_record)(&mut record, epoch, index));
        record
    }

    pub fn blank_record(&self) -> [u8; RECORD_LEN] {
        let mut record = [0; RECORD_LEN];
        written((self.side.write_blank_record)(&mut record));
        record
    }

    pub fn judge_record(&self, record: &[u8], index: u32) -> RecordState {
        let mut epoch = 0;
        match (self.side.judge_record)(record, index, &mut epoch) {
            Record::Good => RecordState::Good(epoch),
            Record::Blank => RecordState::Blank,
            Record::Bad => RecordState::Bad,
            Record::WrongLength => panic!("a record of {} bytes", record.len()),
        }
    }

    pub fn write_entry(&self, epoch: u32, index: u32, payload: &[u8]) -> [u8; ENTRY_LEN] {
        let mut entry = [0; ENTRY_LEN];
        let answer = (self.side.write_entry)(&mut entry, epoch, index, payload);
        written(answer);
        entry
    }

    pub fn judge_entry<'a>(&self, entry: &'a [u8], index: u32) -> EntryState<'a> {
        let (mut epoch, mut size) = (0, 0);
        match (self.side.judge_entry)(entry, index, &mut epoch, &mut size) {
            Entry::Intact => EntryState::Intact(epoch, &entry[PAYLOAD_AT..PAYLOAD_AT + size]),
            Entry::Broken => EntryState::NotIntact,
            Entry::WrongLength => panic!("an entry of {} bytes", entry.len()),
        }
    }

    pub fn image_size(&self, shape: Shape, replica: usize) -> Result<usize, Refusal> {
        measured((self.side.image_size)(shape, replica))
    }

    pub fn cluster_size(&self, shape: Shape) -> Result<usize, Refusal> {
        measured((self.side.cluster_size)(shape))
    }

    pub fn image_at(&self, shape: Shape, replica: usize) -> Result<usize, Refusal> {
        measured((self.side.image_at)(shape, replica))
    }

    pub fn record_at(&self, shape: Shape, replica: usize, slot: usize) -> Result<usize, Refusal> {
        measured((self.side.record_at)(shape, replica, slot))
    }

    pub fn entry_at(&self, shape: Shape, replica: usize, slot: usize) -> Result<usize, Refusal> {
        measured((self.side.entry_at)(shape, replica, slot))
    }
}

/// What is refused has the value 0.
fn measured(Measure { value, refusal }: Measure) -> Result<usize, Refusal> {
    let answer = accepted(refusal);
    assert!(answer.is_ok() || value == 0, "{value} of {refusal}");
    answer.map(|()| value)
}

fn written(answer: Written) {
    assert_eq!(answer, Written::Written);
}
