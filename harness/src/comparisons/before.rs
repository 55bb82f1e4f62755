//! The verdicts of document 01 as they were before document 02, request Two, told stale entries
//! apart.

use crate::model::{
    entry_offset, judge_entry, judge_record, record_offset, EntryState, RecordState, Shape,
    ENTRY_LEN, RECORD_LEN,
};

/// The verdict of a slot with this index in an image of this length that is not refused, and whether its
/// entry is intact.
pub fn verdict(image: &[u8], shape: Shape, length: usize, slot: usize, index: u32) -> (u8, bool) {
    let record = &image[record_offset(shape, slot)..][..RECORD_LEN];
    let entry = &image[entry_offset(shape, slot)..][..ENTRY_LEN];
    let state = judge_entry(entry, index);
    let spaces = entry.iter().all(|&byte| byte == b' ');
    let verdict = match (judge_record(record, index), state) {
        (RecordState::Blank, _) if slot == length + 1 && !spaces => 5,
        (RecordState::Blank, _) => 0,
        (RecordState::Bad, _) => 2,
        (RecordState::Good(epoch), EntryState::Intact(found, _)) if found == epoch => 1,
        (RecordState::Good(_), _) if slot == length => 4,
        (RecordState::Good(_), _) => 3,
    };
    (verdict, matches!(state, EntryState::Intact(..)))
}
