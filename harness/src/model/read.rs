//! Reading one image: its length, its first index, and an epoch and a verdict for every slot.

use super::entry::{judge_entry, EntryState};
use super::header::judge_header;
use super::layout::{
    card_len, entry_offset, header_len, record_offset, ENTRY_LEN, MAX_REPLICAS, MAX_SLOTS,
    MIN_REPLICAS, RECORD_LEN,
};
use super::record::{judge_record, RecordState};
use super::refusal::Refusal;
use super::shape::{index_of, Shape};
use super::witness::judge_witness;

/// What the reader says of a slot. The paper's words stand beside the cases.
#[derive(Clone, Copy, Debug, PartialEq, Eq)]
pub enum Verdict {
    /// Unused.
    Unused = 0,
    /// Whole: a good record beside an intact entry of its epoch.
    Intact = 1,
    /// Whole, line lost: a bad record beside an intact entry.
    RecordLost = 2,
    /// Damaged: a good record whose entry is not intact.
    Corrupt = 3,
    /// Doubtful: the same at the last used slot.
    Ambiguous = 4,
    /// Unfinished: the first unused slot, its entry not all spaces.
    Partial = 5,
    /// Stale: a good record beside an intact entry of another epoch.
    Stale = 6,
}

impl Verdict {
    /// Verdicts 1 and 2.
    pub fn has_payload(self) -> bool {
        matches!(self, Verdict::Intact | Verdict::RecordLost)
    }

    /// Verdicts 3, 4 and 6.
    pub fn is_faulty(self) -> bool {
        matches!(self, Verdict::Corrupt | Verdict::Ambiguous | Verdict::Stale)
    }
}

/// One image as read. Both lists have m items; slot k is item k - 1. A witness has no verdicts.
#[derive(Clone, Debug, PartialEq, Eq)]
pub struct Log {
    pub length: usize,
    /// The index of slot 1.
    pub first: u32,
    pub epochs: Vec<u32>,
    pub verdicts: Vec<Verdict>,
}

impl Log {
    pub fn index(&self, slot: usize) -> u32 {
        index_of(self.first, slot)
    }

    pub fn epoch(&self, slot: usize) -> u32 {
        self.epochs[slot - 1]
    }

    pub fn verdict(&self, slot: usize) -> Verdict {
        self.verdicts[slot - 1]
    }

    /// The epoch of the last used slot, 0 for an empty log.
    pub fn last_epoch(&self) -> u32 {
        if self.length == 0 {
            0
        } else {
            self.epoch(self.length)
        }
    }
}

/// Reads a card into the two lent buffers and answers its length and its first index.
pub fn read(
    image: &[u8],
    shape: Shape,
    replica: usize,
    epochs: &mut [u32],
    verdicts: &mut [u8],
) -> Result<(usize, u32), Refusal> {
    let log = judge_card(image, shape, replica)?;
    if epochs.len() != shape.m || verdicts.len() != shape.m {
        return Err(Refusal::LentLength);
    }
    for slot in 1..=shape.m {
        epochs[slot - 1] = log.epoch(slot);
        verdicts[slot - 1] = log.verdict(slot) as u8;
    }
    Ok((log.length, log.first))
}

/// Judges the image of a replica, a card or a witness's, as the shape says.
pub fn judge_image(image: &[u8], shape: Shape, replica: usize) -> Result<Log, Refusal> {
    if shape.is_witness(replica) {
        judge_witness(image, shape, replica)
    } else {
        judge_card(image, shape, replica)
    }
}

/// Judges a whole card; a witness has none, whatever the length. Each refusal looks at all slots before
/// the next is tried.
pub fn judge_card(image: &[u8], shape: Shape, replica: usize) -> Result<Log, Refusal> {
    check_numbers(shape, replica)?;
    if shape.is_witness(replica) || image.len() != card_len(shape) {
        return Err(Refusal::BufferLength);
    }
    let header = &image[0..header_len(shape)];
    let first = judge_header(header, shape, replica).ok_or(Refusal::Header)?;
    let slots = judge_slots(image, shape, first);
    if used_after_blank(slots.iter().map(SlotState::used)) {
        return Err(Refusal::UsedAfterBlank);
    }
    if both_lost(&slots) {
        return Err(Refusal::BothLost);
    }
    let epochs: Vec<u32> = slots.iter().map(slot_epoch).collect();
    let length = slots.iter().filter(|slot| slot.used()).count();
    if epoch_falls(&epochs[0..length]) {
        return Err(Refusal::EpochFalls);
    }
    let verdicts = (1..=shape.m)
        .map(|slot| verdict(&slots, length, slot))
        .collect();
    Ok(Log {
        length,
        first,
        epochs,
        verdicts,
    })
}

/// Refusals 1 and 2 of a call that names one replica.
pub fn check_numbers(shape: Shape, replica: usize) -> Result<(), Refusal> {
    check_shape(shape)?;
    if replica < 1 || replica > shape.n {
        return Err(Refusal::ReplicaCount);
    }
    Ok(())
}

/// Refusals 1 and 2 of a call that names a cluster.
pub fn check_shape(shape: Shape) -> Result<(), Refusal> {
    if !(1..=MAX_SLOTS).contains(&shape.m) {
        return Err(Refusal::SlotCount);
    }
    if !(MIN_REPLICAS..=MAX_REPLICAS).contains(&shape.n) || !(1..=2).contains(&shape.edition) {
        return Err(Refusal::ReplicaCount);
    }
    Ok(())
}

/// What stands at one slot, before the image as a whole is judged.
struct SlotState<'a> {
    record: RecordState,
    entry: EntryState<'a>,
    entry_is_spaces: bool,
}

impl SlotState<'_> {
    fn used(&self) -> bool {
        self.record != RecordState::Blank
    }
}

fn judge_slots(image: &[u8], shape: Shape, first: u32) -> Vec<SlotState<'_>> {
    let mut slots = Vec::new();
    for slot in 1..=shape.m {
        let at = record_offset(shape, slot);
        let record = &image[at..at + RECORD_LEN];
        let at = entry_offset(shape, slot);
        let entry = &image[at..at + ENTRY_LEN];
        let index = index_of(first, slot);
        slots.push(SlotState {
            record: judge_record(record, index),
            entry: judge_entry(entry, index),
            entry_is_spaces: entry.iter().all(|&byte| byte == b' '),
        });
    }
    slots
}

/// Whether a used slot stands after an unused one, of slots that are used or not.
pub fn used_after_blank(slots: impl Iterator<Item = bool>) -> bool {
    let mut blank_seen = false;
    for used in slots {
        if used && blank_seen {
            return true;
        }
        if !used {
            blank_seen = true;
        }
    }
    false
}

fn both_lost(slots: &[SlotState]) -> bool {
    slots
        .iter()
        .any(|slot| slot.record == RecordState::Bad && slot.entry == EntryState::NotIntact)
}

/// The record's epoch if it is good, else the entry's. Refusal 6 is already excluded.
fn slot_epoch(slot: &SlotState) -> u32 {
    match (slot.record, slot.entry) {
        (RecordState::Good(epoch), _) => epoch,
        (RecordState::Bad, EntryState::Intact(epoch, _)) => epoch,
        _ => 0,
    }
}

/// Whether an epoch is below an earlier one.
pub fn epoch_falls(epochs: &[u32]) -> bool {
    for later in 0..epochs.len() {
        for earlier in 0..later {
            if epochs[later] < epochs[earlier] {
                return true;
            }
        }
    }
    false
}

fn verdict(slots: &[SlotState], length: usize, slot: usize) -> Verdict {
    let state = &slots[slot - 1];
    match state.record {
        RecordState::Blank if slot == length + 1 && !state.entry_is_spaces => Verdict::Partial,
        RecordState::Blank => Verdict::Unused,
        RecordState::Bad => Verdict::RecordLost,
        RecordState::Good(epoch) => match state.entry {
            EntryState::Intact(entry_epoch, _) if entry_epoch == epoch => Verdict::Intact,
            EntryState::Intact(..) => Verdict::Stale,
            // A crash can only have hit the last one.
            EntryState::NotIntact if slot == length => Verdict::Ambiguous,
            EntryState::NotIntact => Verdict::Corrupt,
        },
    }
}
