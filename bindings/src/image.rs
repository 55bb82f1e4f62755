//! One image: made fresh, a card's or a witness's; a card's appended to, read, and asked for payloads.

use std::fmt;

use crate::exported::{self, no_such};
use crate::geometry::{Epoch, Geometry, Replica};
use crate::refusal::{accepted, Refusal};
use crate::MAX_SLOTS;

/// What a reader says of a slot of a card.
#[derive(Clone, Copy, Debug, PartialEq, Eq, Hash)]
#[non_exhaustive]
pub enum Verdict {
    /// 0: the record is blank.
    Unused,
    /// 1: a good record beside an intact entry of its epoch.
    Intact,
    /// 2: a bad record beside an intact entry: the slot is whole, its record is to be rewritten.
    RecordLost,
    /// 3: a good record whose entry is not intact.
    Corrupt,
    /// 4: the same at the last used slot, where a power failure and damage look alike.
    Ambiguous,
    /// 5: the first unused slot, if its entry is not all spaces.
    Partial,
    /// 6: a good record beside an intact entry of another epoch, as a write that never arrived leaves
    /// it; at the last used slot, where this comes before 4, a power failure can leave it too.
    Stale,
}

impl Verdict {
    /// The number, 0 to 6, by which C names it.
    pub fn number(self) -> u8 {
        self as u8
    }

    /// Whether the slot has its payload: intact, or only its record lost.
    pub fn is_whole(self) -> bool {
        matches!(self, Verdict::Intact | Verdict::RecordLost)
    }

    /// Whether the slot is used and has lost its payload: corrupt, ambiguous or stale.
    pub fn is_faulty(self) -> bool {
        matches!(self, Verdict::Corrupt | Verdict::Ambiguous | Verdict::Stale)
    }

    fn from_number(number: u8) -> Verdict {
        match number {
            0 => Verdict::Unused,
            1 => Verdict::Intact,
            2 => Verdict::RecordLost,
            3 => Verdict::Corrupt,
            4 => Verdict::Ambiguous,
            5 => Verdict::Partial,
            6 => Verdict::Stale,
            number => no_such("rope_read", number),
        }
    }
}

impl fmt::Display for Verdict {
    fn fmt(&self, f: &mut fmt::Formatter<'_>) -> fmt::Result {
        f.write_str(match self {
            Verdict::Unused => "unused",
            Verdict::Intact => "intact",
            Verdict::RecordLost => "record lost",
            Verdict::Corrupt => "corrupt",
            Verdict::Ambiguous => "ambiguous",
            Verdict::Partial => "partial",
            Verdict::Stale => "stale",
        })
    }
}

/// What a reader says of one slot of a card.
#[derive(Clone, Copy, Debug, PartialEq, Eq)]
pub struct SlotState {
    /// The slot's epoch; none if it is unused.
    pub epoch: Option<Epoch>,
    /// The slot's verdict.
    pub verdict: Verdict,
}

/// What a reader says of a card's image.
#[derive(Clone, Copy, Debug, PartialEq, Eq)]
pub struct Log {
    length: usize,
    first: u32,
    slots: usize,
    states: [SlotState; MAX_SLOTS],
}

impl Log {
    /// The log's length: how many slots are used.
    pub fn length(&self) -> usize {
        self.length
    }

    /// The index of slot 1; in edition 1 it is 1.
    pub fn first(&self) -> u32 {
        self.first
    }

    /// The index of a slot, counted from 1; none if there is no such slot.
    pub fn index(&self, slot: usize) -> Option<u32> {
        index_of(self.first, self.slots, slot)
    }

    /// The state of every slot, used or not; slot k stands at k − 1.
    pub fn states(&self) -> &[SlotState] {
        &self.states[..self.slots]
    }

    /// The state of a slot, counted from 1; none if there is no such slot.
    pub fn slot(&self, slot: usize) -> Option<SlotState> {
        self.states().get(slot.checked_sub(1)?).copied()
    }
}

/// The index of a slot, counted from 1, of a log with so many slots; none if there is no such slot.
pub(crate) fn index_of(first: u32, slots: usize, slot: usize) -> Option<u32> {
    let behind = slot.checked_sub(1).filter(|&at| at < slots)?;
    Some(first + behind as u32)
}

/// Writes the fresh image that this replica has over the whole buffer: a header, blank records and, if
/// it is no witness, entries of spaces. In either edition its log begins at index 1.
///
/// # Errors
///
/// - [`Refusal::ReplicaCount`]: the replica is not one of this geometry's.
/// - [`Refusal::BufferLength`]: the image is not [`Geometry::image_len`] bytes long.
pub fn format(image: &mut [u8], geometry: Geometry, replica: Replica) -> Result<(), Refusal> {
    format_from(image, geometry, replica, 1)
}

/// The same for a log whose slot 1 has the index `first`, as one that goes on behind a checkpoint.
///
/// # Errors
///
/// - [`Refusal::ReplicaCount`]: the replica is not one of this geometry's.
/// - [`Refusal::FirstIndex`]: the first index is 0, is another than 1 in edition 1, or is so high that
///   the last slot's index would pass 4,294,967,295.
/// - [`Refusal::BufferLength`]: the image is not [`Geometry::image_len`] bytes long.
pub fn format_from(
    image: &mut [u8],
    geometry: Geometry,
    replica: Replica,
    first: u32,
) -> Result<(), Refusal> {
    let (pointer, len) = (image.as_mut_ptr(), image.len());
    // SAFETY: the slice is lent for the call.
    let number = unsafe { exported::rope_format(pointer, len, geometry.shape(), replica.0, first) };
    accepted("rope_format", number)
}

/// Writes the entry and then the record of the first unused slot of a card, and answers that slot, from
/// 1. A witness has [`witness_append`](crate::witness_append).
///
/// # Errors
///
/// Every refusal of [`read`], and then:
///
/// - [`Refusal::AppendEpoch`]: the epoch is below the last used slot's.
/// - [`Refusal::AppendPayload`]: the payload has over 200 bytes.
/// - [`Refusal::AppendFull`]: every slot is used.
pub fn append(
    image: &mut [u8],
    geometry: Geometry,
    replica: Replica,
    epoch: Epoch,
    payload: &[u8],
) -> Result<usize, Refusal> {
    let mut slot = 0;
    // SAFETY: the slices and the number are lent for the call, and none overlaps another.
    let number = unsafe {
        exported::rope_append(
            image.as_mut_ptr(),
            image.len(),
            geometry.shape(),
            replica.0,
            epoch.number(),
            payload.as_ptr(),
            payload.len(),
            &mut slot,
        )
    };
    accepted("rope_append", number)?;
    Ok(slot)
}

/// Reads the image of a card: the epoch and the verdict of each slot, and the index that the log begins
/// at. A witness has [`witness_read`](crate::witness_read).
///
/// # Errors
///
/// - [`Refusal::ReplicaCount`]: the replica is not one of this geometry's.
/// - [`Refusal::BufferLength`]: the replica is a witness, or the image is not [`Geometry::image_len`]
///   bytes long.
/// - [`Refusal::Header`]: the header is not one that is written for this replica and geometry, or its
///   first index is one that [`Refusal::FirstIndex`] refuses.
/// - [`Refusal::UsedAfterBlank`]: a used slot stands after a blank record.
/// - [`Refusal::BothLost`]: a bad record stands beside an entry that is not intact.
/// - [`Refusal::EpochFalls`]: a used slot's epoch is below an earlier slot's.
pub fn read(image: &[u8], geometry: Geometry, replica: Replica) -> Result<Log, Refusal> {
    let m = geometry.slot_count();
    let mut epochs = [0; MAX_SLOTS];
    let mut verdicts = [0; MAX_SLOTS];
    let (mut length, mut first) = (0, 0);
    // SAFETY: the slices and the numbers are lent for the call, and none overlaps another.
    let number = unsafe {
        exported::rope_read(
            image.as_ptr(),
            image.len(),
            geometry.shape(),
            replica.0,
            epochs[..m].as_mut_ptr(),
            m,
            verdicts[..m].as_mut_ptr(),
            m,
            &mut length,
            &mut first,
        )
    };
    accepted("rope_read", number)?;
    let states = std::array::from_fn(|at| SlotState {
        epoch: Epoch::new(epochs[at]).ok(),
        verdict: Verdict::from_number(verdicts[at]),
    });
    Ok(Log {
        length,
        first,
        slots: m,
        states,
    })
}

/// Whether a slot of a card, counted from 1, has a payload. An empty payload is one; a slot that the
/// image does not have has none.
///
/// # Errors
///
/// Every refusal of [`read`].
pub fn has_payload(
    image: &[u8],
    geometry: Geometry,
    replica: Replica,
    slot: usize,
) -> Result<bool, Refusal> {
    let (pointer, len) = (image.as_ptr(), image.len());
    let mut has = 0;
    // SAFETY: the slice and the number are lent for the call, and do not overlap.
    let number = unsafe {
        exported::rope_has_payload(pointer, len, geometry.shape(), replica.0, slot, &mut has)
    };
    accepted("rope_has_payload", number)?;
    Ok(has == 1)
}

/// The payload of a slot, counted from 1, as a part of the image: the empty part if the slot is not
/// whole, the image is refused or the replica is a witness. [`has_payload`] tells these and an empty
/// payload apart.
pub fn payload(image: &[u8], geometry: Geometry, replica: Replica, slot: usize) -> &[u8] {
    let (mut at, mut size) = (0, 0);
    // SAFETY: the slice and the numbers are lent for the call, and none overlaps another.
    unsafe {
        exported::rope_payload(
            image.as_ptr(),
            image.len(),
            geometry.shape(),
            replica.0,
            slot,
            &mut at,
            &mut size,
        );
    }
    &image[at..at + size]
}
