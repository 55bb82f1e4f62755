//! The image of a witness: appended to and read.

use crate::exported;
use crate::geometry::{Epoch, Geometry, Replica};
use crate::image::index_of;
use crate::refusal::{accepted, Refusal};
use crate::MAX_SLOTS;

/// What a reader says of a witness's image: the epochs of its records. It has no verdicts and no
/// payloads.
#[derive(Clone, Copy, Debug, PartialEq, Eq)]
pub struct WitnessLog {
    length: usize,
    first: u32,
    slots: usize,
    epochs: [Option<Epoch>; MAX_SLOTS],
}

impl WitnessLog {
    /// The log's length: how many slots are used.
    pub fn length(&self) -> usize {
        self.length
    }

    /// The index of slot 1; in edition 1 it is 1.
    pub fn first(&self) -> u32 {
        self.first
    }

    /// The index of a slot, counted from 1; none if there is no such slot.
    pub fn index(&self, slot: usize) -> Option<u32> {
        index_of(self.first, self.slots, slot)
    }

    /// The epoch of every slot, none if it is unused; slot k stands at k − 1.
    pub fn epochs(&self) -> &[Option<Epoch>] {
        &self.epochs[..self.slots]
    }

    /// The epoch of a slot, counted from 1; none if it is unused or there is no such slot.
    pub fn epoch(&self, slot: usize) -> Option<Epoch> {
        *self.epochs().get(slot.checked_sub(1)?)?
    }
}

/// Writes the record of the first unused slot of a witness, and answers that slot, from 1. It is the
/// append of a reading whose entry stands on the cards, under the same epoch.
///
/// # Errors
///
/// Every refusal of [`witness_read`], and then:
///
/// - [`Refusal::AppendEpoch`]: the epoch is below the last used slot's.
/// - [`Refusal::AppendFull`]: every slot is used.
pub fn witness_append(
    image: &mut [u8],
    geometry: Geometry,
    replica: Replica,
    epoch: Epoch,
) -> Result<usize, Refusal> {
    let mut slot = 0;
    // SAFETY: the slice and the number are lent for the call, and do not overlap.
    let number = unsafe {
        exported::rope_witness_append(
            image.as_mut_ptr(),
            image.len(),
            geometry.shape(),
            replica.0,
            epoch.number(),
            &mut slot,
        )
    };
    accepted("rope_witness_append", number)?;
    Ok(slot)
}

/// Reads the image of a witness: the epoch of each slot, and the index that the log begins at.
///
/// # Errors
///
/// - [`Refusal::ReplicaCount`]: the replica is not one of this geometry's.
/// - [`Refusal::BufferLength`]: the replica is no witness, or the image is not [`Geometry::image_len`]
///   bytes long.
/// - [`Refusal::Header`]: the header is not one that is written for this witness and geometry, or its
///   first index is one that [`Refusal::FirstIndex`] refuses.
/// - [`Refusal::UsedAfterBlank`]: a used slot stands after a blank record.
/// - [`Refusal::BothLost`]: a record is bad. No recovery mends it; the crate's page says what to do.
/// - [`Refusal::EpochFalls`]: a used slot's epoch is below an earlier slot's.
pub fn witness_read(
    image: &[u8],
    geometry: Geometry,
    replica: Replica,
) -> Result<WitnessLog, Refusal> {
    let m = geometry.slot_count();
    let mut epochs = [0; MAX_SLOTS];
    let (mut length, mut first) = (0, 0);
    // SAFETY: the slices and the numbers are lent for the call, and none overlaps another.
    let number = unsafe {
        exported::rope_witness_read(
            image.as_ptr(),
            image.len(),
            geometry.shape(),
            replica.0,
            epochs[..m].as_mut_ptr(),
            m,
            &mut length,
            &mut first,
        )
    };
    accepted("rope_witness_read", number)?;
    Ok(WitnessLog {
        length,
        first,
        slots: m,
        epochs: epochs.map(|epoch| Epoch::new(epoch).ok()),
    })
}
