//! One image.

use super::{accepted, Code};
use crate::model::{Log, Refusal, Shape, Verdict};

/// What a number holds before a call hands it out.
const UNSET: usize = usize::MAX;

impl Code {
    pub fn fresh_image(
        &self,
        image: &mut [u8],
        shape: Shape,
        replica: usize,
        first: u32,
    ) -> Result<(), Refusal> {
        accepted((self.side.format)(image, shape, replica, first))
    }

    pub fn append(
        &self,
        image: &mut [u8],
        shape: Shape,
        replica: usize,
        epoch: u32,
        payload: &[u8],
    ) -> Result<usize, Refusal> {
        let mut slot = UNSET;
        let answer = (self.side.append)(image, shape, replica, epoch, payload, &mut slot);
        accepted(answer).map(|()| slot)
    }

    pub fn read(
        &self,
        image: &[u8],
        shape: Shape,
        replica: usize,
        epochs: &mut [u32],
        verdicts: &mut [u8],
    ) -> Result<(usize, u32), Refusal> {
        let (mut length, mut first) = (UNSET, 0);
        let (used, begins) = (&mut length, &mut first);
        let answer = (self.side.read)(image, shape, replica, epochs, verdicts, used, begins);
        accepted(answer).map(|()| (length, first))
    }

    pub fn witness_append(
        &self,
        image: &mut [u8],
        shape: Shape,
        replica: usize,
        epoch: u32,
    ) -> Result<usize, Refusal> {
        let mut slot = UNSET;
        let answer = (self.side.witness_append)(image, shape, replica, epoch, &mut slot);
        accepted(answer).map(|()| slot)
    }

    pub fn witness_read(
        &self,
        image: &[u8],
        shape: Shape,
        replica: usize,
        epochs: &mut [u32],
    ) -> Result<(usize, u32), Refusal> {
        let (mut length, mut first) = (UNSET, 0);
        let (used, begins) = (&mut length, &mut first);
        let answer = (self.side.witness_read)(image, shape, replica, epochs, used, begins);
        accepted(answer).map(|()| (length, first))
    }

    /// What a read says of the whole image, a card's or a witness's.
    pub fn judge_image(&self, image: &[u8], shape: Shape, replica: usize) -> Result<Log, Refusal> {
        if shape.is_witness(replica) {
            self.judge_witness(image, shape, replica)
        } else {
            self.judge_card(image, shape, replica)
        }
    }

    fn judge_witness(&self, image: &[u8], shape: Shape, replica: usize) -> Result<Log, Refusal> {
        let mut epochs = vec![0; shape.m.min(1000)];
        let (length, first) = self.witness_read(image, shape, replica, &mut epochs)?;
        Ok(Log {
            length,
            first,
            epochs,
            verdicts: Vec::new(),
        })
    }

    /// Wrong numbers get small buffers.
    fn judge_card(&self, image: &[u8], shape: Shape, replica: usize) -> Result<Log, Refusal> {
        let mut epochs = vec![0; shape.m.min(1000)];
        let mut verdicts = vec![99; shape.m.min(1000)];
        let (length, first) = self.read(image, shape, replica, &mut epochs, &mut verdicts)?;
        let verdicts = verdicts.into_iter().map(verdict).collect();
        Ok(Log {
            length,
            first,
            epochs,
            verdicts,
        })
    }

    pub fn has_payload(
        &self,
        image: &[u8],
        shape: Shape,
        replica: usize,
        slot: usize,
    ) -> Result<bool, Refusal> {
        let mut has = 99;
        accepted((self.side.has_payload)(
            image, shape, replica, slot, &mut has,
        ))?;
        match has {
            0 => Ok(false),
            1 => Ok(true),
            has => panic!("{has} of whether there is a payload"),
        }
    }

    /// The slot's payload as a part of the image, or the empty part.
    pub fn payload<'a>(
        &self,
        image: &'a [u8],
        shape: Shape,
        replica: usize,
        slot: usize,
    ) -> &'a [u8] {
        let (mut at, mut size) = (0, 0);
        (self.side.payload)(image, shape, replica, slot, &mut at, &mut size);
        &image[at..at + size]
    }
}

fn verdict(byte: u8) -> Verdict {
    match byte {
        0 => Verdict::Unused,
        1 => Verdict::Intact,
        2 => Verdict::RecordLost,
        3 => Verdict::Corrupt,
        4 => Verdict::Ambiguous,
        5 => Verdict::Partial,
        6 => Verdict::Stale,
        byte => panic!("a verdict {byte}"),
    }
}
