//! A cluster under construction, with its parts by name.

use crate::model::{
    entry_offset, fresh_image, header_len, image_len, image_offset, index_of, judge_header,
    record_offset, write_entry, write_record, Shape, ENTRY_LEN, RECORD_LEN,
};

/// n images of m slots, end to end.
#[derive(Clone, Debug, PartialEq, Eq)]
pub struct Cluster {
    pub shape: Shape,
    /// The index at which each replica's log begins, by number.
    pub firsts: Vec<u32>,
    pub bytes: Vec<u8>,
}

impl Cluster {
    /// n fresh images of edition 1. The numbers must be ones the model accepts.
    pub fn fresh(n: usize, m: usize) -> Cluster {
        Cluster::of_shape(Shape::edition_1(n, m))
    }

    /// n fresh images of edition 2 whose logs all begin at this index.
    pub fn fresh_from(n: usize, m: usize, first: u32) -> Cluster {
        Cluster::of_firsts(Shape::edition_2(n, m), &vec![first; n])
    }

    /// Fresh images of this shape, all from index 1 on.
    pub fn of_shape(shape: Shape) -> Cluster {
        Cluster::of_firsts(shape, &vec![1; shape.n])
    }

    /// Fresh images, each with a first index of its own.
    pub fn of_firsts(shape: Shape, firsts: &[u32]) -> Cluster {
        let mut bytes = Vec::new();
        for replica in 1..=shape.n {
            let mut image = vec![0; image_len(shape, replica)];
            fresh_image(&mut image, shape, replica, firsts[replica - 1])
                .expect("the numbers are accepted");
            bytes.extend_from_slice(&image);
        }
        let firsts = firsts.to_vec();
        Cluster {
            shape,
            firsts,
            bytes,
        }
    }

    /// The cluster of these bytes. A log under a header that is refused is taken for one from 1 on.
    pub fn of_bytes(shape: Shape, bytes: Vec<u8>) -> Cluster {
        let first = |replica| {
            let at = image_offset(shape, replica);
            let header = &bytes[at..at + header_len(shape)];
            judge_header(header, shape, replica).unwrap_or(1)
        };
        let firsts = (1..=shape.n).map(first).collect();
        Cluster {
            shape,
            firsts,
            bytes,
        }
    }

    /// The index of a slot of one replica.
    pub fn index(&self, replica: usize, slot: usize) -> u32 {
        index_of(self.firsts[replica - 1], slot)
    }

    pub fn image(&self, replica: usize) -> &[u8] {
        let at = image_offset(self.shape, replica);
        &self.bytes[at..at + image_len(self.shape, replica)]
    }

    pub fn image_mut(&mut self, replica: usize) -> &mut [u8] {
        let at = image_offset(self.shape, replica);
        &mut self.bytes[at..at + image_len(self.shape, replica)]
    }

    pub fn header_mut(&mut self, replica: usize) -> &mut [u8] {
        let end = header_len(self.shape);
        &mut self.image_mut(replica)[0..end]
    }

    pub fn record(&self, replica: usize, slot: usize) -> &[u8] {
        let at = record_offset(self.shape, slot);
        &self.image(replica)[at..at + RECORD_LEN]
    }

    pub fn record_mut(&mut self, replica: usize, slot: usize) -> &mut [u8] {
        let at = record_offset(self.shape, slot);
        &mut self.image_mut(replica)[at..at + RECORD_LEN]
    }

    /// The entry of a slot, which only a card has.
    pub fn entry(&self, replica: usize, slot: usize) -> &[u8] {
        let at = entry_offset(self.shape, slot);
        &self.image(replica)[at..at + ENTRY_LEN]
    }

    pub fn entry_mut(&mut self, replica: usize, slot: usize) -> &mut [u8] {
        let at = entry_offset(self.shape, slot);
        &mut self.image_mut(replica)[at..at + ENTRY_LEN]
    }

    pub fn put_record(&mut self, replica: usize, slot: usize, epoch: u32) {
        let bytes = write_record(epoch, self.index(replica, slot));
        self.record_mut(replica, slot).copy_from_slice(&bytes);
    }

    pub fn put_entry(&mut self, replica: usize, slot: usize, epoch: u32, payload: &[u8]) {
        let bytes = write_entry(epoch, self.index(replica, slot), payload);
        self.entry_mut(replica, slot).copy_from_slice(&bytes);
    }

    /// Entry and record of one slot; on a witness the record alone.
    pub fn put(&mut self, replica: usize, slot: usize, epoch: u32, payload: &[u8]) {
        if !self.shape.is_witness(replica) {
            self.put_entry(replica, slot, epoch, payload);
        }
        self.put_record(replica, slot, epoch);
    }
}
