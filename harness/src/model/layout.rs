//! Where things stand: a header, then m records, then on a card m entries.

use super::shape::Shape;

/// Bytes of a header (the paper's head) in edition 1, and in edition 2, which has a column more.
pub const HEADER_LEN: usize = 28;
pub const HEADER_LEN_2: usize = 39;
/// Bytes of a record (the paper's line).
pub const RECORD_LEN: usize = 34;
/// Bytes of an entry (the paper's cell).
pub const ENTRY_LEN: usize = 240;
/// The most payload bytes an entry holds.
pub const MAX_PAYLOAD: usize = 200;
/// The most slots (the paper's places) an image has.
pub const MAX_SLOTS: usize = 64;
/// The fewest and the most replicas (the paper's cabinets) of a cluster.
pub const MIN_REPLICAS: usize = 3;
pub const MAX_REPLICAS: usize = 7;

/// Bytes of a header of this edition.
pub fn header_len(shape: Shape) -> usize {
    if shape.edition == 2 {
        HEADER_LEN_2
    } else {
        HEADER_LEN
    }
}

/// Bytes of the image on a card.
pub fn card_len(shape: Shape) -> usize {
    witness_len(shape) + ENTRY_LEN * shape.m
}

/// Bytes of a witness's image, which has no entries.
pub fn witness_len(shape: Shape) -> usize {
    header_len(shape) + RECORD_LEN * shape.m
}

/// Bytes of the image that this replica (the paper's cabinet) has.
pub fn image_len(shape: Shape, replica: usize) -> usize {
    if shape.is_witness(replica) {
        witness_len(shape)
    } else {
        card_len(shape)
    }
}

/// Bytes of a cluster (the paper's fleet): n images end to end. A witness that is no replica adds none.
pub fn cluster_len(shape: Shape) -> usize {
    image_offset(shape, shape.n + 1)
}

/// Where the image of a replica begins in the cluster: behind those of all lower numbers.
pub fn image_offset(shape: Shape, replica: usize) -> usize {
    (1..replica).map(|lower| image_len(shape, lower)).sum()
}

/// Where the record of a slot begins in its image.
pub fn record_offset(shape: Shape, slot: usize) -> usize {
    header_len(shape) + RECORD_LEN * (slot - 1)
}

/// Where the entry of a slot begins on its card.
pub fn entry_offset(shape: Shape, slot: usize) -> usize {
    header_len(shape) + RECORD_LEN * shape.m + ENTRY_LEN * (slot - 1)
}
