//! What a call names of its cluster, and the indexes at which a log of that shape may begin.

/// The last index that there is.
pub const LAST_INDEX: u32 = u32::MAX;

/// Any numbers; refusals 1 and 2 say which of them are a cluster's.
#[derive(Clone, Copy, Debug, PartialEq, Eq)]
pub struct Shape {
    /// How many replicas there are (the paper's cabinets).
    pub n: usize,
    /// How many slots each image has (the paper's places).
    pub m: usize,
    pub edition: usize,
    /// The set of witnesses: replica c has bit c - 1. Refusal 22 says which sets are a cluster's.
    pub witnesses: u32,
}

impl Shape {
    /// Slot k has index k, and every replica has a card.
    pub const fn edition_1(n: usize, m: usize) -> Shape {
        Shape {
            n,
            m,
            edition: 1,
            witnesses: 0,
        }
    }

    /// The header names the first index, and every replica has a card.
    pub const fn edition_2(n: usize, m: usize) -> Shape {
        Shape {
            edition: 2,
            ..Shape::edition_1(n, m)
        }
    }

    /// The same with this set of witnesses.
    pub const fn with_witnesses(self, witnesses: u32) -> Shape {
        Shape { witnesses, ..self }
    }

    /// Whether the replica of this number is a witness, which has records and no entries. A number
    /// without a bit is none.
    pub fn is_witness(self, replica: usize) -> bool {
        (1..=32).contains(&replica) && self.witnesses >> (replica - 1) & 1 == 1
    }

    /// Whether a log may begin at this index: each slot has an index, and in edition 1 slot 1 has 1.
    pub fn may_begin_at(self, first: u64) -> bool {
        let behind = u128::from(first) + self.m as u128;
        first > 0 && behind - 1 <= u128::from(LAST_INDEX) && (self.edition == 2 || first == 1)
    }
}

/// The index of a slot in a log that begins at `first`.
pub fn index_of(first: u32, slot: usize) -> u32 {
    first + (slot - 1) as u32
}
