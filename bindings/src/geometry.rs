//! The numbers that shape a cluster: its replicas, slots, edition and witnesses; sets of replicas, epochs.

use std::fmt;
use std::num::NonZeroU32;
use std::ops::Range;

use crate::pieces::{self, Shape};
use crate::{Refusal, ENTRY_LEN, HEADER_LEN, HEADER_LEN_2, RECORD_LEN};

/// How the images of a cluster are laid out.
#[derive(Clone, Copy, Debug, PartialEq, Eq, PartialOrd, Ord, Hash)]
#[non_exhaustive]
pub enum Edition {
    /// 1: slot k has index k.
    One = 1,
    /// 2: the header names the first index, and slot k has index first + k − 1.
    Two = 2,
}

impl Edition {
    /// The number that stands in a header.
    pub fn number(self) -> usize {
        self as usize
    }
}

/// How many replicas a cluster has, how many slots each of their images has, the edition of them all,
/// and which of the replicas are witnesses.
#[derive(Clone, Copy, Debug, PartialEq, Eq, Hash)]
pub struct Geometry {
    n: usize,
    m: usize,
    edition: Edition,
    witnesses: ReplicaSet,
}

impl Geometry {
    /// n replicas with m slots each, in edition 1: their logs begin at index 1. All have cards.
    ///
    /// # Errors
    ///
    /// - [`Refusal::SlotCount`]: m is not 1 to 64.
    /// - [`Refusal::ReplicaCount`]: n is not 3 to 7.
    pub fn new(n: usize, m: usize) -> Result<Geometry, Refusal> {
        Geometry::judged(n, m, Edition::One)
    }

    /// The same in edition 2: their logs begin at any index, which the headers name.
    ///
    /// # Errors
    ///
    /// As for [`Geometry::new`].
    pub fn edition_2(n: usize, m: usize) -> Result<Geometry, Refusal> {
        Geometry::judged(n, m, Edition::Two)
    }

    fn judged(n: usize, m: usize, edition: Edition) -> Result<Geometry, Refusal> {
        let geometry = Geometry {
            n,
            m,
            edition,
            witnesses: ReplicaSet::EMPTY,
        };
        pieces::cluster_size(geometry.shape())?;
        Ok(geometry)
    }

    /// The same with these replicas as its witnesses, which store records only; all others have cards.
    ///
    /// A replica that this geometry does not have adds nothing to the length of a cluster and matters
    /// to no call about one image; the calls about a cluster refuse it by [`Refusal::Witnesses`].
    ///
    /// Two things to know before a cluster gets witnesses:
    ///
    /// - Two sets of as many witnesses give a cluster the same length. A wrong one is not refused by
    ///   [`Refusal::BufferLength`]: it shows only as images that are unreadable, in the rows of a plan, or
    ///   as [`Refusal::Leader`]. Nothing is written to such an image.
    /// - A witness counts towards a majority as a card does. So a reading that a majority stored may stand
    ///   on one card alone, and where the witnesses are the majority no copy of its payload may be left.
    ///   Such a slot is not cut, and the recovery waits.
    pub fn with_witnesses(self, witnesses: ReplicaSet) -> Geometry {
        Geometry { witnesses, ..self }
    }

    /// n, the number of replicas.
    pub fn replica_count(self) -> usize {
        self.n
    }

    /// m, the number of slots of each image.
    pub fn slot_count(self) -> usize {
        self.m
    }

    /// The edition of the images.
    pub fn edition(self) -> Edition {
        self.edition
    }

    /// The set of witnesses.
    pub fn witnesses(self) -> ReplicaSet {
        self.witnesses
    }

    /// Whether the replica is a witness; otherwise it has a card.
    pub fn is_witness(self, replica: Replica) -> bool {
        self.witnesses.contains(replica)
    }

    /// The numbers as [`pieces`](crate::pieces) take them.
    pub fn shape(self) -> Shape {
        Shape {
            n: self.n,
            m: self.m,
            edition: self.edition.number(),
            witnesses: self.witnesses.word(),
        }
    }

    /// The bytes of a header.
    pub fn header_len(self) -> usize {
        match self.edition {
            Edition::One => HEADER_LEN,
            Edition::Two => HEADER_LEN_2,
        }
    }

    /// The bytes of the image of a replica. A witness has no entries.
    ///
    /// # Panics
    ///
    /// If the replica is not one of this geometry's.
    pub fn image_len(self, replica: Replica) -> usize {
        self.expect_replica(replica);
        never_refused(pieces::image_size(self.shape(), replica.0))
    }

    /// The bytes of a cluster: all its images end to end.
    pub fn cluster_len(self) -> usize {
        never_refused(pieces::cluster_size(self.shape()))
    }

    /// The replica with this number, counted from 1.
    ///
    /// # Errors
    ///
    /// [`Refusal::ReplicaCount`]: the number is not 1 to n.
    pub fn replica(self, number: usize) -> Result<Replica, Refusal> {
        pieces::image_size(self.shape(), number)?;
        Ok(Replica(number))
    }

    /// All replicas, by number.
    pub fn replicas(self) -> impl Iterator<Item = Replica> {
        (1..=self.n).map(Replica)
    }

    /// The set of all replicas.
    pub fn all_present(self) -> ReplicaSet {
        self.replicas().collect()
    }

    /// Where the image of a replica stands in its cluster.
    ///
    /// # Panics
    ///
    /// If the replica is not one of this geometry's.
    pub fn image_range(self, replica: Replica) -> Range<usize> {
        self.expect_replica(replica);
        let start = never_refused(pieces::image_at(self.shape(), replica.0));
        start..start + self.image_len(replica)
    }

    /// Where the record of a slot, counted from 1, stands in its image, a card's or a witness's.
    ///
    /// # Panics
    ///
    /// If the slot is not 1 to m.
    pub fn record_range(self, slot: usize) -> Range<usize> {
        self.expect_slot(slot);
        // It is the same in every image.
        let start = never_refused(pieces::record_at(self.shape(), 1, slot));
        start..start + RECORD_LEN
    }

    /// Where the entry of a slot, counted from 1, stands in its image, which is a card's.
    ///
    /// # Panics
    ///
    /// If the slot is not 1 to m.
    pub fn entry_range(self, slot: usize) -> Range<usize> {
        self.expect_slot(slot);
        // It is the same on every card, and without witnesses replica 1 has one.
        let cards = self.with_witnesses(ReplicaSet::EMPTY);
        let start = never_refused(pieces::entry_at(cards.shape(), 1, slot));
        start..start + ENTRY_LEN
    }

    /// A budget that no run uses up: 3 × n × m stores.
    pub fn enough_stores(self) -> u64 {
        3 * self.n as u64 * self.m as u64
    }

    fn expect_replica(self, replica: Replica) {
        assert!(replica.0 <= self.n, "{replica} of {} replicas", self.n);
    }

    fn expect_slot(self, slot: usize) {
        assert!((1..=self.m).contains(&slot), "slot {slot} of {}", self.m);
    }
}

/// A size or an offset of a geometry, whose numbers are judged, and of a replica and a slot that it has.
fn never_refused(measure: Result<usize, Refusal>) -> usize {
    measure.expect("the numbers are judged")
}

/// A replica, by its number from 1. [`Geometry::replica`] makes one.
#[derive(Clone, Copy, Debug, PartialEq, Eq, PartialOrd, Ord, Hash)]
pub struct Replica(pub(crate) usize);

impl Replica {
    /// Its number, from 1.
    pub fn number(self) -> usize {
        self.0
    }
}

impl fmt::Display for Replica {
    fn fmt(&self, f: &mut fmt::Formatter<'_>) -> fmt::Result {
        write!(f, "replica {}", self.0)
    }
}

/// A set of replicas, such as those that are present or the witnesses. It is collected from replicas.
#[derive(Clone, Copy, Debug, Default, PartialEq, Eq, Hash)]
pub struct ReplicaSet {
    word: u32,
}

impl ReplicaSet {
    /// The set of no replica.
    pub const EMPTY: ReplicaSet = ReplicaSet { word: 0 };

    /// This set and that replica.
    pub fn with(self, replica: Replica) -> ReplicaSet {
        ReplicaSet {
            word: self.word | bit(replica),
        }
    }

    /// This set without that replica.
    pub fn without(self, replica: Replica) -> ReplicaSet {
        ReplicaSet {
            word: self.word & !bit(replica),
        }
    }

    /// Whether the replica is in the set.
    pub fn contains(self, replica: Replica) -> bool {
        self.word & bit(replica) != 0
    }

    /// The word by which C and the printing program name the set: bit c − 1 stands for replica c.
    pub fn word(self) -> u32 {
        self.word
    }
}

/// No geometry has a replica past 7, so the shift stays inside the word.
fn bit(replica: Replica) -> u32 {
    1 << (replica.0 - 1)
}

impl FromIterator<Replica> for ReplicaSet {
    fn from_iter<I: IntoIterator<Item = Replica>>(replicas: I) -> ReplicaSet {
        replicas
            .into_iter()
            .fold(ReplicaSet::EMPTY, ReplicaSet::with)
    }
}

/// An epoch, 1 to 4,294,967,295. After a cut, and for every new leader, take one that was never used
/// before: an entry that a cut left behind could otherwise be taken for a new one.
#[derive(Clone, Copy, Debug, PartialEq, Eq, PartialOrd, Ord, Hash)]
pub struct Epoch(NonZeroU32);

impl Epoch {
    /// The first epoch, 1.
    pub const FIRST: Epoch = Epoch(NonZeroU32::MIN);

    /// The epoch with this number.
    ///
    /// # Errors
    ///
    /// [`Refusal::AppendEpoch`]: the number is 0.
    pub fn new(number: u32) -> Result<Epoch, Refusal> {
        NonZeroU32::new(number)
            .map(Epoch)
            .ok_or(Refusal::AppendEpoch)
    }

    /// Its number.
    pub fn number(self) -> u32 {
        self.0.get()
    }

    /// The next epoch, if this is not the last.
    pub fn next(self) -> Option<Epoch> {
        self.0.checked_add(1).map(Epoch)
    }
}

impl fmt::Display for Epoch {
    fn fmt(&self, f: &mut fmt::Formatter<'_>) -> fmt::Result {
        write!(f, "epoch {}", self.0)
    }
}
