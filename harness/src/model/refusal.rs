//! Why a call is refused. A refused call changes no byte of what it was lent.

/// The reasons, by number. Of several that apply the lowest wins, but 20 is tried just before 3, 21 just
/// after 12 and 22 just after 11.
#[derive(Clone, Copy, Debug, PartialEq, Eq, PartialOrd, Ord)]
pub enum Refusal {
    /// m is not 1 to 64, or the slot of an offset is not 1 to m.
    SlotCount = 1,
    /// n is not 3 to 7, the replica is not 1 to n, or the edition is not 1 or 2.
    ReplicaCount = 2,
    /// The image or cluster buffer has the wrong length; so has a witness's image for a call about cards,
    /// and a card for a call about witnesses.
    BufferLength = 3,
    /// The header is not one written for this replica and shape, or no log may begin at its first index.
    Header = 4,
    /// A used slot stands after a blank record.
    UsedAfterBlank = 5,
    /// A bad record stands beside an entry that is not intact, or on a witness.
    BothLost = 6,
    /// A used slot's epoch is below an earlier one.
    EpochFalls = 7,
    /// Append: the epoch is 0 or below the last used slot's.
    AppendEpoch = 8,
    /// Append: the payload is over 200 bytes.
    AppendPayload = 9,
    /// Append: all m slots are used.
    AppendFull = 10,
    /// The present word has a bit for no replica.
    Present = 11,
    /// The leader is not 1 to n, not present, unreadable, or a witness.
    Leader = 12,
    /// A lent result buffer or table has the wrong length.
    LentLength = 13,
    /// Printing program: the command line is not well formed.
    CommandLine = 14,
    /// Fresh image: the first index is 0, is not 1 in edition 1, or leaves none for the last slot.
    FirstIndex = 20,
    /// Another readable present image begins at another index than the leader's.
    FirstDiffers = 21,
    /// The set of witnesses has a bit for no replica.
    Witnesses = 22,
}

impl Refusal {
    /// The number returned to the caller.
    pub fn number(self) -> u8 {
        self as u8
    }
}
