//! Why a call is refused.

use std::error::Error;
use std::fmt;

use crate::exported::no_such;

/// Why a call is refused, by number. Of several that apply a call answers the one that is tried first:
/// the lowest, but 20 comes before 3, 21 before 13, and 22 before 12. A refused call has changed no byte of
/// what it was lent.
#[derive(Clone, Copy, Debug, PartialEq, Eq, PartialOrd, Ord, Hash)]
#[non_exhaustive]
pub enum Refusal {
    /// 1: m, the number of slots, is not 1 to 64; where an offset is asked for, also if the slot is not 1
    /// to m.
    SlotCount = 1,
    /// 2: n, the number of replicas, is not 3 to 7, the replica of an image is not 1 to n, or the edition
    /// is not 1 or 2.
    ReplicaCount = 2,
    /// 3: the buffer of an image, a cluster or a piece has the wrong length, as has an image of the other
    /// edition; or, whatever the length, a call for cards names a witness, or one for witnesses a card.
    BufferLength = 3,
    /// 4: the header is not one that is written for this replica, n, m and edition, for a card or for a
    /// witness, or its first index is one that 20 refuses.
    Header = 4,
    /// 5: a used slot stands after a blank record.
    UsedAfterBlank = 5,
    /// 6: a bad record stands beside an entry that is not intact; on a witness, any bad record.
    BothLost = 6,
    /// 7: a used slot's epoch is below an earlier slot's.
    EpochFalls = 7,
    /// 8: an append's epoch is 0, or below the last used slot's.
    AppendEpoch = 8,
    /// 9: a payload has over 200 bytes.
    AppendPayload = 9,
    /// 10: an append finds all slots used.
    AppendFull = 10,
    /// 11: the present set has a replica that the cluster does not have.
    Present = 11,
    /// 12: the leader is not in the cluster, not present, a witness, or its image is refused.
    Leader = 12,
    /// 13: a lent result buffer or table has the wrong length. The calls of this crate lend buffers
    /// of the right length themselves.
    LentLength = 13,
    /// 14: the first line of the printing program's input is not well formed. No call of this crate
    /// has it.
    CommandLine = 14,
    /// 20: the first index of a fresh image is 0, is another than 1 in edition 1, or is so high that the
    /// last slot's index would pass 4,294,967,295.
    FirstIndex = 20,
    /// 21: the leader's log and that of another readable present replica begin at different indexes.
    FirstDiffers = 21,
    /// 22: the set of witnesses has a replica that the cluster does not have.
    Witnesses = 22,
}

impl Refusal {
    /// Every refusal, by number.
    pub const ALL: [Refusal; 17] = [
        Refusal::SlotCount,
        Refusal::ReplicaCount,
        Refusal::BufferLength,
        Refusal::Header,
        Refusal::UsedAfterBlank,
        Refusal::BothLost,
        Refusal::EpochFalls,
        Refusal::AppendEpoch,
        Refusal::AppendPayload,
        Refusal::AppendFull,
        Refusal::Present,
        Refusal::Leader,
        Refusal::LentLength,
        Refusal::CommandLine,
        Refusal::FirstIndex,
        Refusal::FirstDiffers,
        Refusal::Witnesses,
    ];

    /// The number, 1 to 14 or 20 to 22, by which C and the printing program name it.
    pub fn number(self) -> u8 {
        self as u8
    }

    /// The refusal with this number, if there is one.
    pub fn from_number(number: u8) -> Option<Refusal> {
        Refusal::ALL
            .into_iter()
            .find(|refusal| refusal.number() == number)
    }

    /// What is wrong, in a few words.
    fn meaning(self) -> &'static str {
        match self {
            Refusal::SlotCount => "the number of slots is not 1 to 64, or there is no such slot",
            Refusal::ReplicaCount => {
                "there are not 3 to 7 replicas, or there is no such replica or edition"
            }
            Refusal::BufferLength => {
                "a buffer has the wrong length, or the call is not for this kind of replica"
            }
            Refusal::Header => "the header is not this replica's",
            Refusal::UsedAfterBlank => "a used slot stands after a blank record",
            Refusal::BothLost => {
                "the record and the entry of a slot are both lost, or a witness's record is"
            }
            Refusal::EpochFalls => "a slot's epoch is below an earlier slot's",
            Refusal::AppendEpoch => "the epoch is 0 or below the last used slot's",
            Refusal::AppendPayload => "the payload has over 200 bytes",
            Refusal::AppendFull => "all slots are used",
            Refusal::Present => "the present set has a replica that the cluster does not have",
            Refusal::Leader => {
                "the leader is not in the cluster, not present, a witness, or not readable"
            }
            Refusal::LentLength => "a lent result buffer has the wrong length",
            Refusal::CommandLine => "the first line of the input is not well formed",
            Refusal::FirstIndex => "a log cannot begin at this index",
            Refusal::FirstDiffers => "the logs begin at different indexes",
            Refusal::Witnesses => {
                "the set of witnesses has a replica that the cluster does not have"
            }
        }
    }
}

impl fmt::Display for Refusal {
    fn fmt(&self, f: &mut fmt::Formatter<'_>) -> fmt::Result {
        write!(f, "refused by {}: {}", self.number(), self.meaning())
    }
}

impl Error for Refusal {}

/// What a function returned, 0 or a refusal's number.
pub(crate) fn accepted(function: &str, number: u8) -> Result<(), Refusal> {
    match number {
        0 => Ok(()),
        _ => Err(Refusal::from_number(number).unwrap_or_else(|| no_such(function, number))),
    }
}
