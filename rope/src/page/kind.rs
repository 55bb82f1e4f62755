//! What a cell of the grid can show. Each kind has a mark, a pattern and a colour of its own.

use ropelog::{Epoch, Replica, Verdict};

use crate::cluster::Cluster;
use crate::seat::Seat;

/// What stands at a place of a cabinet.
#[derive(Clone, Copy, Debug, PartialEq, Eq)]
pub enum Kind {
    Unused,
    Whole,
    LineLost,
    Damaged,
    Doubtful,
    Unfinished,
    Stale,
    Stored,
    Away,
}

impl Kind {
    /// All of them, as the legend has them.
    pub const ALL: [Kind; 9] = [
        Kind::Whole,
        Kind::LineLost,
        Kind::Damaged,
        Kind::Doubtful,
        Kind::Stale,
        Kind::Unfinished,
        Kind::Unused,
        Kind::Stored,
        Kind::Away,
    ];

    /// What a cabinet has at a place, and under which epoch.
    pub fn at(cluster: &Cluster, replica: Replica, slot: usize) -> (Kind, Option<Epoch>) {
        match cluster.seat(replica) {
            Seat::Off | Seat::NoCard | Seat::Unreadable(_) => (Kind::Away, None),
            Seat::Witness(log) => match log.epoch(slot) {
                Some(epoch) => (Kind::Stored, Some(epoch)),
                None => (Kind::Unused, None),
            },
            Seat::Card(log) => match log.slot(slot) {
                Some(state) => (Kind::of(state.verdict), state.epoch),
                None => (Kind::Unused, None),
            },
        }
    }

    fn of(verdict: Verdict) -> Kind {
        match verdict {
            Verdict::Unused => Kind::Unused,
            Verdict::Intact => Kind::Whole,
            Verdict::RecordLost => Kind::LineLost,
            Verdict::Corrupt => Kind::Damaged,
            Verdict::Partial => Kind::Unfinished,
            Verdict::Stale => Kind::Stale,
            // A verdict that a later version adds is in doubt as well.
            _ => Kind::Doubtful,
        }
    }

    /// Its class in the style, which gives it colour and pattern.
    pub fn class(self) -> &'static str {
        match self {
            Kind::Unused => "unused",
            Kind::Whole => "whole",
            Kind::LineLost => "line-lost",
            Kind::Damaged => "damaged",
            Kind::Doubtful => "doubtful",
            Kind::Unfinished => "unfinished",
            Kind::Stale => "stale",
            Kind::Stored => "stored",
            Kind::Away => "away",
        }
    }

    /// Its mark, of characters that every font has.
    pub fn mark(self) -> &'static str {
        match self {
            Kind::Unused => "·",
            Kind::Whole => "✓",
            Kind::LineLost => "L",
            Kind::Damaged => "×",
            Kind::Doubtful => "?",
            Kind::Unfinished => "½",
            Kind::Stale => "S",
            Kind::Stored => "W",
            Kind::Away => "–",
        }
    }

    /// Its name.
    pub fn word(self) -> &'static str {
        match self {
            Kind::Unused => "unused",
            Kind::Whole => "whole",
            Kind::LineLost => "line lost",
            Kind::Damaged => "damaged",
            Kind::Doubtful => "doubtful",
            Kind::Unfinished => "unfinished",
            Kind::Stale => "stale",
            Kind::Stored => "line stored",
            Kind::Away => "off",
        }
    }

    /// What it means.
    pub fn meaning(self) -> &'static str {
        match self {
            Kind::Unused => "nothing was stored here",
            Kind::Whole => "line and cell are good",
            Kind::LineLost => "the reading is whole, its line is not",
            Kind::Damaged => "the line is good, the reading is gone",
            Kind::Doubtful => "damage, or a write cut short",
            Kind::Unfinished => "a write that never got its line",
            Kind::Stale => "an older reading stands here",
            Kind::Stored => "a witness box has the line",
            Kind::Away => "switched off, left out or unreadable",
        }
    }
}
