//! What is known of one cabinet of a cluster.

use std::fmt;

use ropelog::{read, witness_read, Geometry, Log, Refusal, Replica, WitnessLog};

use crate::words;

/// What is known of one cabinet.
#[derive(Clone, Debug)]
pub enum Seat {
    /// It is named as off.
    Off,
    /// No card of it was given.
    NoCard,
    /// Its card or its box is refused, so that it counts as off.
    Unreadable(Refusal),
    /// A card that answers.
    Card(Box<Log>),
    /// A witness box that answers.
    Witness(Box<WitnessLog>),
}

impl Seat {
    /// Whether its cabinet gives an answer.
    pub fn answers(&self) -> bool {
        matches!(self, Seat::Card(_) | Seat::Witness(_))
    }

    /// Whether its log is empty, as a fresh card's is.
    pub fn is_fresh(&self) -> bool {
        match self {
            Seat::Card(log) => log.length() == 0,
            Seat::Witness(log) => log.length() == 0,
            _ => false,
        }
    }
}

impl fmt::Display for Seat {
    fn fmt(&self, f: &mut fmt::Formatter<'_>) -> fmt::Result {
        let used = |length: usize| words::count(length, "place") + " used";
        match self {
            Seat::Off => f.write_str("off"),
            Seat::NoCard => f.write_str("off: no card of it was given"),
            Seat::Unreadable(refusal) => write!(
                f,
                "unreadable, refused by {}: {}; it counts as off",
                refusal.number(),
                words::meaning(*refusal).0
            ),
            Seat::Card(log) => f.write_str(&used(log.length())),
            Seat::Witness(log) => write!(f, "witness box, {}", used(log.length())),
        }
    }
}

/// Reads an image that has the right length.
pub fn seat_of(image: &[u8], geometry: Geometry, replica: Replica) -> Seat {
    if geometry.is_witness(replica) {
        match witness_read(image, geometry, replica) {
            Ok(log) => Seat::Witness(Box::new(log)),
            Err(refusal) => Seat::Unreadable(refusal),
        }
    } else {
        match read(image, geometry, replica) {
            Ok(log) => Seat::Card(Box::new(log)),
            Err(refusal) => Seat::Unreadable(refusal),
        }
    }
}
