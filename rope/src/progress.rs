//! The line on a terminal that says how far a recovery is.

use std::io::{self, IsTerminal, Write};

use ropelog::Store;

use crate::words;

/// The line.
pub struct Progress {
    total: usize,
    is_shown: bool,
}

impl Progress {
    /// The line of a recovery with so many stores.
    pub fn new(total: usize) -> Progress {
        Progress {
            total,
            is_shown: io::stderr().is_terminal(),
        }
    }

    /// Says which store was made. A line that cannot be shown is no reason to stop.
    pub fn tell(&self, made: usize, store: Store) {
        if self.is_shown {
            let _ = write!(
                io::stderr(),
                "\r\x1b[Kstore {made} of {}: cabinet {}, place {}, {}",
                self.total,
                store.replica.number(),
                store.slot,
                words::kind(store.kind)
            );
        }
    }

    /// Ends the line.
    pub fn end(&self) {
        if self.is_shown {
            let _ = writeln!(io::stderr());
        }
    }
}
