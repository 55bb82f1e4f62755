//! What a round of cases has met, so that a test can ask for everything to occur.

use std::fmt;

/// Counts over all cases of a round.
#[derive(Clone, Debug, Default, PartialEq, Eq)]
pub struct Coverage {
    pub ready: u64,
    pub waiting: u64,
    pub refused: u64,
    /// Plans that truncate the leader.
    pub truncated: u64,
    pub committed: u64,
    /// Those of clusters of four or six.
    pub even: u64,
    /// Those of edition 2.
    pub edition_2: u64,
    /// Those that some log held which begins at another index than the leader's.
    pub elsewhere: u64,
    /// Plans that are refused because logs begin at different indexes.
    pub first_differs: u64,
    /// Plans of logs whose last slot has the last index that there is.
    pub last_index: u64,
    /// Plans of clusters with witnesses.
    pub with_witnesses: u64,
    /// Those with a wrong set of as many witnesses.
    pub wrong_set: u64,
    /// Those in which a witness's record kept a slot from being cut.
    pub kept_by_witnesses: u64,
    /// Plans that are refused because a witness leads, or because of a witness that is no replica.
    pub led_by_witness: u64,
    pub stray_witness: u64,
    /// Committed payloads that only witnesses make a majority's.
    pub witnessed: u64,
    /// Present witnesses with a bad record, and those that a recovery writes to.
    pub bad_witnesses: u64,
    pub witnesses_written: u64,
    /// Committed payloads whose copy on the leader was faulty, with a copy within reach.
    pub fetched: u64,
    /// The same with none.
    pub out_of_reach: u64,
    /// Committed payloads whose record on the leader was lost.
    pub records_lost: u64,
    /// Entry stores cut in the middle.
    pub torn: u64,
    /// Cuts before or after a store, or of a record.
    pub cut: u64,
    pub refused_calls: u64,
    pub spent: u64,
    /// States in which every conclusion was checked.
    pub states: u64,
    pub most_stores: u64,
}

impl fmt::Display for Coverage {
    fn fmt(&self, f: &mut fmt::Formatter) -> fmt::Result {
        writeln!(
            f,
            "  plans: {} ready ({} truncate), {} waiting, {} refused",
            self.ready, self.truncated, self.waiting, self.refused
        )?;
        writeln!(
            f,
            "  committed: {}, of them in even clusters {}, fetched {}, out of reach {}, record lost {}",
            self.committed, self.even, self.fetched, self.out_of_reach, self.records_lost
        )?;
        writeln!(
            f,
            "  first indexes: {} committed in edition 2, {} held by a log that begins elsewhere; {} plans \
             refused by 21, {} with the last index",
            self.edition_2, self.elsewhere, self.first_differs, self.last_index
        )?;
        writeln!(
            f,
            "  witnesses: {} plans ({} of a wrong set, {} wait for a record), {} committed by them, {} with a \
             bad record, {} written to; refused by 12 {}, by 22 {}",
            self.with_witnesses,
            self.wrong_set,
            self.kept_by_witnesses,
            self.witnessed,
            self.bad_witnesses,
            self.witnesses_written,
            self.led_by_witness,
            self.stray_witness
        )?;
        writeln!(
            f,
            "  power cuts: {} torn entries, {} others; refused calls: {}; runs spent: {}",
            self.torn, self.cut, self.refused_calls, self.spent
        )?;
        write!(
            f,
            "  states checked: {}; most stores in a run: {}",
            self.states, self.most_stores
        )
    }
}
