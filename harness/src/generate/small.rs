//! Agreed clusters of one slot over two epochs, up to the kind of bytes: all of three replicas, and of
//! four those of fewer kinds; in edition 2 those of three whose logs begin at 3 or at 4; and those of
//! three with one witness or with two.

use super::build::Cluster;
use super::damage::header_of;
use super::history::{AgreedCase, Committed};
use super::Case;
use crate::model::{write_entry, Shape};

/// What one replica holds in its only slot, with its header good or not. A witness has no entry.
#[derive(Clone, Copy, Debug, PartialEq, Eq)]
enum Held {
    /// Unused, with these bytes left behind.
    Unused(Bytes),
    /// Used under an epoch, with the record as written and these bytes as its entry.
    Used(u32, Bytes),
    /// Used under an epoch, with the record lost and the entry whole.
    RecordLost(u32),
    /// Refused by its header; used under an epoch, or unused for epoch 0.
    Unreadable(u32),
    /// The same, by a header whose checksum is right and whose first index is 0.
    FromZero(u32),
    /// A log that begins one index later, with its slot used under an epoch, or unused for epoch 0.
    Elsewhere(u32),
}

/// The kinds of bytes an entry may be.
#[derive(Clone, Copy, Debug, PartialEq, Eq)]
enum Bytes {
    Spaces,
    Noise,
    /// An intact entry of an epoch, with the payload appended under it.
    Appended(u32),
    /// An intact entry of an epoch, with a payload from some forgotten past.
    Forgotten(u32),
    /// An entry of an epoch that is intact for index 1.
    Misplaced(u32),
}

use Bytes::*;
use Held::*;

const KINDS: [Held; 19] = [
    Unused(Spaces),
    Unused(Noise),
    Unused(Appended(1)),
    Unused(Appended(2)),
    Unused(Forgotten(1)),
    Unused(Forgotten(2)),
    Used(1, Appended(1)),
    Used(1, Spaces),
    Used(1, Noise),
    Used(1, Forgotten(2)),
    RecordLost(1),
    Used(2, Appended(2)),
    Used(2, Spaces),
    Used(2, Noise),
    Used(2, Forgotten(1)),
    RecordLost(2),
    Unreadable(0),
    Unreadable(1),
    Unreadable(2),
];

/// Fewer of them, for more replicas.
const FEWER_KINDS: [Held; 9] = [
    Unused(Spaces),
    Unused(Appended(1)),
    Used(1, Appended(1)),
    Used(1, Noise),
    Used(1, Forgotten(2)),
    RecordLost(1),
    Used(2, Appended(2)),
    Used(2, Noise),
    Unreadable(1),
];

/// Some of them, and others that only edition 2 has.
const KINDS_2: [Held; 12] = [
    Unused(Spaces),
    Unused(Appended(1)),
    Used(1, Appended(1)),
    Used(1, Noise),
    Used(1, Forgotten(2)),
    Used(1, Misplaced(1)),
    RecordLost(1),
    Used(2, Appended(2)),
    Used(2, Noise),
    FromZero(1),
    Elsewhere(0),
    Elsewhere(1),
];

/// All that a witness may hold, with its record lost or not.
const WITNESS_KINDS: [Held; 8] = [
    Unused(Spaces),
    Used(1, Spaces),
    RecordLost(1),
    Used(2, Spaces),
    RecordLost(2),
    Unreadable(0),
    Unreadable(1),
    Unreadable(2),
];

/// Every cluster of a shape whose replicas hold one of these kinds each.
pub struct Small {
    pub shape: Shape,
    /// The index of the slot.
    first: u32,
    kinds: &'static [Held],
}

pub const THREE: Small = Small {
    shape: Shape::edition_1(3, 1),
    first: 1,
    kinds: &KINDS,
};

pub const FOUR: Small = Small {
    shape: Shape::edition_1(4, 1),
    first: 1,
    kinds: &FEWER_KINDS,
};

pub const FROM_THREE: Small = Small {
    shape: Shape::edition_2(3, 1),
    first: 3,
    kinds: &KINDS_2,
};

/// Replica 3 is a witness.
pub const ONE_WITNESS: Small = Small {
    shape: Shape::edition_1(3, 1).with_witnesses(0b100),
    first: 1,
    kinds: &KINDS,
};

/// Replicas 1 and 3 are witnesses, a majority.
pub const TWO_WITNESSES: Small = Small {
    shape: Shape::edition_1(3, 1).with_witnesses(0b101),
    first: 1,
    kinds: &KINDS,
};

impl Small {
    /// How many cases there are.
    pub fn cases(&self) -> usize {
        let kinds = (1..=self.shape.n).map(|replica| self.kinds_of(replica).len());
        kinds.product::<usize>() * self.views()
    }

    /// What a replica may hold.
    fn kinds_of(&self, replica: usize) -> &'static [Held] {
        if self.shape.is_witness(replica) {
            &WITNESS_KINDS
        } else {
            self.kinds
        }
    }

    /// The case of a number below that.
    pub fn case(&self, number: usize) -> AgreedCase {
        let (leader, present) = self.view(number % self.views());
        let mut rest = number / self.views();
        let mut held = Vec::new();
        for replica in 1..=self.shape.n {
            let kinds = self.kinds_of(replica);
            held.push(kinds[rest % kinds.len()]);
            rest /= kinds.len();
        }
        let begins = |held: &Held| self.first + u32::from(matches!(held, Elsewhere(_)));
        let firsts: Vec<u32> = held.iter().map(begins).collect();
        let mut cluster = Cluster::of_firsts(self.shape, &firsts);
        // One place means one index: who holds what the leader may have under each epoch.
        let leader_first = firsts[leader - 1];
        let mut holders = [0u32; 3];
        for (at, held) in held.into_iter().enumerate() {
            put(&mut cluster, at + 1, held);
            if firsts[at] == leader_first {
                holders[held.epoch() as usize] |= 1 << at;
            }
        }
        let mut committed = Vec::new();
        for epoch in 1..=2 {
            let holders = holders[epoch as usize];
            let leader_holds = holders >> (leader - 1) & 1 == 1;
            if leader_holds && holders.count_ones() as usize > self.shape.n / 2 {
                committed.push(Committed {
                    slot: 1,
                    index: leader_first,
                    epoch,
                    payload: appended(epoch).to_vec(),
                    holders,
                    elsewhere: 0,
                });
            }
        }
        AgreedCase {
            case: Case {
                shape: self.shape,
                leader,
                present,
                cluster: cluster.bytes,
            },
            committed,
        }
    }

    /// Leaders, times the sets of others that are present beside the leader.
    fn views(&self) -> usize {
        self.shape.n * self.others()
    }

    fn others(&self) -> usize {
        1 << (self.shape.n - 1)
    }

    /// A leader and a present word with the leader in it.
    fn view(&self, number: usize) -> (usize, u32) {
        let leader = number / self.others() + 1;
        let mut others = (number % self.others()) as u32;
        let mut present = 1 << (leader - 1);
        for replica in 1..=self.shape.n {
            if replica != leader {
                present |= (others & 1) << (replica - 1);
                others >>= 1;
            }
        }
        (leader, present)
    }
}

impl Held {
    /// The epoch under which the slot is used, 0 if it is not.
    fn epoch(self) -> u32 {
        match self {
            Unused(_) => 0,
            Used(epoch, _) | RecordLost(epoch) => epoch,
            Unreadable(epoch) | FromZero(epoch) | Elsewhere(epoch) => epoch,
        }
    }
}

fn put(cluster: &mut Cluster, replica: usize, held: Held) {
    match held {
        Unused(bytes) => put_bytes(cluster, replica, bytes),
        Used(epoch, bytes) => {
            cluster.put_record(replica, 1, epoch);
            put_bytes(cluster, replica, bytes);
        }
        RecordLost(epoch) => {
            put_bytes(cluster, replica, Appended(epoch));
            cluster.record_mut(replica, 1).fill(b'#');
        }
        Unreadable(epoch) => {
            put_log(cluster, replica, epoch);
            cluster.header_mut(replica)[0] = b'#';
        }
        FromZero(epoch) => {
            put_log(cluster, replica, epoch);
            let header = header_of(cluster.shape, replica, 0);
            cluster.header_mut(replica).copy_from_slice(&header);
        }
        Elsewhere(epoch) => put_log(cluster, replica, epoch),
    }
}

/// The slot as it was appended under an epoch, or unused for epoch 0.
fn put_log(cluster: &mut Cluster, replica: usize, epoch: u32) {
    if epoch > 0 {
        put(cluster, replica, Used(epoch, Appended(epoch)));
    }
}

fn put_bytes(cluster: &mut Cluster, replica: usize, bytes: Bytes) {
    if cluster.shape.is_witness(replica) {
        return;
    }
    match bytes {
        Spaces => {}
        Noise => cluster.entry_mut(replica, 1).fill(b'#'),
        Appended(epoch) => cluster.put_entry(replica, 1, epoch, appended(epoch)),
        Forgotten(epoch) => cluster.put_entry(replica, 1, epoch, b"forgotten"),
        Misplaced(epoch) => {
            let bytes = write_entry(epoch, 1, appended(epoch));
            cluster.entry_mut(replica, 1).copy_from_slice(&bytes);
        }
    }
}

fn appended(epoch: u32) -> &'static [u8] {
    if epoch == 1 {
        b"first"
    } else {
        b"second"
    }
}
