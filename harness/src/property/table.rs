//! Table 3.4 of source document 003: four entries on three replicas, each damaged or not.

use super::ensure;
use crate::code::Code;
use crate::generate::Cluster;
use crate::model::{RunEnd, Shape};
use crate::progress;

const REPLICAS: usize = 3;
const SLOTS: usize = 4;
const SHAPE: Shape = Shape::edition_1(REPLICAS, SLOTS);
/// How many sets of damaged entries there are.
pub const SETS: u32 = 1 << (REPLICAS * SLOTS);

/// How the combinations end.
#[derive(Clone, Copy, Debug, Default, PartialEq, Eq)]
pub struct Table {
    /// Recovered with nothing lost.
    pub recovered: u64,
    /// Waiting, with nothing written.
    pub waiting: u64,
    /// Anything else.
    pub harmed: u64,
}

/// Tries every set of damaged entries, leader 1, all replicas present.
pub fn table(code: Code) -> Result<Table, String> {
    let table = table_of(code, |cluster, replica, slot| {
        cluster.entry_mut(replica, slot)[26] ^= 1
    })?;
    let possible = (0..SETS).filter(|&set| every_slot_has_a_copy(set)).count() as u64;
    ensure(table.recovered == possible, || {
        format!("{table:?}, yet {possible} sets leave a copy of every entry")
    })?;
    Ok(table)
}

/// The same with another kind of damage to one slot of one replica.
pub fn table_of(code: Code, damage: impl Fn(&mut Cluster, usize, usize)) -> Result<Table, String> {
    let mut table = Table::default();
    let intact = intact_cluster();
    for set in 0..SETS {
        let mut start = intact.clone();
        for replica in 1..=REPLICAS {
            for slot in 1..=SLOTS {
                if is_damaged(set, replica, slot) {
                    damage(&mut start, replica, slot);
                }
            }
        }
        let mut cluster = start.clone();
        let budget = (3 * REPLICAS * SLOTS) as u64;
        let answer = code
            .run(&mut cluster.bytes, SHAPE, 1, 7, budget)
            .map_err(|refusal| format!("set {set:#x} is refused: {refusal:?}"))?;
        match answer.end {
            RunEnd::Done if cluster == intact => table.recovered += 1,
            RunEnd::Waiting(_) if cluster == start => table.waiting += 1,
            _ => table.harmed += 1,
        }
        progress::step();
    }
    Ok(table)
}

fn intact_cluster() -> Cluster {
    let mut cluster = Cluster::fresh(REPLICAS, SLOTS);
    for replica in 1..=REPLICAS {
        for slot in 1..=SLOTS {
            cluster.put(replica, slot, 1, &[b'a', slot as u8]);
        }
    }
    cluster
}

/// Bit (replica - 1) x 4 + (slot - 1) stands for one entry.
fn is_damaged(set: u32, replica: usize, slot: usize) -> bool {
    set >> ((replica - 1) * SLOTS + slot - 1) & 1 == 1
}

fn every_slot_has_a_copy(set: u32) -> bool {
    (1..=SLOTS).all(|slot| (1..=REPLICAS).any(|replica| !is_damaged(set, replica, slot)))
}
