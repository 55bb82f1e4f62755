//! Clusters that several tests look at.

use super::build::Cluster;
use crate::model::write_entry;

/// The printed example, an input of the printing program. Replica 1 uses both slots in epoch 1, its first
/// entry spoilt; replica 2 holds slot 1 whole; replica 3 is fresh.
pub fn example_input() -> Vec<u8> {
    let mut cluster = Cluster::fresh(3, 2);
    let first = b"metre 1204, wire broken";
    cluster.put(1, 1, 1, first);
    cluster.put(1, 2, 1, b"metre 1207, no signal");
    cluster.put(2, 1, 1, first);
    // The first payload byte stands behind three columns of 11, 11 and 4.
    cluster.entry_mut(1, 1)[26] ^= 1;
    let mut input = b"  3  2  1   7\n".to_vec();
    input.extend(&cluster.bytes);
    input
}

/// Three replicas, one slot, index 3: replicas 1 and 2, a majority, had stored the reading. The entry of
/// replica 1 is damaged into one that is intact for index 4, a misdirected write.
pub fn misdirected() -> Cluster {
    let mut cluster = Cluster::fresh_from(3, 1, 3);
    for replica in [1, 2] {
        cluster.put(replica, 1, 1, b"kept");
    }
    let entry = write_entry(2, 4, b"astray");
    cluster.entry_mut(1, 1).copy_from_slice(&entry);
    cluster
}
