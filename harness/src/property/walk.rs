//! Every state of a whole recovery, torn entries included.

use super::claims::Start;
use super::coverage::Coverage;
use crate::model::{apply, EntryState, Store, StoreKind, ENTRY_LEN};

/// Makes one store after the other and checks every conclusion before, during and after each.
pub fn walk(start: &Start, coverage: &mut Coverage) -> Result<(), String> {
    let mut now = start.case.cluster.clone();
    loop {
        start.check_state(&now, coverage)?;
        let Some(store) = start.stepped(&now)? else {
            return Ok(());
        };
        if store.kind == StoreKind::Entry {
            check_torn(start, &now, &store, coverage)?;
        }
        apply(&mut now, &store);
    }
}

/// Checks what an entry store may leave when it is cut in the middle.
fn check_torn(
    start: &Start,
    now: &[u8],
    store: &Store,
    coverage: &mut Coverage,
) -> Result<(), String> {
    let old = &now[store.offset..store.offset + ENTRY_LEN];
    for bytes in torn_kinds(old, &store.bytes) {
        let index = start.index(store.slot);
        if start.code.judge_entry(&bytes, index) != EntryState::NotIntact {
            continue;
        }
        let mut torn = now.to_vec();
        torn[store.offset..store.offset + ENTRY_LEN].copy_from_slice(&bytes);
        coverage.torn += 1;
        start.check_state(&torn, coverage)?;
    }
    Ok(())
}

/// A few kinds of torn entries: each half of the new bytes, and neither.
fn torn_kinds(old: &[u8], new: &[u8]) -> [Vec<u8>; 4] {
    let half = 30;
    [
        [&new[..half], &old[half..]].concat(),
        [&old[..half], &new[half..]].concat(),
        vec![b' '; ENTRY_LEN],
        vec![b'?'; ENTRY_LEN],
    ]
}
