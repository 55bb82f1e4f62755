//! All 4,096 sets of damaged entries of Table 3.4 in source document 003.

#![deny(dead_code)]

use harness::code::Code;
use harness::on_both_sides;
use harness::property::table::{table, table_of, Table};

on_both_sides! {
    one_changed_byte,
    noise,
    spaces,
    an_entry_of_another_epoch,
    records_instead_of_entries,
}

const EXPECTED: Table = Table {
    recovered: 2_401,
    waiting: 1_695,
    harmed: 0,
};

fn one_changed_byte(on: Code) {
    assert_eq!(table(on), Ok(EXPECTED));
}

fn noise(on: Code) {
    let found = table_of(on, |cluster, replica, slot| {
        cluster.entry_mut(replica, slot).fill(0xa5)
    });
    assert_eq!(found, Ok(EXPECTED));
}

fn spaces(on: Code) {
    let found = table_of(on, |cluster, replica, slot| {
        cluster.entry_mut(replica, slot).fill(b' ')
    });
    assert_eq!(found, Ok(EXPECTED));
}

fn an_entry_of_another_epoch(on: Code) {
    let found = table_of(on, |cluster, replica, slot| {
        cluster.put_entry(replica, slot, 2, b"stale")
    });
    assert_eq!(found, Ok(EXPECTED));
}

/// An entry knows its own epoch, so a lost record needs no copy.
fn records_instead_of_entries(on: Code) {
    let found = table_of(on, |cluster, replica, slot| {
        cluster.record_mut(replica, slot).fill(0)
    });
    let all = Table {
        recovered: 4_096,
        ..Table::default()
    };
    assert_eq!(found, Ok(all));
}
