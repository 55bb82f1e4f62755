//! What stands on a card that is refused, piece by piece.

use std::io::Write;

use ropelog::pieces::{judge_entry, judge_record, payload_range, Entry, Record};
use ropelog::{Edition, Geometry, Replica, ENTRY_LEN, RECORD_LEN};

use crate::outcome::Failure;
use crate::words;

/// What stands on a refused card, piece by piece: for the eyes alone, no verdict and no plan uses it.
pub fn print(
    image: &[u8],
    geometry: Geometry,
    replica: Replica,
    first: Option<u32>,
    out: &mut impl Write,
) -> Result<(), Failure> {
    let Some(first) = first.or((geometry.edition() == Edition::One).then_some(1)) else {
        writeln!(
            out,
            "  to see what still stands on it say with which number its log begins: --first F"
        )?;
        return Ok(());
    };
    writeln!(
        out,
        "  what stands on it, piece by piece (no plan uses it):"
    )?;
    for slot in 1..=geometry.slot_count() {
        let Some(index) = first.checked_add(slot as u32 - 1) else {
            break;
        };
        let line = record_in_words(&image[geometry.record_range(slot)], index);
        let cell = if geometry.is_witness(replica) {
            String::new()
        } else {
            entry_in_words(&image[geometry.entry_range(slot)], index)
        };
        writeln!(out, "  {slot:>5}  line {line}{cell}")?;
    }
    Ok(())
}

fn record_in_words(record: &[u8], index: u32) -> String {
    let record: &[u8; RECORD_LEN] = record.try_into().expect("a record");
    match judge_record(record, index) {
        Record::Good { epoch } => format!("good, epoch {epoch}"),
        Record::Blank => "empty".to_string(),
        Record::Bad => "lost".to_string(),
    }
}

fn entry_in_words(entry: &[u8], index: u32) -> String {
    let entry: &[u8; ENTRY_LEN] = entry.try_into().expect("an entry");
    match judge_entry(entry, index) {
        Entry::Intact { epoch, size } => format!(
            "; cell whole, epoch {epoch}, {}: {}",
            words::count(size, "byte"),
            words::piece(&entry[payload_range(size)])
        ),
        Entry::Broken if entry.iter().all(|&byte| byte == b' ') => "; cell empty".to_string(),
        Entry::Broken => "; cell lost".to_string(),
    }
}
