//! Damage to headers, records and entries, and what a torn store leaves.

use super::rng::Rng;
use super::shapes::highest_first;
use crate::model::{
    checksum, judge_entry, judge_header, judge_record, write_column, write_entry, write_header,
    write_record, EntryState, RecordState, Shape, ENTRY_LEN, RECORD_LEN,
};

/// An epoch near `epoch`, or anywhere.
pub fn some_epoch(rng: &mut Rng, epoch: u32) -> u32 {
    match rng.below(5) {
        0 => epoch.saturating_sub(1).max(1),
        1 => epoch.saturating_add(1),
        2 => epoch.max(1),
        3 => u32::MAX,
        _ => 1 + rng.below(6) as u32,
    }
}

/// A payload, often a short one out of few, so that equal ones occur.
pub fn some_payload(rng: &mut Rng) -> Vec<u8> {
    let length = match rng.below(10) {
        0 => 0,
        1 => 200,
        2 => rng.below(201),
        _ => 1,
    };
    if length == 1 {
        return vec![*rng.pick(b"ABC")];
    }
    let mut payload = vec![0; length];
    rng.fill_noise(&mut payload);
    payload
}

/// An index near this one, or one that a log from 1 on has.
fn some_index(rng: &mut Rng, index: u32) -> u32 {
    let step = 1 + rng.below(64) as u32;
    match rng.below(4) {
        0 => index.saturating_add(step),
        1 => index.saturating_sub(step),
        _ => step,
    }
}

/// Any bytes an entry may hold: noise, spaces, an old entry, a mutated one.
pub fn some_entry(rng: &mut Rng, index: u32, near_epoch: u32) -> [u8; ENTRY_LEN] {
    let mut bytes = [b' '; ENTRY_LEN];
    match rng.below(6) {
        0 => {}
        1 => rng.fill_noise(&mut bytes),
        2 => {
            // An entry written for another index.
            let other = some_index(rng, index);
            bytes = write_entry(some_epoch(rng, near_epoch), other, &some_payload(rng));
        }
        3 => {
            bytes = write_entry(some_epoch(rng, near_epoch), index, &some_payload(rng));
            flip_one_byte(rng, &mut bytes);
        }
        _ => bytes = write_entry(some_epoch(rng, near_epoch), index, &some_payload(rng)),
    }
    bytes
}

/// Changes one byte, sometimes in one bit only.
pub fn flip_one_byte(rng: &mut Rng, bytes: &mut [u8]) {
    let at = rng.below(bytes.len());
    bytes[at] ^= if rng.chance(50) {
        1 << rng.below(8)
    } else {
        1 + rng.below(255) as u8
    };
}

/// Whether an entry is intact for this index under this very epoch.
pub fn intact_under(bytes: &[u8], index: u32, epoch: u32) -> bool {
    matches!(judge_entry(bytes, index), EntryState::Intact(found, _) if found == epoch)
}

/// Damages an entry so that it is not intact under its record's epoch.
pub fn damage_entry(rng: &mut Rng, entry: &mut [u8], index: u32, epoch: u32) {
    let old = entry.to_vec();
    loop {
        if rng.chance(40) {
            entry.copy_from_slice(&old);
            flip_one_byte(rng, entry);
        } else {
            entry.copy_from_slice(&some_entry(rng, index, epoch));
        }
        if !intact_under(entry, index, epoch) {
            return;
        }
    }
}

/// Damages a record into something neither blank nor good.
pub fn damage_record(rng: &mut Rng, record: &mut [u8], index: u32) {
    let old = record.to_vec();
    loop {
        match rng.below(6) {
            0 => rng.fill_noise(record),
            1 => record.fill(b' '),
            2 => {
                let other = some_index(rng, index);
                record.copy_from_slice(&write_record(some_epoch(rng, 1), other));
            }
            3 => record.copy_from_slice(&write_record(0, index)),
            4 => {
                record.copy_from_slice(&old);
                let last = RECORD_LEN - 1;
                record[last] = b' ';
            }
            _ => {
                record.copy_from_slice(&old);
                flip_one_byte(rng, record);
            }
        }
        if judge_record(record, index) == RecordState::Bad {
            return;
        }
    }
}

/// Damages a header into one that is refused.
pub fn damage_header(rng: &mut Rng, header: &mut [u8], shape: Shape, replica: usize) {
    loop {
        match rng.below(if shape.edition == 2 { 6 } else { 4 }) {
            0 => rng.fill_noise(header),
            1 => {
                let m = 1 + rng.below(64);
                let other = Shape { m, ..shape };
                header.copy_from_slice(&write_header(other, 1 + rng.below(shape.n), 1));
            }
            2 => header.fill(b' '),
            3 => flip_one_byte(rng, header),
            _ => {
                let first = improper_first(rng, shape);
                header.copy_from_slice(&header_of(shape, replica, first));
            }
        }
        if judge_header(header, shape, replica).is_none() {
            return;
        }
    }
}

/// A first index of edition 2 with which a header is refused though its checksum is right.
pub fn improper_first(rng: &mut Rng, shape: Shape) -> u64 {
    let highest = u64::from(highest_first(shape));
    *rng.pick(&[0, 0, highest + 1, highest + 2, 1 << 32, 99_999_999_999])
}

/// A header with its right checksum. The first index of edition 2 may be any that its column takes.
pub fn header_of(shape: Shape, replica: usize, first: u64) -> Vec<u8> {
    let mut header = write_header(shape, replica, 1);
    if shape.edition == 2 {
        write_column(&mut header[16..27], first);
        let sum = checksum(&header[..27]);
        write_column(&mut header[27..38], u64::from(sum));
    }
    header
}

/// What an entry store cut in the middle leaves.
///
/// It is intact under no epoch, unless it is exactly what was being written.
pub fn torn_entry(rng: &mut Rng, old: &[u8], new: &[u8], index: u32) -> Vec<u8> {
    loop {
        let mut bytes = new.to_vec();
        match rng.below(6) {
            0 => rng.fill_noise(&mut bytes),
            1 => {
                let cut = rng.below(ENTRY_LEN + 1);
                bytes[cut..].copy_from_slice(&old[cut..]);
            }
            2 => {
                let cut = rng.below(ENTRY_LEN + 1);
                bytes[..cut].copy_from_slice(&old[..cut]);
            }
            3 => {
                for at in 0..ENTRY_LEN {
                    if rng.chance(50) {
                        bytes[at] = old[at];
                    }
                }
            }
            4 => flip_one_byte(rng, &mut bytes),
            _ => bytes.fill(b' '),
        }
        if bytes == new || judge_entry(&bytes, index) == EntryState::NotIntact {
            return bytes;
        }
    }
}
