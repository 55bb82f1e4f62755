//! The model's calls in the exported form.

use super::Side;
use crate::model::{self, Answer, EntryState, RecordState, Refusal, RunAnswer, RunEnd};
use crate::model::{Shape, StepAnswer, ENTRY_LEN, MAX_PAYLOAD, RECORD_LEN};
use crate::proved::clusters::ReplicaRow;
use crate::proved::{Column, Entry, Header, Measure, Record, Written};

/// The widest column that is read.
const WIDEST: usize = 19;

pub const MODEL: Side = Side {
    checksum: model::checksum,
    write_number,
    read_column,
    write_header,
    judge_header,
    write_record,
    write_blank_record,
    judge_record,
    write_entry,
    write_fresh_entry,
    judge_entry,
    image_size: |shape, replica| measure(model::image_size(shape, replica)),
    cluster_size: |shape| measure(model::cluster_size(shape)),
    image_at: |shape, replica| measure(model::image_at(shape, replica)),
    record_at: |shape, replica, slot| measure(model::record_at(shape, replica, slot)),
    entry_at: |shape, replica, slot| measure(model::entry_at(shape, replica, slot)),
    format,
    append,
    read,
    has_payload,
    payload,
    witness_append,
    witness_read,
    plan,
    step,
    run,
};

/// The number's column, or the lowest digits of a number too wide for it. The model writes only
/// what fits.
fn write_number(column: &mut [u8], number: u64) {
    let digits = number.to_string();
    if digits.len() > column.len() {
        column.copy_from_slice(&digits.as_bytes()[digits.len() - column.len()..]);
    } else {
        model::write_column(column, number);
    }
}

/// The model has no column of no bytes; the only number with no more digits than that is 0.
fn read_column(column: &[u8], value: &mut u64) -> Column {
    if column.len() > WIDEST {
        return Column::WrongLength;
    }
    let number = if column.is_empty() {
        Some(0)
    } else {
        model::read_column(column)
    };
    match number {
        Some(number) => {
            *value = number;
            Column::Number
        }
        None if column.iter().all(|&byte| byte == b' ') => Column::Blank,
        None => Column::Malformed,
    }
}

/// The model never meets a number too wide for its column, and would stop.
fn fits(shape: Shape, replica: usize) -> bool {
    let Shape { n, m, edition, .. } = shape;
    edition.max(replica).max(n).max(m) < 1000
}

/// The writer's header.
fn header_of(shape: Shape, replica: usize, first: u32) -> Vec<u8> {
    if fits(shape, replica) {
        return model::write_header(shape, replica, first);
    }
    let Shape { n, m, edition, .. } = shape;
    // Edition 2 alone has the column of the first index.
    let (narrow, end) = match edition {
        2 => (Shape::edition_2(0, 0), 27),
        _ => (Shape::edition_1(0, 0), 16),
    };
    // Replica 1 has the fixed word that this one has.
    let narrow = narrow.with_witnesses(shape.is_witness(replica).into());
    let mut header = model::write_header(narrow, 1, first);
    write_number(&mut header[4..7], edition as u64);
    write_number(&mut header[7..10], replica as u64);
    write_number(&mut header[10..13], n as u64);
    write_number(&mut header[13..16], m as u64);
    let sum = model::checksum(&header[..end]);
    write_number(&mut header[end..end + 11], u64::from(sum));
    header
}

/// Writes all of these bytes, or none.
fn write(lent: &mut [u8], bytes: &[u8]) -> Written {
    if lent.len() != bytes.len() {
        return Written::WrongLength;
    }
    lent.copy_from_slice(bytes);
    Written::Written
}

fn write_header(header: &mut [u8], shape: Shape, replica: usize, first: u32) -> Written {
    write(header, &header_of(shape, replica, first))
}

fn judge_header(header: &[u8], shape: Shape, replica: usize, first: &mut u32) -> Header {
    let found = if fits(shape, replica) {
        model::judge_header(header, shape, replica)
    } else {
        first_in(header, shape).filter(|&found| header == header_of(shape, replica, found))
    };
    match found {
        Some(found) => {
            *first = found;
            Header::Good
        }
        None => Header::Other,
    }
}

/// The one first index that a header can have, if a log may begin there. Only edition 2 has a column for
/// it, so that of another edition only the bytes count.
fn first_in(header: &[u8], shape: Shape) -> Option<u32> {
    if shape.edition != 2 {
        return Some(1);
    }
    let found = model::read_column(header.get(16..27)?)?;
    shape.may_begin_at(found).then_some(found as u32)
}

fn write_record(record: &mut [u8], epoch: u32, index: u32) -> Written {
    write(record, &model::write_record(epoch, index))
}

fn write_blank_record(record: &mut [u8]) -> Written {
    write(record, &model::BLANK_RECORD)
}

fn judge_record(record: &[u8], index: u32, epoch: &mut u32) -> Record {
    if record.len() != RECORD_LEN {
        return Record::WrongLength;
    }
    match model::judge_record(record, index) {
        RecordState::Good(found) => {
            *epoch = found;
            Record::Good
        }
        RecordState::Blank => Record::Blank,
        RecordState::Bad => Record::Bad,
    }
}

fn write_entry(entry: &mut [u8], epoch: u32, index: u32, payload: &[u8]) -> Written {
    if entry.len() != ENTRY_LEN {
        return Written::WrongLength;
    }
    if payload.len() > MAX_PAYLOAD {
        return Written::PayloadTooLong;
    }
    write(entry, &model::write_entry(epoch, index, payload))
}

fn write_fresh_entry(entry: &mut [u8]) -> Written {
    write(entry, &[b' '; ENTRY_LEN])
}

fn judge_entry(entry: &[u8], index: u32, epoch: &mut u32, size: &mut usize) -> Entry {
    if entry.len() != ENTRY_LEN {
        return Entry::WrongLength;
    }
    match model::judge_entry(entry, index) {
        EntryState::Intact(found, payload) => {
            *epoch = found;
            *size = payload.len();
            Entry::Intact
        }
        EntryState::NotIntact => Entry::Broken,
    }
}

/// 0, or the refusal's number. What was found goes where it is handed out.
fn answer<T>(answer: Result<T, Refusal>, hand_out: impl FnOnce(T)) -> u8 {
    match answer {
        Ok(found) => {
            hand_out(found);
            0
        }
        Err(refusal) => refusal.number(),
    }
}

fn measure(answer: Result<usize, Refusal>) -> Measure {
    match answer {
        Ok(value) => Measure { value, refusal: 0 },
        Err(refusal) => Measure {
            value: 0,
            refusal: refusal.number(),
        },
    }
}

fn format(image: &mut [u8], shape: Shape, replica: usize, first: u32) -> u8 {
    answer(model::fresh_image(image, shape, replica, first), |()| ())
}

fn append(
    image: &mut [u8],
    shape: Shape,
    replica: usize,
    epoch: u32,
    payload: &[u8],
    slot: &mut usize,
) -> u8 {
    let appended = model::append(image, shape, replica, epoch, payload);
    answer(appended, |found| *slot = found)
}

fn read(
    image: &[u8],
    shape: Shape,
    replica: usize,
    epochs: &mut [u32],
    verdicts: &mut [u8],
    used: &mut usize,
    first: &mut u32,
) -> u8 {
    let read = model::read(image, shape, replica, epochs, verdicts);
    answer(read, |found| (*used, *first) = found)
}

fn has_payload(image: &[u8], shape: Shape, replica: usize, slot: usize, has: &mut u8) -> u8 {
    let found = model::has_payload(image, shape, replica, slot);
    answer(found, |found| *has = u8::from(found))
}

fn payload(
    image: &[u8],
    shape: Shape,
    replica: usize,
    slot: usize,
    at: &mut usize,
    size: &mut usize,
) {
    let part = model::payload(image, shape, replica, slot);
    // The empty part of a slot without a payload is handed out at 0.
    *at = match model::has_payload(image, shape, replica, slot) {
        Ok(true) => part.as_ptr() as usize - image.as_ptr() as usize,
        _ => 0,
    };
    *size = part.len();
}

fn witness_append(
    image: &mut [u8],
    shape: Shape,
    replica: usize,
    epoch: u32,
    slot: &mut usize,
) -> u8 {
    let appended = model::witness_append(image, shape, replica, epoch);
    answer(appended, |found| *slot = found)
}

fn witness_read(
    image: &[u8],
    shape: Shape,
    replica: usize,
    epochs: &mut [u32],
    used: &mut usize,
    first: &mut u32,
) -> u8 {
    let read = model::witness_read(image, shape, replica, epochs);
    answer(read, |found| (*used, *first) = found)
}

fn plan(
    cluster: &[u8],
    shape: Shape,
    leader: usize,
    present: u32,
    plan: &mut [u8],
    rows: &mut [ReplicaRow],
    status: &mut u8,
    number: &mut usize,
) -> u8 {
    let mut table: Vec<model::ReplicaRow> = rows.iter().map(|&row| row.into()).collect();
    let planned = model::plan(cluster, shape, leader, present, plan, &mut table);
    for (row, filled) in rows.iter_mut().zip(table) {
        *row = filled.into();
    }
    answer(planned, |found| {
        (*status, *number) = match found {
            Answer::Ready(length) => (0, length),
            Answer::Waiting(slot) => (1, slot),
        }
    })
}

fn step(
    cluster: &mut [u8],
    shape: Shape,
    leader: usize,
    present: u32,
    status: &mut u8,
    replica: &mut usize,
    slot: &mut usize,
    kind: &mut u8,
) -> u8 {
    let stepped = model::step(cluster, shape, leader, present);
    answer(stepped, |found| match found {
        StepAnswer::Done => *status = 0,
        StepAnswer::Waiting(waiting) => (*status, *slot) = (1, waiting),
        StepAnswer::Store {
            replica: on,
            slot: at,
            kind: what,
        } => (*status, *replica, *slot, *kind) = (2, on, at, what as u8),
    })
}

fn run(
    cluster: &mut [u8],
    shape: Shape,
    leader: usize,
    present: u32,
    budget: u64,
    status: &mut u8,
    stores: &mut u64,
    slot: &mut usize,
) -> u8 {
    let ran = model::run(cluster, shape, leader, present, budget);
    answer(ran, |RunAnswer { end, stores: made }| match end {
        RunEnd::Done => (*status, *stores) = (0, made),
        RunEnd::Waiting(waiting) => (*status, *stores, *slot) = (1, made, waiting),
        RunEnd::Spent => (*status, *stores) = (2, made),
    })
}
