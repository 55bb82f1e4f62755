//! The calls about the pieces of an image, and where they stand.

use super::{old_bytes, Call, Guarded, Outcome, Rng, Side};
use crate::compare::Answer;
use crate::guarded::GuardedNumber;
use crate::proved::Written;

pub fn make(call: &Call, side: &Side, rng: &mut Rng) -> Option<Outcome> {
    let outcome = match *call {
        Call::Checksum { ref bytes } => judge("bytes", bytes, rng, |bytes| {
            Answer::Number((side.checksum)(bytes))
        }),
        Call::WriteNumber { width, number } => write("column", width, rng, |column| {
            (side.write_number)(column, number);
            Written::Written
        }),
        Call::ReadColumn { ref column } => {
            let mut value = GuardedNumber::drawn(rng);
            judge("column", column, rng, |column| {
                Answer::Column((side.read_column)(column, value.number_mut()))
            })
            .with_number("value", value)
        }
        Call::WriteHeader {
            length,
            shape,
            replica,
            first,
        } => write("header", length, rng, |header| {
            (side.write_header)(header, shape, replica, first)
        }),
        Call::JudgeHeader {
            ref header,
            shape,
            replica,
        } => {
            let mut first = GuardedNumber::drawn(rng);
            judge("header", header, rng, |header| {
                let first = first.number_mut();
                Answer::Header((side.judge_header)(header, shape, replica, first))
            })
            .with_number("first", first)
        }
        _ => return make_of_slot(call, side, rng),
    };
    Some(outcome)
}

/// Records and entries.
fn make_of_slot(call: &Call, side: &Side, rng: &mut Rng) -> Option<Outcome> {
    let outcome = match *call {
        Call::WriteRecord {
            length,
            epoch,
            index,
        } => write("record", length, rng, |record| {
            (side.write_record)(record, epoch, index)
        }),
        Call::WriteBlankRecord { length } => write("record", length, rng, side.write_blank_record),
        Call::JudgeRecord { ref record, index } => {
            let mut epoch = GuardedNumber::drawn(rng);
            judge("record", record, rng, |record| {
                Answer::Record((side.judge_record)(record, index, epoch.number_mut()))
            })
            .with_number("epoch", epoch)
        }
        Call::WriteEntry {
            length,
            epoch,
            index,
            ref payload,
        } => {
            let payload = Guarded::new(rng, payload);
            write("entry", length, rng, |entry| {
                (side.write_entry)(entry, epoch, index, payload.part())
            })
            .with_bytes("payload", payload)
        }
        Call::WriteFreshEntry { length } => write("entry", length, rng, side.write_fresh_entry),
        Call::JudgeEntry { ref entry, index } => {
            let (mut epoch, mut size) = (GuardedNumber::drawn(rng), GuardedNumber::drawn(rng));
            judge("entry", entry, rng, |entry| {
                let (epoch, size) = (epoch.number_mut(), size.number_mut());
                Answer::Entry((side.judge_entry)(entry, index, epoch, size))
            })
            .with_number("epoch", epoch)
            .with_number("size", size)
        }
        _ => return make_of_measure(call, side),
    };
    Some(outcome)
}

/// Sizes and offsets. Nothing is lent.
fn make_of_measure(call: &Call, side: &Side) -> Option<Outcome> {
    let measure = match *call {
        Call::ImageSize { shape, replica } => (side.image_size)(shape, replica),
        Call::ClusterSize { shape } => (side.cluster_size)(shape),
        Call::ImageAt { shape, replica } => (side.image_at)(shape, replica),
        Call::RecordAt {
            shape,
            replica,
            slot,
        } => (side.record_at)(shape, replica, slot),
        Call::EntryAt {
            shape,
            replica,
            slot,
        } => (side.entry_at)(shape, replica, slot),
        _ => return None,
    };
    Some(Outcome::new(Answer::Measure(measure)))
}

/// A writer writes over lent bytes.
fn write(
    name: &'static str,
    length: usize,
    rng: &mut Rng,
    write: impl FnOnce(&mut [u8]) -> Written,
) -> Outcome {
    let mut lent = old_bytes(rng, length);
    let answer = write(lent.part_mut());
    Outcome::new(Answer::Written(answer)).with_bytes(name, lent)
}

/// A judge looks at lent bytes.
fn judge(
    name: &'static str,
    bytes: &[u8],
    rng: &mut Rng,
    judge: impl FnOnce(&[u8]) -> Answer,
) -> Outcome {
    let lent = Guarded::new(rng, bytes);
    let answer = judge(lent.part());
    Outcome::new(answer).with_bytes(name, lent)
}
