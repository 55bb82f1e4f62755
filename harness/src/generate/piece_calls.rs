//! The calls about generated pieces of an image, and about where they stand.

use super::pieces::{entry_piece, header_piece, record_piece, HeaderPiece, Piece};
use super::pieces::{payload_of, some_column, some_number, some_word, wrong_length};
use super::rng::Rng;
use super::shapes::{any_number, any_shape};
use crate::call::Call;
use crate::model::{
    header_len, Shape, ENTRY_LEN, MAX_PAYLOAD, MAX_REPLICAS, MAX_SLOTS, MIN_REPLICAS, RECORD_LEN,
};

/// The widest column that is read.
pub const WIDEST: usize = 19;

/// The proved code adds up so many bytes before it reduces its sums.
const CHUNK: usize = 2048;

/// Of lengths around those after which the sums are reduced, or any.
pub fn checksum_call(rng: &mut Rng) -> Call {
    let length = match rng.below(8) {
        0 => CHUNK * rng.between(1, 3) - 9 + rng.below(19),
        1..=3 => rng.below(40),
        _ => rng.below(600),
    };
    let bytes = match rng.below(4) {
        0 => vec![*rng.pick(&[0, 1, 254, 255]); length],
        _ => payload_of(rng, length),
    };
    Call::Checksum { bytes }
}

pub fn write_number_call(rng: &mut Rng) -> Call {
    Call::WriteNumber {
        width: rng.below(WIDEST + 6),
        number: some_number(rng),
    }
}

/// Now and then a column that is too wide to be read.
pub fn read_column_call(rng: &mut Rng) -> Call {
    let width = if rng.chance(10) {
        rng.between(WIDEST + 1, WIDEST + 20)
    } else {
        rng.below(WIDEST + 1)
    };
    Call::ReadColumn {
        column: some_column(rng, width),
    }
}

/// A header judged, and written.
pub fn header_calls(rng: &mut Rng) -> [Call; 2] {
    let HeaderPiece {
        bytes,
        shape,
        replica,
    } = header_piece(rng);
    [
        Call::JudgeHeader {
            header: mostly_whole(rng, bytes),
            shape,
            replica,
        },
        Call::WriteHeader {
            length: some_length(rng, header_len(shape)),
            shape,
            replica,
            first: some_word(rng),
        },
    ]
}

/// A record judged, and written, and a blank one.
pub fn record_calls(rng: &mut Rng) -> [Call; 3] {
    let Piece { bytes, index } = record_piece(rng);
    [
        Call::JudgeRecord {
            record: mostly_whole(rng, bytes),
            index,
        },
        Call::WriteRecord {
            length: some_length(rng, RECORD_LEN),
            epoch: some_word(rng),
            index,
        },
        Call::WriteBlankRecord {
            length: some_length(rng, RECORD_LEN),
        },
    ]
}

/// An entry judged, and written, and a fresh one.
pub fn entry_calls(rng: &mut Rng) -> [Call; 3] {
    let Piece { bytes, index } = entry_piece(rng);
    let length = match rng.below(20) {
        0 => *rng.pick(&[MAX_PAYLOAD + 1, MAX_PAYLOAD + 2, ENTRY_LEN, 256, 1000]),
        1 => MAX_PAYLOAD,
        _ => rng.below(MAX_PAYLOAD + 1),
    };
    [
        Call::JudgeEntry {
            entry: mostly_whole(rng, bytes),
            index,
        },
        Call::WriteEntry {
            length: some_length(rng, ENTRY_LEN),
            epoch: some_word(rng),
            index,
            payload: payload_of(rng, length),
        },
        Call::WriteFreshEntry {
            length: some_length(rng, ENTRY_LEN),
        },
    ]
}

/// All sizes and offsets of generated numbers.
pub fn measure_calls(rng: &mut Rng) -> [Call; 5] {
    let shape = any_shape(rng);
    let replica = any_number(rng, 1, shape.n.clamp(MIN_REPLICAS, MAX_REPLICAS));
    let slot = any_number(rng, 1, shape.m.clamp(1, MAX_SLOTS));
    measures_of(shape, replica, slot)
}

/// All sizes and offsets of a shape, a replica and a slot.
pub fn measures_of(shape: Shape, replica: usize, slot: usize) -> [Call; 5] {
    [
        Call::ImageSize { shape, replica },
        Call::ClusterSize { shape },
        Call::ImageAt { shape, replica },
        Call::RecordAt {
            shape,
            replica,
            slot,
        },
        Call::EntryAt {
            shape,
            replica,
            slot,
        },
    ]
}

/// Now and then of another length.
fn mostly_whole(rng: &mut Rng, mut bytes: Vec<u8>) -> Vec<u8> {
    if rng.chance(5) {
        wrong_length(rng, &mut bytes);
    }
    bytes
}

/// The right length, now and then another.
fn some_length(rng: &mut Rng, right: usize) -> usize {
    if rng.chance(90) {
        return right;
    }
    let mut bytes = vec![b' '; right];
    wrong_length(rng, &mut bytes);
    bytes.len()
}
