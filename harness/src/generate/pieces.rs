//! Bytes of one header, record or entry: as they are written, nearly so, and not at all.

use super::damage::flip_one_byte;
use super::rng::Rng;
use crate::model::{
    checksum, write_column, write_record, Shape, BLANK_RECORD, ENTRY_LEN, HEADER_LEN, HEADER_LEN_2,
    LAST_INDEX, MAX_PAYLOAD, RECORD_LEN,
};

/// The bytes of a record or an entry, and the index they are judged for.
#[derive(Clone, Debug)]
pub struct Piece {
    pub bytes: Vec<u8>,
    pub index: u32,
}

/// The bytes of a header, and the numbers they are judged for.
#[derive(Clone, Debug)]
pub struct HeaderPiece {
    pub bytes: Vec<u8>,
    pub shape: Shape,
    pub replica: usize,
}

/// A number at an edge of a column or a type, or any.
pub fn some_number(rng: &mut Rng) -> u64 {
    let edge = match rng.below(4) {
        0 => 10u64.pow(rng.below(20) as u32),
        1 => 1 << rng.below(64),
        2 => return rng.draw() >> rng.below(64),
        _ => return rng.below(1000) as u64,
    };
    edge.wrapping_sub(1).wrapping_add(rng.below(3) as u64)
}

/// An epoch or an index, often at an edge.
pub fn some_word(rng: &mut Rng) -> u32 {
    match rng.below(4) {
        0 => *rng.pick(&[0, 1, 2, 9, 10, 64, 65, u32::MAX - 1, u32::MAX]),
        1 => 10u32.pow(rng.below(10) as u32) - rng.below(2) as u32,
        2 => rng.draw() as u32 >> rng.below(32),
        _ => 1 + rng.below(64) as u32,
    }
}

/// The number in an epoch's column, now and then more than an epoch can be.
fn some_epoch_column(rng: &mut Rng) -> u64 {
    if rng.chance(5) {
        *rng.pick(&[1 << 32, (1 << 32) + 1, 10_000_000_000, 99_999_999_999])
    } else {
        u64::from(some_word(rng))
    }
}

/// A payload of that length, of any bytes.
pub fn payload_of(rng: &mut Rng, length: usize) -> Vec<u8> {
    let mut payload = vec![0; length];
    rng.fill_noise(&mut payload);
    payload
}

/// The bytes of a column, whatever its width: a number, spaces, zeros in front, or noise.
pub fn some_column(rng: &mut Rng, width: usize) -> Vec<u8> {
    let mut column = vec![b' '; width];
    match rng.below(8) {
        0 => {}
        1 => rng.fill_noise(&mut column),
        2 => write_digits(&mut column, some_number(rng), b'0'),
        3 => {
            write_digits(&mut column, some_number(rng), b' ');
            column.rotate_left(usize::from(width > 0));
        }
        _ => write_digits(&mut column, some_number(rng), b' '),
    }
    if width > 0 && rng.chance(20) {
        spoil(rng, &mut column);
    }
    column
}

/// As many of the number's lowest digits as there is room for.
fn write_digits(column: &mut [u8], number: u64, filler: u8) {
    let text = format!("{number}");
    let digits = &text.as_bytes()[text.len().saturating_sub(column.len())..];
    let at = column.len() - digits.len();
    column[..at].fill(filler);
    column[at..].copy_from_slice(digits);
}

/// Changes one byte or two.
pub fn spoil(rng: &mut Rng, bytes: &mut [u8]) {
    flip_one_byte(rng, bytes);
    if rng.chance(50) {
        flip_one_byte(rng, bytes);
    }
}

/// Another length: one off, another piece's, or any.
pub fn wrong_length(rng: &mut Rng, bytes: &mut Vec<u8>) {
    let right = bytes.len();
    while bytes.len() == right {
        let any = rng.below(300);
        let length = *rng.pick(&[
            right - 1,
            right + 1,
            0,
            HEADER_LEN,
            HEADER_LEN_2,
            RECORD_LEN,
            ENTRY_LEN,
            any,
        ]);
        bytes.resize(length, b' ');
    }
}

/// Appends the number's column, now and then another column.
fn push_column(rng: &mut Rng, bytes: &mut Vec<u8>, width: usize, number: u64) {
    if rng.chance(8) {
        bytes.extend(some_column(rng, width));
        return;
    }
    let at = bytes.len();
    bytes.resize(at + width, b' ');
    write_column(&mut bytes[at..], number);
}

/// Appends the checksum column and the newline, now and then not quite right.
fn push_seal(rng: &mut Rng, bytes: &mut Vec<u8>) {
    let sum = match rng.below(40) {
        0 => checksum(bytes) ^ 1 << rng.below(32),
        1 => checksum(bytes).swap_bytes(),
        2 => checksum(&bytes[1..]),
        _ => checksum(bytes),
    };
    let at = bytes.len();
    bytes.resize(at + 11, b' ');
    write_column(&mut bytes[at..], u64::from(sum));
    bytes.push(if rng.chance(2) { b' ' } else { b'\n' });
}

/// The number itself, or another one.
fn mostly(rng: &mut Rng, number: u32) -> u32 {
    if rng.chance(8) {
        some_word(rng)
    } else {
        number
    }
}

/// A record, written for its index or not, or 34 bytes that are none.
pub fn record_piece(rng: &mut Rng) -> Piece {
    let index = some_word(rng);
    let mut bytes = BLANK_RECORD.to_vec();
    match rng.below(10) {
        0 | 1 => {}
        2 => rng.fill_noise(&mut bytes),
        3 => bytes = write_record(some_word(rng), index).to_vec(),
        _ => {
            bytes.clear();
            let epoch = some_epoch_column(rng);
            push_column(rng, &mut bytes, 11, epoch);
            let written_for = mostly(rng, index);
            push_column(rng, &mut bytes, 11, u64::from(written_for));
            push_seal(rng, &mut bytes);
        }
    }
    if rng.chance(15) {
        spoil(rng, &mut bytes);
    }
    Piece { bytes, index }
}

/// An entry, written for its index or not, or 240 bytes that are none.
///
/// Two payload bytes more than are allowed would still find room.
pub fn entry_piece(rng: &mut Rng) -> Piece {
    let index = some_word(rng);
    let mut bytes = Vec::with_capacity(ENTRY_LEN);
    if rng.chance(10) {
        bytes.resize(ENTRY_LEN, b' ');
        if rng.chance(80) {
            rng.fill_noise(&mut bytes);
        }
    } else {
        let epoch = some_epoch_column(rng);
        push_column(rng, &mut bytes, 11, epoch);
        let written_for = mostly(rng, index);
        push_column(rng, &mut bytes, 11, u64::from(written_for));
        let length = rng.below(MAX_PAYLOAD + 3);
        push_column(rng, &mut bytes, 4, length as u64);
        bytes.extend(payload_of(rng, length));
        push_seal(rng, &mut bytes);
        bytes.resize(ENTRY_LEN, b' ');
        if rng.chance(2) {
            let at = rng.between(26 + length, ENTRY_LEN - 1);
            bytes[at] = rng.byte();
        }
    }
    if rng.chance(15) {
        spoil(rng, &mut bytes);
    }
    Piece { bytes, index }
}

/// A number that stands in a header, or that is asked for.
fn header_number(rng: &mut Rng) -> usize {
    *rng.pick(&[
        0, 1, 2, 3, 4, 5, 6, 7, 9, 10, 31, 32, 33, 63, 64, 65, 100, 999,
    ])
}

/// Mostly one that there is.
fn header_edition(rng: &mut Rng) -> usize {
    match rng.below(10) {
        0..=3 => 1,
        4..=8 => 2,
        _ => header_number(rng),
    }
}

/// The number in the column of the first index: around the highest that leaves an index for the last of
/// m slots, a low one, or any.
fn first_column(rng: &mut Rng, m: usize) -> u64 {
    let highest = u64::from(LAST_INDEX) - (m as u64).saturating_sub(1);
    match rng.below(4) {
        0 => highest - 1 + rng.below(3) as u64,
        1 => rng.below(9) as u64,
        _ => some_epoch_column(rng),
    }
}

/// The fixed word of a card or of a witness, or none.
fn header_word(rng: &mut Rng, of_witness: bool) -> [u8; 4] {
    match (rng.below(20), of_witness) {
        (0, _) => *rng.pick(&[*b"r0pe", *b"wit5", *b"rits", *b"wope"]),
        (1, _) => *rng.pick(&[*b"rope", *b"wits"]),
        (_, true) => *b"wits",
        (_, false) => *b"rope",
    }
}

/// A header, written for its numbers or not, or as many bytes that are none.
pub fn header_piece(rng: &mut Rng) -> HeaderPiece {
    let edition = header_edition(rng);
    let numbers = [(); 3].map(|()| header_number(rng));
    let mut shape = Shape::edition_1(0, 0);
    if rng.chance(60) {
        let any = rng.draw() as u32;
        shape.witnesses = *rng.pick(&[u32::MAX, 0x7f, 1 << 31, any]);
    }
    let mut bytes = header_word(rng, shape.is_witness(numbers[0])).to_vec();
    push_column(rng, &mut bytes, 3, edition as u64);
    for number in numbers {
        push_column(rng, &mut bytes, 3, number as u64);
    }
    // Now and then a first index where there is none, or none where there is one.
    if (edition == 2) != rng.chance(2) {
        let first = first_column(rng, numbers[2]);
        push_column(rng, &mut bytes, 11, first);
    }
    push_seal(rng, &mut bytes);
    if rng.chance(10) {
        rng.fill_noise(&mut bytes);
    }
    if rng.chance(15) {
        spoil(rng, &mut bytes);
    }
    let [edition, replica, n, m] =
        [edition, numbers[0], numbers[1], numbers[2]].map(|number| match rng.below(25) {
            0 => rng.below(1000),
            1 => number + 1000 * rng.below(3),
            2 => some_number(rng) as usize,
            _ => number,
        });
    (shape.n, shape.m, shape.edition) = (n, m, edition);
    HeaderPiece {
        bytes,
        shape,
        replica,
    }
}
