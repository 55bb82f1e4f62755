//! The header: the fixed word, edition, replica, n, m, in edition 2 the first index, then checksum and
//! newline.

use super::checksum::checksum;
use super::column::{read_column, write_column};
use super::layout::header_len;
use super::shape::Shape;

const CARD_WORD: &[u8; 4] = b"rope";
const WITNESS_WORD: &[u8; 4] = b"wits";

/// The header of one replica's image. Only edition 2 writes the first index.
pub fn write_header(shape: Shape, replica: usize, first: u32) -> Vec<u8> {
    let mut bytes = vec![b' '; header_len(shape)];
    bytes[0..4].copy_from_slice(word(shape, replica));
    write_column(&mut bytes[4..7], shape.edition as u64);
    write_column(&mut bytes[7..10], replica as u64);
    write_column(&mut bytes[10..13], shape.n as u64);
    write_column(&mut bytes[13..16], shape.m as u64);
    let mut end = 16;
    if shape.edition == 2 {
        write_column(&mut bytes[16..27], u64::from(first));
        end = 27;
    }
    let sum = checksum(&bytes[0..end]);
    write_column(&mut bytes[end..end + 11], u64::from(sum));
    bytes[end + 11] = b'\n';
    bytes
}

/// The fixed word of a replica's header: a witness has one of its own.
fn word(shape: Shape, replica: usize) -> &'static [u8; 4] {
    if shape.is_witness(replica) {
        WITNESS_WORD
    } else {
        CARD_WORD
    }
}

/// The first index, if these bytes are the header written for this replica and shape, and a log may
/// begin there.
pub fn judge_header(bytes: &[u8], shape: Shape, replica: usize) -> Option<u32> {
    let first = if shape.edition == 2 {
        read_column(bytes.get(16..27)?)?
    } else {
        1
    };
    if !shape.may_begin_at(first) {
        return None;
    }
    let first = first as u32;
    (bytes == write_header(shape, replica, first)).then_some(first)
}
