//! The checksum of the proved code beside the same by remainders: of blocks, and of every byte.

use std::hint::black_box;

use super::timing::{in_turns, Nanoseconds};
use crate::model;
use crate::side::PROVED;

/// The bytes of a header, a record, and entries of 20 and 200 payload bytes that a checksum covers; and a page.
pub const LENGTHS: [usize; 5] = [16, 22, 46, 226, 4096];

/// The times for each of so many bytes.
pub struct ByteTimes {
    pub length: usize,
    pub proved: Nanoseconds,
    pub blocks: Nanoseconds,
    pub straight: Nanoseconds,
}

/// Times the checksum of so many bytes.
pub fn byte_times(length: usize) -> ByteTimes {
    let bytes: Vec<u8> = (0..length).map(|at| (at * 89 % 256) as u8).collect();
    let sides: [fn(&[u8]) -> u32; 3] = [PROVED.checksum, blocks, model::checksum];
    let times = in_turns(&sides, |checksum| checksum(black_box(&bytes)));
    let [proved, blocks, straight] = times.map(|time| time.per(length));
    ByteTimes {
        length,
        proved,
        blocks,
        straight,
    }
}

/// As version 2.0.0 has it: 256 bytes are added up, and both sums reduced by a remainder.
fn blocks(bytes: &[u8]) -> u32 {
    let (mut a, mut b): (u32, u32) = (1, 0);
    for block in bytes.chunks(256) {
        for &byte in block {
            a += u32::from(byte);
            b += a;
        }
        a %= 65_535;
        b %= 65_535;
    }
    b * 65_536 + a
}

#[cfg(test)]
mod tests {
    use super::*;

    #[test]
    fn blocks_have_the_checksum() {
        for length in LENGTHS.into_iter().chain([0, 255, 256, 257, 70_000]) {
            let bytes = vec![255; length];
            assert_eq!(blocks(&bytes), model::checksum(&bytes), "{length}");
        }
    }
}
