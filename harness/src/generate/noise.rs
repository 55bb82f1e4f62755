//! Noise: images and clusters of any bytes and any length, mutated ones among them.

use super::arbitrary::arbitrary_case_of;
use super::damage::{flip_one_byte, some_entry};
use super::history::agreed_case_of;
use super::rng::Rng;
use super::shapes::{other_edition, some_shape, some_shape_of, some_witnesses};
use super::Case;
use crate::model::{
    entry_offset, header_len, image_len, image_offset, index_of, judge_header, record_offset,
    write_record, Shape,
};

/// An image with the numbers a call names beside it.
#[derive(Clone, Debug, PartialEq, Eq)]
pub struct ImageCase {
    pub shape: Shape,
    pub replica: usize,
    pub image: Vec<u8>,
}

/// An image cut out of a cluster, then spoilt in some way or none.
pub fn noise_image(rng: &mut Rng) -> ImageCase {
    let shape = some_shape(rng);
    let case = some_cluster(rng, shape);
    let replica = rng.between(1, shape.n);
    let at = image_offset(shape, replica);
    let mut image = case.cluster[at..at + image_len(shape, replica)].to_vec();
    spoil_slots(rng, &mut image, shape, replica);
    spoil_length(rng, &mut image);
    let edition = some_edition_or_wrong(rng, shape.edition);
    let witnesses = some_witnesses_or_wrong(rng, shape.witnesses);
    let mut wrong = |number: usize| {
        if rng.chance(5) {
            *rng.pick(&[0, 1, 2, 4, 6, 8, 64, 65, usize::MAX])
        } else {
            number
        }
    };
    ImageCase {
        shape: Shape {
            n: wrong(shape.n),
            m: wrong(shape.m),
            edition,
            witnesses,
        },
        replica: wrong(replica),
        image,
    }
}

/// Mostly the right edition.
fn some_edition_or_wrong(rng: &mut Rng, edition: usize) -> usize {
    if rng.chance(5) {
        other_edition(rng, edition)
    } else {
        edition
    }
}

/// Mostly the right set of witnesses, else another replica more or fewer, or any set.
fn some_witnesses_or_wrong(rng: &mut Rng, witnesses: u32) -> u32 {
    match rng.below(40) {
        0 => witnesses ^ 1 << rng.below(32),
        1 => rng.draw() as u32 >> rng.below(32),
        _ => witnesses,
    }
}

/// A cluster spoilt in some way or none, with numbers that may not fit it.
pub fn noise_cluster(rng: &mut Rng) -> Case {
    let shape = some_shape(rng);
    noise_cluster_of(rng, shape)
}

/// The same of this shape, before it is spoilt.
pub fn noise_cluster_of(rng: &mut Rng, shape: Shape) -> Case {
    let case = some_cluster(rng, shape);
    spoil_cluster(rng, case)
}

fn spoil_cluster(rng: &mut Rng, mut case: Case) -> Case {
    let shape = case.shape;
    for replica in 1..=shape.n {
        if rng.chance(20) {
            let at = image_offset(shape, replica);
            let end = at + image_len(shape, replica);
            spoil_slots(rng, &mut case.cluster[at..end], shape, replica);
        }
    }
    spoil_length(rng, &mut case.cluster);
    if rng.chance(5) {
        case.shape.n = *rng.pick(&[0, 1, 2, 3, 4, 5, 6, 7, 8, 9, usize::MAX]);
    }
    if rng.chance(5) {
        case.shape.m = *rng.pick(&[0, 1, 63, 64, 65, usize::MAX]);
    }
    case.shape.edition = some_edition_or_wrong(rng, shape.edition);
    case.shape.witnesses = some_witnesses_or_wrong(rng, shape.witnesses);
    if rng.chance(5) {
        case.leader = *rng.pick(&[0, 1, 8, 31, 32, 33, 64, usize::MAX]);
    }
    if rng.chance(5) {
        case.present = rng.draw() as u32;
    }
    case
}

/// An input of the printing program, its command line mostly well formed, its images mostly of the
/// edition that it reads.
pub fn noise_report_input(rng: &mut Rng) -> Vec<u8> {
    let edition = if rng.chance(95) { 1 } else { 2 };
    let mut shape = some_shape_of(rng, edition);
    if rng.chance(3) {
        // It has no set of witnesses, so such a cluster is of another length.
        shape.witnesses = some_witnesses(rng, shape.n);
    }
    let case = noise_cluster_of(rng, shape);
    let column = |number: u64, width: usize| format!("{:>1$}", number % 10_000, width).into_bytes();
    let mut command = Vec::new();
    for number in [case.shape.n, case.shape.m, case.leader] {
        command.extend(column(number as u64 % 1000, 3));
    }
    if rng.chance(20) {
        command.extend(b"    ");
    } else {
        command.extend(column(u64::from(case.present), 4));
    }
    command.push(b'\n');
    if rng.chance(15) {
        let at = rng.below(command.len());
        command[at] = *rng.pick(b" 0137+-\n\0x");
    }
    let mut input = command;
    input.extend_from_slice(&case.cluster);
    if rng.chance(3) {
        let length = rng.below(20);
        input.truncate(length);
    }
    if rng.chance(2) {
        let length = *rng.pick(&[65_535, 65_536, 65_537]);
        input.resize(length, b' ');
    }
    input
}

fn some_cluster(rng: &mut Rng, shape: Shape) -> Case {
    if rng.chance(50) {
        agreed_case_of(rng, shape).case
    } else {
        arbitrary_case_of(rng, shape)
    }
}

/// Overwrites parts of an image: any byte, a record, an entry on a card, or everything.
fn spoil_slots(rng: &mut Rng, image: &mut [u8], shape: Shape, replica: usize) {
    let header = &image[..header_len(shape)];
    let first = judge_header(header, shape, replica).unwrap_or(1);
    for _ in 0..rng.below(4) {
        let slot = rng.between(1, shape.m);
        let index = index_of(first, slot);
        match rng.below(8) {
            0 | 1 => flip_one_byte(rng, image),
            2 | 3 => {
                let at = record_offset(shape, slot);
                let bytes = write_record(1 + rng.below(5) as u32, index);
                image[at..at + bytes.len()].copy_from_slice(&bytes);
            }
            4 => {
                let at = record_offset(shape, slot);
                image[at..at + 33].fill(b' ');
                image[at + 33] = *rng.pick(b"\n\n ");
            }
            5 | 6 if !shape.is_witness(replica) => {
                let at = entry_offset(shape, slot);
                let bytes = some_entry(rng, index, 2);
                image[at..at + bytes.len()].copy_from_slice(&bytes);
            }
            _ if rng.chance(20) => rng.fill_noise(image),
            _ => {}
        }
    }
}

/// Now and then too short or too long.
fn spoil_length(rng: &mut Rng, bytes: &mut Vec<u8>) {
    match rng.below(40) {
        0 => {
            bytes.pop();
        }
        1 => bytes.push(rng.byte()),
        2 => {
            let length = rng.below(bytes.len());
            bytes.truncate(length);
        }
        3 => {
            let length = bytes.len() + rng.below(300);
            bytes.resize(length, b' ');
        }
        _ => {}
    }
}
