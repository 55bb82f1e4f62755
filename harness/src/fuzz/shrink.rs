//! Making a failing call smaller: no witnesses, edition 1, fewer slots, fewer bytes, zeroed bytes, lower
//! numbers.

use std::ops::Range;
use std::time::{Duration, Instant};

use super::reshape;
use crate::call::{Call, Field};

/// A call of many stores takes long; then this is enough.
const TIME: Duration = Duration::from_secs(60);

/// What is made of all images at once.
const WHOLE: [fn(&mut Call); 4] = [
    reshape::of_first_replica,
    reshape::without_witnesses,
    reshape::of_edition_1,
    reshape::from_index_1,
];

/// The smallest call that was found to fail still, with its old contents.
pub fn shrink(call: Call, old: u64, fails: impl Fn(&Call, u64) -> bool) -> (Call, u64) {
    let mut shrinker = Shrinker {
        size: size(&call),
        call,
        old,
        fails,
        deadline: Instant::now() + TIME,
    };
    loop {
        let before = shrinker.size;
        for reshape in WHOLE {
            let mut reshaped = shrinker.call.clone();
            reshape(&mut reshaped);
            shrinker.attempt(reshaped);
        }
        shrinker.each_part(reshape::replicas, reshape::without_replicas);
        shrinker.each_part(reshape::slots, reshape::without_slots);
        shrinker.each_part(reshape::slots, reshape::with_unused_slots);
        shrinker.each_part(reshape::slots, reshape::with_empty_payloads);
        shrinker.lower_numbers();
        shrinker.fewer_bytes();
        if (shrinker.fails)(&shrinker.call, 0) {
            shrinker.old = 0;
        }
        if shrinker.size == before {
            return (shrinker.call, shrinker.old);
        }
    }
}

struct Shrinker<F> {
    call: Call,
    size: Size,
    old: u64,
    fails: F,
    deadline: Instant,
}

impl<F: Fn(&Call, u64) -> bool> Shrinker<F> {
    /// Takes the candidate if it is smaller and fails.
    fn attempt(&mut self, candidate: Call) -> bool {
        let size = size(&candidate);
        let taken = size < self.size
            && Instant::now() < self.deadline
            && (self.fails)(&candidate, self.old);
        if taken {
            self.call = candidate;
            self.size = size;
        }
        taken
    }

    /// Edits all of something, then each half, and ever smaller parts down to single ones.
    fn each_part(
        &mut self,
        length: impl Fn(&mut Call) -> usize,
        edit: impl Fn(&mut Call, Range<usize>),
    ) {
        let mut size = length(&mut self.call);
        while size > 0 {
            let mut at = 0;
            while at < length(&mut self.call) {
                let whole = length(&mut self.call);
                let mut candidate = self.call.clone();
                edit(&mut candidate, at..whole.min(at + size));
                self.attempt(candidate);
                // What is taken out lets the next part stand here.
                if length(&mut self.call) == whole {
                    at += size;
                }
            }
            size /= 2;
        }
    }

    /// Every number to 0, or down by halves.
    fn lower_numbers(&mut self) {
        for at in 0..self.call.fields().len() {
            let Some(number) = self.call.fields()[at].1.number() else {
                continue;
            };
            let (mut number, mut step) = (number, number);
            while step > 0 {
                let mut candidate = self.call.clone();
                candidate.fields()[at].1.set_number(number - step);
                if self.attempt(candidate) {
                    number -= step;
                    step = step.min(number);
                } else {
                    step /= 2;
                }
            }
        }
    }

    /// Bytes are taken out, and those that stay are made 0.
    fn fewer_bytes(&mut self) {
        for at in 0..self.call.fields().len() {
            let length = |call: &mut Call| bytes(call, at).map_or(0, |bytes| bytes.len());
            self.each_part(length, |call, part| {
                if let Some(bytes) = bytes(call, at) {
                    bytes.drain(part);
                }
            });
            self.each_part(length, |call, part| {
                if let Some(bytes) = bytes(call, at) {
                    bytes[part].fill(0);
                }
            });
        }
    }
}

/// The bytes of a field, if it has them.
fn bytes(call: &mut Call, at: usize) -> Option<&mut Vec<u8>> {
    match call.fields().swap_remove(at).1 {
        Field::Bytes(bytes) => Some(bytes),
        _ => None,
    }
}

/// Witnesses count first, which make a cluster shorter but not plainer; then bytes, then numbers, then
/// what the bytes are.
type Size = (u32, usize, u128, usize);

fn size(call: &Call) -> Size {
    let (mut witnesses, mut length, mut numbers, mut weight) = (0, 0, 0, 0);
    for (name, field) in call.clone().fields() {
        if name == "witnesses" {
            witnesses = field.number().map_or(0, u64::count_ones);
        }
        match field {
            Field::Bytes(bytes) => {
                length += bytes.len();
                weight += bytes.iter().map(|&byte| weight_of(byte)).sum::<usize>();
            }
            field => numbers += u128::from(field.number().unwrap_or(0)),
        }
    }
    (witnesses, length, numbers, weight)
}

/// 0 is the plainest byte, then what stands where nothing is written.
fn weight_of(byte: u8) -> usize {
    match byte {
        0 => 0,
        b' ' | b'\n' => 1,
        _ => 2,
    }
}
