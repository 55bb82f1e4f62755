//! Shapes of clusters, who leads them, and the indexes at which their logs begin.

use super::pieces::some_number;
use super::rng::Rng;
use crate::model::{Shape, LAST_INDEX, MAX_REPLICAS, MAX_SLOTS, MIN_REPLICAS};

/// Either edition, one as often as the other.
pub fn some_edition(rng: &mut Rng) -> usize {
    rng.between(1, 2)
}

/// The shape of a cluster of either edition, often with witnesses.
pub fn some_shape(rng: &mut Rng) -> Shape {
    let edition = some_edition(rng);
    let shape = some_shape_of(rng, edition);
    shape.with_witnesses(some_witnesses(rng, shape.n))
}

/// A set of witnesses among n replicas: in half of all cases none, else mostly one, now and then several,
/// all but one, or all.
pub fn some_witnesses(rng: &mut Rng, n: usize) -> u32 {
    let all = (1 << n) - 1;
    let one = 1 << rng.below(n);
    match rng.below(40) {
        0..=19 => 0,
        20..=31 => one,
        32..=36 => rng.draw() as u32 & all,
        37 | 38 => all & !one,
        _ => all,
    }
}

/// Another set of as many witnesses, if there is one: a witness and a replica with a card change places.
pub fn other_witnesses(rng: &mut Rng, shape: Shape) -> u32 {
    let is_witness = |replica: &usize| shape.is_witness(*replica);
    let (witnesses, cards): (Vec<usize>, Vec<usize>) = (1..=shape.n).partition(is_witness);
    if witnesses.is_empty() || cards.is_empty() {
        return shape.witnesses;
    }
    let (one, other) = (*rng.pick(&witnesses), *rng.pick(&cards));
    shape.witnesses ^ 1 << (one - 1) ^ 1 << (other - 1)
}

/// Who leads: mostly a replica with a card, now and then any.
pub fn some_leader(rng: &mut Rng, shape: Shape) -> usize {
    let mut able: Vec<usize> = (1..=shape.n).collect();
    if rng.chance(97) {
        able.retain(|&replica| !shape.is_witness(replica));
    }
    if able.is_empty() {
        return rng.between(1, shape.n);
    }
    *rng.pick(&able)
}

/// The shape of a cluster of this edition in which every replica has a card.
pub fn some_shape_of(rng: &mut Rng, edition: usize) -> Shape {
    let (n, m) = (some_replica_count(rng), some_slot_count(rng));
    Shape {
        edition,
        ..Shape::edition_1(n, m)
    }
}

/// Mostly few replicas, so that many cases are played.
pub fn some_replica_count(rng: &mut Rng) -> usize {
    *rng.pick(&[3, 3, 3, 4, 4, 5, 5, 6, 7])
}

/// Mostly few slots, for the same reason.
fn some_slot_count(rng: &mut Rng) -> usize {
    match rng.below(1000) {
        0 => 64,
        1..=30 => rng.between(6, 12),
        _ => rng.between(1, 5),
    }
}

/// A shape of any numbers, each mostly one that a cluster has. Its witnesses may be no replicas.
pub fn any_shape(rng: &mut Rng) -> Shape {
    let any = rng.draw() as u32;
    let one = 1 << rng.below(MAX_REPLICAS);
    Shape {
        n: any_number(rng, MIN_REPLICAS, MAX_REPLICAS),
        m: any_number(rng, 1, MAX_SLOTS),
        edition: any_number(rng, 1, 2),
        witnesses: *rng.pick(&[0, one, any & 0x7f, u32::MAX, 1 << 31, any]),
    }
}

/// Mostly a number from `low` to `high`, now and then one beside them, or any.
pub fn any_number(rng: &mut Rng, low: usize, high: usize) -> usize {
    match rng.below(20) {
        0 => low - 1,
        1 => high + 1,
        2 => some_number(rng) as usize,
        3 => *rng.pick(&[low, high]),
        _ => rng.between(low, high),
    }
}

/// Another edition than this one, or none at all.
pub fn other_edition(rng: &mut Rng, edition: usize) -> usize {
    let any = 3 + rng.below(1000);
    let other = 3_usize.wrapping_sub(edition);
    *rng.pick(&[other, other, 0, 3, any, 1 << 32, usize::MAX])
}

/// The highest index at which a log of this shape may begin: its last slot has the last index.
pub fn highest_first(shape: Shape) -> u32 {
    match shape.edition {
        2 => LAST_INDEX - (shape.m as u32 - 1),
        _ => 1,
    }
}

/// An index at which a log of this shape may begin.
pub fn some_first(rng: &mut Rng, shape: Shape) -> u32 {
    let highest = highest_first(shape);
    let first = match rng.below(6) {
        0 => 1,
        1 | 2 => 1 + rng.below(12) as u32,
        3 => highest,
        4 => highest.saturating_sub(rng.below(3) as u32),
        _ => rng.draw() as u32 >> rng.below(32),
    };
    first.clamp(1, highest)
}

/// A number that is asked for as the first index of a fresh image, now and then one that is refused.
pub fn asked_first(rng: &mut Rng, shape: Shape) -> u32 {
    if rng.chance(75) {
        return some_first(rng, shape);
    }
    let highest = highest_first(shape);
    *rng.pick(&[0, 0, 2, highest.wrapping_add(1), LAST_INDEX, 1])
}

/// Where the log of each replica begins: mostly all at one index, now and then one replica or several
/// at others, the leader or not.
pub fn some_firsts(rng: &mut Rng, shape: Shape) -> Vec<u32> {
    let mut firsts = vec![some_first(rng, shape); shape.n];
    if shape.edition == 2 && rng.chance(20) {
        let rate = *rng.pick(&[20, 20, 80]);
        for first in &mut firsts {
            if rng.chance(rate) {
                *first = some_first(rng, shape);
            }
        }
    }
    firsts
}
