//! Clusters to be recovered: mostly small ones, so that many are, and some of every size.

use super::arbitrary::arbitrary_case_of;
use super::history::agreed_case_of;
use super::noise::noise_cluster_of;
use super::rng::Rng;
use super::shapes::{
    other_edition, other_witnesses, some_edition, some_replica_count, some_witnesses,
};
use super::Case;
use crate::model::{Shape, MAX_REPLICAS, MAX_SLOTS, MIN_REPLICAS};

/// A cluster of any kind and size.
pub fn recovery_case(rng: &mut Rng) -> Case {
    let (n, m) = some_counts(rng);
    let edition = some_edition(rng);
    let shape = Shape {
        n,
        m,
        edition,
        witnesses: some_witnesses(rng, n),
    };
    recovery_case_of(rng, shape)
}

/// A cluster of any kind: agreed and damaged, arbitrary, or spoilt.
pub fn recovery_case_of(rng: &mut Rng, shape: Shape) -> Case {
    let mut case = match rng.below(10) {
        0..=5 => agreed_case_of(rng, shape).case,
        6..=7 => arbitrary_case_of(rng, shape),
        _ => noise_cluster_of(rng, shape),
    };
    other_numbers(rng, &mut case);
    case
}

/// Now and then another leader, another edition, or another set of witnesses.
pub fn other_numbers(rng: &mut Rng, case: &mut Case) {
    if rng.chance(2) {
        case.shape.witnesses = wrong_witnesses(rng, case.shape);
    }
    if rng.chance(1) {
        let n = case.shape.n;
        case.leader = *rng.pick(&[0, 1, n, n.wrapping_add(1), 8, 32, 33, usize::MAX]);
    }
    if rng.chance(1) {
        case.shape.edition = other_edition(rng, case.shape.edition);
    }
}

/// A set with a bit for no replica, with one replica more or fewer, of the same size, or any set.
fn wrong_witnesses(rng: &mut Rng, shape: Shape) -> u32 {
    let n = shape.n.min(MAX_REPLICAS);
    match rng.below(5) {
        0 | 1 => shape.witnesses | 1 << rng.between(n, 31),
        2 => shape.witnesses ^ 1 << rng.below(n.max(1)),
        3 => other_witnesses(rng, Shape { n, ..shape }),
        _ => rng.draw() as u32 >> rng.below(32),
    }
}

/// n and m. A recovery's cost grows with the square of both.
fn some_counts(rng: &mut Rng) -> (usize, usize) {
    match rng.below(100_000) {
        0..=3 => (7, MAX_SLOTS),
        4..=33 => (
            rng.between(MIN_REPLICAS, MAX_REPLICAS),
            rng.between(13, MAX_SLOTS),
        ),
        34..=2000 => (rng.between(MIN_REPLICAS, MAX_REPLICAS), rng.between(4, 12)),
        _ => (some_replica_count(rng), *rng.pick(&[1, 1, 1, 2, 2, 3])),
    }
}
