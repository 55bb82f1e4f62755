//! The proved calls about a cluster against the model's, on generated clusters: the same answers,
//! the same bytes in everything that was lent, and nothing written outside.

use harness::call::Call;
use harness::comparisons::clusters::{self, compare_plan, compare_recovery};
use harness::comparisons::ENOUGH;
use harness::generate::{recovery_case_of, some_witnesses, Case, Cluster, Rng};
use harness::model::{Shape, LAST_INDEX, MAX_REPLICAS, MAX_SLOTS, MIN_REPLICAS};
use harness::property::case_rng;
use harness::tally::Tally;

/// `harness compare` makes as many as are asked for.
const CLUSTERS: u64 = 500_000;
const _: () = assert!(CLUSTERS >= ENOUGH);

#[test]
fn plans() {
    clusters::plans(11, CLUSTERS);
}

/// Full logs of every slot count, each entry of the leader damaged in turn.
#[test]
fn plans_of_every_slot_count() {
    let mut rng = Rng::new(13);
    for m in 1..=MAX_SLOTS {
        for n in MIN_REPLICAS..=MAX_REPLICAS {
            // Every other cluster is of edition 2 and ends with the last index; every other has witnesses
            // behind the leader and the replica behind it, whoever leads.
            let witnesses = match m / 2 % 2 {
                0 => 0,
                _ => ((1 << n) - 1) ^ (1 << (m % n)) ^ (1 << ((m + 1) % n)),
            };
            let mut cluster = match (m + n) % 2 {
                0 => Cluster::of_shape(Shape::edition_1(n, m).with_witnesses(witnesses)),
                _ => {
                    let shape = Shape::edition_2(n, m).with_witnesses(witnesses);
                    Cluster::of_firsts(shape, &vec![LAST_INDEX - (m as u32 - 1); n])
                }
            };
            for replica in 1..=n {
                for slot in 1..=m {
                    cluster.put(replica, slot, 1 + slot as u32 / 7, b"payload");
                }
            }
            let leader = 1 + m % n;
            for slot in [1, m / 2 + 1, m] {
                cluster.entry_mut(leader, slot)[26] ^= 1;
                let mut tally = Tally::default();
                compare_plan(&mut rng, &plan_of(&cluster, leader, m, n), &mut tally);
                assert_eq!((tally.of("status", 0), tally.of("status", 1)), (1, 0));
                assert_eq!(tally.of("row", 2), n as u64);
            }
        }
    }
}

/// All replicas are present; a plan of so many slots and a table of so many rows are lent.
fn plan_of(cluster: &Cluster, leader: usize, slots: usize, rows: usize) -> Call {
    let case = Case {
        shape: cluster.shape,
        leader,
        present: (1 << cluster.shape.n) - 1,
        cluster: cluster.bytes.clone(),
    };
    case.plan(slots, rows)
}

/// A table of any other length is refused by 13 and left as it was, and so is the plan.
#[test]
fn tables_of_another_length() {
    let mut rng = Rng::new(14);
    for n in MIN_REPLICAS..=MAX_REPLICAS {
        let mut cluster = Cluster::fresh(n, 2);
        cluster.put(1, 1, 1, b"payload");
        let mut planned = |slots, rows| {
            let mut tally = Tally::default();
            compare_plan(&mut rng, &plan_of(&cluster, 1, slots, rows), &mut tally);
            tally
        };
        for rows in (0..=2 * n).filter(|&rows| rows != n) {
            assert_eq!(planned(2, rows).of("refusal", 13), 1);
        }
        assert_eq!(planned(1, n).of("refusal", 13), 1);
        let tally = planned(2, n);
        assert_eq!(tally.of("refusal", 0), 1);
        let rows = [0, 1, 2].map(|row| tally.of("row", row));
        assert_eq!(rows, [0, n as u64 - 1, 1]);
    }
}

#[test]
fn recoveries() {
    let tally = clusters::recoveries(12, CLUSTERS);
    tally.assert_each("m", &[MAX_SLOTS], 10);
}

#[test]
fn recoveries_of_every_slot_count() {
    for m in 1..=MAX_SLOTS {
        let mut tally = Tally::default();
        for n in MIN_REPLICAS..=MAX_REPLICAS {
            for edition in [1, 2] {
                let number = 1000 * edition + 100 * n + m;
                let mut rng = case_rng(15, number as u64);
                let shape = Shape {
                    n,
                    m,
                    edition,
                    witnesses: some_witnesses(&mut rng, n),
                };
                let case = recovery_case_of(&mut rng, shape);
                compare_recovery(&mut rng, &case, &mut tally);
            }
        }
        assert!(tally.of("m", m) > 0, "none of {m} slots is recovered");
    }
}
