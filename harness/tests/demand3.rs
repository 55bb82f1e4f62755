//! What recovery promises, on generated clusters, with power cuts and refused calls between.

#![deny(dead_code)]

use harness::code::{Code, MODEL, PROVED};
use harness::model::{image_offset, record_offset, Shape, RECORD_LEN};
use harness::on_both_sides;
use harness::property::{check_agreed, check_arbitrary, check_images, check_reports};
use harness::proved::clusters::ReplicaRow;
use harness::side::{self, Side};

on_both_sides! {
    clusters_whose_logs_agreed,
    arbitrary_clusters,
    images_of_any_bytes,
    inputs_of_any_bytes,
}

fn clusters_whose_logs_agreed(on: Code) {
    let coverage = check_agreed(on, 1, 10_000).unwrap_or_else(|what| panic!("{what}"));
    println!("{coverage}");
    for count in [
        coverage.ready,
        coverage.waiting,
        coverage.refused,
        coverage.truncated,
        coverage.even,
        coverage.edition_2,
        coverage.elsewhere,
        coverage.first_differs,
        coverage.last_index,
        coverage.with_witnesses,
        coverage.wrong_set,
        coverage.kept_by_witnesses,
        coverage.led_by_witness,
        coverage.witnessed,
        coverage.bad_witnesses,
        coverage.witnesses_written,
        coverage.fetched,
        coverage.out_of_reach,
        coverage.records_lost,
        coverage.torn,
        coverage.cut,
        coverage.refused_calls,
        coverage.spent,
    ] {
        assert!(count >= 50, "{coverage}");
    }
}

fn arbitrary_clusters(on: Code) {
    let coverage = check_arbitrary(on, 2, 8_000).unwrap_or_else(|what| panic!("{what}"));
    println!("{coverage}");
    for count in [
        coverage.ready,
        coverage.waiting,
        coverage.refused,
        coverage.truncated,
        coverage.first_differs,
        coverage.last_index,
        coverage.with_witnesses,
        coverage.kept_by_witnesses,
        coverage.led_by_witness,
        coverage.bad_witnesses,
        coverage.witnesses_written,
        coverage.torn,
        coverage.cut,
        coverage.refused_calls,
        coverage.spent,
    ] {
        assert!(count >= 50, "{coverage}");
    }
    for count in [coverage.wrong_set, coverage.stray_witness] {
        assert!(count >= 10, "{coverage}");
    }
}

fn images_of_any_bytes(on: Code) {
    let coverage = check_images(on, 3, 20_000).unwrap_or_else(|what| panic!("{what}"));
    println!("{coverage:?}");
    for number in [0, 1, 2, 3, 4, 5, 6, 7, 13] {
        assert!(coverage.read[number] >= 5, "{coverage:?}");
    }
    for number in 0..=10 {
        assert!(coverage.append[number] >= 5, "{coverage:?}");
    }
    for number in [0, 1, 2, 3, 4, 5, 6, 7, 13] {
        assert!(coverage.witness_read[number] >= 5, "{coverage:?}");
    }
    for number in [0, 1, 2, 3, 4, 5, 6, 7, 8, 10] {
        assert!(coverage.witness_append[number] >= 5, "{coverage:?}");
    }
    assert_eq!(coverage.witness_append[9], 0, "{coverage:?}");
    assert!(
        coverage.verdicts.iter().all(|&count| count >= 50),
        "{coverage:?}"
    );
    assert!(
        coverage.editions.iter().all(|&count| count >= 1_000),
        "{coverage:?}"
    );
    assert!(coverage.later >= 1_000, "{coverage:?}");
}

/// The proved program is started anew for each input.
fn inputs_of_any_bytes(on: Code) {
    let refusals = check_reports(on, 3, 1_000).unwrap_or_else(|what| panic!("{what}"));
    println!("{refusals:?}");
    for number in [0, 1, 2, 3, 11, 12, 14] {
        assert!(refusals[number] >= 5, "{refusals:?}");
    }
}

/// The same lists go alike on both sides, call by call.
#[test]
fn agreed_lists_go_alike() {
    assert_eq!(
        check_agreed(PROVED, 4, 3_000),
        check_agreed(MODEL, 4, 3_000)
    );
}

#[test]
fn arbitrary_lists_go_alike() {
    let proved = check_arbitrary(PROVED, 5, 3_000);
    assert_eq!(proved, check_arbitrary(MODEL, 5, 3_000));
}

/// What the lists find of a side that is wrong.
fn found(wrong: Side) -> String {
    let code = Code {
        name: "a wrong side",
        side: wrong,
        ..PROVED
    };
    check_agreed(code, 6, 1_000).expect_err("the side is wrong")
}

#[test]
fn a_step_that_names_a_store_and_makes_none_is_found() {
    let found = found(Side {
        step: |cluster, shape, leader, present, status, replica, slot, kind| {
            let mut copy = cluster.to_vec();
            (side::PROVED.step)(
                &mut copy, shape, leader, present, status, replica, slot, kind,
            )
        },
        ..side::PROVED
    });
    assert!(found.ends_with("a step made another store"), "{found}");
}

/// A record that it writes has the number of its slot for its index.
#[test]
fn a_step_that_forgets_the_first_index_is_found() {
    let found = found(Side {
        step: |cluster, shape, leader, present, status, replica, slot, kind| {
            let step = side::PROVED.step;
            let answer = step(cluster, shape, leader, present, status, replica, slot, kind);
            if (answer, *status, *kind) == (0, 2, 2) {
                let at = image_offset(shape, *replica) + record_offset(shape, *slot);
                let record = &mut cluster[at..at + RECORD_LEN];
                let mut epoch = 0;
                (side::PROVED.read_column)(&record[..11], &mut epoch);
                (side::PROVED.write_record)(record, epoch as u32, *slot as u32);
            }
            answer
        },
        ..side::PROVED
    });
    // It shows in a step, or in a run that is compared with its steps.
    let told = ["a step made another store", "a run is not its steps"];
    assert!(told.iter().any(|told| found.ends_with(told)), "{found}");
}

/// Every record of a witness, by where it begins in the cluster.
fn witness_records(shape: Shape) -> Vec<usize> {
    let mut records = Vec::new();
    for replica in (1..=shape.n).filter(|&replica| shape.is_witness(replica)) {
        let image = image_offset(shape, replica);
        records.extend((1..=shape.m).map(|slot| image + record_offset(shape, slot)));
    }
    records
}

/// A planner that takes a witness's have-faulty for a don't-have.
#[test]
fn a_planner_that_asks_no_witness_is_found() {
    let found = found(Side {
        plan: |cluster, shape, leader, present, plan, rows, status, number| {
            let planned = side::PROVED.plan;
            let answer = planned(cluster, shape, leader, present, plan, rows, status, number);
            if answer != 0 {
                return answer;
            }
            let mut copy = cluster.to_vec();
            for at in witness_records(shape) {
                (side::PROVED.write_blank_record)(&mut copy[at..at + RECORD_LEN]);
            }
            let mut ignored = vec![ReplicaRow::default(); shape.n];
            let rows = &mut ignored;
            planned(&copy, shape, leader, present, plan, rows, status, number)
        },
        ..side::PROVED
    });
    assert!(found.contains("but the full run ends"), "{found}");
}

/// A run that makes the bad records of a witness blank.
#[test]
fn a_run_that_mends_a_witness_is_found() {
    let found = found(Side {
        run: |cluster, shape, leader, present, budget, status, stores, slot| {
            let run = side::PROVED.run;
            let answer = run(
                cluster, shape, leader, present, budget, status, stores, slot,
            );
            if (answer, *status) == (0, 0) {
                for at in witness_records(shape) {
                    let record = &mut cluster[at..at + RECORD_LEN];
                    if record[RECORD_LEN - 1] != b'\n' {
                        (side::PROVED.write_blank_record)(record);
                    }
                }
            }
            answer
        },
        ..side::PROVED
    });
    let told = ["a run is not its steps", "of replica"];
    assert!(told.iter().any(|told| found.contains(told)), "{found}");
}

#[test]
fn a_run_that_counts_a_store_too_many_is_found() {
    let found = found(Side {
        run: |cluster, shape, leader, present, budget, status, stores, slot| {
            let run = side::PROVED.run;
            let answer = run(
                cluster, shape, leader, present, budget, status, stores, slot,
            );
            if answer == 0 && *status == 0 {
                *stores += 1;
            }
            answer
        },
        ..side::PROVED
    });
    assert!(found.contains("the run counts"), "{found}");
}

#[test]
fn a_run_that_stores_once_and_claims_the_rest_is_found() {
    let found = found(Side {
        run: |cluster, shape, leader, present, budget, status, stores, slot| {
            let budget = budget.min(1);
            let run = side::PROVED.run;
            let answer = run(
                cluster, shape, leader, present, budget, status, stores, slot,
            );
            if *status == 2 {
                *status = 0;
            }
            answer
        },
        ..side::PROVED
    });
    assert!(found.contains(" of seed 6 by a wrong side: "), "{found}");
}

/// The worthless planner that takes every fault of the leader for one to be cut.
#[test]
fn a_planner_that_never_waits_is_found() {
    let found = found(Side {
        plan: |cluster, shape, leader, present, plan, rows, status, number| {
            let planned = side::PROVED.plan;
            let answer = planned(cluster, shape, leader, present, plan, rows, status, number);
            if answer == 0 && *status == 1 {
                *status = 0;
                *number -= 1;
            }
            answer
        },
        ..side::PROVED
    });
    assert!(found.contains("but the full run ends"), "{found}");
}
