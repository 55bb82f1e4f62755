//! Fuzzing finds a side that is wrong, and makes the call in which it shows small.

use std::time::Duration;

use harness::call::Call;
use harness::compare::test_text;
use harness::fuzz::{fuzz, Difference};
use harness::generate::{one_of_each, Rng};
use harness::model::{
    card_len, cluster_len, image_offset, record_offset, witness_len, Shape, RECORD_LEN,
};
use harness::proved::Written;
use harness::side::{Side, MODEL, PROVED};

/// The smallest shapes that calls are found in, and the one of all zeros.
const SMALLEST: Shape = Shape::edition_1(3, 1);
const SMALLEST_2: Shape = Shape::edition_2(3, 1);
const ZEROS: Shape = Shape {
    edition: 0,
    ..Shape::edition_1(0, 0)
};

/// What is found of a wrong side, long before the time is over.
fn found(wrong: Side) -> Difference {
    let fuzzed = fuzz(&MODEL, &wrong, 1, Duration::from_secs(300));
    let difference = fuzzed.difference.clone().expect("a difference");
    let text = fuzzed.to_string();
    assert!(text.contains("#[test]\nfn "), "{text}");
    assert!(text.contains(&difference.told), "{text}");
    assert!(text.ends_with(&test_text(&difference.call, difference.old)));
    difference
}

#[test]
fn a_round_has_every_call() {
    let calls = one_of_each(&mut Rng::new(1));
    let names: Vec<&str> = calls.iter().map(Call::name).collect();
    assert_eq!(names, Call::NAMES);
}

#[test]
fn the_proved_code_is_not_wrong() {
    let fuzzed = fuzz(&MODEL, &PROVED, 7, Duration::from_secs(2));
    assert!(fuzzed.difference.is_none(), "{fuzzed}");
    assert!(fuzzed.rounds >= 10, "{fuzzed}");
    assert!(fuzzed.to_string().ends_with("no difference\n"), "{fuzzed}");
}

/// The test that is printed stands, as it is, in tests/pasted.rs, and so it compiles.
fn assert_pasted(found: &Difference) {
    let printed = test_text(&found.call, found.old);
    assert!(include_str!("pasted.rs").contains(&printed), "{printed}");
}

#[test]
fn three_payload_bytes_are_written_wrong() {
    let found = found(Side {
        write_entry: |entry, epoch, index, payload| {
            let answer = (PROVED.write_entry)(entry, epoch, index, payload);
            if answer == Written::Written && payload.len() > 2 {
                entry[26] ^= 1;
            }
            answer
        },
        ..PROVED
    });
    assert_eq!(found.told, "WriteEntry: entry[26] is 1, not 0");
    assert_pasted(&found);
}

#[test]
fn a_record_without_its_newline_is_taken_for_one() {
    let found = found(Side {
        judge_record: |record, index, epoch| {
            let mut whole = record.to_vec();
            if let Some(last) = whole.last_mut() {
                *last = b'\n';
            }
            (PROVED.judge_record)(&whole, index, epoch)
        },
        ..PROVED
    });
    assert!(found.told.ends_with("not Record(Bad)"), "{found:?}");
    let Call::JudgeRecord { record, .. } = found.call else {
        panic!("{found:?}");
    };
    assert_eq!((record.len(), record[33]), (34, 0));
}

#[test]
fn a_long_checksum_is_wrong() {
    let found = found(Side {
        checksum: |bytes| (PROVED.checksum)(bytes) ^ u32::from(bytes.len() > 256),
        ..PROVED
    });
    let bytes = vec![0; 257];
    assert_eq!(found.call, Call::Checksum { bytes });
    assert_pasted(&found);
}

#[test]
fn a_number_is_written_too_wide() {
    let found = found(Side {
        write_number: |column, number| {
            (PROVED.write_number)(column, number);
            if number > 99 {
                // SAFETY: `Guarded` keeps 32 bytes or more before the column in the same buffer.
                unsafe { *column.as_mut_ptr().sub(1) = b'1' };
            }
        },
        ..PROVED
    });
    let (width, number) = (0, 100);
    assert_eq!(found.call, Call::WriteNumber { width, number });
    assert_eq!(
        found.told,
        "WriteNumber: written outside column, at offset -1"
    );
}

#[test]
fn an_ambiguous_slot_is_called_corrupt() {
    let found = found(Side {
        read: |image, shape, replica, epochs, verdicts, used, first| {
            let read = PROVED.read;
            let answer = read(image, shape, replica, epochs, verdicts, used, first);
            for verdict in verdicts.iter_mut().filter(|verdict| **verdict == 4) {
                *verdict = 3;
            }
            answer
        },
        ..PROVED
    });
    assert_eq!(found.told, "Read: verdicts[0] is 3, not 4");
    let Call::Read {
        shape: SMALLEST,
        replica: 1,
        epochs: 1,
        verdicts: 1,
        image,
    } = found.call
    else {
        panic!("{found:?}");
    };
    // Only the header and the record are there.
    assert_eq!(image.len(), card_len(SMALLEST));
    assert!(image[62..].iter().all(|&byte| byte == 0));
}

#[test]
fn a_slot_after_the_truncation_is_truncated() {
    let found = found(Side {
        plan: |cluster, shape, leader, present, plan, rows, status, number| {
            let answer = (PROVED.plan)(cluster, shape, leader, present, plan, rows, status, number);
            // The old contents of a refused plan may be any.
            if answer == 0 {
                for byte in plan.iter_mut().filter(|byte| **byte == 5) {
                    *byte = 4;
                }
            }
            answer
        },
        ..PROVED
    });
    assert_eq!(found.told, "Plan: plan[1] is 4, not 5");
    let Call::Plan { shape, rows: 3, .. } = found.call else {
        panic!("{found:?}");
    };
    assert_eq!(shape, Shape::edition_1(3, 2));
}

/// Of the third of four replicas or more, so that it takes a table of four rows.
#[test]
fn a_row_has_another_epoch() {
    let found = found(Side {
        plan: |cluster, shape, leader, present, plan, rows, status, number| {
            let answer = (PROVED.plan)(cluster, shape, leader, present, plan, rows, status, number);
            if answer == 0 && shape.n > 3 && rows[2].length > 1 {
                rows[2].last_epoch ^= 1;
            }
            answer
        },
        ..PROVED
    });
    assert!(found.told.starts_with("Plan: rows[2] is "), "{found:?}");
    let Call::Plan {
        shape,
        slots: 2,
        rows: 4,
        ref cluster,
        ..
    } = found.call
    else {
        panic!("{found:?}");
    };
    assert_eq!(shape, Shape::edition_1(4, 2));
    assert_eq!(cluster.len(), cluster_len(shape));
}

#[test]
fn a_refused_plan_changes_a_row() {
    let found = found(Side {
        plan: |cluster, shape, leader, present, plan, rows, status, number| {
            let answer = (PROVED.plan)(cluster, shape, leader, present, plan, rows, status, number);
            if let (13, Some(row)) = (answer, rows.first_mut()) {
                row.readable = 2;
            }
            answer
        },
        ..PROVED
    });
    assert!(found.told.starts_with("Plan: rows[0] is "), "{found:?}");
    let Call::Plan {
        shape: SMALLEST,
        rows: 1,
        ..
    } = found.call
    else {
        panic!("{found:?}");
    };
}

#[test]
fn a_row_behind_the_table_is_written() {
    let found = found(Side {
        plan: |cluster, shape, leader, present, plan, rows, status, number| {
            if rows.len() == 7 {
                // SAFETY: `Guarded` keeps 32 rows behind the table in the same buffer.
                unsafe { (*rows.as_mut_ptr().add(7)).length ^= 1 };
            }
            (PROVED.plan)(cluster, shape, leader, present, plan, rows, status, number)
        },
        ..PROVED
    });
    let expected = Call::Plan {
        shape: ZEROS,
        leader: 0,
        present: 0,
        slots: 0,
        rows: 7,
        cluster: Vec::new(),
    };
    assert_eq!(found.call, expected);
    assert_eq!(found.told, "Plan: written outside rows, at offset 7");
}

#[test]
fn a_run_of_no_budget_makes_a_store() {
    let found = found(Side {
        run: |cluster, shape, leader, present, budget, status, stores, slot| {
            let budget = budget.max(1);
            (PROVED.run)(
                cluster, shape, leader, present, budget, status, stores, slot,
            )
        },
        ..PROVED
    });
    let Call::Run {
        shape: SMALLEST,
        budget: 0,
        ref cluster,
        ..
    } = found.call
    else {
        panic!("{found:?}");
    };
    assert_eq!(cluster.len(), cluster_len(SMALLEST));
    let written = cluster.iter().filter(|&&byte| byte != 0 && byte != b' ');
    assert!(written.count() < 150, "{found:?}");
}

#[test]
fn a_step_of_seven_replicas_writes_outside() {
    let found = found(Side {
        step: |cluster, shape, leader, present, status, replica, slot, kind| {
            if shape.n == 7 && shape.m > 2 {
                // SAFETY: `Guarded` keeps 32 bytes behind the cluster in the same buffer.
                unsafe { *cluster.as_mut_ptr().add(cluster.len()) ^= 1 };
            }
            (PROVED.step)(cluster, shape, leader, present, status, replica, slot, kind)
        },
        ..PROVED
    });
    let expected = Call::Step {
        shape: Shape {
            edition: 0,
            ..Shape::edition_1(7, 3)
        },
        leader: 0,
        present: 0,
        cluster: Vec::new(),
    };
    assert_eq!(found.call, expected);
    assert_eq!(found.told, "Step: written outside cluster, at offset 0");
}

#[test]
fn a_side_that_panics_is_found() {
    let found = found(Side {
        judge_header: |header, shape, replica, first| {
            assert!(replica < 1000, "too wide");
            (PROVED.judge_header)(header, shape, replica, first)
        },
        ..PROVED
    });
    let expected = Call::JudgeHeader {
        header: Vec::new(),
        shape: ZEROS,
        replica: 1000,
    };
    assert_eq!(found.call, expected);
    assert_eq!(found.told, "JudgeHeader: a side panics");
}

#[test]
fn a_first_index_is_not_handed_out() {
    let found = found(Side {
        read: |image, shape, replica, epochs, verdicts, used, _| {
            let read = PROVED.read;
            let mut first = 0;
            read(image, shape, replica, epochs, verdicts, used, &mut first)
        },
        ..PROVED
    });
    assert!(found.told.starts_with("Read: first is "), "{found:?}");
    let Call::Read {
        shape: SMALLEST,
        replica: 1,
        ..
    } = found.call
    else {
        panic!("{found:?}");
    };
}

/// Records are judged by their slots instead of their indexes.
#[test]
fn a_first_index_is_taken_for_1() {
    let found = found(Side {
        append: |image, shape, replica, epoch, payload, slot| {
            let answer = (PROVED.append)(image, shape, replica, epoch, payload, slot);
            if answer == 0 {
                let at = record_offset(shape, *slot);
                let record = &mut image[at..at + RECORD_LEN];
                (PROVED.write_record)(record, epoch, *slot as u32);
            }
            answer
        },
        ..PROVED
    });
    assert!(found.told.starts_with("Append: image["), "{found:?}");
    let Call::Append {
        shape: SMALLEST_2,
        replica: 1,
        ref image,
        ..
    } = found.call
    else {
        panic!("{found:?}");
    };
    assert_eq!(image.len(), card_len(SMALLEST_2));
}

#[test]
fn a_cluster_of_different_first_indexes_is_planned() {
    let found = found(Side {
        plan: |cluster, shape, leader, present, plan, rows, status, number| {
            let planned = PROVED.plan;
            let answer = planned(cluster, shape, leader, present, plan, rows, status, number);
            answer * u8::from(answer != 21)
        },
        ..PROVED
    });
    let told = "Plan: the answer is Refusal(0), not Refusal(21)";
    assert_eq!(found.told, told);
    let Call::Plan {
        shape,
        slots: 0,
        rows: 0,
        ref cluster,
        ..
    } = found.call
    else {
        panic!("{found:?}");
    };
    assert_eq!(shape, SMALLEST_2);
    assert_eq!(cluster.len(), cluster_len(shape));
}

/// The record of a witness has the number of its slot for its index.
#[test]
fn a_first_index_of_a_witness_is_taken_for_1() {
    let found = found(Side {
        witness_append: |image, shape, replica, epoch, slot| {
            let answer = (PROVED.witness_append)(image, shape, replica, epoch, slot);
            if answer == 0 {
                let at = record_offset(shape, *slot);
                let record = &mut image[at..at + RECORD_LEN];
                (PROVED.write_record)(record, epoch, *slot as u32);
            }
            answer
        },
        ..PROVED
    });
    let told = &found.told;
    assert!(told.starts_with("WitnessAppend: image["), "{found:?}");
    let Call::WitnessAppend {
        shape,
        replica: 1,
        ref image,
        ..
    } = found.call
    else {
        panic!("{found:?}");
    };
    assert_eq!(shape, SMALLEST_2.with_witnesses(1));
    assert_eq!(image.len(), witness_len(shape));
}

#[test]
fn a_witness_read_hands_out_no_length() {
    let found = found(Side {
        witness_read: |image, shape, replica, epochs, _, first| {
            let mut used = 0;
            (PROVED.witness_read)(image, shape, replica, epochs, &mut used, first)
        },
        ..PROVED
    });
    let told = &found.told;
    assert!(told.starts_with("WitnessRead: used is "), "{found:?}");
    let Call::WitnessRead {
        shape,
        replica: 1,
        epochs: 1,
        ..
    } = found.call
    else {
        panic!("{found:?}");
    };
    assert_eq!(shape, SMALLEST.with_witnesses(1));
}

/// A witness's image is read as if it were a card's.
#[test]
fn a_call_for_cards_takes_a_witness() {
    let found = found(Side {
        read: |image, shape, replica, epochs, verdicts, used, first| {
            let (read, cards) = (PROVED.read, shape.with_witnesses(0));
            read(image, cards, replica, epochs, verdicts, used, first)
        },
        ..PROVED
    });
    let Call::Read { shape, replica, .. } = found.call else {
        panic!("{found:?}");
    };
    assert!(found.told.ends_with(", not Refusal(3)"), "{found:?}");
    assert!(shape.is_witness(replica), "{found:?}");
}

#[test]
fn an_entry_of_a_witness_has_an_offset() {
    let found = found(Side {
        entry_at: |shape, replica, slot| (PROVED.entry_at)(shape.with_witnesses(0), replica, slot),
        ..PROVED
    });
    let told = "EntryAt: the answer is Measure(Measure { value: 62, refusal: 0 }), \
                not Measure(Measure { value: 0, refusal: 3 })";
    assert_eq!(found.told, told);
    let Call::EntryAt {
        shape,
        replica,
        slot: 1,
    } = found.call
    else {
        panic!("{found:?}");
    };
    assert_eq!(shape.with_witnesses(0), SMALLEST);
    assert!(shape.is_witness(replica), "{found:?}");
    assert_eq!(shape.witnesses.count_ones(), 1, "{found:?}");
}

/// 22 comes only of a bit that stands for no replica.
#[test]
fn a_stray_witness_is_not_refused() {
    let found = found(Side {
        plan: |cluster, shape, leader, present, plan, rows, status, number| {
            let known = 1u32
                .checked_shl(shape.n as u32)
                .unwrap_or(0)
                .wrapping_sub(1);
            let shape = shape.with_witnesses(shape.witnesses & known);
            (PROVED.plan)(cluster, shape, leader, present, plan, rows, status, number)
        },
        ..PROVED
    });
    assert!(found.told.ends_with(", not Refusal(22)"), "{found:?}");
    let Call::Plan { shape, .. } = found.call else {
        panic!("{found:?}");
    };
    assert_eq!(shape, SMALLEST.with_witnesses(0b1000));
}

/// Every witness is taken for one that has no record. It shows in the smallest cluster with a witness.
#[test]
fn a_witness_says_dont_have() {
    let found = found(Side {
        plan: |cluster, shape, leader, present, plan, rows, status, number| {
            let planned = PROVED.plan;
            let answer = planned(cluster, shape, leader, present, plan, rows, status, number);
            if answer != 0 {
                return answer;
            }
            let mut copy = cluster.to_vec();
            for replica in (1..=shape.n).filter(|&replica| shape.is_witness(replica)) {
                for slot in 1..=shape.m {
                    let at = image_offset(shape, replica) + record_offset(shape, slot);
                    (PROVED.write_blank_record)(&mut copy[at..at + RECORD_LEN]);
                }
            }
            let mut ignored = rows.to_vec();
            let rows = &mut ignored;
            planned(&copy, shape, leader, present, plan, rows, status, number)
        },
        ..PROVED
    });
    assert_eq!(found.told, "Plan: plan[0] is 4, not 3");
    let Call::Plan {
        shape, ref cluster, ..
    } = found.call
    else {
        panic!("{found:?}");
    };
    assert_eq!((shape.n, shape.m, shape.edition), (3, 1, 1));
    assert_eq!(shape.witnesses.count_ones(), 1, "{found:?}");
    assert_eq!(cluster.len(), cluster_len(shape));
}
