//! All agreed clusters of three replicas and one slot, those of four that are of fewer kinds, those of
//! edition 2 whose logs begin at 3 or at 4, and those with one witness or two, in all states of their
//! recovery.

#![deny(dead_code)]

use harness::code::Code;
use harness::generate::{Small, FOUR, FROM_THREE, ONE_WITNESS, THREE, TWO_WITNESSES};
use harness::on_both_sides;
use harness::property::{check_small, Coverage};
use std::ops::Range;

on_both_sides! {
    first_half_of_three,
    second_half_of_three,
    first_half_of_four,
    second_half_of_four,
    from_index_3,
    with_one_witness,
    with_two_witnesses,
}

fn check(on: Code, small: &Small, numbers: Range<usize>) -> Coverage {
    let coverage = check_small(on, small, numbers).unwrap_or_else(|what| panic!("{what}"));
    println!("{coverage}");
    let fetched = [coverage.fetched, coverage.torn];
    for count in [
        coverage.ready,
        coverage.waiting,
        coverage.refused,
        coverage.truncated,
        coverage.out_of_reach,
        coverage.records_lost,
    ] {
        assert!(count > 0, "{coverage}");
    }
    // An entry is stored if there are two cards.
    let cards = small.shape.n - small.shape.witnesses.count_ones() as usize;
    for count in fetched {
        assert_eq!(count > 0, cards > 1, "{coverage}");
    }
    coverage
}

/// What has to come up with witnesses.
fn check_witnesses(on: Code, small: &Small) {
    let coverage = check(on, small, 0..small.cases());
    for count in [
        coverage.kept_by_witnesses,
        coverage.led_by_witness,
        coverage.witnessed,
        coverage.bad_witnesses,
        coverage.witnesses_written,
    ] {
        assert!(count > 0, "{coverage}");
    }
}

fn with_one_witness(on: Code) {
    check_witnesses(on, &ONE_WITNESS);
}

fn with_two_witnesses(on: Code) {
    check_witnesses(on, &TWO_WITNESSES);
}

fn first_half_of_three(on: Code) {
    check(on, &THREE, 0..THREE.cases() / 2);
}

fn second_half_of_three(on: Code) {
    check(on, &THREE, THREE.cases() / 2..THREE.cases());
}

fn first_half_of_four(on: Code) {
    check(on, &FOUR, 0..FOUR.cases() / 2);
}

fn second_half_of_four(on: Code) {
    check(on, &FOUR, FOUR.cases() / 2..FOUR.cases());
}

fn from_index_3(on: Code) {
    let coverage = check(on, &FROM_THREE, 0..FROM_THREE.cases());
    assert!(coverage.edition_2 == coverage.committed && coverage.first_differs > 0);
}
