//! The calls about the pieces of an image, and where they stand.

use super::one_of;
use crate::call::Call;
use crate::compare::{agree, Answer};
use crate::generate::piece_calls::*;
use crate::generate::Rng;
use crate::proved::{Header, Measure};
use crate::tally::{each_case, Tally};

/// Makes the calls by both, and counts the kinds of their answers. A checksum is of one kind.
fn compare<const N: usize>(
    seed: u64,
    cases: u64,
    calls: impl Fn(&mut Rng) -> [Call; N] + Sync,
) -> Tally {
    each_case(seed, cases, |rng, tally| {
        for call in calls(rng) {
            let kind = match agree(rng, &call).answer {
                Answer::Number(_) => 0,
                answer => answer.code(),
            };
            tally.count(call.name(), kind);
        }
    })
}

/// The call is made in each case, and every answer comes up in at least one of thirty.
fn assert_covered(tally: &Tally, call: &'static str, cases: u64, answers: &[usize]) {
    assert_eq!(tally.all(call), cases);
    tally.assert_each(call, answers, one_of(30, cases));
}

pub fn checksums(seed: u64, cases: u64) -> Tally {
    let tally = compare(seed, cases, |rng| [checksum_call(rng)]);
    assert_eq!(tally.all("Checksum"), cases);
    tally
}

pub fn columns_written(seed: u64, cases: u64) -> Tally {
    let tally = compare(seed, cases, |rng| [write_number_call(rng)]);
    assert_eq!(tally.all("WriteNumber"), cases);
    tally
}

pub fn columns_read(seed: u64, cases: u64) -> Tally {
    let tally = compare(seed, cases, |rng| [read_column_call(rng)]);
    assert_covered(&tally, "ReadColumn", cases, &[0, 1, 2, 3]);
    tally
}

/// Of a good header its edition is counted as well, whether it is a witness's, and whether it has the
/// highest first index.
pub fn headers(seed: u64, cases: u64) -> Tally {
    let tally = each_case(seed, cases, |rng, tally| {
        for call in header_calls(rng) {
            let outcome = agree(rng, &call);
            tally.count(call.name(), outcome.answer.code());
            let good = outcome.answer == Answer::Header(Header::Good);
            if let (true, Call::JudgeHeader { shape, replica, .. }) = (good, call) {
                tally.count("edition", shape.edition);
                tally.count("of a witness", usize::from(shape.is_witness(replica)));
                let last = outcome.number("first") + shape.m as u64 == 1 << 32;
                tally.count("last index", usize::from(last));
            }
        }
    });
    assert_covered(&tally, "JudgeHeader", cases, &[0, 1]);
    assert_covered(&tally, "WriteHeader", cases, &[0, 1]);
    tally.assert_each("edition", &[1, 2], one_of(30, cases));
    tally.assert_each("of a witness", &[0, 1], one_of(30, cases));
    tally.assert_each("last index", &[0, 1], one_of(100, cases));
    tally
}

pub fn records(seed: u64, cases: u64) -> Tally {
    let tally = compare(seed, cases, record_calls);
    assert_covered(&tally, "JudgeRecord", cases, &[0, 1, 2, 3]);
    assert_covered(&tally, "WriteRecord", cases, &[0, 1]);
    assert_covered(&tally, "WriteBlankRecord", cases, &[0, 1]);
    tally
}

pub fn entries(seed: u64, cases: u64) -> Tally {
    let tally = compare(seed, cases, entry_calls);
    assert_covered(&tally, "JudgeEntry", cases, &[0, 1, 2]);
    assert_covered(&tally, "WriteEntry", cases, &[0, 1, 2]);
    assert_covered(&tally, "WriteFreshEntry", cases, &[0, 1]);
    tally
}

/// Of an image that there is its edition is counted as well, whether it is a witness's, and whether a
/// witness is no replica.
pub fn measures(seed: u64, cases: u64) -> Tally {
    let tally = each_case(seed, cases, |rng, tally| {
        for call in measure_calls(rng) {
            let answer = agree(rng, &call).answer;
            tally.count(call.name(), answer.code());
            let there_is = matches!(answer, Answer::Measure(Measure { refusal: 0, .. }));
            if let (true, Call::ImageSize { shape, replica }) = (there_is, call) {
                tally.count("edition", shape.edition);
                tally.count("of a witness", usize::from(shape.is_witness(replica)));
                let stray = shape.witnesses >> shape.n != 0;
                tally.count("stray witness", usize::from(stray));
            }
        }
    });
    for call in ["ImageSize", "ClusterSize", "ImageAt", "RecordAt"] {
        assert_covered(&tally, call, cases, &[0, 1, 2]);
    }
    assert_covered(&tally, "EntryAt", cases, &[0, 1, 2, 3]);
    tally.assert_each("edition", &[1, 2], one_of(30, cases));
    tally.assert_each("of a witness", &[0, 1], one_of(30, cases));
    tally.assert_each("stray witness", &[0, 1], one_of(30, cases));
    tally
}
