//! Document 02, request Two: verdict 6, stale, and what it is not. Plans and stores take it for noise.

#![deny(dead_code)]

use harness::code::{Code, Planned};
use harness::generate::{agreed_case, arbitrary_case, Case, Cluster};
use harness::model::*;
use harness::on_both_sides;
use harness::property::case_rng;
use harness::samples::samples;

on_both_sides! {
    an_intact_entry_of_another_epoch_is_stale,
    an_entry_of_its_own_epoch_is_not,
    an_entry_that_is_intact_for_another_slot_is_noise,
    a_write_that_never_arrived_on_a_fresh_entry_is_noise,
    an_unused_slot_is_not_stale,
    a_stale_slot_has_no_payload,
    an_append_behind_a_stale_slot_leaves_it_stale,
    a_stale_slot_is_planned_and_mended_like_noise,
    the_sample_is_stale_and_mended,
}

fn verdicts(on: Code, cluster: &Cluster, replica: usize) -> Vec<u8> {
    let m = cluster.shape.m;
    let (mut epochs, mut verdicts) = (vec![9; m], vec![9; m]);
    on.read(
        cluster.image(replica),
        cluster.shape,
        replica,
        &mut epochs,
        &mut verdicts,
    )
    .expect("the image is not refused");
    verdicts
}

/// The verdict of slot 1 of epoch 2 beside these bytes: as the last used slot, and with one more
/// behind it.
fn beside(on: Code, entry: &[u8]) -> [u8; 2] {
    let mut cluster = Cluster::fresh(3, 2);
    cluster.put_record(1, 1, 2);
    cluster.entry_mut(1, 1).copy_from_slice(entry);
    let last = verdicts(on, &cluster, 1)[0];
    cluster.put(1, 2, 2, b"x");
    [last, verdicts(on, &cluster, 1)[0]]
}

fn an_intact_entry_of_another_epoch_is_stale(on: Code) {
    for epoch in [1, 3, u32::MAX] {
        for payload in [&b""[..], b"wire", &[b'#'; 200]] {
            assert_eq!(beside(on, &write_entry(epoch, 1, payload)), [6, 6]);
        }
    }
}

fn an_entry_of_its_own_epoch_is_not(on: Code) {
    assert_eq!(beside(on, &write_entry(2, 1, b"wire")), [1, 1]);
}

fn an_entry_that_is_intact_for_another_slot_is_noise(on: Code) {
    for epoch in [1, 2, 3] {
        for slot in [2, 3, 64] {
            assert_eq!(beside(on, &write_entry(epoch, slot, b"wire")), [4, 3]);
        }
    }
}

fn a_write_that_never_arrived_on_a_fresh_entry_is_noise(on: Code) {
    assert_eq!(beside(on, &[b' '; ENTRY_LEN]), [4, 3]);
}

/// Behind the log an entry of whatever epoch is unfinished.
fn an_unused_slot_is_not_stale(on: Code) {
    let mut cluster = Cluster::fresh(3, 2);
    cluster.put(1, 1, 2, b"x");
    cluster.put_entry(1, 2, 1, b"old");
    assert_eq!(verdicts(on, &cluster, 1), [1, 5]);
}

fn a_stale_slot_has_no_payload(on: Code) {
    let mut cluster = Cluster::fresh(3, 2);
    cluster.put_record(1, 1, 2);
    cluster.put_entry(1, 1, 1, b"old");
    assert_eq!(verdicts(on, &cluster, 1), [6, 0]);
    assert_eq!(
        on.has_payload(cluster.image(1), cluster.shape, 1, 1),
        Ok(false)
    );
    assert_eq!(on.payload(cluster.image(1), cluster.shape, 1, 1), b"");
}

fn an_append_behind_a_stale_slot_leaves_it_stale(on: Code) {
    let mut cluster = Cluster::fresh(3, 2);
    cluster.put_record(1, 1, 2);
    cluster.put_entry(1, 1, 1, b"old");
    assert_eq!(
        on.append(cluster.image_mut(1), Shape::edition_1(3, 2), 1, 2, b"new"),
        Ok(2)
    );
    assert_eq!(verdicts(on, &cluster, 1), [6, 1]);
}

/// Every stale entry of a cluster made noise, and where they were.
fn without_stale(on: Code, case: &Case) -> (Cluster, Vec<(usize, usize)>) {
    let Shape { n, m, .. } = case.shape;
    let mut cluster = Cluster::of_bytes(case.shape, case.cluster.clone());
    let mut stale = Vec::new();
    for replica in (1..=n).filter(|&replica| !case.shape.is_witness(replica)) {
        let Ok(log) = on.judge_image(cluster.image(replica), cluster.shape, replica) else {
            continue;
        };
        for slot in (1..=m).filter(|&slot| log.verdict(slot) == Verdict::Stale) {
            cluster.entry_mut(replica, slot)[ENTRY_LEN - 1] = b'#';
            stale.push((replica, slot));
        }
    }
    (cluster, stale)
}

fn planned(on: Code, case: &Case, cluster: &[u8]) -> Planned {
    on.planned(cluster, case.shape, case.leader, case.present)
}

/// Every step until none makes a store, those apart that write an entry that was stale. One of another
/// epoch than its record's can be the leader's, and is not written again once its record is blanked.
fn steps(
    on: Code,
    case: &Case,
    cluster: &mut [u8],
    stale: &[(usize, usize)],
) -> Vec<Result<StepAnswer, Refusal>> {
    let mut answers = Vec::new();
    loop {
        let answer = on.step(cluster, case.shape, case.leader, case.present);
        let Ok(StepAnswer::Store {
            replica,
            slot,
            kind,
        }) = answer
        else {
            answers.push(answer);
            return answers;
        };
        if kind != StoreKind::Entry || !stale.contains(&(replica, slot)) {
            answers.push(answer);
        }
    }
}

/// Where a stale entry was made noise, the plan is the same, and so are the stores and what they leave.
fn a_stale_slot_is_planned_and_mended_like_noise(on: Code) {
    let (mut met, mut mended) = (0, 0);
    for number in 0..20_000 {
        let mut rng = case_rng(16, number);
        let case = if number % 2 == 0 {
            arbitrary_case(&mut rng)
        } else {
            agreed_case(&mut rng).case
        };
        let (mut noise, stale) = without_stale(on, &case);
        if stale.is_empty() {
            continue;
        }
        met += 1;
        let mut cluster = case.cluster.clone();
        let plan = planned(on, &case, &cluster);
        assert_eq!(plan, planned(on, &case, &noise.bytes));
        let answers = steps(on, &case, &mut cluster, &stale);
        assert_eq!(answers, steps(on, &case, &mut noise.bytes, &stale));
        mended += usize::from(cluster == noise.bytes);
        // What differs still is the changed byte of an entry that no store has reached.
        for &(replica, slot) in &stale {
            let entry = image_offset(case.shape, replica) + entry_offset(case.shape, slot);
            let at = entry + ENTRY_LEN - 1;
            cluster[at] = noise.bytes[at];
        }
        assert_eq!(cluster, noise.bytes);
    }
    assert!(met > 1_000 && mended > 500, "{met} {mended}");
}

fn the_sample_is_stale_and_mended(on: Code) {
    let all = samples();
    let sample = all.iter().find(|sample| sample.name == "stale-entry");
    let bytes = sample.expect("it is there").input[14..].to_vec();
    let mut cluster = Cluster::of_bytes(Shape::edition_1(3, 4), bytes);
    assert_eq!(verdicts(on, &cluster, 1), [1, 6, 1, 0]);
    let answer = on
        .run(&mut cluster.bytes, cluster.shape, 1, 7, 100)
        .expect("it is not refused");
    assert_eq!((answer.end, answer.stores), (RunEnd::Done, 1));
    for replica in 1..=3 {
        assert_eq!(verdicts(on, &cluster, replica), [1, 1, 1, 0]);
        let payload = on.payload(cluster.image(replica), cluster.shape, replica, 2);
        assert_eq!(payload, b"metre 1207, no signal");
    }
}
