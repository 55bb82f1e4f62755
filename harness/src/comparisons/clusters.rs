//! The calls about a cluster.

use super::{first_kind, one_of, FIRST_KINDS};
use crate::call::Call;
use crate::compare::{agree, Outcome};
use crate::generate::recovery::other_numbers;
use crate::generate::{agreed_case, arbitrary_case, noise_cluster, plan_call, recovery_case};
use crate::generate::{Case, Rng};
use crate::model::planner::{reply, Reply};
use crate::model::{
    cluster_len, header_len, image_len, image_offset, judge_header, judge_image, survey, Shape,
    Survey, MAX_REPLICAS, MAX_SLOTS,
};
use crate::tally::{each_case, Tally};
use crate::witnessed::{cut_by_witnesses, is_wrong_set, kept_by_witnesses};

/// Plans by both, and counts how it went.
pub fn compare_plan(rng: &mut Rng, call: &Call, tally: &mut Tally) {
    let outcome = agree(rng, call);
    tally.count("refusal", outcome.answer.code());
    match outcome.answer.code() {
        0 => {
            let survey = survey_of(call);
            count_plan(&outcome, tally);
            count_cut_by_half(&survey, &outcome, tally);
            count_witnesses(&survey, &outcome, tally);
            count_first(call, tally);
        }
        12 => count_leader(call, tally),
        13 => count_lengths(call, tally),
        refusal => count_editions(call, refusal, tally),
    }
}

/// The shape, the leader, the present word and the cluster of a plan.
fn plan_of(call: &Call) -> (Shape, usize, u32, &[u8]) {
    let &Call::Plan {
        shape,
        leader,
        present,
        ref cluster,
        ..
    } = call
    else {
        panic!("{call} is no plan");
    };
    (shape, leader, present, cluster)
}

/// What the model sees in the cluster of a plan that is not refused.
fn survey_of(call: &Call) -> Survey {
    let (shape, leader, present, cluster) = plan_of(call);
    survey(cluster, shape, leader, present).expect("it was planned")
}

/// How many witnesses there are; which of them are away (0) and which within reach (1); and for each n,
/// whether those with the record kept a slot from being cut, and whether those without it had one cut.
fn count_witnesses(survey: &Survey, outcome: &Outcome, tally: &mut Tally) {
    let shape = survey.shape;
    tally.count("witnesses", shape.witnesses.count_ones() as usize);
    for replica in (1..=shape.n).filter(|&replica| shape.is_witness(replica)) {
        tally.count("witness", usize::from(survey.log(replica).is_some()));
    }
    let plan = outcome.bytes("plan");
    let mut waiting = (1..=shape.m).filter(|slot| plan[slot - 1] == 3);
    if waiting.any(|slot| kept_by_witnesses(survey, slot)) {
        tally.count("kept by witnesses of n", shape.n);
    }
    let mut cut = (1..=shape.m).filter(|slot| plan[slot - 1] == 4);
    if cut.any(|slot| cut_by_witnesses(survey, slot)) {
        tally.count("cut by witnesses of n", shape.n);
    }
}

/// A leader that is refused for being a witness: 0 with an image that is refused, 1 with one that is not.
fn count_leader(call: &Call, tally: &mut Tally) {
    let (shape, leader, _, cluster) = plan_of(call);
    if (1..=shape.n).contains(&leader) && shape.is_witness(leader) {
        let at = image_offset(shape, leader);
        let image = &cluster[at..at + image_len(shape, leader)];
        let readable = judge_image(image, shape, leader).is_ok();
        tally.count("witness leads", usize::from(readable));
    }
}

/// The edition of a plan that is not refused, and where the leader's log begins.
fn count_first(call: &Call, tally: &mut Tally) {
    let (shape, leader, _, cluster) = plan_of(call);
    let at = image_offset(shape, leader);
    let header = &cluster[at..at + header_len(shape)];
    let first = judge_header(header, shape, leader).expect("the leader is readable");
    tally.count("edition", shape.edition);
    tally.count("first", first_kind(shape, first));
}

/// The refusal of an edition that there is not, and of a cluster of the other one.
fn count_editions(call: &Call, refusal: usize, tally: &mut Tally) {
    let (shape, _, _, cluster) = plan_of(call);
    if !(1..=2).contains(&shape.edition) {
        tally.count("no edition", refusal);
        return;
    }
    let other = Shape {
        n: shape.n.min(MAX_REPLICAS),
        m: shape.m.min(MAX_SLOTS),
        edition: 3 - shape.edition,
        ..shape
    };
    if cluster.len() == cluster_len(other) {
        tally.count("other edition", refusal);
    }
}

/// The status, each byte of the plan, for each n whether a slot is cut or waits, and each row: of no
/// replica within reach 0, of an empty log 1, of a log with an epoch 2.
fn count_plan(outcome: &Outcome, tally: &mut Tally) {
    let (plan, n) = (outcome.bytes("plan"), outcome.rows("rows").len());
    tally.count("status", outcome.number("status") as usize);
    for &byte in plan {
        tally.count("plan byte", usize::from(byte));
    }
    for (name, byte) in [("waits of n", 3), ("cut of n", 4)] {
        if plan.contains(&byte) {
            tally.count(name, n);
        }
    }
    for row in outcome.rows("rows") {
        let epoch = usize::from(row.last_epoch > 0);
        tally.count("row", usize::from(row.readable) + epoch);
    }
}

/// For each n, whether a slot is cut by exactly half of n.
fn count_cut_by_half(survey: &Survey, outcome: &Outcome, tally: &mut Tally) {
    let Some(at) = outcome.bytes("plan").iter().position(|&byte| byte == 4) else {
        return;
    };
    let n = survey.shape.n;
    let lacks = |&replica: &usize| reply(survey, replica, at + 1) == Some(Reply::DontHave);
    if 2 * (1..=n).filter(lacks).count() == n {
        tally.count("cut by half of n", n);
    }
}

/// What was lent with the wrong length.
fn count_lengths(call: &Call, tally: &mut Tally) {
    let &Call::Plan {
        shape, slots, rows, ..
    } = call
    else {
        panic!("{call} is no plan");
    };
    tally.count("wrong plan", usize::from(slots != shape.m));
    tally.count("wrong table", usize::from(rows != shape.n));
}

/// Any cluster.
fn some_case(rng: &mut Rng) -> Case {
    let mut case = match rng.below(10) {
        0..=4 => agreed_case(rng).case,
        5..=7 => arbitrary_case(rng),
        _ => noise_cluster(rng),
    };
    other_numbers(rng, &mut case);
    case
}

/// Plans of any clusters.
pub fn plans(seed: u64, clusters: u64) -> Tally {
    let tally = each_case(seed, clusters, |rng, tally| {
        let case = some_case(rng);
        let call = plan_call(rng, &case);
        compare_plan(rng, &call, tally);
    });
    assert_eq!(tally.all("refusal"), clusters);
    let some = one_of(2000, clusters);
    tally.assert_each("refusal", &[0, 1, 2, 3, 11, 12, 13, 21, 22], some);
    tally.assert_each("edition", &[1, 2], one_of(4, clusters));
    tally.assert_each("first", &FIRST_KINDS, some);
    tally.assert_each("no edition", &[2], some);
    tally.assert_each("other edition", &[3], some);
    tally.assert_each("status", &[0, 1], some);
    let bytes = [0, 1, 2, 3, 4, 5, 11, 12, 13, 14, 15, 16, 17];
    tally.assert_each("plan byte", &bytes, some);
    tally.assert_each("waits of n", &[3, 4, 5, 6, 7], some);
    tally.assert_each("cut of n", &[3, 4, 5, 6, 7], some);
    tally.assert_each("cut by half of n", &[4, 6], some);
    tally.assert_each("row", &[0, 1, 2], some);
    tally.assert_each("wrong plan", &[0, 1], some);
    tally.assert_each("wrong table", &[0, 1], some);
    tally.assert_each("witnesses", &[0, 1], one_of(5, clusters));
    tally.assert_each("witnesses", &[2, 3, 4, 5, 6], some);
    tally.assert_each("witness", &[0, 1], some);
    tally.assert_each("witness leads", &[0, 1], some);
    tally.assert_each("kept by witnesses of n", &[3, 4, 5, 6, 7], some);
    tally.assert_each("cut by witnesses of n", &[3, 4, 5, 6, 7], some);
    tally
}

/// Makes a call of a recovery by both, and counts how it went; answers nothing if it is refused.
fn compare_call(rng: &mut Rng, call: &Call, tally: &mut Tally) -> Option<(Outcome, u64)> {
    let outcome = agree(rng, call);
    tally.count("refusal", outcome.answer.code());
    if outcome.answer.code() != 0 {
        return None;
    }
    let status = outcome.number("status");
    tally.count(call.name(), status as usize);
    Some((outcome, status))
}

/// Steps to the end. Answers the cluster that they leave and how many stores they made.
fn compare_steps(rng: &mut Rng, case: &Case, tally: &mut Tally) -> (Vec<u8>, u64) {
    let mut now = case.clone();
    let mut stores = 0;
    while let Some((step, 2)) = compare_call(rng, &now.step(), tally) {
        let kind = step.number("kind") as usize;
        tally.count("kind", kind);
        if case.shape.is_witness(step.number("replica") as usize) {
            tally.count("kind on a witness", kind);
        }
        now.cluster.copy_from_slice(step.bytes("cluster"));
        stores += 1;
    }
    (now.cluster, stores)
}

/// Steps to the end, a run to the end, and one of a drawn budget.
pub fn compare_recovery(rng: &mut Rng, case: &Case, tally: &mut Tally) {
    let (recovered, stores) = compare_steps(rng, case, tally);
    if let Some((run, status)) = compare_call(rng, &case.run(u64::MAX), tally) {
        assert!(status == 1 || run.number("stores") == stores);
        assert!(run.bytes("cluster") == recovered, "a run is not its steps");
        tally.count("n", case.shape.n);
        tally.count("m", case.shape.m);
        tally.count("edition", case.shape.edition);
        tally.count("witnesses", case.shape.witnesses.count_ones() as usize);
        let wrong = is_wrong_set(&case.cluster, case.shape);
        tally.count("wrong set", usize::from(wrong));
        for few in [1, 10, 100] {
            if stores >= few {
                tally.count("stores", few as usize);
            }
        }
    }
    let some = rng.below(stores as usize + 2) as u64;
    let budget = *rng.pick(&[0, some, some, stores.saturating_sub(1), stores]);
    compare_call(rng, &case.run(budget), tally);
}

/// Recoveries of clusters of every size, to their ends.
pub fn recoveries(seed: u64, clusters: u64) -> Tally {
    let tally = each_case(seed, clusters, |rng, tally| {
        let case = recovery_case(rng);
        compare_recovery(rng, &case, tally);
    });
    let many = one_of(100, clusters);
    let refusals = [0, 1, 2, 3, 11, 12, 21, 22];
    tally.assert_each("refusal", &refusals, one_of(1000, clusters));
    tally.assert_each("edition", &[1, 2], one_of(4, clusters));
    tally.assert_each("Step", &[0, 1, 2], many);
    tally.assert_each("Run", &[0, 1, 2], many);
    tally.assert_each("kind", &[1, 2, 3], many);
    tally.assert_each("kind on a witness", &[2, 3], many);
    assert_eq!(tally.of("kind on a witness", 1), 0, "an entry on a witness");
    tally.assert_each("witnesses", &[0, 1, 2, 3], many);
    tally.assert_each("wrong set", &[0, 1], one_of(1000, clusters));
    tally.assert_each("n", &[3, 4, 5, 6, 7], many);
    tally.assert_each("stores", &[1, 10], many);
    tally.assert_each("stores", &[100], one_of(10_000, clusters));
    tally
}
