//! The planner: what is to become of each slot of the leader.

use super::read::Verdict;
use super::refusal::Refusal;
use super::shape::Shape;
use super::survey::{survey, ReplicaRow, Survey};

/// Plan bytes. To truncate is the paper's cut.
pub const PLAN_UNUSED: u8 = 0;
pub const PLAN_INTACT: u8 = 1;
pub const PLAN_REWRITE_RECORD: u8 = 2;
pub const PLAN_WAIT: u8 = 3;
pub const PLAN_TRUNCATE: u8 = 4;
pub const PLAN_AFTER_TRUNCATION: u8 = 5;
/// Added to the number of the replica to fetch from.
pub const PLAN_FETCH: u8 = 10;

/// The planner's answer.
#[derive(Clone, Copy, Debug, PartialEq, Eq)]
pub enum Answer {
    /// Ready, with the final length.
    Ready(usize),
    /// Waiting, with the lowest waiting slot.
    Waiting(usize),
}

/// What a replica answers about a faulty slot of the leader.
#[derive(Clone, Copy, Debug, PartialEq, Eq)]
pub enum Reply {
    Have,
    HaveFaulty,
    DontHave,
}

/// A plan for all m slots.
pub struct Decision {
    pub plan: Vec<u8>,
    pub answer: Answer,
}

impl Decision {
    pub fn plan_byte(&self, slot: usize) -> u8 {
        self.plan[slot - 1]
    }
}

/// Fills the lent plan and table and answers whether recovery can begin.
pub fn plan(
    cluster: &[u8],
    shape: Shape,
    leader: usize,
    present: u32,
    plan: &mut [u8],
    rows: &mut [ReplicaRow],
) -> Result<Answer, Refusal> {
    let survey = survey(cluster, shape, leader, present)?;
    if plan.len() != shape.m || rows.len() != shape.n {
        return Err(Refusal::LentLength);
    }
    let decision = decide(&survey);
    plan.copy_from_slice(&decision.plan);
    for replica in 1..=shape.n {
        rows[replica - 1] = survey.row(replica);
    }
    Ok(decision.answer)
}

/// Works out the plan from the logs within reach.
pub fn decide(survey: &Survey) -> Decision {
    let mut plan = vec![PLAN_UNUSED; survey.shape.m];
    let length = survey.leader_log().length;
    let mut end = length;
    for slot in 1..=length {
        if end < length {
            plan[slot - 1] = PLAN_AFTER_TRUNCATION;
            continue;
        }
        plan[slot - 1] = decide_slot(survey, slot);
        if plan[slot - 1] == PLAN_TRUNCATE {
            end = slot - 1;
        }
    }
    let answer = lowest_wait(&plan).map_or(Answer::Ready(end), Answer::Waiting);
    Decision { plan, answer }
}

/// A wait behind the truncation is never in the plan, so any wait is one that counts.
fn lowest_wait(plan: &[u8]) -> Option<usize> {
    let at = plan.iter().position(|&byte| byte == PLAN_WAIT)?;
    Some(at + 1)
}

/// The plan byte of a used slot, as if no lower slot were truncated.
fn decide_slot(survey: &Survey, slot: usize) -> u8 {
    match survey.leader_log().verdict(slot) {
        Verdict::Intact => PLAN_INTACT,
        Verdict::RecordLost => PLAN_REWRITE_RECORD,
        _ => decide_faulty_slot(survey, slot),
    }
}

/// Fetch if anyone has it; else truncate if those that did not say that they lack it, the leader and
/// those out of reach among them, are not more than half of all; else wait.
fn decide_faulty_slot(survey: &Survey, slot: usize) -> u8 {
    let n = survey.shape.n;
    let mut dont_have: u32 = 0;
    for replica in 1..=n {
        match reply(survey, replica, slot) {
            Some(Reply::Have) => return PLAN_FETCH + replica as u8,
            Some(Reply::DontHave) => dont_have |= 1 << (replica - 1),
            Some(Reply::HaveFaulty) | None => {}
        }
    }
    let may_hold_it = n - dont_have.count_ones() as usize;
    if 2 * may_hold_it <= n {
        PLAN_TRUNCATE
    } else {
        PLAN_WAIT
    }
}

/// The reply of another replica within reach; the leader itself gives none.
pub fn reply(survey: &Survey, replica: usize, slot: usize) -> Option<Reply> {
    if replica == survey.leader {
        return None;
    }
    let log = survey.log(replica)?;
    let used = slot <= log.length;
    if !used || log.epoch(slot) != survey.leader_log().epoch(slot) {
        return Some(Reply::DontHave);
    }
    // A witness has no entry to give.
    if !survey.shape.is_witness(replica) && log.verdict(slot).has_payload() {
        Some(Reply::Have)
    } else {
        Some(Reply::HaveFaulty)
    }
}
