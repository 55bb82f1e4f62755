//! The conclusions about a recovery, each checked against the cluster it started from.
//!
//! Everything is planned, made and read by the code in question. The model alone says which store is
//! outstanding: no exported call tells that without making it.

use super::coverage::Coverage;
use super::ensure;
use crate::code::Code;
use crate::generate::damage::intact_under;
use crate::generate::{Case, Committed};
use crate::model::planner::{PLAN_FETCH, PLAN_TRUNCATE, PLAN_WAIT};
use crate::model::survey::is_present;
use crate::model::{
    apply, entry_offset, header_len, image_len, image_offset, index_of, next_store, record_offset,
    survey, Answer, EntryState, Log, Next, Refusal, ReplicaRow, RunEnd, Shape, StepAnswer, Store,
    StoreKind, Verdict, ENTRY_LEN, LAST_INDEX, RECORD_LEN,
};
use crate::witnessed::{is_wrong_set, kept_by_witnesses};

/// A damaged cluster and what was found there first.
pub struct Start<'a> {
    pub code: Code,
    pub case: &'a Case,
    pub committed: &'a [Committed],
    /// The replicas that are present and readable; none if the planner refuses.
    pub within_reach: u32,
    /// The index at which their logs begin; 1 if the planner refuses.
    pub first: u32,
    pub answer: Result<Answer, Refusal>,
    pub plan: Vec<u8>,
    pub end: Result<RunEnd, Refusal>,
    pub stores: u64,
    pub recovered: Vec<u8>,
}

impl<'a> Start<'a> {
    pub fn new(code: Code, case: &'a Case, committed: &'a [Committed]) -> Start<'a> {
        let (answer, plan, rows) = planned(code, case, &case.cluster);
        let (mut within_reach, mut first) = (0, 1);
        if answer.is_ok() {
            for replica in 1..=case.shape.n {
                if rows[replica - 1].readable == 1 {
                    within_reach |= 1 << (replica - 1);
                }
            }
            let image = image(&case.cluster, case.shape, case.leader);
            let log = code.judge_image(image, case.shape, case.leader);
            first = log.expect("a leader that is not refused is read").first;
        }
        let mut recovered = case.cluster.clone();
        let full = full_run(code, case, &mut recovered);
        Start {
            code,
            case,
            committed,
            within_reach,
            first,
            answer,
            plan,
            end: full.map(|answer| answer.0),
            stores: full.map_or(0, |answer| answer.1),
            recovered,
        }
    }

    /// The conclusions about the damaged cluster itself and its full recovery.
    pub fn check_first(&self, coverage: &mut Coverage) -> Result<(), String> {
        self.count(coverage);
        self.check_within_reach()?;
        let expected = self.answer.map(|answer| match answer {
            Answer::Ready(_) => RunEnd::Done,
            Answer::Waiting(slot) => RunEnd::Waiting(slot),
        });
        ensure(self.end == expected, || {
            format!("{:?} but the full run ends {:?}", self.answer, self.end)
        })?;
        if self.end != Ok(RunEnd::Done) {
            ensure(self.recovered == self.case.cluster, || {
                "a run that does not end done has written".into()
            })?;
        }
        for committed in self.committed {
            self.check_leaders_copy(committed, coverage)?;
            if self.end == Ok(RunEnd::Done) {
                self.check_stored_everywhere(committed)?;
            }
        }
        if let Ok(Answer::Ready(length)) = self.answer {
            self.check_lengths(length)?;
        }
        Ok(())
    }

    fn count(&self, coverage: &mut Coverage) {
        match self.answer {
            Ok(Answer::Ready(_)) => coverage.ready += 1,
            Ok(Answer::Waiting(_)) => coverage.waiting += 1,
            Err(_) => coverage.refused += 1,
        }
        coverage.first_differs += u64::from(self.answer == Err(Refusal::FirstDiffers));
        coverage.stray_witness += u64::from(self.answer == Err(Refusal::Witnesses));
        let led_by_witness = self.case.shape.is_witness(self.case.leader);
        let refused = self.answer == Err(Refusal::Leader);
        coverage.led_by_witness += u64::from(refused && led_by_witness);
        if self.answer.is_ok() {
            self.count_witnesses(coverage);
            let committed = self.committed.len() as u64;
            coverage.committed += committed;
            if self.case.shape.n % 2 == 0 {
                coverage.even += committed;
            }
            if self.case.shape.edition == 2 {
                coverage.edition_2 += committed;
            }
            let elsewhere = |one: &&Committed| one.elsewhere != 0;
            coverage.elsewhere += self.committed.iter().filter(elsewhere).count() as u64;
            coverage.truncated += u64::from(self.plan.contains(&PLAN_TRUNCATE));
            let last = self.index(self.case.shape.m);
            coverage.last_index += u64::from(last == LAST_INDEX);
        }
        coverage.most_stores = coverage.most_stores.max(self.stores);
    }

    /// What witnesses made of a plan that is not refused.
    fn count_witnesses(&self, coverage: &mut Coverage) {
        let Case { shape, cluster, .. } = self.case;
        if shape.witnesses == 0 {
            return;
        }
        coverage.with_witnesses += 1;
        coverage.wrong_set += u64::from(is_wrong_set(cluster, *shape));
        coverage.kept_by_witnesses += u64::from(self.is_kept_by_witnesses());
        let no_majority_of_cards = |one: &&Committed| {
            let cards = one.holders & !shape.witnesses;
            cards.count_ones() as usize <= shape.n / 2
        };
        let witnessed = self.committed.iter().filter(no_majority_of_cards);
        coverage.witnessed += witnessed.count() as u64;
        for replica in (1..=shape.n).filter(|&replica| shape.is_witness(replica)) {
            let before = image(cluster, *shape, replica);
            let log = self.code.judge_image(before, *shape, replica);
            let bad = log == Err(Refusal::BothLost) && is_present(self.case.present, replica);
            coverage.bad_witnesses += u64::from(bad);
            let written = image(&self.recovered, *shape, replica) != before;
            coverage.witnesses_written += u64::from(written);
        }
    }

    /// Whether some slot waits that would be cut without the records of witnesses.
    fn is_kept_by_witnesses(&self) -> bool {
        let &Case {
            shape,
            leader,
            present,
            ref cluster,
        } = self.case;
        let Ok(survey) = survey(cluster, shape, leader, present) else {
            return false;
        };
        let mut waiting = (1..=shape.m).filter(|slot| self.plan[slot - 1] == PLAN_WAIT);
        waiting.any(|slot| kept_by_witnesses(&survey, slot))
    }

    /// The table says which replicas are present and readable.
    fn check_within_reach(&self) -> Result<(), String> {
        if self.answer.is_err() {
            return Ok(());
        }
        for replica in 1..=self.case.shape.n {
            let readable = is_present(self.case.present, replica)
                && self.log(&self.case.cluster, replica).is_ok();
            ensure(readable == is_present(self.within_reach, replica), || {
                format!("the row of replica {replica}")
            })?;
        }
        self.check_firsts(&self.case.cluster)
    }

    /// All logs within reach begin at one index.
    fn check_firsts(&self, now: &[u8]) -> Result<(), String> {
        for replica in self.replicas_within_reach() {
            let first = self.log(now, replica)?.first;
            ensure(first == self.first, || {
                format!("the log of replica {replica} begins at {first}")
            })?;
        }
        Ok(())
    }

    /// A faulty copy is fetched from the lowest that has it, or everything waits.
    fn check_leaders_copy(
        &self,
        committed: &Committed,
        coverage: &mut Coverage,
    ) -> Result<(), String> {
        if self.answer.is_err() {
            return Ok(());
        }
        let slot = committed.slot;
        let log = self.log(&self.case.cluster, self.case.leader)?;
        let byte = self.plan[slot - 1];
        let expected = match log.verdict(slot) {
            Verdict::Intact => 1,
            Verdict::RecordLost => {
                coverage.records_lost += 1;
                2
            }
            _ => match self.lowest_copy(committed)? {
                Some(donor) => {
                    coverage.fetched += 1;
                    PLAN_FETCH + donor as u8
                }
                None => {
                    coverage.out_of_reach += 1;
                    let waits = matches!(self.answer, Ok(Answer::Waiting(at)) if at <= slot);
                    ensure(waits, || format!("slot {slot} has no copy, yet no wait"))?;
                    PLAN_WAIT
                }
            },
        };
        ensure(byte == expected, || {
            format!("committed slot {slot} has plan byte {byte}, not {expected}")
        })
    }

    /// The lowest replica within reach that has a committed payload intact.
    fn lowest_copy(&self, committed: &Committed) -> Result<Option<usize>, String> {
        for replica in 1..=self.case.shape.n {
            // A witness has no copy.
            let may_donate = replica != self.case.leader && !self.case.shape.is_witness(replica);
            if !may_donate || !is_present(self.within_reach, replica) {
                continue;
            }
            let log = self.log(&self.case.cluster, replica)?;
            let slot = committed.slot;
            if log.verdict(slot).has_payload() && log.epoch(slot) == committed.epoch {
                return Ok(Some(replica));
            }
        }
        Ok(None)
    }

    /// Recovery done: record and entry are as the writer writes them, wherever one can look; on a witness
    /// the record.
    fn check_stored_everywhere(&self, committed: &Committed) -> Result<(), String> {
        let Committed {
            slot, index, epoch, ..
        } = *committed;
        let shape = self.case.shape;
        for replica in self.replicas_within_reach() {
            let record = record(&self.recovered, shape, replica, slot);
            let written = || self.code.write_entry(epoch, index, &committed.payload);
            let stored = record == self.code.write_record(epoch, index)
                && (shape.is_witness(replica)
                    || entry(&self.recovered, shape, replica, slot) == written());
            ensure(stored, || {
                format!("slot {slot} of replica {replica} is not stored after recovery")
            })?;
        }
        Ok(())
    }

    /// Recovery done: all logs within reach have the length the planner named, none faulty.
    fn check_lengths(&self, length: usize) -> Result<(), String> {
        let leader_log = self.log(&self.recovered, self.case.leader)?;
        for replica in self.replicas_within_reach() {
            let log = self.log(&self.recovered, replica)?;
            // A witness that is read has no verdicts, and no bad record either.
            let mut verdicts = log.verdicts.iter().take(length);
            let intact = verdicts.all(|&verdict| verdict == Verdict::Intact);
            let same = log.length == length && log.epochs == leader_log.epochs;
            ensure(intact && same, || {
                format!("the log of replica {replica} after recovery")
            })?;
        }
        Ok(())
    }

    /// Every conclusion about a cluster that calls and power cuts have left.
    pub fn check_state(&self, now: &[u8], coverage: &mut Coverage) -> Result<(), String> {
        coverage.states += 1;
        self.check_untouched(now)?;
        for committed in self.committed {
            self.check_kept(now, committed)?;
        }
        let (answer, _, _) = planned(self.code, self.case, now);
        ensure(answer == self.answer, || {
            format!("the planner said {:?}, now {answer:?}", self.answer)
        })?;
        let mut finished = now.to_vec();
        let full = full_run(self.code, self.case, &mut finished);
        let end = full.map(|answer| answer.0);
        ensure(end == self.end, || {
            format!("a full run ended {:?}, now {end:?}", self.end)
        })?;
        ensure(finished == self.recovered, || {
            "a full run ends in other bytes".into()
        })?;
        let stores = full.map_or(0, |answer| answer.1);
        self.check_bound(stores)
    }

    /// Nothing within reach means that nothing may change at all. Within reach no store writes a header,
    /// so that every log begins where it began.
    fn check_untouched(&self, now: &[u8]) -> Result<(), String> {
        if self.answer.is_err() {
            return ensure(now == self.case.cluster, || "a refused call wrote".into());
        }
        let shape = self.case.shape;
        for replica in 1..=shape.n {
            let end = if is_present(self.within_reach, replica) {
                header_len(shape)
            } else {
                image_len(shape, replica)
            };
            let untouched = |cluster| &image(cluster, shape, replica)[..end];
            ensure(untouched(now) == untouched(&self.case.cluster), || {
                format!("one of the first {end} bytes of replica {replica} was written")
            })?;
        }
        Ok(())
    }

    /// A committed payload stays where it was, and nothing else appears in its place. On a witness its
    /// record stays good.
    fn check_kept(&self, now: &[u8], committed: &Committed) -> Result<(), String> {
        let Committed { slot, epoch, .. } = *committed;
        for replica in self.replicas_within_reach() {
            let log = self.log(now, replica)?;
            let used = slot <= log.length && log.epoch(slot) == epoch;
            if is_present(committed.holders, replica) {
                ensure(used, || {
                    format!("replica {replica} lost slot {slot} of epoch {epoch}")
                })?;
            }
            if self.case.shape.is_witness(replica) {
                self.check_record_kept(now, committed, replica, used)?;
            } else {
                self.check_entry_kept(now, committed, replica, used)?;
            }
        }
        Ok(())
    }

    /// A witness that uses the slot has the record that is written for it.
    fn check_record_kept(
        &self,
        now: &[u8],
        committed: &Committed,
        replica: usize,
        used: bool,
    ) -> Result<(), String> {
        let Committed {
            slot, index, epoch, ..
        } = *committed;
        let record = record(now, self.case.shape, replica, slot);
        let good = self.code.write_record(epoch, index);
        ensure(!used || record == good, || {
            format!("witness {replica} has another record at slot {slot}")
        })
    }

    /// An entry that was intact stays, and one of this epoch has this payload.
    fn check_entry_kept(
        &self,
        now: &[u8],
        committed: &Committed,
        replica: usize,
        used: bool,
    ) -> Result<(), String> {
        let Committed {
            slot, index, epoch, ..
        } = *committed;
        let now = entry(now, self.case.shape, replica, slot);
        if is_present(committed.holders, replica) {
            let before = entry(&self.case.cluster, self.case.shape, replica, slot);
            ensure(!intact_under(before, index, epoch) || now == before, || {
                format!("replica {replica} lost its intact entry at slot {slot}")
            })?;
        }
        let state = self.code.judge_entry(now, index);
        if let (true, EntryState::Intact(found, payload)) = (used, state) {
            ensure(found != epoch || payload == committed.payload, || {
                format!("replica {replica} has another payload at slot {slot}")
            })?;
        }
        Ok(())
    }

    /// Each slot of the leader is stored to at most once, of another card three times, and of a witness
    /// twice; so no run makes more than 3 x n x m stores.
    pub fn check_bound(&self, stores: u64) -> Result<(), String> {
        if self.answer.is_err() {
            return ensure(stores == 0, || "a refused run made stores".into());
        }
        let Shape { n, m, .. } = self.case.shape;
        let witnesses = self.case.shape.witnesses.count_ones() as usize;
        let bound = (m * (3 * n - 2 - witnesses)) as u64;
        ensure(stores <= bound, || format!("a run made {stores} stores"))
    }

    /// What comes next in a cluster, under the numbers of the case, as the model says.
    pub fn next(&self, now: &[u8]) -> Result<Next, Refusal> {
        let case = self.case;
        next_store(now, case.shape, case.leader, case.present)
    }

    /// The store that the next step makes, if it makes one, from the bytes that the step leaves.
    /// The store is all that the step does.
    pub fn stepped(&self, now: &[u8]) -> Result<Option<Store>, String> {
        let &Case {
            shape,
            leader,
            present,
            ..
        } = self.case;
        let mut after = now.to_vec();
        let mut expected = now.to_vec();
        let made = self.code.step(&mut after, shape, leader, present);
        let store = match made {
            Ok(StepAnswer::Store {
                replica,
                slot,
                kind,
            }) => Some(store_in(&after, shape, replica, slot, kind)),
            _ => None,
        };
        if let Some(store) = &store {
            apply(&mut expected, store);
        }
        ensure(after == expected, || "a step wrote elsewhere".into())?;
        Ok(store)
    }

    /// The index of a slot of every log within reach.
    pub fn index(&self, slot: usize) -> u32 {
        index_of(self.first, slot)
    }

    fn replicas_within_reach(&self) -> impl Iterator<Item = usize> + '_ {
        (1..=self.case.shape.n).filter(|&replica| is_present(self.within_reach, replica))
    }

    fn log(&self, cluster: &[u8], replica: usize) -> Result<Log, String> {
        let shape = self.case.shape;
        self.code
            .judge_image(image(cluster, shape, replica), shape, replica)
            .map_err(|refusal| format!("replica {replica} is refused: {refusal:?}"))
    }
}

/// Plans with lent buffers of the right length. Wrong numbers get small ones.
pub fn planned(
    code: Code,
    case: &Case,
    cluster: &[u8],
) -> (Result<Answer, Refusal>, Vec<u8>, Vec<ReplicaRow>) {
    let mut bytes = vec![0xee; case.shape.m.min(1000)];
    let mut rows = vec![ReplicaRow::default(); case.shape.n.min(1000)];
    let answer = code.plan(
        cluster,
        case.shape,
        case.leader,
        case.present,
        &mut bytes,
        &mut rows,
    );
    (answer, bytes, rows)
}

/// A run of budget 3 x n x m: how it ends, and its count.
pub fn full_run(code: Code, case: &Case, cluster: &mut [u8]) -> Result<(RunEnd, u64), Refusal> {
    let Shape { n, m, .. } = case.shape;
    let budget = (n as u64).saturating_mul(m as u64);
    let budget = budget.saturating_mul(3);
    let answer = code.run(cluster, case.shape, case.leader, case.present, budget)?;
    Ok((answer.end, answer.stores))
}

/// The store that a step has named, with the bytes that now stand there.
fn store_in(after: &[u8], shape: Shape, replica: usize, slot: usize, kind: StoreKind) -> Store {
    let (at, length) = match kind {
        StoreKind::Entry => (entry_offset(shape, slot), ENTRY_LEN),
        StoreKind::Record | StoreKind::Blank => (record_offset(shape, slot), RECORD_LEN),
    };
    let offset = image_offset(shape, replica) + at;
    Store {
        replica,
        slot,
        kind,
        offset,
        bytes: after[offset..offset + length].to_vec(),
    }
}

fn image(cluster: &[u8], shape: Shape, replica: usize) -> &[u8] {
    let at = image_offset(shape, replica);
    &cluster[at..at + image_len(shape, replica)]
}

fn record(cluster: &[u8], shape: Shape, replica: usize, slot: usize) -> &[u8] {
    let at = record_offset(shape, slot);
    &image(cluster, shape, replica)[at..at + RECORD_LEN]
}

fn entry(cluster: &[u8], shape: Shape, replica: usize, slot: usize) -> &[u8] {
    let at = entry_offset(shape, slot);
    &image(cluster, shape, replica)[at..at + ENTRY_LEN]
}
