//! The generators themselves: the same seed gives the same cases, and they are what they claim.

use harness::generate::damage::header_of;
use harness::generate::{agreed_case, arbitrary_case, noise_cluster, noise_image, AgreedCase};
use harness::generate::{Case, Cluster};
use harness::model::*;
use harness::property::case_rng;
use harness::witnessed::is_wrong_set;

const CASES: u64 = 12_000;

fn parts(case: &Case) -> Cluster {
    Cluster::of_bytes(case.shape, case.cluster.clone())
}

fn logs(case: &Case) -> Vec<Result<Log, Refusal>> {
    let cluster = parts(case);
    (1..=case.shape.n)
        .map(|replica| judge_image(cluster.image(replica), case.shape, replica))
        .collect()
}

/// The slot that has an index in a log, used or not, if the log has kept that index.
fn slot_of(log: &Log, index: u32) -> Option<usize> {
    let behind = index.checked_sub(log.first)? as usize;
    (behind < log.epochs.len()).then_some(behind + 1)
}

/// The epoch under which a log has an index, 0 if it does not have it.
fn epoch_at(log: &Log, index: u32) -> u32 {
    slot_of(log, index).map_or(0, |slot| log.epoch(slot))
}

#[test]
fn the_same_seed_gives_the_same_cases() {
    for number in 0..50 {
        let again = || (case_rng(9, number), case_rng(9, number));
        let (mut one, mut two) = again();
        assert_eq!(agreed_case(&mut one).case, agreed_case(&mut two).case);
        assert_eq!(arbitrary_case(&mut one), arbitrary_case(&mut two));
        assert_eq!(noise_cluster(&mut one), noise_cluster(&mut two));
        assert_eq!(noise_image(&mut one), noise_image(&mut two));
    }
    let first = agreed_case(&mut case_rng(9, 0)).case;
    assert_ne!(first, agreed_case(&mut case_rng(10, 0)).case);
}

/// Whether a slot has a payload; on a witness none has.
fn has_payload(log: &Log, slot: usize) -> bool {
    let verdict = log.verdicts.get(slot - 1);
    verdict.is_some_and(|verdict| verdict.has_payload())
}

/// Intact slots of one index and one epoch agree, and so does everything below them that both keep; with a
/// witness by their epochs alone.
fn assert_agreed(case: &Case, logs: &[Result<Log, Refusal>]) {
    let cluster = parts(case);
    for (one, first) in logs.iter().enumerate() {
        for (two, second) in logs.iter().enumerate() {
            let (Ok(first), Ok(second)) = (first, second) else {
                continue;
            };
            for slot in 1..=first.length {
                let index = first.index(slot);
                let Some(other) = slot_of(second, index) else {
                    continue;
                };
                if first.epoch(slot) != second.epoch(other) {
                    continue;
                }
                for lower in first.first.max(second.first)..index {
                    assert_eq!(epoch_at(first, lower), epoch_at(second, lower));
                }
                if has_payload(first, slot) && has_payload(second, other) {
                    assert_eq!(cluster.entry(one + 1, slot), cluster.entry(two + 1, other));
                }
            }
        }
    }
}

/// What was committed is still there: used under its epoch, intact only with its payload.
fn assert_held(agreed: &AgreedCase, logs: &[Result<Log, Refusal>]) {
    for committed in &agreed.committed {
        let leader_bit = 1 << (agreed.case.leader - 1);
        assert!(committed.holders & leader_bit != 0);
        assert!(committed.holders.count_ones() as usize > agreed.case.shape.n / 2);
        assert_eq!(committed.elsewhere & !committed.holders, 0);
        for (at, log) in logs.iter().enumerate() {
            let Ok(log) = log else { continue };
            let used = epoch_at(log, committed.index) == committed.epoch;
            assert_eq!(used, committed.holders >> at & 1 == 1);
        }
        if let Ok(log) = &logs[agreed.case.leader - 1] {
            assert_eq!(slot_of(log, committed.index), Some(committed.slot));
        }
    }
}

/// What came up of witnesses.
#[derive(Debug, Default)]
struct Witnesses {
    /// Clusters by the number of witnesses.
    clusters: [u64; 8],
    /// Clusters with a wrong set of as many witnesses, and those that a witness leads.
    wrong_set: u64,
    leader: u64,
    /// Witnesses that are read with a log, without one, with a bad record, or with a refused header.
    used: u64,
    empty: u64,
    bad: u64,
    header: u64,
    /// Committed payloads of which the cards alone hold no majority.
    committed: u64,
}

impl Witnesses {
    fn count(&mut self, case: &Case, logs: &[Result<Log, Refusal>]) {
        let shape = case.shape;
        self.clusters[shape.witnesses.count_ones() as usize] += 1;
        self.wrong_set += u64::from(is_wrong_set(&case.cluster, shape));
        self.leader += u64::from(shape.is_witness(case.leader));
        for (at, log) in logs.iter().enumerate() {
            match log {
                _ if !shape.is_witness(at + 1) => {}
                Ok(log) if log.length == 0 => self.empty += 1,
                Ok(_) => self.used += 1,
                Err(Refusal::BothLost) => self.bad += 1,
                Err(_) => self.header += 1,
            }
        }
    }

    fn count_committed(&mut self, agreed: &AgreedCase) {
        let Shape { n, witnesses, .. } = agreed.case.shape;
        for committed in &agreed.committed {
            let cards = committed.holders & !witnesses;
            self.committed += u64::from(cards.count_ones() as usize <= n / 2);
        }
    }

    /// Every kind of cluster that any generator makes.
    fn each_is_met(&self) {
        let [none, one, ..] = self.clusters;
        assert!(none > CASES / 3 && one > CASES / 5, "{self:?}");
        assert!(self.clusters.iter().all(|&count| count > 5), "{self:?}");
        let counts = [self.leader, self.used, self.empty, self.bad, self.header];
        assert!(counts.iter().all(|&count| count > 100), "{self:?}");
    }
}

/// What came up of editions and first indexes.
#[derive(Debug, Default)]
struct Firsts {
    editions: [u64; 2],
    /// Readable logs that begin at an index beyond 1, and those whose last slot has the last index.
    later: u64,
    last: u64,
    /// Clusters in which the logs of one replica, of several, or of the leader alone begin elsewhere.
    one: u64,
    several: u64,
    leader: u64,
    /// Headers that are refused for their first index alone.
    improper: u64,
    /// Committed payloads that logs of different first indexes hold.
    elsewhere: u64,
}

impl Firsts {
    fn count(&mut self, case: &Case, logs: &[Result<Log, Refusal>]) {
        self.editions[case.shape.edition - 1] += 1;
        for log in logs.iter().flatten() {
            self.later += u64::from(log.first > 1);
            self.last += u64::from(log.index(case.shape.m) == LAST_INDEX);
        }
        if let Ok(leader) = &logs[case.leader - 1] {
            let others: Vec<&Log> = logs.iter().flatten().collect();
            let differ = others.iter().filter(|log| log.first != leader.first);
            let differ = differ.count();
            self.one += u64::from(differ == 1);
            self.several += u64::from(differ > 1);
            self.leader += u64::from(differ > 1 && differ + 1 == others.len());
        }
        let cluster = parts(case);
        for (at, log) in logs.iter().enumerate() {
            let header = &cluster.image(at + 1)[..header_len(case.shape)];
            let improper = *log == Err(Refusal::Header) && is_sealed(header, case, at + 1);
            self.improper += u64::from(improper);
        }
    }

    /// Every kind of cluster that any generator makes.
    fn each_is_met(&self) {
        let counts = [
            self.later,
            self.last,
            self.one,
            self.several,
            self.leader,
            self.improper,
        ];
        assert!(counts.iter().all(|&count| count > 100), "{self:?}");
    }
}

/// Whether a header of edition 2 is the writer's but for its first index.
fn is_sealed(header: &[u8], case: &Case, replica: usize) -> bool {
    case.shape.edition == 2
        && read_column(&header[16..27])
            .is_some_and(|first| header == header_of(case.shape, replica, first))
}

#[test]
fn agreed_cases_are_what_recovery_supposes() {
    let mut verdicts = [0; 7];
    let (mut readable, mut headers, mut gaps) = (0, 0, 0);
    let (mut diverging, mut shorter, mut largest) = (0, 0, 0);
    let (mut firsts, mut witnesses) = (Firsts::default(), Witnesses::default());
    for number in 0..CASES {
        let agreed = agreed_case(&mut case_rng(11, number));
        let logs = logs(&agreed.case);
        assert_agreed(&agreed.case, &logs);
        assert_held(&agreed, &logs);
        firsts.count(&agreed.case, &logs);
        witnesses.count(&agreed.case, &logs);
        witnesses.count_committed(&agreed);
        let elsewhere = agreed.committed.iter().filter(|one| one.elsewhere != 0);
        firsts.elsewhere += elsewhere.count() as u64;
        for (at, log) in logs.iter().enumerate() {
            match log {
                Ok(log) => {
                    readable += 1;
                    largest += u64::from(log.last_epoch() == u32::MAX);
                    for &verdict in &log.verdicts {
                        verdicts[verdict as usize] += 1;
                    }
                }
                Err(Refusal::Header) => headers += 1,
                // Two appends in flight, and only the second one's record arrived.
                Err(Refusal::UsedAfterBlank) => gaps += 1,
                // No entry tells the epoch of a damaged record.
                Err(Refusal::BothLost) if agreed.case.shape.is_witness(at + 1) => {}
                Err(other) => panic!("case {number}: {other:?}"),
            }
        }
        let logs: Vec<&Log> = logs.iter().flatten().collect();
        let differ = |one: &Log, two: &Log| {
            (1..=one.length).any(|slot| {
                let epoch = epoch_at(two, one.index(slot));
                epoch != 0 && epoch != one.epoch(slot)
            })
        };
        diverging += u64::from(logs.iter().any(|log| differ(log, logs[0])));
        shorter += u64::from(logs.iter().any(|log| log.length < logs[0].length));
    }
    assert!(verdicts.iter().all(|&count| count > 100), "{verdicts:?}");
    assert!(
        readable > 10 * (headers + gaps),
        "{readable} {headers} {gaps}"
    );
    for count in [headers, gaps, diverging, shorter] {
        assert!(count > 20, "{headers} {gaps} {diverging} {shorter}");
    }
    assert!(largest > 5, "{largest}");
    assert!(
        firsts.editions.iter().all(|&count| count > CASES / 3),
        "{firsts:?}"
    );
    firsts.each_is_met();
    assert!(firsts.elsewhere > 100, "{firsts:?}");
    witnesses.each_is_met();
    for count in [witnesses.wrong_set, witnesses.committed] {
        assert!(count > 100, "{witnesses:?}");
    }
}

#[test]
fn arbitrary_cases_are_mostly_readable_and_mostly_disagree() {
    let (mut readable, mut refused, mut disagree) = (0, 0, 0);
    let (mut firsts, mut witnesses) = (Firsts::default(), Witnesses::default());
    for number in 0..CASES {
        let case = arbitrary_case(&mut case_rng(12, number));
        let cluster = parts(&case);
        let logs = logs(&case);
        firsts.count(&case, &logs);
        witnesses.count(&case, &logs);
        refused += logs.iter().filter(|log| log.is_err()).count();
        readable += logs.iter().filter(|log| log.is_ok()).count();
        for (at, log) in logs.iter().enumerate() {
            let (Ok(log), Ok(first)) = (log, &logs[0]) else {
                continue;
            };
            let cards = !case.shape.is_witness(1) && !case.shape.is_witness(at + 1);
            let same_epoch = cards && log.length > 0 && log.epoch(1) == first.epoch(1);
            disagree += u64::from(same_epoch && cluster.entry(at + 1, 1) != cluster.entry(1, 1));
        }
    }
    assert!(readable > 5 * refused, "{readable} {refused}");
    assert!(disagree > CASES / 4, "{disagree}");
    firsts.each_is_met();
    witnesses.each_is_met();
}
