//! Lists of planner, step and run calls, with power cuts and refused calls among them.
//!
//! A power cut inside a run is one at a store between two whole ones: what else a call's memory holds
//! before it returns, no contract says.

use super::claims::{planned, Start};
use super::coverage::Coverage;
use super::ensure;
use crate::code::Code;
use crate::generate::damage::torn_entry;
use crate::generate::shapes::other_edition;
use crate::generate::{some_first, Case, Rng};
use crate::model::{
    apply, fresh_image, image_len, image_offset, Next, Refusal, ReplicaRow, RunEnd, Shape,
    StepAnswer, Store, StoreKind,
};

/// Plays a list of calls and checks every conclusion after each of them.
pub fn play(
    rng: &mut Rng,
    start: &Start,
    calls: usize,
    coverage: &mut Coverage,
) -> Result<(), String> {
    let mut now = start.case.cluster.clone();
    for _ in 0..calls {
        let before = now.clone();
        match rng.below(10) {
            0 => planner_call(start, &now)?,
            1 | 2 => step_call(start, &mut now)?,
            3 | 4 => cut_call(rng, start, &mut now, 0, coverage)?,
            5 => run_call(rng, start, &mut now, coverage)?,
            6 | 7 => {
                let stores = rng.below(start.stores as usize + 1) as u64;
                cut_call(rng, start, &mut now, stores, coverage)?;
            }
            _ => {
                refused_call(rng, start, &now)?;
                coverage.refused_calls += 1;
            }
        }
        // An unchanged cluster has nothing new to say.
        if now != before {
            start.check_state(&now, coverage)?;
        }
    }
    start.check_state(&now, coverage)
}

fn planner_call(start: &Start, now: &[u8]) -> Result<(), String> {
    let (answer, _, _) = planned(start.code, start.case, now);
    ensure(answer == start.answer, || {
        format!("the planner said {:?}, now {answer:?}", start.answer)
    })
}

/// One step, compared with the store that was outstanding.
fn step_call(start: &Start, now: &mut [u8]) -> Result<(), String> {
    let case = start.case;
    let next = start.next(now);
    let mut expected = now.to_vec();
    if let Ok(Next::Store(store)) = &next {
        apply(&mut expected, store);
    }
    let answer = start.code.step(now, case.shape, case.leader, case.present);
    let named = next.map(|next| match next {
        Next::Done => StepAnswer::Done,
        Next::Waiting(slot) => StepAnswer::Waiting(slot),
        Next::Store(store) => StepAnswer::Store {
            replica: store.replica,
            slot: store.slot,
            kind: store.kind,
        },
    });
    ensure(answer == named, || {
        format!("step {answer:?}, not {named:?}")
    })?;
    ensure(now == expected, || "a step made another store".into())
}

/// One whole run, compared with as many steps.
fn run_call(
    rng: &mut Rng,
    start: &Start,
    now: &mut [u8],
    coverage: &mut Coverage,
) -> Result<(), String> {
    let (code, case) = (start.code, start.case);
    let budget = match rng.below(4) {
        0 => 0,
        1 => u64::MAX,
        2 => start.stores,
        _ => rng.below(start.stores as usize + 2) as u64,
    };
    let mut expected = now.to_vec();
    let answer = match code.run(now, case.shape, case.leader, case.present, budget) {
        Ok(answer) => answer,
        Err(refusal) => {
            return ensure(Err(refusal) == start.answer, || {
                format!("the run is refused: {refusal:?}")
            })
        }
    };
    start.check_bound(answer.stores)?;
    for _ in 0..answer.stores {
        let made = code.step(&mut expected, case.shape, case.leader, case.present);
        ensure(matches!(made, Ok(StepAnswer::Store { .. })), || {
            format!("the run counts {} stores", answer.stores)
        })?;
    }
    ensure(now == expected, || "a run is not its steps".into())?;
    let fits = match start.next(now) {
        Ok(Next::Store(_)) => answer.end == RunEnd::Spent && answer.stores == budget,
        Ok(Next::Done) => answer.end == RunEnd::Done && answer.stores <= budget,
        Ok(Next::Waiting(slot)) => answer.end == RunEnd::Waiting(slot) && answer.stores == 0,
        Err(_) => false,
    };
    coverage.spent += u64::from(answer.end == RunEnd::Spent);
    ensure(fits, || format!("budget {budget} ends {answer:?}"))
}

/// A step or run whose power fails at the store after `stores` whole ones.
fn cut_call(
    rng: &mut Rng,
    start: &Start,
    now: &mut [u8],
    stores: u64,
    coverage: &mut Coverage,
) -> Result<(), String> {
    let &Case {
        shape,
        leader,
        present,
        ..
    } = start.case;
    if start.code.run(now, shape, leader, present, stores).is_err() {
        return Ok(());
    }
    let Some(store) = start.stepped(now)? else {
        return Ok(());
    };
    match rng.below(6) {
        0 => coverage.cut += 1,
        1 => {
            coverage.cut += 1;
            apply(now, &store);
        }
        _ => cut_store(rng, start, now, &store, coverage),
    }
    Ok(())
}

/// The power fails during a store: a record is old or new, an entry may be torn.
fn cut_store(rng: &mut Rng, start: &Start, now: &mut [u8], store: &Store, coverage: &mut Coverage) {
    if store.kind != StoreKind::Entry {
        coverage.cut += 1;
        if rng.chance(50) {
            apply(now, store);
        }
        return;
    }
    coverage.torn += 1;
    let part = &mut now[store.offset..store.offset + store.bytes.len()];
    let torn = torn_entry(rng, part, &store.bytes, start.index(store.slot));
    part.copy_from_slice(&torn);
}

/// A call with something wrong about it, which must be refused and write nothing.
fn refused_call(rng: &mut Rng, start: &Start, now: &[u8]) -> Result<(), String> {
    let mut case = Case {
        cluster: now.to_vec(),
        ..*start.case
    };
    let number = match start.answer {
        Ok(_) => spoil_call(rng, start, &mut case),
        // One more mistake could undo the first one, so it is left as it is.
        Err(first) => first.number(),
    };
    let before = case.cluster.clone();
    let found = refusal_of(rng, start.code, &mut case, number == 13)?;
    ensure(found.number() == number, || {
        format!("refused by {found:?}, not {number}")
    })?;
    ensure(case.cluster == before, || "a refused call wrote".into())
}

/// Makes one thing wrong and answers the number it is refused by; 13 is left to the caller.
fn spoil_call(rng: &mut Rng, start: &Start, case: &mut Case) -> u8 {
    let shape = case.shape;
    match rng.below(14) {
        0 => {
            case.shape.m = *rng.pick(&[0, 65, 1000, usize::MAX]);
            1
        }
        1 => {
            case.shape.n = *rng.pick(&[0, 1, 2, 8, 9, usize::MAX]);
            2
        }
        2 => {
            case.cluster.push(b' ');
            3
        }
        3 => {
            let length = rng.below(case.cluster.len().max(1));
            case.cluster.truncate(length);
            3
        }
        4 => {
            // Numbers that would be right for a longer cluster.
            case.shape.m = if shape.m == 64 { 63 } else { 64 };
            3
        }
        5 => {
            case.present |= 1 << rng.between(7, 31);
            11
        }
        6 => {
            case.leader = *rng.pick(&[0, 8, 32, 33, usize::MAX]);
            12
        }
        7 => {
            let leader = case.leader.clamp(1, 32);
            case.present &= !(1 << (leader - 1));
            12
        }
        8 => {
            case.shape.edition = other_edition(rng, shape.edition);
            // The other edition's images have another length.
            if case.shape.edition == 3 - shape.edition {
                3
            } else {
                2
            }
        }
        9 if shape.edition == 2 => {
            begin_elsewhere(rng, start, case);
            21
        }
        10 => {
            case.shape.witnesses |= 1 << rng.between(shape.n, 31);
            22
        }
        11 => {
            // One witness more or fewer, so that the cluster has another length.
            case.shape.witnesses ^= 1 << rng.below(shape.n);
            3
        }
        12 if shape.witnesses != 0 => {
            case.leader = some_witness(rng, shape);
            12
        }
        _ => 13,
    }
}

/// One of the witnesses, of which there is one.
fn some_witness(rng: &mut Rng, shape: Shape) -> usize {
    let is_witness = |&replica: &usize| shape.is_witness(replica);
    let witnesses: Vec<usize> = (1..=shape.n).filter(is_witness).collect();
    *rng.pick(&witnesses)
}

/// Gives a replica other than the leader a fresh image that begins elsewhere, and has it present.
fn begin_elsewhere(rng: &mut Rng, start: &Start, case: &mut Case) {
    let shape = case.shape;
    let replica = 1 + (case.leader + rng.below(shape.n - 1)) % shape.n;
    let mut first = start.first;
    while first == start.first {
        first = some_first(rng, shape);
    }
    let at = image_offset(shape, replica);
    let image = &mut case.cluster[at..at + image_len(shape, replica)];
    fresh_image(image, shape, replica, first).expect("the numbers are accepted");
    case.present |= 1 << (replica - 1);
}

/// Makes one of the three calls and answers its refusal.
fn refusal_of(
    rng: &mut Rng,
    code: Code,
    case: &mut Case,
    lent_wrong: bool,
) -> Result<Refusal, String> {
    let Case {
        shape,
        leader,
        present,
        ..
    } = *case;
    let cluster = &mut case.cluster;
    let which = if lent_wrong { 0 } else { rng.below(3) };
    let refusal = match which {
        0 => refused_plan(rng, code, case, lent_wrong)?,
        1 => code.step(cluster, shape, leader, present).err(),
        _ => code
            .run(cluster, shape, leader, present, rng.draw() >> rng.below(64))
            .err(),
    };
    refusal.ok_or_else(|| "a wrong call is not refused".into())
}

/// A planner call to be refused; its lent buffers must stay as they are.
fn refused_plan(
    rng: &mut Rng,
    code: Code,
    case: &Case,
    lent_wrong: bool,
) -> Result<Option<Refusal>, String> {
    let row = ReplicaRow {
        readable: 9,
        length: 9,
        last_epoch: 9,
    };
    let (mut slots, mut replicas) = (case.shape.m.min(100), case.shape.n.min(100));
    if lent_wrong {
        if rng.chance(50) {
            slots = if rng.chance(50) { slots + 1 } else { 0 };
        } else {
            replicas = if rng.chance(50) { replicas + 1 } else { 0 };
        }
    }
    let mut bytes = vec![9; slots];
    let mut rows = vec![row; replicas];
    let answer = code.plan(
        &case.cluster,
        case.shape,
        case.leader,
        case.present,
        &mut bytes,
        &mut rows,
    );
    let untouched = bytes.iter().all(|&byte| byte == 9) && rows.iter().all(|&other| other == row);
    ensure(answer.is_ok() || untouched, || {
        "a refused planner filled what it was lent".into()
    })?;
    Ok(answer.err())
}
