//! A cluster.

use super::{accepted, Code};
use crate::model::{Answer, Refusal, ReplicaRow, RunAnswer, RunEnd, Shape, StepAnswer, StoreKind};
use crate::proved::clusters;

/// What a plan answers, its bytes and its rows.
pub type Planned = (Result<Answer, Refusal>, Vec<u8>, Vec<ReplicaRow>);

/// What each byte of a plan is before the call.
const UNPLANNED: u8 = 77;

/// Replica, slot and kind of each store, and the answer of the step that makes none.
pub type Stores = (Vec<(usize, usize, StoreKind)>, Result<StepAnswer, Refusal>);

impl Code {
    /// The number of the refusal that plan, step and run share, if they are refused; none of them changes
    /// anything then.
    pub fn refused_by(
        &self,
        cluster: &[u8],
        shape: Shape,
        leader: usize,
        present: u32,
    ) -> Option<u8> {
        let (answer, plan, rows) = self.planned(cluster, shape, leader, present);
        let refusal = answer.err()?;
        assert!(plan.iter().all(|&byte| byte == UNPLANNED));
        assert!(rows.iter().all(|&row| row == ReplicaRow::default()));
        let mut copy = cluster.to_vec();
        assert_eq!(self.step(&mut copy, shape, leader, present), Err(refusal));
        assert_eq!(self.run(&mut copy, shape, leader, present, 9), Err(refusal));
        assert_eq!(copy, cluster);
        Some(refusal.number())
    }

    /// Steps until none makes a store.
    pub fn stores(&self, cluster: &mut [u8], shape: Shape, leader: usize, present: u32) -> Stores {
        let mut made = Vec::new();
        loop {
            let answer = self.step(cluster, shape, leader, present);
            let Ok(StepAnswer::Store {
                replica,
                slot,
                kind,
            }) = answer
            else {
                return (made, answer);
            };
            made.push((replica, slot, kind));
            assert!(made.len() <= 3 * shape.n * shape.m, "too many stores");
        }
    }

    /// A plan, in buffers of the right length.
    pub fn planned(&self, cluster: &[u8], shape: Shape, leader: usize, present: u32) -> Planned {
        let mut plan = vec![UNPLANNED; shape.m];
        let mut rows = vec![ReplicaRow::default(); shape.n];
        let answer = self.plan(cluster, shape, leader, present, &mut plan, &mut rows);
        (answer, plan, rows)
    }

    pub fn plan(
        &self,
        cluster: &[u8],
        shape: Shape,
        leader: usize,
        present: u32,
        plan: &mut [u8],
        rows: &mut [ReplicaRow],
    ) -> Result<Answer, Refusal> {
        let mut table: Vec<clusters::ReplicaRow> = rows.iter().map(|&row| row.into()).collect();
        let (mut status, mut number) = (99, 0);
        let refusal = (self.side.plan)(
            cluster,
            shape,
            leader,
            present,
            plan,
            &mut table,
            &mut status,
            &mut number,
        );
        for (row, filled) in rows.iter_mut().zip(table) {
            *row = filled.into();
        }
        accepted(refusal)?;
        Ok(match status {
            0 => Answer::Ready(number),
            1 => Answer::Waiting(number),
            status => panic!("a plan's status {status}"),
        })
    }

    pub fn step(
        &self,
        cluster: &mut [u8],
        shape: Shape,
        leader: usize,
        present: u32,
    ) -> Result<StepAnswer, Refusal> {
        let (mut status, mut replica, mut slot, mut kind) = (99, 0, 0, 0);
        accepted((self.side.step)(
            cluster,
            shape,
            leader,
            present,
            &mut status,
            &mut replica,
            &mut slot,
            &mut kind,
        ))?;
        Ok(match status {
            0 => StepAnswer::Done,
            1 => StepAnswer::Waiting(slot),
            2 => StepAnswer::Store {
                replica,
                slot,
                kind: store_kind(kind),
            },
            status => panic!("a step's status {status}"),
        })
    }

    pub fn run(
        &self,
        cluster: &mut [u8],
        shape: Shape,
        leader: usize,
        present: u32,
        budget: u64,
    ) -> Result<RunAnswer, Refusal> {
        let (mut status, mut stores, mut slot) = (99, 99, 0);
        accepted((self.side.run)(
            cluster,
            shape,
            leader,
            present,
            budget,
            &mut status,
            &mut stores,
            &mut slot,
        ))?;
        let end = match status {
            0 => RunEnd::Done,
            1 => RunEnd::Waiting(slot),
            2 => RunEnd::Spent,
            status => panic!("a run's status {status}"),
        };
        Ok(RunAnswer { end, stores })
    }
}

fn store_kind(kind: u8) -> StoreKind {
    match kind {
        1 => StoreKind::Entry,
        2 => StoreKind::Record,
        3 => StoreKind::Blank,
        kind => panic!("a store of kind {kind}"),
    }
}
