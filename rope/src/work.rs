//! What a recovery will write: found out in memory, told, and looked at before the first store.

use std::io::Write;

use ropelog::{step, Replica, StepAnswer, Store, StoreKind};

use crate::card::Card;
use crate::cluster::Cluster;
use crate::outcome::Failure;
use crate::words;

/// The work of a recovery.
pub struct Work {
    /// The stores, in the order in which they are made.
    pub stores: Vec<Store>,
    /// The cabinets beside whose cards an interrupted store left something.
    unsettled: Vec<usize>,
}

impl Work {
    /// What is outstanding, found out on a copy in memory.
    pub fn of(cluster: &Cluster) -> Result<Work, Failure> {
        let mut copy = cluster.images.clone();
        let mut stores = Vec::new();
        while let StepAnswer::Stored(store) =
            step(&mut copy, cluster.geometry, cluster.leader, cluster.present)?
        {
            stores.push(store);
        }
        Ok(Work {
            stores,
            unsettled: cluster.numbers_to_settle(),
        })
    }

    /// Whether nothing is to be written.
    pub fn is_empty(&self) -> bool {
        self.stores.is_empty() && self.unsettled.is_empty()
    }

    /// Whether a line is blanked.
    pub fn cuts(&self) -> bool {
        let mut kinds = self.stores.iter().map(|store| store.kind);
        kinds.any(|kind| kind == StoreKind::BlankRecord)
    }

    /// Says what will be written to which cabinet.
    pub fn print(&self, cluster: &Cluster, out: &mut impl Write) -> Result<(), Failure> {
        let stores = words::count(self.stores.len(), "store");
        writeln!(out, "\nTo be written, {stores}:")?;
        for replica in cluster.geometry.replicas() {
            let parts = self.parts(replica);
            if !parts.is_empty() {
                writeln!(out, "  cabinet {}: {}", replica.number(), parts.join(", "))?;
            }
        }
        for &number in &self.unsettled {
            let card = cluster.cards[number - 1].as_ref();
            let what = if card.is_some_and(Card::is_torn) {
                "a torn line is finished"
            } else {
                "an intent of no use is dropped"
            };
            writeln!(out, "  cabinet {number}: first, {what}")?;
        }
        Ok(())
    }

    /// The stores on one card, by kind: "1 line blanked", "2 cells".
    fn parts(&self, replica: Replica) -> Vec<String> {
        let of = |kind: StoreKind| {
            let such = |store: &&Store| store.replica == replica && store.kind == kind;
            self.stores.iter().filter(such).count()
        };
        [
            (of(StoreKind::BlankRecord), "line blanked", "lines blanked"),
            (of(StoreKind::Entry), "cell", "cells"),
            (of(StoreKind::Record), "line", "lines"),
        ]
        .into_iter()
        .filter(|(number, _, _)| *number > 0)
        .map(|(number, one, more)| format!("{number} {}", if number == 1 { one } else { more }))
        .collect()
    }

    /// Fails if a card that is to be written cannot be.
    pub fn expect_writable(&self, cluster: &Cluster) -> Result<(), Failure> {
        for (at, card) in cluster.cards.iter().enumerate() {
            let number = at + 1;
            let mut stores = self.stores.iter();
            let is_written = stores.any(|store| store.replica.number() == number);
            if let Some(card) = card {
                if is_written || self.unsettled.contains(&number) {
                    card.expect_writable()?;
                }
            }
        }
        Ok(())
    }
}
