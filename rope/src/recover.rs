//! `rope recover`: the plan is shown, the question asked, and each store made on its card alone.

use std::ffi::OsString;
use std::io::{self, BufRead, IsTerminal, Write};

use ropelog::{read, step, PlanAnswer, StepAnswer, Store, StoreKind, Verdict};

use crate::args::{Line, Options, Takes};
use crate::card::Access;
use crate::cluster::{self, Cluster};
use crate::outcome::{Failure, Outcome};
use crate::plan::print;
use crate::progress::Progress;
use crate::words;
use crate::work::Work;

const OPTIONS: Options = &[("dry-run", Takes::Nothing), ("yes", Takes::Nothing)];

/// The command.
pub fn command(arguments: &[OsString], out: &mut impl Write) -> Result<Outcome, Failure> {
    let line = Line::parse(arguments, &[cluster::OPTIONS, OPTIONS])?;
    let is_dry = line.has("dry-run");
    let mut cluster = opened(&line, is_dry)?;
    let planned = cluster.plan();
    print(&cluster, &planned, out)?;
    let Ok(plan) = planned else {
        return Ok(Outcome::Refused);
    };
    let PlanAnswer::Ready { length } = plan.answer() else {
        return Ok(Outcome::Waiting);
    };
    let work = Work::of(&cluster)?;
    if work.is_empty() {
        writeln!(out, "\nNothing is to be written: the cards are recovered.")?;
        print_epoch_rule(&cluster, &work, out)?;
        return Ok(Outcome::Done);
    }
    work.print(&cluster, out)?;
    if is_dry {
        writeln!(out, "\nA dry run: nothing was written.")?;
        return Ok(Outcome::Done);
    }
    work.expect_writable(&cluster)?;
    if !line.has("yes") && !is_confirmed(out)? {
        writeln!(out, "Nothing was written.")?;
        return Ok(Outcome::Declined);
    }
    mend(&mut cluster, work.stores.len(), out)?;
    print_end(length, work.stores.len(), out)?;
    print_epoch_rule(&cluster, &work, out)?;
    Ok(Outcome::Done)
}

/// The cards, alone and with all that was ever written to them on the disk, unless they are only looked at.
fn opened(line: &Line, is_dry: bool) -> Result<Cluster, Failure> {
    if is_dry {
        return Cluster::of(line, Access::Read);
    }
    let cluster = Cluster::of(line, Access::Write)?;
    for card in cluster.cards.iter().flatten() {
        card.sync()?;
    }
    Ok(cluster)
}

/// Anything but yes is no.
fn is_confirmed(out: &mut impl Write) -> Result<bool, Failure> {
    write!(out, "\nWrite this to the cards? Type yes: ")?;
    out.flush()?;
    let mut answer = String::new();
    io::stdin()
        .lock()
        .read_line(&mut answer)
        .map_err(|error| Failure::Io(format!("the answer could not be read: {error}")))?;
    if !io::stdin().is_terminal() {
        writeln!(out)?;
    }
    Ok(answer.trim() == "yes")
}

/// Finishes interrupted stores, and then makes a step, brings its store to its card, and makes the next.
fn mend(cluster: &mut Cluster, total: usize, out: &mut impl Write) -> Result<(), Failure> {
    out.flush()?;
    cluster.settle()?;
    let progress = Progress::new(total);
    let mut made = 0;
    let ended = loop {
        match next_store(cluster) {
            Ok(Some(store)) => {
                made += 1;
                progress.tell(made, store);
            }
            Ok(None) => break Ok(()),
            Err(failure) => break Err(failure),
        }
    };
    progress.end();
    ended.map_err(|failure| match failure {
        Failure::Io(text) => Failure::Io(format!("after {made} of {total} stores: {text}")),
        failure => failure,
    })
}

/// One store. Nobody else has changed a card before it, and it is on its card when this returns.
fn next_store(cluster: &mut Cluster) -> Result<Option<Store>, Failure> {
    for card in cluster.cards.iter().flatten() {
        card.expect_unchanged()?;
    }
    let (geometry, leader, present) = (cluster.geometry, cluster.leader, cluster.present);
    let StepAnswer::Stored(store) = step(&mut cluster.images, geometry, leader, present)? else {
        return Ok(None);
    };
    let image = cluster.images[geometry.image_range(store.replica)].to_vec();
    let card = cluster.card(store.replica);
    match store.kind {
        StoreKind::Entry => {
            let range = geometry.entry_range(store.slot);
            card.store_entry(&range, &image[range.clone()])?;
        }
        StoreKind::Record | StoreKind::BlankRecord => {
            let range = geometry.record_range(store.slot);
            card.store_record(&range, &image[range.clone()])?;
        }
    }
    Ok(Some(store))
}

fn print_end(length: usize, stores: usize, out: &mut impl Write) -> Result<(), Failure> {
    writeln!(
        out,
        "\nRecovered: {} made, each on its card before the next; the log has {}.",
        words::count(stores, "store"),
        words::count(length, "reading")
    )?;
    Ok(())
}

/// A cut leaves cells behind the end of the log. Under an epoch that is used again one could pass for a new reading,
/// also if the cut was made before an interruption: then the cell at the lead tells it, as one of a write that was
/// cut short does.
fn print_epoch_rule(cluster: &Cluster, work: &Work, out: &mut impl Write) -> Result<(), Failure> {
    let (geometry, leader) = (cluster.geometry, cluster.leader);
    let log = read(
        &cluster.images[geometry.image_range(leader)],
        geometry,
        leader,
    )?;
    let behind = log.slot(log.length() + 1).map(|state| state.verdict);
    if behind == Some(Verdict::Partial) || work.cuts() {
        writeln!(
            out,
            "Behind the log stand cells that were cut off or never finished: append under a new epoch, one that was \
             never used before."
        )?;
    }
    Ok(())
}
