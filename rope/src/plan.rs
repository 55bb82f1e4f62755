//! `rope plan`: the plan in words, in numbers or as a page.

use std::fs;
use std::io::Write;
use std::path::Path;

use ropelog::{Log, Plan, PlanAction, PlanAnswer, SlotState};

use crate::answers::{Answers, EndOfWait};
use crate::args::{usage, CardName, Line, Options, Takes};
use crate::card::Access;
use crate::cluster::{self, Cluster};
use crate::numbers;
use crate::outcome::{Failure, Outcome};
use crate::page;
use crate::seat::Seat;
use crate::words;

/// The options of the command, beside those of a cluster.
const OPTIONS: Options = &[
    ("numbers", Takes::Nothing),
    ("html", Takes::One),
    ("over", Takes::Nothing),
];

/// The command.
pub fn command(arguments: &[std::ffi::OsString], out: &mut impl Write) -> Result<Outcome, Failure> {
    let line = Line::parse(arguments, &[cluster::OPTIONS, OPTIONS])?;
    let page_file = line.value("html")?.cloned();
    if line.has("numbers") && page_file.is_some() {
        return usage("--numbers and --html are two ways to print: take one".to_string());
    }
    if let Some(file) = &page_file {
        expect_no_card(Path::new(file), &line.cards()?)?;
    }
    let cluster = Cluster::of(&line, Access::Read)?;
    let mut planned = cluster.plan();
    if line.has("numbers") {
        planned = numbers::limited(&cluster, planned);
        numbers::print(&cluster, &planned, out)?;
    } else {
        print(&cluster, &planned, out)?;
    }
    if let (Some(file), Ok(plan)) = (page_file, &planned) {
        let text = page::page(&cluster, plan);
        let path = Path::new(&file);
        write_page(path, &text, line.has("over"))?;
        writeln!(out, "\nThe page is {}.", path.display())?;
    }
    Ok(match planned {
        Err(_) => Outcome::Refused,
        Ok(plan) => outcome(&plan),
    })
}

/// The page is none of the cards, whatever it is told to be written over.
fn expect_no_card(page: &Path, cards: &[CardName]) -> Result<(), Failure> {
    let Ok(page) = fs::canonicalize(page) else {
        return Ok(());
    };
    for card in cards {
        if fs::canonicalize(&card.path).is_ok_and(|card| card == page) {
            return usage(format!("--html {}: that is a card", page.display()));
        }
    }
    Ok(())
}

/// A page is never written over another file that may be a card: only over a page.
fn write_page(path: &Path, text: &str, over: bool) -> Result<(), Failure> {
    let is_page = |bytes: Vec<u8>| bytes.starts_with(page::BEGINNING.as_bytes());
    if path.exists() && !over && !fs::read(path).is_ok_and(is_page) {
        return Err(Failure::Io(format!(
            "{}: is there already, and is no page of this program. Nothing was written; --over writes over it",
            path.display()
        )));
    }
    fs::write(path, text).map_err(|error| Failure::file(path, "cannot be written", &error))
}

/// Whether a plan is ready.
pub fn outcome(plan: &Plan) -> Outcome {
    match plan.answer() {
        PlanAnswer::Ready { .. } => Outcome::Done,
        PlanAnswer::Waiting { .. } => Outcome::Waiting,
    }
}

/// The plan, or its refusal, in words.
pub fn print(
    cluster: &Cluster,
    planned: &Result<Plan, ropelog::Refusal>,
    out: &mut impl Write,
) -> Result<(), Failure> {
    for note in &cluster.notes {
        writeln!(out, "{note}\n")?;
    }
    let geometry = cluster.geometry;
    writeln!(
        out,
        "{} cabinets with {}, edition {}. Cabinet {} leads.\n",
        geometry.replica_count(),
        words::count(geometry.slot_count(), "place"),
        geometry.edition().number(),
        cluster.leader.number()
    )?;
    print_cabinets(cluster, out)?;
    let plan = match planned {
        Ok(plan) => plan,
        Err(refusal) => {
            writeln!(out, "\nThe plan is {}", words::refused(*refusal))?;
            return Ok(());
        }
    };
    print_slots(cluster, plan, out)?;
    print_beyond(cluster, plan, out)?;
    print_answer(cluster, plan, out)?;
    print_warnings(cluster, plan, out)
}

/// The table of cabinets.
fn print_cabinets(cluster: &Cluster, out: &mut impl Write) -> Result<(), Failure> {
    for replica in cluster.geometry.replicas() {
        let seat = cluster.seat(replica);
        let last = last_epoch(seat).map_or(String::new(), |epoch| format!(", last {epoch}"));
        let lead = if replica == cluster.leader {
            ", leads"
        } else {
            ""
        };
        writeln!(out, "  cabinet {}: {seat}{last}{lead}", replica.number())?;
    }
    Ok(())
}

fn last_epoch(seat: &Seat) -> Option<ropelog::Epoch> {
    match seat {
        Seat::Card(log) => log.slot(log.length())?.epoch,
        Seat::Witness(log) => log.epoch(log.length()),
        _ => None,
    }
}

/// What the lead's card says of each used place. A ready or waiting plan has one.
pub fn leaders_log(cluster: &Cluster) -> &Log {
    match cluster.seat(cluster.leader) {
        Seat::Card(log) => log,
        _ => unreachable!("a plan has a lead whose card can be read"),
    }
}

/// A line for each used place of the lead: what will be done, and why.
fn print_slots(cluster: &Cluster, plan: &Plan, out: &mut impl Write) -> Result<(), Failure> {
    let log = leaders_log(cluster);
    if log.length() > 0 {
        writeln!(out, "\n  place       epoch  plan")?;
    }
    for slot in 1..=log.length() {
        let (Some(action), Some(state)) = (plan.action(slot), log.slot(slot)) else {
            continue;
        };
        let epoch = state.epoch.map_or(0, |epoch| epoch.number());
        let (what, why) = action_in_words(cluster, slot, state, action);
        writeln!(out, "  {:>5}  {epoch:>10}  {what}", place(log, slot))?;
        if !why.is_empty() {
            writeln!(out, "{:>21}{why}", "")?;
        }
    }
    Ok(())
}

/// Why a place goes that the lead does not have.
pub const GOES: &str =
    "the lead does not have it, and the others are made like the lead: it goes from";

/// The cabinets that answer and have a place which the lead does not have.
pub fn beyond(cluster: &Cluster, plan: &Plan, slot: usize) -> Vec<usize> {
    if plan.action(slot) != Some(PlanAction::Unused) {
        return Vec::new();
    }
    cluster.numbers(|seat| match seat {
        Seat::Card(log) => log.slot(slot).is_some_and(|state| state.epoch.is_some()),
        Seat::Witness(log) => log.epoch(slot).is_some(),
        _ => false,
    })
}

/// A line for each place that goes because the lead does not have it.
fn print_beyond(cluster: &Cluster, plan: &Plan, out: &mut impl Write) -> Result<(), Failure> {
    let log = leaders_log(cluster);
    for slot in log.length() + 1..=cluster.geometry.slot_count() {
        let having = beyond(cluster, plan, slot);
        if !having.is_empty() {
            let (place, cabinets) = (place(log, slot), words::cabinets(&having));
            writeln!(out, "  {place:>5}{:>14}not at the lead", "")?;
            writeln!(out, "{:>21}{GOES} {cabinets}", "")?;
        }
    }
    Ok(())
}

/// A place: its number, and in a log that begins later the number of its reading.
fn place(log: &Log, slot: usize) -> String {
    match log.index(slot) {
        Some(index) if log.first() != 1 => format!("{slot}, reading {index}"),
        _ => slot.to_string(),
    }
}

/// What is done about a place, and why if there is more to say.
pub fn action_in_words(
    cluster: &Cluster,
    slot: usize,
    state: SlotState,
    action: PlanAction,
) -> (String, String) {
    let because = || {
        let Some(epoch) = state.epoch else {
            return String::new();
        };
        let answers = Answers::about(cluster, slot, epoch).in_words();
        format!("{} at the lead; {answers}", words::short(state.verdict))
    };
    let (what, why) = match action {
        PlanAction::Unused => ("nothing stands here", String::new()),
        PlanAction::Whole => ("nothing to do", String::new()),
        PlanAction::RewriteRecord => (
            "write the line anew from the cell",
            "the line is lost, the reading is whole".to_string(),
        ),
        PlanAction::Wait => ("wait", because()),
        PlanAction::Truncate => (
            "cut here",
            format!("no majority can have held it: {}", because()),
        ),
        PlanAction::TruncatedAfter => (
            "cut with it",
            "it stands behind the place that is cut".to_string(),
        ),
        PlanAction::Fetch(from) => {
            return (format!("fetch from cabinet {}", from.number()), because());
        }
        _ => ("an action that this program does not know", String::new()),
    };
    (what.to_string(), why)
}

/// Ready, or what it waits for and what would end it.
fn print_answer(cluster: &Cluster, plan: &Plan, out: &mut impl Write) -> Result<(), Failure> {
    match plan.answer() {
        PlanAnswer::Ready { length } => {
            let readings = words::count(length, "reading");
            writeln!(out, "\nReady: the log will have {readings}.")?;
        }
        PlanAnswer::Waiting { slot } => {
            writeln!(out, "\nWaiting for place {slot}: nothing is written.")?;
            for (slot, end) in waits(cluster, plan) {
                let start = format!("  place {slot}: ");
                writeln!(out, "{start}{}", end.who)?;
                writeln!(out, "{:1$}{2}", "", start.len(), end.how)?;
            }
            writeln!(
                out,
                "Until then leave all cards as they are, and format nothing."
            )?;
        }
    }
    Ok(())
}

/// The places that wait, each with what would end it.
pub fn waits(cluster: &Cluster, plan: &Plan) -> Vec<(usize, EndOfWait)> {
    let log = leaders_log(cluster);
    let end_of = |slot: usize| {
        let epoch = log.slot(slot)?.epoch?;
        let answers = Answers::about(cluster, slot, epoch);
        (plan.action(slot)? == PlanAction::Wait)
            .then(|| (slot, answers.end_of_wait(cluster.geometry.witnesses())))
    };
    (1..=log.length()).filter_map(end_of).collect()
}

/// A card with nothing on it may have been put in for another: its answers would allow a cut.
pub fn print_warnings(cluster: &Cluster, plan: &Plan, out: &mut impl Write) -> Result<(), Failure> {
    let fresh = cluster.numbers(Seat::is_fresh);
    let cuts = plan.actions().contains(&PlanAction::Truncate);
    if fresh.is_empty() || leaders_log(cluster).length() == 0 {
        return Ok(());
    }
    let list = words::listed(&fresh);
    let what = if cuts {
        "and a place is to be cut"
    } else {
        "and others are not"
    };
    writeln!(
        out,
        "\nNote: the card of {} is empty, {what}. If it is a new card in the place of another one, leave \
         it out: --off {list}. A new card answers that it never had anything, which may allow a cut.",
        words::cabinets(&fresh)
    )?;
    Ok(())
}
