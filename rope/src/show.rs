//! `rope show`: each card in words.

use std::ffi::OsString;
use std::io::Write;

use ropelog::{payload, read, witness_read, Edition, Geometry, Log, Refusal, Replica, ReplicaSet};
use ropelog::{Verdict, WitnessLog};

use crate::args::{usage, CardName, Line, ONE_CARD};
use crate::card::{Access, Card};
use crate::header::{geometry, Owner};
use crate::outcome::{Failure, Outcome};
use crate::pieces;
use crate::words;

/// The command. A card that cannot be opened does not keep the others from being shown.
pub fn command(arguments: &[OsString], out: &mut impl Write) -> Result<Outcome, Failure> {
    let line = Line::parse(arguments, &[ONE_CARD])?;
    let names = line.cards()?;
    let wanted = Wanted::of(&line)?;
    if line.has("cabinet") && names.len() > 1 {
        return usage(
            "--cabinet names the cabinet of one card; of several write C=FILE".to_string(),
        );
    }
    let (mut outcome, mut failure) = (Outcome::Done, None);
    for (at, name) in names.iter().enumerate() {
        if at > 0 {
            writeln!(out)?;
        }
        match Card::open(&name.path, Access::Read) {
            Ok(card) => {
                if !show(&card, &wanted.for_card(name), out)? {
                    outcome = Outcome::Refused;
                }
            }
            Err(error) => {
                writeln!(out, "{error}")?;
                failure = Some(error);
            }
        }
    }
    match failure {
        None => Ok(outcome),
        Some(_) => Err(Failure::Io("not every card could be opened".to_string())),
    }
}

/// What the options say of a card. What they leave open its header says.
#[derive(Clone, Copy)]
struct Wanted {
    cabinet: Option<usize>,
    n: Option<usize>,
    m: Option<usize>,
    edition: Option<Edition>,
    first: Option<u32>,
    witness: bool,
}

impl Wanted {
    fn of(line: &Line) -> Result<Wanted, Failure> {
        Ok(Wanted {
            cabinet: line.number("cabinet", 1, 7)?.map(|number| number as usize),
            n: line.number("of", 3, 7)?.map(|number| number as usize),
            m: line.number("places", 1, 64)?.map(|number| number as usize),
            edition: line.edition()?,
            first: line
                .number("first", 1, u32::MAX.into())?
                .map(|first| first as u32),
            witness: line.has("witness"),
        })
    }

    fn for_card(&self, name: &CardName) -> Wanted {
        Wanted {
            cabinet: name.cabinet.or(self.cabinet),
            ..*self
        }
    }

    /// The card that is meant: by the options, else by its header. None if neither says it.
    fn meant(&self, owner: Option<Owner>) -> Option<(Geometry, Replica)> {
        let said = owner.map(|owner| owner.geometry);
        let n = self.n.or(said.map(|said| said.replica_count()))?;
        let m = self.m.or(said.map(|said| said.slot_count()))?;
        let edition = self.edition.or(said.map(|said| said.edition()));
        let cabinet = self.cabinet.or(owner.map(|owner| owner.replica.number()))?;
        let geometry = geometry(edition.unwrap_or(Edition::One), n, m)?;
        let replica = geometry.replica(cabinet).ok()?;
        let is_witness = self.witness || owner.is_some_and(|owner| owner.is_witness());
        let witnesses = ReplicaSet::from_iter(is_witness.then_some(replica));
        Some((geometry.with_witnesses(witnesses), replica))
    }
}

/// Shows a card, and answers whether it could be read.
fn show(card: &Card, wanted: &Wanted, out: &mut impl Write) -> Result<bool, Failure> {
    let image = card.image();
    let owner = Owner::of(&image);
    match owner {
        Some(owner) => print_owner(card, &owner, out)?,
        None => writeln!(out, "{}: the first line cannot be read", card.name())?,
    }
    if let Some(note) = card.note() {
        writeln!(out, "  {note}")?;
    }
    let Some((geometry, replica)) = wanted.meant(owner) else {
        print_refusal(Refusal::Header, out)?;
        writeln!(
            out,
            "  to see what still stands on it say whose card it should be: --cabinet C --of N --places M"
        )?;
        return Ok(false);
    };
    if card.length() != geometry.image_len(replica) as u64 {
        print_refusal(Refusal::BufferLength, out)?;
        writeln!(
            out,
            "  the file has {} bytes, and should have {}",
            card.length(),
            geometry.image_len(replica)
        )?;
        return Ok(false);
    }
    match print_places(&image, geometry, replica, out)? {
        Ok(()) => Ok(true),
        Err(refusal) => {
            print_refusal(refusal, out)?;
            let first = owner.map(|owner| owner.first).or(wanted.first);
            pieces::print(&image, geometry, replica, first, out)?;
            Ok(false)
        }
    }
}

/// The places of a card or a box, unless it is refused.
fn print_places(
    image: &[u8],
    geometry: Geometry,
    replica: Replica,
    out: &mut impl Write,
) -> Result<Result<(), Refusal>, Failure> {
    if geometry.is_witness(replica) {
        match witness_read(image, geometry, replica) {
            Ok(log) => print_witness(&log, out).map(Ok),
            Err(refusal) => Ok(Err(refusal)),
        }
    } else {
        match read(image, geometry, replica) {
            Ok(log) => print_log(image, geometry, replica, &log, out).map(Ok),
            Err(refusal) => Ok(Err(refusal)),
        }
    }
}

fn print_owner(card: &Card, owner: &Owner, out: &mut impl Write) -> Result<(), Failure> {
    let geometry = owner.geometry;
    let what = if owner.is_witness() {
        "the witness box"
    } else {
        "the card"
    };
    writeln!(
        out,
        "{}: {what} of cabinet {} of {}, {}, {}",
        card.name(),
        owner.replica.number(),
        geometry.replica_count(),
        words::count(geometry.slot_count(), "place"),
        words::edition(geometry.edition(), owner.first)
    )?;
    Ok(())
}

fn print_refusal(refusal: Refusal, out: &mut impl Write) -> Result<(), Failure> {
    for line in words::refused(refusal).lines() {
        writeln!(out, "  {line}")?;
    }
    Ok(())
}

/// A line for each place: epoch, verdict, length and a readable piece of the reading.
fn print_log(
    image: &[u8],
    geometry: Geometry,
    replica: Replica,
    log: &Log,
    out: &mut impl Write,
) -> Result<(), Failure> {
    print_used(log.length(), geometry, out)?;
    print_heading(log.first(), "verdict, bytes and reading", out)?;
    for slot in 1..=geometry.slot_count() {
        let Some(state) = log.slot(slot) else {
            continue;
        };
        let reading = if state.verdict.is_whole() {
            let payload = payload(image, geometry, replica, slot);
            format!(
                ", {}: {}",
                words::count(payload.len(), "byte"),
                words::piece(payload)
            )
        } else {
            String::new()
        };
        let verdict = format!(
            "{}{reading}{}",
            words::verdict(state.verdict),
            todo(state.verdict)
        );
        print_place(
            log.first(),
            slot,
            state.epoch.map(|epoch| epoch.number()),
            &verdict,
            out,
        )?;
    }
    Ok(())
}

/// What staff do about a damaged place.
fn todo(verdict: Verdict) -> &'static str {
    match verdict {
        Verdict::Corrupt => ". The mending writes the cell again",
        Verdict::Ambiguous => ". The plan decides",
        Verdict::Stale => ". The card may not have taken a write: see whether to replace it",
        _ => "",
    }
}

fn print_witness(log: &WitnessLog, out: &mut impl Write) -> Result<(), Failure> {
    let slots = log.epochs().len();
    writeln!(
        out,
        "  {} of {} used",
        log.length(),
        words::count(slots, "place")
    )?;
    print_heading(log.first(), "line", out)?;
    for slot in 1..=slots {
        let epoch = log.epoch(slot).map(|epoch| epoch.number());
        let text = if epoch.is_some() { "stored" } else { "unused" };
        print_place(log.first(), slot, epoch, text, out)?;
    }
    Ok(())
}

fn print_used(length: usize, geometry: Geometry, out: &mut impl Write) -> Result<(), Failure> {
    let places = words::count(geometry.slot_count(), "place");
    writeln!(out, "  {length} of {places} used")?;
    Ok(())
}

/// Only a log that begins later has a column for the number of the reading.
fn print_heading(first: u32, rest: &str, out: &mut impl Write) -> Result<(), Failure> {
    let reading = if first == 1 { "" } else { "     reading" };
    writeln!(out, "  place{reading}       epoch  {rest}")?;
    Ok(())
}

fn print_place(
    first: u32,
    slot: usize,
    epoch: Option<u32>,
    text: &str,
    out: &mut impl Write,
) -> Result<(), Failure> {
    let reading = if first == 1 {
        String::new()
    } else {
        format!("{:>12}", u64::from(first) + slot as u64 - 1)
    };
    let epoch = epoch.map_or(String::new(), |epoch| epoch.to_string());
    writeln!(out, "  {slot:>5}{reading}  {epoch:>10}  {text}")?;
    Ok(())
}
