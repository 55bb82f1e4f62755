//! `rope append`: a reading in the next place of a card, the cell before its line.

use std::ffi::OsString;
use std::fs::File;
use std::io::{self, Read, Write};
use std::os::unix::ffi::OsStrExt;
use std::path::Path;

use ropelog::{append, witness_append, Epoch, Refusal, MAX_PAYLOAD};

use crate::args::{usage, Line, Options, Takes};
use crate::card::{Access, Card};
use crate::header::Owner;
use crate::outcome::{Failure, Outcome};
use crate::words;

const OPTIONS: Options = &[
    ("epoch", Takes::One),
    ("text", Takes::One),
    ("file", Takes::One),
];

/// The command.
pub fn command(arguments: &[OsString], out: &mut impl Write) -> Result<Outcome, Failure> {
    let line = Line::parse(arguments, &[OPTIONS])?;
    let name = line.card()?;
    let Some(epoch) = line.number("epoch", 1, u32::MAX.into())? else {
        return usage("--epoch E is missing: under which epoch?".to_string());
    };
    let epoch = Epoch::new(epoch as u32)?;
    let payload = payload(&line)?;
    let mut card = Card::open(&name.path, Access::Write)?;
    card.expect_no_other_intent()?;
    let mut image = card.image();
    let owner = owner_of(&card, &image, name.cabinet)?;
    let (geometry, replica) = (owner.geometry, owner.replica);
    let refused = |refusal| refused(&card, refusal);
    let slot = match (owner.is_witness(), &payload) {
        (true, None) => witness_append(&mut image, geometry, replica, epoch).map_err(refused)?,
        (false, Some(payload)) => {
            append(&mut image, geometry, replica, epoch, payload).map_err(refused)?
        }
        (true, Some(_)) => {
            return usage("a witness box keeps lines only: leave --text and --file out".to_string())
        }
        (false, None) => {
            return usage("a card takes a reading: --text TEXT or --file FILE".to_string())
        }
    };
    card.expect_writable()?;
    card.sync()?;
    card.expect_unchanged()?;
    card.settle()?;
    if !owner.is_witness() {
        let entry = geometry.entry_range(slot);
        card.store_entry(&entry, &image[entry.clone()])?;
    }
    let record = geometry.record_range(slot);
    card.store_record(&record, &image[record.clone()])?;
    writeln!(out, "{}: stored in place {slot}, {epoch}", card.name())?;
    Ok(Outcome::Done)
}

/// The reading, from the command line, a file or standard input. One byte too many is enough to refuse it.
fn payload(line: &Line) -> Result<Option<Vec<u8>>, Failure> {
    match (line.value("text")?, line.value("file")?) {
        (Some(_), Some(_)) => usage("--text and --file: take one".to_string()),
        (Some(text), None) => Ok(Some(text.as_bytes().to_vec())),
        (None, None) => Ok(None),
        (None, Some(file)) => {
            let most = MAX_PAYLOAD as u64 + 1;
            let mut bytes = Vec::new();
            let read = if file == "-" {
                io::stdin().lock().take(most).read_to_end(&mut bytes)
            } else {
                File::open(file).and_then(|file| file.take(most).read_to_end(&mut bytes))
            };
            read.map_err(|error| Failure::file(Path::new(file), "cannot be read", &error))?;
            Ok(Some(bytes))
        }
    }
}

/// Whose card it is, by its header; a cabinet that the command line gives has to be that one.
fn owner_of(card: &Card, image: &[u8], cabinet: Option<usize>) -> Result<Owner, Failure> {
    let owner = Owner::of(image).ok_or_else(|| refused(card, Refusal::Header))?;
    if cabinet.is_some_and(|cabinet| cabinet != owner.replica.number()) {
        return Err(refused(card, Refusal::Header));
    }
    Ok(owner)
}

fn refused(card: &Card, refusal: Refusal) -> Failure {
    Failure::Refused(format!("{}: {}", card.name(), words::refused(refusal)))
}
