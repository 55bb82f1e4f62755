//! `rope format`: a fresh card or witness box, never over another one without being told.

use std::ffi::OsString;
use std::io::Write;

use ropelog::{format_from, Edition, Geometry, Replica, ReplicaSet};

use crate::args::{usage, Line, Options, Takes, ONE_CARD};
use crate::card::Card;
use crate::header::geometry;
use crate::outcome::{Failure, Outcome};
use crate::words;

const OPTIONS: Options = &[("over", Takes::Nothing)];

/// The command.
pub fn command(arguments: &[OsString], out: &mut impl Write) -> Result<Outcome, Failure> {
    let line = Line::parse(arguments, &[ONE_CARD, OPTIONS])?;
    let name = line.card()?;
    let (geometry, replica) = meant(&line, name.cabinet)?;
    let first = line.number("first", 0, u32::MAX.into())?.unwrap_or(1) as u32;
    let mut image = vec![0; geometry.image_len(replica)];
    format_from(&mut image, geometry, replica, first)?;
    let mut card = if line.has("over") && name.path.exists() {
        Card::open_to_write_over(&name.path)?
    } else {
        Card::create(&name.path)?
    };
    card.write_fresh(&image, geometry)?;
    writeln!(
        out,
        "{}: a fresh {} of cabinet {} of {}, {}, {}",
        card.name(),
        if geometry.is_witness(replica) {
            "witness box"
        } else {
            "card"
        },
        replica.number(),
        geometry.replica_count(),
        words::count(geometry.slot_count(), "place"),
        words::edition(geometry.edition(), first)
    )?;
    Ok(Outcome::Done)
}

/// The card that is to be made.
fn meant(line: &Line, cabinet: Option<usize>) -> Result<(Geometry, Replica), Failure> {
    let cabinet = match line.number("cabinet", 1, 7)? {
        None => cabinet,
        Some(number) => Some(number as usize),
    };
    let (Some(cabinet), Some(n), Some(m)) = (
        cabinet,
        line.number("of", 3, 7)?,
        line.number("places", 1, 64)?,
    ) else {
        return usage("expected --cabinet C, --of N and --places M".to_string());
    };
    let edition = line.edition()?.unwrap_or(Edition::One);
    let geometry = geometry(edition, n as usize, m as usize).expect("within bounds");
    let Ok(replica) = geometry.replica(cabinet) else {
        return usage(format!("--cabinet {cabinet}: there are {n} cabinets"));
    };
    let witnesses = ReplicaSet::from_iter(line.has("witness").then_some(replica));
    Ok((geometry.with_witnesses(witnesses), replica))
}
