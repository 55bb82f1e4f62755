//! The cards of a command line: whose each is, and the numbers that they agree on.

use std::fs;
use std::os::unix::fs::MetadataExt;

use ropelog::{Edition, Geometry, Refusal, Replica, ReplicaSet};

use crate::args::{usage, CardName, Line};
use crate::card::{Access, Card};
use crate::header::{geometry, Owner};
use crate::outcome::Failure;
use crate::words;

/// A card that was opened, with the cabinet that the command line gives and the owner that it names.
pub struct Given {
    cabinet: Option<usize>,
    owner: Option<Owner>,
    card: Card,
}

impl Given {
    /// The numbers that its header says, whoever is a witness.
    fn said(&self) -> Option<Geometry> {
        let geometry = self.owner?.geometry;
        Some(geometry.with_witnesses(ReplicaSet::EMPTY))
    }

    /// Whose card it is: the cabinet that is given, else the one that the header names.
    fn replica(&self, geometry: Geometry) -> Result<Option<Replica>, Failure> {
        let said = self.owner.map(|owner| owner.replica.number());
        let number = self.cabinet.or(said);
        match (number.map(|number| geometry.replica(number)), self.cabinet) {
            (Some(Ok(replica)), _) => Ok(Some(replica)),
            (_, None) => Ok(None),
            (_, Some(cabinet)) => usage(format!(
                "{cabinet}={}: the fleet has cabinets 1 to {}",
                self.card.name(),
                geometry.replica_count()
            )),
        }
    }
}

/// Opens the cards.
pub fn open_all(names: &[CardName], access: Access) -> Result<Vec<Given>, Failure> {
    expect_different(names)?;
    let mut given = Vec::new();
    for name in names {
        let card = Card::open(&name.path, access)?;
        given.push(Given {
            cabinet: name.cabinet,
            owner: Owner::of(&card.image()),
            card,
        });
    }
    Ok(given)
}

/// No file is given twice, under whatever names.
fn expect_different(names: &[CardName]) -> Result<(), Failure> {
    let mut seen: Vec<((u64, u64), &CardName)> = Vec::new();
    for name in names {
        // A file that is not there is told when it is opened.
        let Ok(found) = fs::metadata(&name.path) else {
            continue;
        };
        let key = (found.dev(), found.ino());
        if let Some((_, other)) = seen.iter().find(|(other, _)| *other == key) {
            let (one, two) = (other.path.display(), name.path.display());
            return usage(format!("{one} and {two} are one file"));
        }
        seen.push((key, name));
    }
    Ok(())
}

/// n, m and the edition: those that options give, else those that every readable header has.
pub fn shape(line: &Line, given: &[Given]) -> Result<Geometry, Failure> {
    let n = line.number("of", 3, 7)?.map(|n| n as usize);
    let m = line.number("places", 1, 64)?.map(|m| m as usize);
    let edition = line.edition()?;
    let owners: Vec<Geometry> = given.iter().filter_map(Given::said).collect();
    let said = owners.first();
    if (n, m, edition) == (None, None, None) {
        expect_agreement(&owners)?;
    }
    let n = n.or(said.map(|said| said.replica_count()));
    let m = m.or(said.map(|said| said.slot_count()));
    let edition = edition.or(said.map(|said| said.edition()));
    let (Some(n), Some(m)) = (n, m) else {
        return Err(Failure::Refused(
            "no card has a first line that can be read, so the numbers of the fleet are not known: \
             give --of N and --places M"
                .to_string(),
        ));
    };
    Ok(geometry(edition.unwrap_or(Edition::One), n, m).expect("within bounds"))
}

/// Cards of one cluster have the same numbers in their headers.
fn expect_agreement(owners: &[Geometry]) -> Result<(), Failure> {
    let in_words = |geometry: &Geometry| {
        format!(
            "{} cabinets, {}, edition {}",
            geometry.replica_count(),
            words::count(geometry.slot_count(), "place"),
            geometry.edition().number()
        )
    };
    match owners.iter().find(|owner| *owner != &owners[0]) {
        None => Ok(()),
        Some(other) => Err(Failure::Refused(format!(
            "the cards are not of one fleet: one says {}, another {}. Leave out those that do not belong \
             to it, or give --of, --places and --edition",
            in_words(&owners[0]),
            in_words(other)
        ))),
    }
}

/// The cabinets of an option, each one of the cluster's.
pub fn named(line: &Line, option: &str, geometry: Geometry) -> Result<ReplicaSet, Failure> {
    let mut set = ReplicaSet::EMPTY;
    for number in line.cabinets(option)? {
        let Ok(replica) = geometry.replica(number) else {
            return usage(format!(
                "--{option} {number}: the fleet has cabinets 1 to {}",
                geometry.replica_count()
            ));
        };
        set = set.with(replica);
    }
    Ok(set)
}

/// The card of each cabinet, by number − 1: the one that is given for it, else the one whose header names it. Those
/// that are off are left out. Of a card without a cabinet there is a note.
pub fn seated(
    given: Vec<Given>,
    geometry: Geometry,
    off: ReplicaSet,
) -> Result<(Vec<Option<Card>>, Vec<String>), Failure> {
    let mut cards: Vec<Option<Card>> = geometry.replicas().map(|_| None).collect();
    let mut notes = Vec::new();
    for given in given {
        let Some(replica) = given.replica(geometry)? else {
            notes.push(format!(
                "{}: {}\nIt counts as off. If you know whose card it is, name it C=FILE.",
                given.card.name(),
                words::refused(Refusal::Header)
            ));
            continue;
        };
        let place = &mut cards[replica.number() - 1];
        if let Some(other) = place {
            let (one, two) = (other.name(), given.card.name());
            return usage(format!(
                "{one} and {two} are both of cabinet {}",
                replica.number()
            ));
        }
        if !off.contains(replica) {
            given.card.expect_no_other_intent()?;
            let note = given.card.note();
            notes.extend(note.map(|note| format!("{}: {note}.", given.card.name())));
            *place = Some(given.card);
        }
    }
    Ok((cards, notes))
}

/// The witnesses: those that are named, and those whose boxes say so.
pub fn witnesses(
    line: &Line,
    geometry: Geometry,
    cards: &[Option<Card>],
) -> Result<ReplicaSet, Failure> {
    let mut set = named(line, "witness", geometry)?;
    for (replica, card) in geometry.replicas().zip(cards) {
        let Some(owner) = card.as_ref().and_then(|card| Owner::of(&card.image())) else {
            continue;
        };
        if owner.replica != replica {
            continue;
        }
        if owner.is_witness() {
            set = set.with(replica);
        } else if set.contains(replica) {
            return usage(format!(
                "--witness {}: that cabinet's first line says that it has a card",
                replica.number()
            ));
        }
    }
    Ok(set)
}
