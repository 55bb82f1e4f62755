//! Several cards as one cluster: its shape, its images end to end, who leads and who is present.

use ropelog::{plan, Geometry, Plan, Refusal, Replica, ReplicaSet};

use crate::args::{usage, CardName, Line, Options, Takes};
use crate::card::{Access, Card};
use crate::gather;
use crate::outcome::Failure;
use crate::seat::{seat_of, Seat};
use crate::words;

/// The options by which a cluster is named.
pub const OPTIONS: Options = &[
    ("lead", Takes::One),
    ("off", Takes::Numbers),
    ("witness", Takes::Numbers),
    ("of", Takes::One),
    ("places", Takes::One),
    ("edition", Takes::One),
];

/// The cards of a command line as one cluster.
pub struct Cluster {
    /// The shape, with its witnesses.
    pub geometry: Geometry,
    /// The lead.
    pub leader: Replica,
    /// Those whose card was given and that are not off.
    pub present: ReplicaSet,
    /// The images end to end; of cabinets that are not present zeros, which no call looks at.
    pub images: Vec<u8>,
    /// The card of each present cabinet, by number − 1.
    pub cards: Vec<Option<Card>>,
    /// What is known of each cabinet, by number − 1.
    pub seats: Vec<Seat>,
    /// What is to be told of cards that nobody can be asked by.
    pub notes: Vec<String>,
}

impl Cluster {
    /// The cluster that a command line names.
    pub fn of(line: &Line, access: Access) -> Result<Cluster, Failure> {
        let Some(lead) = line.number("lead", 1, 7)? else {
            return usage("--lead L is missing: which cabinet leads?".to_string());
        };
        let off = line.cabinets("off")?;
        let names: Vec<CardName> = line
            .cards()?
            .into_iter()
            .filter(|name| !name.cabinet.is_some_and(|cabinet| off.contains(&cabinet)))
            .collect();
        let given = gather::open_all(&names, access)?;
        let geometry = gather::shape(line, &given)?;
        let all = Geometry::new(7, 1).expect("seven cabinets");
        let leader = all.replica(lead as usize).expect("one of seven");
        let off = gather::named(line, "off", geometry)?;
        let (cards, notes) = gather::seated(given, geometry, off)?;
        let geometry = geometry.with_witnesses(gather::witnesses(line, geometry, &cards)?);
        let mut cluster = Cluster {
            geometry,
            leader,
            present: ReplicaSet::EMPTY,
            images: vec![0; geometry.cluster_len()],
            cards,
            seats: Vec::new(),
            notes,
        };
        cluster.fill(off)?;
        Ok(cluster)
    }

    /// The plan, or its refusal.
    pub fn plan(&self) -> Result<Plan, Refusal> {
        plan(&self.images, self.geometry, self.leader, self.present)
    }

    /// The seat of a cabinet.
    pub fn seat(&self, replica: Replica) -> &Seat {
        &self.seats[replica.number() - 1]
    }

    /// The card of a cabinet.
    pub fn card(&mut self, replica: Replica) -> &mut Card {
        let card = self.cards[replica.number() - 1].as_mut();
        card.expect("only a card that is there is stored on")
    }

    /// The cabinets whose seat is such a one, by number.
    pub fn numbers(&self, such: impl Fn(&Seat) -> bool) -> Vec<usize> {
        (1..=self.seats.len())
            .filter(|number| such(&self.seats[number - 1]))
            .collect()
    }

    /// The cabinets beside whose cards an interrupted store left something to finish or to drop. One that
    /// does not answer keeps every byte, and what stands beside it.
    pub fn numbers_to_settle(&self) -> Vec<usize> {
        let numbers = 1..=self.cards.len();
        let unsettled = |number: &usize| {
            let card = self.cards[number - 1].as_ref();
            self.seats[number - 1].answers() && card.is_some_and(Card::is_unsettled)
        };
        numbers.filter(unsettled).collect()
    }

    /// Finishes interrupted stores and drops intents that were not finished.
    pub fn settle(&mut self) -> Result<(), Failure> {
        for number in self.numbers_to_settle() {
            if let Some(card) = &mut self.cards[number - 1] {
                card.expect_unchanged()?;
                card.settle()?;
            }
        }
        Ok(())
    }

    /// Puts the images in their places and reads each.
    fn fill(&mut self, off: ReplicaSet) -> Result<(), Failure> {
        for replica in self.geometry.replicas() {
            let seat = match &self.cards[replica.number() - 1] {
                _ if off.contains(replica) => Seat::Off,
                None => Seat::NoCard,
                Some(card) => {
                    let image = card.image();
                    self.expect_length(replica, card)?;
                    self.images[self.geometry.image_range(replica)].copy_from_slice(&image);
                    self.present = self.present.with(replica);
                    seat_of(&image, self.geometry, replica)
                }
            };
            self.seats.push(seat);
        }
        Ok(())
    }

    fn expect_length(&self, replica: Replica, card: &Card) -> Result<(), Failure> {
        let expected = self.geometry.image_len(replica);
        if card.length() == expected as u64 {
            return Ok(());
        }
        Err(Failure::Refused(format!(
            "{}: {}\nThe file has {} bytes; {} has {expected}. To go on without it leave it out, or \
             name its cabinet with --off.",
            card.name(),
            words::refused(Refusal::BufferLength),
            card.length(),
            if self.geometry.is_witness(replica) {
                "a witness box of these numbers"
            } else {
                "a card of these numbers"
            }
        )))
    }
}
