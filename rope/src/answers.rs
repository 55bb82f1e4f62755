//! Why the plan is what it is: what each cabinet answers about a faulty place of the lead.

use ropelog::{Epoch, Replica, ReplicaSet};

use crate::cluster::Cluster;
use crate::seat::Seat;
use crate::words;

/// What a cabinet answers about a place, or why it does not.
#[derive(Clone, Copy, Debug, PartialEq, Eq)]
pub enum Answer {
    /// It has the reading whole.
    Have,
    /// It has the place, and its reading is damaged too.
    HaveFaulty,
    /// A witness box that has the line, and no reading.
    HaveLine,
    /// It never had the reading.
    DontHave,
    /// It is off, or no card of it was given.
    Off,
    /// Its card is refused.
    Unreadable,
}

/// What would end a wait: who is to be switched on, and what their answers decide.
pub struct EndOfWait {
    /// Whom it waits for.
    pub who: String,
    /// With which answers it ends.
    pub how: String,
}

/// The answers of all cabinets but the lead, by number.
pub struct Answers {
    replicas: usize,
    given: Vec<(usize, Answer)>,
}

impl Answers {
    /// The answers about a place of the lead, which has this epoch.
    pub fn about(cluster: &Cluster, slot: usize, epoch: Epoch) -> Answers {
        let others = cluster
            .geometry
            .replicas()
            .filter(|&replica| replica != cluster.leader);
        Answers {
            replicas: cluster.geometry.replica_count(),
            given: others
                .map(|replica| (replica.number(), answer(cluster, replica, slot, epoch)))
                .collect(),
        }
    }

    /// The cabinets that gave this answer.
    pub fn of(&self, answer: Answer) -> Vec<usize> {
        let such = self.given.iter().filter(|(_, given)| *given == answer);
        such.map(|(number, _)| *number).collect()
    }

    /// The cabinets that gave no answer.
    pub fn absent(&self) -> Vec<usize> {
        let mut numbers = [self.of(Answer::Off), self.of(Answer::Unreadable)].concat();
        numbers.sort_unstable();
        numbers
    }

    /// How many more don't-haves would allow a cut: those that may have held it, the lead and the absent
    /// among them, are then fewer than a majority of all.
    pub fn missing_for_a_cut(&self) -> usize {
        let majority = self.replicas / 2 + 1;
        let needed = self.replicas - majority + 1;
        needed.saturating_sub(self.of(Answer::DontHave).len())
    }

    /// Who answered what: "whole at cabinet 3; damaged at cabinet 2 too; cabinet 4 is off".
    pub fn in_words(&self) -> String {
        let part = |answer: Answer, before: &str, one: &str, more: &str| {
            let numbers = self.of(answer);
            let behind = if numbers.len() == 1 { one } else { more };
            (!numbers.is_empty()).then(|| format!("{before}{}{behind}", words::cabinets(&numbers)))
        };
        let parts = [
            part(Answer::Have, "", " has it whole", " have it whole"),
            part(Answer::HaveFaulty, "damaged at ", " too", " too"),
            part(
                Answer::HaveLine,
                "",
                ", a witness box, has its line",
                ", witness boxes, have its line",
            ),
            part(Answer::DontHave, "", " never had it", " never had it"),
            part(Answer::Off, "", " is off", " are off"),
            part(Answer::Unreadable, "", " is unreadable", " are unreadable"),
        ];
        parts.into_iter().flatten().collect::<Vec<_>>().join("; ")
    }

    /// What would end the wait for a place.
    pub fn end_of_wait(&self, witnesses: ReplicaSet) -> EndOfWait {
        let away = self.absent();
        if away.is_empty() {
            return EndOfWait {
                who: "every cabinet has answered and none has the reading whole".to_string(),
                how: "too many may have held it to cut it; only an older copy of a card can bring it back"
                    .to_string(),
            };
        }
        let is_card = |number: &usize| witnesses.word() >> (number - 1) & 1 == 0;
        let cards: Vec<usize> = away.iter().copied().filter(is_card).collect();
        let whole = match cards.len() {
            0 => "a witness box has no readings".to_string(),
            1 => format!(
                "cabinet {} ends the wait if it has the reading whole",
                cards[0]
            ),
            _ if cards == away => {
                "each of them ends the wait if it has the reading whole".to_string()
            }
            _ => format!(
                "each of {} ends the wait if it has the reading whole",
                words::cabinets(&cards)
            ),
        };
        EndOfWait {
            who: format!("switch on or make readable {}", words::cabinets(&away)),
            how: format!("{whole}; {}", self.cut_instead()),
        }
    }

    /// When the absent would allow a cut.
    fn cut_instead(&self) -> String {
        let (missing, away) = (self.missing_for_a_cut(), self.absent().len());
        match missing {
            1 if away == 1 => "if it never had it the place is cut".to_string(),
            missing if missing > away => {
                "that they never had it would not be enough for a cut".to_string()
            }
            missing if missing == away => {
                "if none of them ever had it the place is cut".to_string()
            }
            1 => "if one of them never had it, and none has it whole, the place is cut".to_string(),
            _ => format!(
                "if {missing} of them never had it, and none has it whole, the place is cut"
            ),
        }
    }
}

fn answer(cluster: &Cluster, replica: Replica, slot: usize, epoch: Epoch) -> Answer {
    match cluster.seat(replica) {
        Seat::Off | Seat::NoCard => Answer::Off,
        Seat::Unreadable(_) => Answer::Unreadable,
        Seat::Witness(log) if log.epoch(slot) == Some(epoch) => Answer::HaveLine,
        Seat::Witness(_) => Answer::DontHave,
        Seat::Card(log) => match log.slot(slot) {
            Some(state) if state.epoch != Some(epoch) => Answer::DontHave,
            Some(state) if state.verdict.is_whole() => Answer::Have,
            Some(state) if state.verdict.is_faulty() => Answer::HaveFaulty,
            _ => Answer::DontHave,
        },
    }
}
