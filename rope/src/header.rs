//! Whose card it is: what the header says, where it can be read.

use ropelog::pieces::{judge_header, read_column, Column, Header};
use ropelog::{Edition, Geometry, Replica, ReplicaSet, HEADER_LEN, HEADER_LEN_2};

/// The owner that a good header names.
#[derive(Clone, Copy, Debug, PartialEq, Eq)]
pub struct Owner {
    /// n, m and the edition. Of the witnesses it has this one, if it is one.
    pub geometry: Geometry,
    /// The cabinet.
    pub replica: Replica,
    /// The index of place 1.
    pub first: u32,
}

impl Owner {
    /// Whether it is a witness box.
    pub fn is_witness(&self) -> bool {
        self.geometry.is_witness(self.replica)
    }

    /// The owner of an image. None if its header is not good for the numbers that stand in it: of
    /// a damaged one nothing is guessed.
    pub fn of(image: &[u8]) -> Option<Owner> {
        let witness = match image.get(..4)? {
            b"rope" => false,
            b"wits" => true,
            _ => return None,
        };
        let column = |at: usize| number(image.get(at..at + 3)?);
        let (edition, header_len) = match column(4)? {
            1 => (Edition::One, HEADER_LEN),
            2 => (Edition::Two, HEADER_LEN_2),
            _ => return None,
        };
        let geometry = geometry(edition, column(10)?, column(13)?)?;
        let replica = geometry.replica(column(7)?).ok()?;
        let witnesses = ReplicaSet::from_iter(witness.then_some(replica));
        let geometry = geometry.with_witnesses(witnesses);
        let header = image.get(..header_len)?;
        match judge_header(header, geometry.shape(), replica.number()) {
            Header::Good { first } => Some(Owner {
                geometry,
                replica,
                first,
            }),
            Header::Other => None,
        }
    }
}

/// The geometry with these numbers and no witnesses, if there is one.
pub fn geometry(edition: Edition, n: usize, m: usize) -> Option<Geometry> {
    match edition {
        Edition::Two => Geometry::edition_2(n, m).ok(),
        _ => Geometry::new(n, m).ok(),
    }
}

/// The number in a column.
fn number(column: &[u8]) -> Option<usize> {
    match read_column(column) {
        Ok(Column::Number(number)) => usize::try_from(number).ok(),
        _ => None,
    }
}
