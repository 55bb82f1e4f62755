//! The intent file: how a record that may lie in two blocks is written whole or not at all.
//!
//! A power failure may leave the new bytes of a record on one side of a block's boundary alone. So such a
//! record goes by way of a small file beside the card, `CARD.intent`, in four parts, each of which is on the
//! disk before the next begins:
//!
//! 1. the intent is written: the card's header, where the record stands, its old and its new bytes, and a
//!    checksum of all that;
//! 2. the folder is synced, so that the intent has its name;
//! 3. the record is written to the card;
//! 4. the intent is removed, and the folder is synced again.
//!
//! Why this suffices: wherever it stops, the next start finds one of these.
//!
//! - No intent, or one that is not whole: part 3 had not begun, or had ended. Or a whole one beside a record that
//!   is the old one or the new one: part 3 wrote nothing, or all. The record is whole, also on the disk, since a
//!   start syncs the card first. The intent is dropped, and what is still to be stored is found out anew.
//! - A whole intent beside a mixture of the old and the new bytes: part 3 was torn. The new bytes are written again,
//!   and then part 4 is made. If that is interrupted too, the next start finds the same intent, which was on the
//!   disk before part 3 began.
//! - A whole intent that does not fit the card: another header, or bytes there that are neither old nor new. The
//!   card is not the one that was left. Nothing is written, and the owner is told.
//!
//! So an intent changes a card only where a record is torn. One that comes back because the power failed inside
//! part 4, or that lies beside another copy of its card, finds a whole record and is dropped.
//!
//! No other store is made between part 1 and part 4, so the record is the only thing on the card that the intent
//! has to answer for. A store of a recovery is then a record that is old or new, which is what the proofs suppose.

use std::fs::{self, File, OpenOptions};
use std::io::{self, Read, Write};
use std::ops::Range;
use std::path::{Path, PathBuf};

use ropelog::pieces::{checksum, read_column, write_number, Column};
use ropelog::{HEADER_LEN, HEADER_LEN_2, RECORD_LEN};

use crate::header::Owner;

/// The smallest block that a disk writes whole. All greater ones are multiples of it.
const BLOCK: usize = 512;

const WORD: &[u8] = b"todo";
const NUMBER_LEN: usize = 11;

/// The bytes of the longest intent, that of a card of edition 2.
pub const LONGEST: usize = WORD.len() + HEADER_LEN_2 + 2 * NUMBER_LEN + 2 * RECORD_LEN + 1;

/// Whether bytes of a file lie in two blocks.
pub fn straddles(range: &Range<usize>) -> bool {
    range.start / BLOCK != (range.end - 1) / BLOCK
}

/// A record that is about to be written.
#[derive(Clone, Debug, PartialEq, Eq)]
pub struct Intent {
    /// The card's header, by which it is known again.
    pub header: Vec<u8>,
    /// Where the record begins.
    pub at: usize,
    /// The bytes that stood there.
    pub old: [u8; RECORD_LEN],
    /// The bytes that are to stand there.
    pub new: [u8; RECORD_LEN],
}

/// What an intent is to a card.
#[derive(Debug, PartialEq, Eq)]
pub enum Fit {
    /// Its record is a mixture of old and new bytes: the new ones are to be written.
    Replay,
    /// Its record is the old one or the new one, whole: there is nothing to do.
    Done,
    /// It is another card, or was changed since.
    Foreign,
}

impl Intent {
    /// The intent to write a record of a card.
    pub fn new(image: &[u8], range: &Range<usize>, record: &[u8]) -> Intent {
        let header = match Owner::of(image) {
            Some(owner) => &image[..owner.geometry.header_len()],
            None => {
                unreachable!("a card with a bad header is refused, and nothing is stored on it")
            }
        };
        Intent {
            header: header.to_vec(),
            at: range.start,
            old: image[range.clone()].try_into().expect("a record"),
            new: record.try_into().expect("a record"),
        }
    }

    /// Where the record stands.
    pub fn range(&self) -> Range<usize> {
        self.at..self.at + RECORD_LEN
    }

    /// The bytes of the file.
    pub fn bytes(&self) -> Vec<u8> {
        let mut bytes = WORD.to_vec();
        bytes.extend_from_slice(&self.header);
        bytes.extend_from_slice(&column(self.at as u64));
        bytes.extend_from_slice(&self.old);
        bytes.extend_from_slice(&self.new);
        bytes.extend_from_slice(&column(checksum(&bytes).into()));
        bytes.push(b'\n');
        bytes
    }

    /// The intent that these bytes are. Judged by writing: any others are none.
    pub fn parse(bytes: &[u8]) -> Option<Intent> {
        let header_len = bytes.len().checked_sub(LONGEST - HEADER_LEN_2)?;
        if ![HEADER_LEN, HEADER_LEN_2].contains(&header_len) {
            return None;
        }
        let (header, rest) = bytes[WORD.len()..].split_at(header_len);
        let (at, rest) = rest.split_at(NUMBER_LEN);
        let (old, rest) = rest.split_at(RECORD_LEN);
        let Ok(Column::Number(at)) = read_column(at) else {
            return None;
        };
        let intent = Intent {
            header: header.to_vec(),
            at: usize::try_from(at).ok()?,
            old: old.try_into().ok()?,
            new: rest[..RECORD_LEN].try_into().ok()?,
        };
        (intent.bytes() == bytes && intent.is_of_a_record()).then_some(intent)
    }

    /// Whether it is of a record of the card that its header names.
    fn is_of_a_record(&self) -> bool {
        let Some(owner) = Owner::of(&self.header) else {
            return false;
        };
        let mut slots = 1..=owner.geometry.slot_count();
        slots.any(|slot| owner.geometry.record_range(slot).start == self.at)
    }

    /// What it is to a card: one with its header, on which each byte of the record is its old or its new
    /// one, is the card that was left.
    pub fn fits(&self, image: &[u8]) -> Fit {
        let Some(record) = image.get(self.range()) else {
            return Fit::Foreign;
        };
        let is_left = |at: usize| record[at] == self.old[at] || record[at] == self.new[at];
        if !image.starts_with(&self.header) || !(0..RECORD_LEN).all(is_left) {
            Fit::Foreign
        } else if record == self.old || record == self.new {
            Fit::Done
        } else {
            Fit::Replay
        }
    }
}

fn column(number: u64) -> [u8; NUMBER_LEN] {
    let mut column = [0; NUMBER_LEN];
    write_number(&mut column, number);
    column
}

/// The file of a card's intent, beside the card.
pub fn path_of(card: &Path) -> PathBuf {
    let mut path = card.as_os_str().to_owned();
    path.push(".intent");
    PathBuf::from(path)
}

/// Parts 1 and 2: the intent is written and has its name.
pub fn declare(path: &Path, intent: &Intent) -> io::Result<()> {
    let mut file = OpenOptions::new().write(true).create_new(true).open(path)?;
    file.write_all(&intent.bytes())?;
    file.sync_all()?;
    sync_folder(path)
}

/// Part 4: the intent is gone.
pub fn withdraw(path: &Path) -> io::Result<()> {
    fs::remove_file(path)?;
    sync_folder(path)
}

/// Whatever intent stands beside a card is gone, since the card is written over.
pub fn drop_any(card: &Path) -> io::Result<()> {
    match fs::remove_file(path_of(card)) {
        Err(error) if error.kind() != io::ErrorKind::NotFound => Err(error),
        _ => sync_folder(card),
    }
}

/// What stands in the intent's file, if there is one: at most one byte more than an intent has.
pub fn read(path: &Path) -> io::Result<Option<Vec<u8>>> {
    let file = match File::open(path) {
        Err(error) if error.kind() == io::ErrorKind::NotFound => return Ok(None),
        file => file?,
    };
    let mut bytes = Vec::new();
    file.take(LONGEST as u64 + 1).read_to_end(&mut bytes)?;
    Ok(Some(bytes))
}

fn sync_folder(path: &Path) -> io::Result<()> {
    let folder = match path.parent() {
        Some(folder) if !folder.as_os_str().is_empty() => folder,
        _ => Path::new("."),
    };
    File::open(folder)?.sync_all()
}
