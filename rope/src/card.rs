//! A card file: opened, locked, read, compared, and stored on.

use std::fs::{self, File, Metadata, OpenOptions, TryLockError};
use std::io;
use std::ops::Range;
use std::os::unix::fs::{FileExt, MetadataExt};
use std::path::{Path, PathBuf};

use ropelog::{Geometry, ENTRY_LEN, HEADER_LEN_2, MAX_SLOTS, RECORD_LEN};

use crate::header::Owner;
use crate::intent::{self, Fit, Intent};
use crate::outcome::Failure;

/// The bytes of the longest image. One more is read, so that a file that is too long is seen.
const LONGEST: usize = HEADER_LEN_2 + (RECORD_LEN + ENTRY_LEN) * MAX_SLOTS;

/// What a command wants of a card.
#[derive(Clone, Copy, Debug, PartialEq, Eq)]
pub enum Access {
    /// To look at it, beside others that look.
    Read,
    /// To store on it, alone.
    Write,
}

/// What an interrupted store left beside the card.
#[derive(Debug)]
enum Leftover {
    /// Nothing.
    Nothing,
    /// An intent that was not finished, or whose record is whole: it is dropped.
    Dropped,
    /// An intent whose record was torn: it is written again.
    Torn(Intent),
    /// An intent of a card that cannot be read: it stays for whoever mends the card.
    Asleep,
    /// An intent of another card.
    Foreign,
}

/// A card file that is open and locked.
#[derive(Debug)]
pub struct Card {
    name: PathBuf,
    path: PathBuf,
    file: File,
    read_only: Option<String>,
    length: u64,
    on_file: Vec<u8>,
    leftover: Leftover,
}

impl Card {
    /// Opens a card file and reads it. An intent beside it is looked at and left as it is.
    pub fn open(name: &Path, access: Access) -> Result<Card, Failure> {
        let mut card = Card::hold(name, access)?;
        card.leftover = card.find_leftover()?;
        Ok(card)
    }

    /// Opens a card file that is to be written over, whatever stands in it and beside it.
    pub fn open_to_write_over(name: &Path) -> Result<Card, Failure> {
        let card = Card::hold(name, Access::Write)?;
        card.expect_writable()?;
        Ok(card)
    }

    /// Makes the file of a card, which is not there yet.
    pub fn create(name: &Path) -> Result<Card, Failure> {
        let made = OpenOptions::new().write(true).create_new(true).open(name);
        made.map_err(|error| match error.kind() {
            io::ErrorKind::AlreadyExists => Failure::Io(format!(
                "{}: is there already. Nothing was written; --over writes over it, and what it holds is lost",
                name.display()
            )),
            _ => Failure::file(name, "cannot be made", &error),
        })?;
        Card::open_to_write_over(name)
    }

    fn hold(name: &Path, access: Access) -> Result<Card, Failure> {
        let failed = |what: &str, error: &io::Error| Failure::file(name, what, error);
        let cannot_open = |error| failed("cannot be opened", &error);
        let path = fs::canonicalize(name).map_err(cannot_open)?;
        if !fs::metadata(&path).map_err(cannot_open)?.is_file() {
            return Err(Failure::Io(format!(
                "{}: is no file; copy the card's image into one",
                name.display()
            )));
        }
        let (file, read_only) = open(&path, access).map_err(cannot_open)?;
        lock(&file, access).map_err(|error| match error {
            TryLockError::WouldBlock => Failure::Io(format!(
                "{}: is busy: another program is at work on it. Nothing was written",
                name.display()
            )),
            TryLockError::Error(error) => failed("cannot be locked", &error),
        })?;
        let cannot_read = |error| failed("cannot be read", &error);
        let (length, on_file) = read(&file).map_err(cannot_read)?;
        Ok(Card {
            name: name.to_path_buf(),
            path,
            file,
            read_only,
            length,
            on_file,
            leftover: Leftover::Nothing,
        })
    }

    /// The name under which it was given.
    pub fn name(&self) -> std::path::Display<'_> {
        self.name.display()
    }

    /// The bytes of its file. Of one that is too long for any card, more than the longest card has.
    pub fn length(&self) -> u64 {
        self.length
    }

    /// The image as it stands once an interrupted store is finished.
    pub fn image(&self) -> Vec<u8> {
        let mut image = self.on_file.clone();
        if let Leftover::Torn(intent) = &self.leftover {
            image[intent.range()].copy_from_slice(&intent.new);
        }
        image
    }

    /// Whether a record was torn that is to be finished.
    pub fn is_torn(&self) -> bool {
        matches!(self.leftover, Leftover::Torn(_))
    }

    /// Whether an interrupted store left anything that is to be finished or dropped.
    pub fn is_unsettled(&self) -> bool {
        matches!(self.leftover, Leftover::Torn(_) | Leftover::Dropped)
    }

    /// What is to be told of an intent beside the card, if there is one.
    pub fn note(&self) -> Option<String> {
        let intent = intent::path_of(&self.path);
        let intent = intent.display();
        match self.leftover {
            Leftover::Nothing => None,
            Leftover::Dropped => Some(format!(
                "a store was interrupted that had not begun, or was done: the next one drops {intent}"
            )),
            Leftover::Torn(_) => Some(
                "a store was interrupted: shown is the card as the next `rope recover` or `rope append` leaves it"
                    .to_string(),
            ),
            Leftover::Asleep => Some(format!("{intent} of an interrupted store stays as it is")),
            Leftover::Foreign => Some(format!(
                "{intent} was left by an interrupted store, and this is not the card that it was left \
                 for, or it was changed since"
            )),
        }
    }

    /// Fails if the intent beside the card is of another one: nothing is written to it then.
    pub fn expect_no_other_intent(&self) -> Result<(), Failure> {
        match (&self.leftover, self.note()) {
            (Leftover::Foreign, Some(note)) => Err(Failure::Io(format!(
                "{}: {note}. Nothing was written. Put the right card back, or leave this one out",
                self.name()
            ))),
            _ => Ok(()),
        }
    }

    /// Fails if the card cannot be written to.
    pub fn expect_writable(&self) -> Result<(), Failure> {
        match &self.read_only {
            None => Ok(()),
            Some(why) => Err(Failure::Io(format!(
                "{}: cannot be written to: {why}. Nothing was written",
                self.name()
            ))),
        }
    }

    /// Fails if the file is another one by now, or has other bytes than were last read or stored.
    pub fn expect_unchanged(&self) -> Result<(), Failure> {
        let cannot_read = |error: io::Error| Failure::file(&self.name, "cannot be read", &error);
        let (length, bytes) = read(&self.file).map_err(cannot_read)?;
        let held = self.file.metadata().map_err(cannot_read)?;
        let named = fs::metadata(&self.path);
        let is_there = named.is_ok_and(|named| is_same(&named, &held));
        if is_there && length == self.length && bytes == self.on_file {
            return Ok(());
        }
        Err(Failure::Io(format!(
            "{}: was changed by somebody else meanwhile. Nothing more was written; see who uses the \
             file, then start again",
            self.name()
        )))
    }

    /// Brings to the disk what a program that was killed had written and not synced: what was read counts as
    /// stored, so it has to be on the card before the next store.
    pub fn sync(&self) -> Result<(), Failure> {
        let cannot_sync = |error| Failure::file(&self.name, "cannot be synced", &error);
        self.file.sync_data().map_err(cannot_sync)
    }

    /// Finishes a torn store, or drops an intent that is of no use.
    pub fn settle(&mut self) -> Result<(), Failure> {
        let path = intent::path_of(&self.path);
        let intent = match &self.leftover {
            Leftover::Dropped => None,
            Leftover::Torn(intent) => Some(intent.clone()),
            Leftover::Nothing | Leftover::Asleep | Leftover::Foreign => return Ok(()),
        };
        self.finish(&path, intent)
            .map_err(|error| self.unfinished(&error))?;
        self.leftover = Leftover::Nothing;
        Ok(())
    }

    fn finish(&mut self, path: &Path, intent: Option<Intent>) -> io::Result<()> {
        if let Some(intent) = intent {
            self.write_synced(&intent.range(), &intent.new)?;
        }
        intent::withdraw(path)
    }

    /// Stores a whole entry, which may be torn by a power failure.
    pub fn store_entry(&mut self, range: &Range<usize>, entry: &[u8]) -> Result<(), Failure> {
        self.write_synced(range, entry)
            .map_err(|error| self.unfinished(&error))
    }

    /// Stores a record, whole or not at all.
    pub fn store_record(&mut self, range: &Range<usize>, record: &[u8]) -> Result<(), Failure> {
        let stored = if intent::straddles(range) {
            self.write_by_intent(range, record)
        } else {
            self.write_synced(range, record)
        };
        stored.map_err(|error| self.unfinished(&error))
    }

    /// Writes a fresh image over the whole file. The old header is spoilt first and the new one written last,
    /// so that a card that is only half fresh is refused: it must not answer that it never had anything.
    pub fn write_fresh(&mut self, image: &[u8], geometry: Geometry) -> Result<(), Failure> {
        self.write_parts(image, geometry)
            .map_err(|error| self.unfinished(&error))
    }

    fn write_parts(&mut self, image: &[u8], geometry: Geometry) -> io::Result<()> {
        let spoilt = 0..self.on_file.len().min(HEADER_LEN_2);
        self.write_synced(&spoilt.clone(), &vec![b' '; spoilt.len()])?;
        intent::drop_any(&self.path)?;
        self.file.set_len(image.len() as u64)?;
        self.length = image.len() as u64;
        self.on_file.resize(image.len(), 0);
        let header = 0..geometry.header_len();
        let records = header.end..header.end + RECORD_LEN * geometry.slot_count();
        let entries = records.end..image.len();
        for part in [entries, records, header] {
            self.write_synced(&part, &image[part.clone()])?;
        }
        self.file.sync_all()
    }

    fn write_by_intent(&mut self, range: &Range<usize>, record: &[u8]) -> io::Result<()> {
        let path = intent::path_of(&self.path);
        let of_intent =
            |error: io::Error| io::Error::new(error.kind(), format!("{}: {error}", path.display()));
        intent::declare(&path, &Intent::new(&self.on_file, range, record)).map_err(of_intent)?;
        self.write_synced(range, record)?;
        intent::withdraw(&path).map_err(of_intent)
    }

    /// One write of these bytes alone, and it is on the disk.
    fn write_synced(&mut self, range: &Range<usize>, bytes: &[u8]) -> io::Result<()> {
        self.file.write_all_at(bytes, range.start as u64)?;
        self.file.sync_data()?;
        self.on_file[range.clone()].copy_from_slice(bytes);
        Ok(())
    }

    fn find_leftover(&self) -> Result<Leftover, Failure> {
        let path = intent::path_of(&self.path);
        let cannot_read = |error| Failure::file(&path, "cannot be read", &error);
        let Some(bytes) = intent::read(&path).map_err(cannot_read)? else {
            return Ok(Leftover::Nothing);
        };
        // A card without a good header is written by nobody.
        if Owner::of(&self.on_file).is_none() {
            return Ok(Leftover::Asleep);
        }
        // An intent is shorter than this, torn or whole.
        if bytes.len() > intent::LONGEST {
            return Ok(Leftover::Foreign);
        }
        let Some(intent) = Intent::parse(&bytes) else {
            return Ok(Leftover::Dropped);
        };
        Ok(match intent.fits(&self.on_file) {
            Fit::Replay => Leftover::Torn(intent),
            Fit::Done => Leftover::Dropped,
            Fit::Foreign => Leftover::Foreign,
        })
    }

    fn unfinished(&self, error: &io::Error) -> Failure {
        Failure::Io(format!(
            "{}: a store could not be finished: {error}. Nothing more was written. When the cause is \
             mended take the card out and put it in again, so that it is read afresh, and start again: \
             it goes on where it stopped",
            self.name()
        ))
    }
}

/// Opens a file, for writing where it may be written; otherwise it is read, with the reason.
fn open(path: &Path, access: Access) -> io::Result<(File, Option<String>)> {
    if access == Access::Read {
        return Ok((File::open(path)?, None));
    }
    if fs::metadata(path)?.permissions().readonly() {
        return Ok((
            File::open(path)?,
            Some("it is marked read-only".to_string()),
        ));
    }
    match OpenOptions::new().read(true).write(true).open(path) {
        Ok(file) => Ok((file, None)),
        Err(error) => Ok((File::open(path)?, Some(error.to_string()))),
    }
}

fn lock(file: &File, access: Access) -> Result<(), TryLockError> {
    match access {
        Access::Read => file.try_lock_shared(),
        Access::Write => file.try_lock(),
    }
}

/// The length of a file, and its bytes, but no more than one above the longest card.
fn read(file: &File) -> io::Result<(u64, Vec<u8>)> {
    let length = file.metadata()?.len();
    let room = usize::try_from(length)
        .unwrap_or(usize::MAX)
        .min(LONGEST + 1);
    let mut bytes = vec![0; room];
    file.read_exact_at(&mut bytes, 0)?;
    Ok((length, bytes))
}

fn is_same(this: &Metadata, that: &Metadata) -> bool {
    (this.dev(), this.ino()) == (that.dev(), that.ino())
}
