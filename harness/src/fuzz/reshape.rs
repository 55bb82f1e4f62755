//! The same image or cluster with fewer slots or replicas, without witnesses, in edition 1, or from index
//! 1 on: what was written for a slot or a replica is written anew for its new number.

use std::ops::Range;

use crate::call::{Call, Field};
use crate::model::{
    cluster_len, entry_offset, header_len, image_len, index_of, judge_entry, judge_header,
    judge_record, record_offset, write_entry, write_header, write_record, EntryState, RecordState,
    Shape, BLANK_RECORD, ENTRY_LEN, MAX_SLOTS, MIN_REPLICAS, RECORD_LEN,
};

/// The images of a call about one image or a cluster, if its numbers fit them.
struct Images<'a> {
    /// The replica of the first image.
    replica: usize,
    shape: Shape,
    bytes: &'a mut Vec<u8>,
    /// All numbers by name.
    numbers: Vec<(&'static str, Field<'a>)>,
}

fn images(call: &mut Call) -> Option<Images<'_>> {
    let mut numbers = call.fields();
    let at = numbers
        .iter()
        .position(|(name, _)| *name == "image" || *name == "cluster")?;
    let (name, Field::Bytes(bytes)) = numbers.swap_remove(at) else {
        return None;
    };
    let shape = Shape {
        n: number(&numbers, "n")?,
        m: number(&numbers, "m")?,
        edition: number(&numbers, "edition")?,
        witnesses: number(&numbers, "witnesses")? as u32,
    };
    let fits = (1..=MAX_SLOTS).contains(&shape.m)
        && (1..=7).contains(&shape.n)
        && (1..=2).contains(&shape.edition);
    if !fits {
        return None;
    }
    let (replica, length) = match name {
        "image" => {
            let replica = number(&numbers, "replica")?;
            (replica, image_len(shape, replica))
        }
        _ => (1, cluster_len(shape)),
    };
    (bytes.len() == length && replica < 1000).then_some(Images {
        replica,
        shape,
        bytes,
        numbers,
    })
}

fn number(numbers: &[(&'static str, Field)], name: &str) -> Option<usize> {
    let (_, field) = numbers.iter().find(|(other, _)| *other == name)?;
    field.number().map(|number| number as usize)
}

impl Images<'_> {
    /// Puts another number there, if the call has one of that name.
    fn set(&mut self, name: &str, number: usize) {
        for (other, field) in &mut self.numbers {
            if *other == name {
                field.set_number(number as u64);
            }
        }
    }

    /// Every replica, by number, with the part of the bytes that is its image.
    fn parts(&self) -> Vec<(usize, Range<usize>)> {
        let (mut parts, mut at) = (Vec::new(), 0);
        for replica in self.replica.. {
            if at == self.bytes.len() {
                break;
            }
            let end = at + image_len(self.shape, replica);
            parts.push((replica, at..end));
            at = end;
        }
        parts
    }

    /// Every image with its replica, by number.
    fn each(&self) -> impl Iterator<Item = (usize, &[u8])> {
        let parts = self.parts().into_iter();
        parts.map(|(replica, part)| (replica, &self.bytes[part]))
    }

    /// All slots, as `rewritten` takes them.
    fn slots(&self) -> Vec<usize> {
        (1..=self.shape.m).collect()
    }
}

/// The first index of an image; of one whose header is not good it is taken for 1.
fn first_of(image: &[u8], shape: Shape, replica: usize) -> u32 {
    judge_header(&image[..header_len(shape)], shape, replica).unwrap_or(1)
}

/// What an image is written for.
#[derive(Clone, Copy)]
struct Place {
    shape: Shape,
    replica: usize,
    first: u32,
}

/// The image of some slots, in this order, written for another place. A good header, good records and
/// intact entries are written anew; other bytes stay, as many of them as there is room for. What was a
/// witness's has entries of spaces on a card.
fn rewritten(image: &[u8], shape: Shape, replica: usize, kept: &[usize], new: Place) -> Vec<u8> {
    let first = first_of(image, shape, replica);
    let header = &image[..header_len(shape)];
    let mut bytes = match judge_header(header, shape, replica) {
        Some(_) => write_header(new.shape, new.replica, new.first),
        None => header[..header_len(new.shape)].to_vec(),
    };
    for (at, &slot) in kept.iter().enumerate() {
        let from = record_offset(shape, slot);
        let record = &image[from..from + RECORD_LEN];
        match judge_record(record, index_of(first, slot)) {
            RecordState::Good(epoch) => {
                bytes.extend(write_record(epoch, index_of(new.first, at + 1)));
            }
            _ => bytes.extend(record),
        }
    }
    if new.shape.is_witness(new.replica) {
        return bytes;
    }
    if shape.is_witness(replica) {
        bytes.resize(bytes.len() + ENTRY_LEN * kept.len(), b' ');
        return bytes;
    }
    for (at, &slot) in kept.iter().enumerate() {
        let from = entry_offset(shape, slot);
        let entry = &image[from..from + ENTRY_LEN];
        match judge_entry(entry, index_of(first, slot)) {
            EntryState::Intact(epoch, payload) => {
                bytes.extend(write_entry(epoch, index_of(new.first, at + 1), payload));
            }
            EntryState::NotIntact => bytes.extend(entry),
        }
    }
    bytes
}

/// How many slots can be taken out.
pub fn slots(call: &mut Call) -> usize {
    images(call).map_or(0, |images| images.shape.m)
}

/// Takes out some slots of every image. One always stays.
pub fn without_slots(call: &mut Call, out: Range<usize>) {
    let Some(mut images) = images(call) else {
        return;
    };
    let shape = images.shape;
    let mut kept = images.slots();
    kept.retain(|slot| !out.contains(&(slot - 1)));
    if kept.is_empty() {
        return;
    }
    let m = kept.len();
    let mut bytes = Vec::new();
    for (replica, image) in images.each() {
        let new = Place {
            shape: Shape { m, ..shape },
            replica,
            first: first_of(image, shape, replica),
        };
        bytes.extend(rewritten(image, shape, replica, &kept, new));
    }
    *images.bytes = bytes;
    // Lent buffers that had the right length keep it.
    for name in ["slots", "epochs", "verdicts"] {
        if number(&images.numbers, name) == Some(shape.m) {
            images.set(name, m);
        }
    }
    images.set("m", m);
}

/// Makes some slots unused in every image: blank records and fresh entries.
pub fn with_unused_slots(call: &mut Call, unused: Range<usize>) {
    let Some(images) = images(call) else {
        return;
    };
    let shape = images.shape;
    for (replica, part) in images.parts() {
        let image = &mut images.bytes[part];
        for slot in unused.start + 1..=unused.end {
            let at = record_offset(shape, slot);
            image[at..at + RECORD_LEN].copy_from_slice(&BLANK_RECORD);
            if !shape.is_witness(replica) {
                let at = entry_offset(shape, slot);
                image[at..at + ENTRY_LEN].fill(b' ');
            }
        }
    }
}

/// Makes the payloads of some slots empty in every image.
pub fn with_empty_payloads(call: &mut Call, emptied: Range<usize>) {
    let Some(images) = images(call) else {
        return;
    };
    let shape = images.shape;
    for (replica, part) in images.parts() {
        if shape.is_witness(replica) {
            continue;
        }
        let image = &mut images.bytes[part];
        let first = first_of(image, shape, replica);
        for slot in emptied.start + 1..=emptied.end {
            let (at, index) = (entry_offset(shape, slot), index_of(first, slot));
            let entry = &mut image[at..at + ENTRY_LEN];
            if let EntryState::Intact(epoch, _) = judge_entry(entry, index) {
                entry.copy_from_slice(&write_entry(epoch, index, b""));
            }
        }
    }
}

/// Makes it the image of the first replica of three, if it is one image.
pub fn of_first_replica(call: &mut Call) {
    let Some(mut images) = images(call) else {
        return;
    };
    let (shape, replica) = (images.shape, images.replica);
    if number(&images.numbers, "replica").is_none() {
        return;
    }
    let witnesses = u32::from(shape.is_witness(replica));
    let new = Place {
        shape: Shape {
            n: 3,
            witnesses,
            ..shape
        },
        replica: 1,
        first: first_of(images.bytes, shape, replica),
    };
    *images.bytes = rewritten(images.bytes, shape, replica, &images.slots(), new);
    images.set("replica", 1);
    images.set("n", 3);
    images.set("witnesses", witnesses as usize);
}

/// Makes every replica one that has a card.
pub fn without_witnesses(call: &mut Call) {
    let Some(mut images) = images(call) else {
        return;
    };
    let (shape, kept) = (images.shape, images.slots());
    let mut bytes = Vec::new();
    for (replica, image) in images.each() {
        let new = Place {
            shape: shape.with_witnesses(0),
            replica,
            first: first_of(image, shape, replica),
        };
        bytes.extend(rewritten(image, shape, replica, &kept, new));
    }
    *images.bytes = bytes;
    images.set("witnesses", 0);
}

/// Makes every image one of edition 1.
pub fn of_edition_1(call: &mut Call) {
    from_index_1_in(call, 1);
}

/// Makes every log begin at index 1.
pub fn from_index_1(call: &mut Call) {
    from_index_1_in(call, 2);
}

/// The same from index 1 on in an edition, if it is of edition 2.
fn from_index_1_in(call: &mut Call, edition: usize) {
    let Some(mut images) = images(call) else {
        return;
    };
    let (shape, kept) = (images.shape, images.slots());
    if shape.edition != 2 {
        return;
    }
    let mut bytes = Vec::new();
    for (replica, image) in images.each() {
        let new = Place {
            shape: Shape { edition, ..shape },
            replica,
            first: 1,
        };
        bytes.extend(rewritten(image, shape, replica, &kept, new));
    }
    *images.bytes = bytes;
    images.set("edition", edition);
}

/// How many replicas can be taken out of a cluster.
pub fn replicas(call: &mut Call) -> usize {
    images(call).map_or(0, |images| others(&images).len())
}

/// The replicas other than the leader, if there are more than a cluster needs.
fn others(images: &Images) -> Vec<usize> {
    let n = images.shape.n;
    match number(&images.numbers, "leader") {
        Some(leader) if n > MIN_REPLICAS => (1..=n).filter(|&other| other != leader).collect(),
        _ => Vec::new(),
    }
}

/// Takes out some replicas other than the leader, if enough stay.
pub fn without_replicas(call: &mut Call, out: Range<usize>) {
    let Some(mut images) = images(call) else {
        return;
    };
    let (shape, kept) = (images.shape, images.slots());
    let out = others(&images)[out].to_vec();
    if shape.n < MIN_REPLICAS + out.len() {
        return;
    }
    let n = shape.n - out.len();
    // The highest first: the numbers of lower ones stay.
    let without = |set: usize| {
        out.iter()
            .rev()
            .fold(set, |set, &one| without_bit(set, one))
    };
    let witnesses = without(shape.witnesses as usize);
    let stay = |(replica, _): &(usize, &[u8])| !out.contains(replica);
    let mut bytes = Vec::new();
    for (at, (replica, image)) in images.each().filter(stay).enumerate() {
        let new = Place {
            shape: Shape {
                n,
                witnesses: witnesses as u32,
                ..shape
            },
            replica: at + 1,
            first: first_of(image, shape, replica),
        };
        bytes.extend(rewritten(image, shape, replica, &kept, new));
    }
    *images.bytes = bytes;
    if number(&images.numbers, "rows") == Some(shape.n) {
        images.set("rows", n);
    }
    images.set("n", n);
    let number_of = |name| number(&images.numbers, name).unwrap_or(0);
    let (leader, present) = (number_of("leader"), number_of("present"));
    let below = out.iter().filter(|&&replica| replica < leader).count();
    images.set("leader", leader - below);
    images.set("present", without(present));
    images.set("witnesses", witnesses);
}

/// A set without a replica's bit; higher ones move down.
fn without_bit(set: usize, replica: usize) -> usize {
    let below = (1 << (replica - 1)) - 1;
    set & below | set >> 1 & !below
}
