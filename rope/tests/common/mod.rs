//! Cards for the tests: folders of files, generated clusters, and calls of the program.

#![allow(dead_code)]

use std::fs;
use std::path::{Path, PathBuf};
use std::process::{Command, Output, Stdio};
use std::sync::atomic::{AtomicUsize, Ordering};

use ropelog::{append, format_from, run, witness_append, Edition, Epoch, Geometry, Replica};
use ropelog::{ReplicaSet, RunAnswer};

/// The program.
pub const ROPE: &str = env!("CARGO_BIN_EXE_rope");

/// A folder of its own, removed in the end. In memory where there is such a place: a sync costs nothing there.
pub struct Folder(PathBuf);

impl Folder {
    pub fn new() -> Folder {
        static COUNT: AtomicUsize = AtomicUsize::new(0);
        let memory = Path::new("/dev/shm");
        let base = if memory.is_dir() {
            memory.to_path_buf()
        } else {
            std::env::temp_dir()
        };
        let number = COUNT.fetch_add(1, Ordering::Relaxed);
        let path = base.join(format!("rope-test-{}-{number}", std::process::id()));
        fs::create_dir_all(&path).unwrap();
        Folder(path)
    }

    pub fn path(&self) -> &Path {
        &self.0
    }

    pub fn file(&self, name: &str) -> PathBuf {
        self.0.join(name)
    }

    pub fn names(&self) -> Vec<String> {
        let names = fs::read_dir(&self.0).unwrap();
        let mut names: Vec<String> = names
            .map(|entry| entry.unwrap().file_name().into_string().unwrap())
            .collect();
        names.sort();
        names
    }
}

impl Drop for Folder {
    fn drop(&mut self) {
        let _ = fs::remove_dir_all(&self.0);
    }
}

/// What the program says and how it ends, in a folder.
pub fn rope(folder: &Folder, arguments: &[&str]) -> Output {
    Command::new(ROPE)
        .args(arguments)
        .current_dir(folder.path())
        .stdin(Stdio::null())
        .output()
        .expect("the program starts")
}

pub fn stdout(output: &Output) -> String {
    String::from_utf8(output.stdout.clone()).expect("text")
}

pub fn stderr(output: &Output) -> String {
    String::from_utf8(output.stderr.clone()).expect("text")
}

/// A generator of numbers that a seed determines.
pub struct Rng(u64);

impl Rng {
    pub fn new(seed: u64) -> Rng {
        Rng(seed.wrapping_mul(0x9e37_79b9_7f4a_7c15) ^ 0x1234_5678_9abc_def1)
    }

    pub fn next(&mut self) -> u64 {
        self.0 = self.0.wrapping_add(0x9e37_79b9_7f4a_7c15);
        let mut z = self.0;
        z = (z ^ (z >> 30)).wrapping_mul(0xbf58_476d_1ce4_e5b9);
        z = (z ^ (z >> 27)).wrapping_mul(0x94d0_49bb_1331_11eb);
        z ^ (z >> 31)
    }

    /// A number below this one.
    pub fn below(&mut self, end: usize) -> usize {
        (self.next() % end as u64) as usize
    }

    /// True once in so many.
    pub fn once_in(&mut self, number: usize) -> bool {
        self.below(number) == 0
    }

    pub fn pick<T: Copy>(&mut self, from: &[T]) -> T {
        from[self.below(from.len())]
    }
}

/// The cards of a cluster, who leads and who is on.
#[derive(Clone)]
pub struct Cards {
    pub geometry: Geometry,
    pub images: Vec<Vec<u8>>,
    pub leader: usize,
    pub present: Vec<usize>,
}

pub fn card_name(number: usize) -> String {
    format!("card{number}.img")
}

impl Cards {
    /// Fresh cards, with all on and cabinet 1 leading.
    pub fn fresh(geometry: Geometry, first: u32) -> Cards {
        let fresh = |replica: Replica| {
            let mut image = vec![0; geometry.image_len(replica)];
            format_from(&mut image, geometry, replica, first).unwrap();
            image
        };
        Cards {
            geometry,
            images: geometry.replicas().map(fresh).collect(),
            leader: 1,
            present: (1..=geometry.replica_count()).collect(),
        }
    }

    pub fn append(&mut self, number: usize, epoch: u32, payload: &[u8]) -> usize {
        let (geometry, epoch) = (self.geometry, Epoch::new(epoch).unwrap());
        let replica = geometry.replica(number).unwrap();
        let image = &mut self.images[number - 1];
        if geometry.is_witness(replica) {
            witness_append(image, geometry, replica, epoch).unwrap()
        } else {
            append(image, geometry, replica, epoch, payload).unwrap()
        }
    }

    /// Spoils the entry of a slot.
    pub fn spoil_entry(&mut self, number: usize, slot: usize) {
        let range = self.geometry.entry_range(slot);
        for byte in &mut self.images[number - 1][range.start + 5..range.start + 60] {
            *byte ^= 0x55;
        }
    }

    /// Spoils the record of a slot.
    pub fn spoil_record(&mut self, number: usize, slot: usize) {
        let range = self.geometry.record_range(slot);
        self.images[number - 1][range].fill(b'#');
    }

    pub fn spoil_header(&mut self, number: usize) {
        self.images[number - 1][..20].fill(b'?');
    }

    /// The images end to end; of those that are not present zeros, which no call looks at.
    pub fn cluster(&self) -> Vec<u8> {
        self.images.concat()
    }

    pub fn present_set(&self) -> ReplicaSet {
        let replica = |number: &usize| self.geometry.replica(*number).unwrap();
        self.present.iter().map(replica).collect()
    }

    /// The cards after a whole run of the proved code in memory, if it is not refused and does not wait.
    pub fn recovered(&self) -> Option<(Cards, u64)> {
        let mut cluster = self.cluster();
        let geometry = self.geometry;
        let leader = geometry.replica(self.leader).unwrap();
        let ended = run(
            &mut cluster,
            geometry,
            leader,
            self.present_set(),
            geometry.enough_stores(),
        );
        let Ok(RunAnswer::Recovered { stores }) = ended else {
            return None;
        };
        let image = |replica| cluster[geometry.image_range(replica)].to_vec();
        let after = Cards {
            images: geometry.replicas().map(image).collect(),
            ..self.clone()
        };
        Some((after, stores))
    }

    /// Writes every card into a folder, and removes all else there.
    pub fn write(&self, folder: &Folder) {
        for name in folder.names() {
            fs::remove_file(folder.file(&name)).unwrap();
        }
        for (at, image) in self.images.iter().enumerate() {
            fs::write(folder.file(&card_name(at + 1)), image).unwrap();
        }
    }

    /// The bytes of the card files, and nothing else stands in the folder.
    pub fn read(&self, folder: &Folder) -> Vec<Vec<u8>> {
        let expected: Vec<String> = (1..=self.images.len()).map(card_name).collect();
        assert_eq!(folder.names(), expected);
        let read = |name: &String| fs::read(folder.file(name)).unwrap();
        expected.iter().map(read).collect()
    }

    /// The arguments that name the cards, the lead and who is off. A card is named by its cabinet, since its
    /// header may be spoilt.
    pub fn arguments(&self) -> Vec<String> {
        let n = self.geometry.replica_count();
        let mut arguments: Vec<String> = (1..=n)
            .map(|number| format!("{number}={}", card_name(number)))
            .collect();
        arguments.extend(["--lead".to_string(), self.leader.to_string()]);
        let off: Vec<String> = (1..=n)
            .filter(|number| !self.present.contains(number))
            .map(|number| number.to_string())
            .collect();
        if !off.is_empty() {
            arguments.extend(["--off".to_string(), off.join(",")]);
        }
        arguments
    }
}

impl Cards {
    /// The options that say the numbers, which no header may be left to say.
    pub fn numbers(&self) -> Vec<String> {
        let geometry = self.geometry;
        let mut options = vec![
            format!("--of={}", geometry.replica_count()),
            format!("--places={}", geometry.slot_count()),
            format!("--edition={}", geometry.edition().number()),
        ];
        let witnesses = geometry
            .replicas()
            .filter(|&replica| geometry.is_witness(replica));
        options.extend(witnesses.map(|replica| format!("--witness={}", replica.number())));
        options
    }
}

/// Who may be generated.
#[derive(Clone, Copy, PartialEq, Eq)]
pub enum Kinds {
    /// Edition 1 without witnesses.
    Plain,
    /// All.
    Any,
}

/// A generated cluster of logs that share their past, and its damage.
pub fn generated(rng: &mut Rng, kinds: Kinds) -> Cards {
    let n = 3 + rng.below(5);
    let m = rng.pick(&[1, 2, 4, 8, 15, 16, 17, 30, 31, 46, 64]);
    let edition = if kinds == Kinds::Any && rng.once_in(3) {
        Edition::Two
    } else {
        Edition::One
    };
    let (geometry, first) = match edition {
        Edition::Two => (Geometry::edition_2(n, m).unwrap(), 1205),
        _ => (Geometry::new(n, m).unwrap(), 1),
    };
    let is_witness = |rng: &mut Rng, number: usize| number > 1 && rng.once_in(4);
    let witnesses: Vec<usize> = (1..=n)
        .filter(|&number| kinds == Kinds::Any && is_witness(rng, number))
        .collect();
    let set = witnesses
        .iter()
        .map(|&number| geometry.replica(number).unwrap())
        .collect();
    let mut cards = Cards::fresh(geometry.with_witnesses(set), first);
    fill(rng, &mut cards, m);
    damage(rng, &mut cards, &witnesses);
    let leaders: Vec<usize> = (1..=n).filter(|c| !witnesses.contains(c)).collect();
    cards.leader = rng.pick(&leaders);
    let leader = cards.leader;
    cards.present = (1..=n)
        .filter(|&number| number == leader || !rng.once_in(5))
        .collect();
    cards
}

/// One log, of which each card has a beginning; some have readings of their own behind it.
fn fill(rng: &mut Rng, cards: &mut Cards, m: usize) {
    let length = m - rng.below(m / 2 + 1);
    let mut epoch = 1;
    let log: Vec<(u32, Vec<u8>)> = (0..length)
        .map(|_| {
            if rng.once_in(6) {
                epoch += 2;
            }
            let size = rng.below(60);
            (epoch, (0..size).map(|_| rng.below(256) as u8).collect())
        })
        .collect();
    for number in 1..=cards.images.len() {
        let kept = if rng.once_in(2) {
            length
        } else {
            length - rng.below(length.min(5) + 1)
        };
        for (epoch, payload) in &log[..kept] {
            cards.append(number, *epoch, payload);
        }
        if rng.once_in(4) {
            for _ in 0..rng.below(m - kept + 1).min(3) {
                cards.append(number, 1000 + 2 * number as u32, b"of another lead");
            }
        }
    }
}

/// Entries and records are spoilt, never both of one slot.
fn damage(rng: &mut Rng, cards: &mut Cards, witnesses: &[usize]) {
    let m = cards.geometry.slot_count();
    for number in 1..=cards.images.len() {
        if witnesses.contains(&number) {
            continue;
        }
        for slot in 1..=m {
            match rng.below(14) {
                0 => cards.spoil_entry(number, slot),
                1 if is_used(cards, number, slot) => cards.spoil_record(number, slot),
                _ => {}
            }
        }
        if rng.once_in(25) {
            cards.spoil_header(number);
        }
    }
}

fn is_used(cards: &Cards, number: usize, slot: usize) -> bool {
    let record = &cards.images[number - 1][cards.geometry.record_range(slot)];
    record[..33].iter().any(|&byte| byte != b' ')
}
