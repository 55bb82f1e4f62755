//! Card files for tests, made by the program and then damaged.

use std::fs;
use std::path::{Path, PathBuf};
use std::process::{Command, Output};

const RECORD_LEN: usize = 34;
const ENTRY_LEN: usize = 240;

/// The card files of a cluster in a folder of their own.
pub struct Fleet {
    /// The folder.
    pub dir: PathBuf,
    /// How many replicas.
    pub replicas: usize,
    /// How many slots each.
    pub slots: usize,
    first: u32,
    witnesses: Vec<usize>,
}

/// Runs the program.
pub fn rope(arguments: &[String]) -> Output {
    Command::new(env!("CARGO_BIN_EXE_rope"))
        .args(arguments)
        .output()
        .expect("the program starts")
}

impl Fleet {
    /// Fresh cards of edition 1, and witness boxes.
    pub fn new(name: &str, replicas: usize, slots: usize, witnesses: &[usize]) -> Fleet {
        Fleet::from(name, replicas, slots, witnesses, 1)
    }

    /// The same with a log that begins later: edition 2.
    pub fn from(name: &str, n: usize, m: usize, witnesses: &[usize], first: u32) -> Fleet {
        let dir = Path::new(env!("CARGO_TARGET_TMPDIR")).join(name);
        let _ = fs::remove_dir_all(&dir);
        fs::create_dir_all(&dir).expect("a folder for cards");
        let fleet = Fleet {
            dir,
            replicas: n,
            slots: m,
            first,
            witnesses: witnesses.to_vec(),
        };
        for replica in 1..=n {
            fleet.format(replica);
        }
        fleet
    }

    /// The card file of a replica.
    pub fn card(&self, replica: usize) -> PathBuf {
        self.dir.join(format!("cabinet{replica}.card"))
    }

    fn format(&self, replica: usize) {
        let mut line = self.line("format", replica);
        line.extend(["--cabinet".to_string(), replica.to_string()]);
        line.extend(["--of".to_string(), self.replicas.to_string()]);
        line.extend(["--places".to_string(), self.slots.to_string()]);
        if self.first != 1 {
            let first = self.first.to_string();
            line.extend(["--edition", "2", "--first", &first].map(String::from));
        }
        if self.witnesses.contains(&replica) {
            line.push("--witness".to_string());
        }
        done(&line);
    }

    /// Appends a reading on some replicas; a witness stores its record.
    pub fn append(&self, replicas: &[usize], epoch: u32, payload: &[u8]) {
        let file = self.dir.join("payload");
        fs::write(&file, payload).expect("a file for a payload");
        for &replica in replicas {
            let mut line = self.line("append", replica);
            line.extend(["--epoch".to_string(), epoch.to_string()]);
            if !self.witnesses.contains(&replica) {
                line.extend(["--file".to_string(), text(&file)]);
            }
            done(&line);
        }
    }

    /// Gives other replicas everything that stands behind the header of one.
    pub fn copy(&self, from: usize, to: &[usize]) {
        let header = self.header_len();
        let source = fs::read(self.card(from)).expect("a card");
        for &replica in to {
            let mut image = fs::read(self.card(replica)).expect("a card");
            image[header..].copy_from_slice(&source[header..]);
            fs::write(self.card(replica), image).expect("a card is written");
        }
    }

    /// Writes noise over the entry of a slot.
    pub fn spoil_entry(&self, replica: usize, slot: usize) {
        self.overwrite(replica, self.entry(slot), &[b'#'; 40]);
    }

    /// Writes noise over the record of a slot.
    pub fn spoil_record(&self, replica: usize, slot: usize) {
        self.overwrite(replica, self.record(slot), &[b'#'; RECORD_LEN]);
    }

    /// Writes noise over the header.
    pub fn spoil_header(&self, replica: usize) {
        self.overwrite(replica, 0, b"nope");
    }

    /// Puts the entry of a slot of one replica over that of another.
    pub fn plant_entry(&self, from: usize, to: usize, slot: usize) {
        let at = self.entry(slot);
        let source = fs::read(self.card(from)).expect("a card");
        self.overwrite(to, at, &source[at..at + ENTRY_LEN]);
    }

    /// Makes a replica's card fresh.
    pub fn renew(&self, replica: usize) {
        fs::remove_file(self.card(replica)).expect("a card");
        self.format(replica);
    }

    /// Calls `rope plan` for all cards, and answers where the page is and what was printed.
    pub fn page(&self, leader: usize, off: &[usize]) -> (PathBuf, String) {
        let page = self.dir.join("plan.html");
        let mut line = vec!["plan".to_string()];
        line.extend(
            (1..=self.replicas).map(|replica| format!("{replica}={}", text(&self.card(replica)))),
        );
        line.extend(["--lead".to_string(), leader.to_string()]);
        line.extend(["--html".to_string(), text(&page)]);
        if !off.is_empty() {
            line.push("--off".to_string());
            line.extend(off.iter().map(usize::to_string));
        }
        let output = rope(&line);
        let said = String::from_utf8_lossy(&output.stdout).into_owned();
        assert!(page.exists(), "no page was written: {output:?}");
        (page, said)
    }

    fn line(&self, command: &str, replica: usize) -> Vec<String> {
        vec![command.to_string(), text(&self.card(replica))]
    }

    fn header_len(&self) -> usize {
        if self.first == 1 {
            28
        } else {
            39
        }
    }

    fn record(&self, slot: usize) -> usize {
        self.header_len() + RECORD_LEN * (slot - 1)
    }

    fn entry(&self, slot: usize) -> usize {
        self.header_len() + RECORD_LEN * self.slots + ENTRY_LEN * (slot - 1)
    }

    fn overwrite(&self, replica: usize, at: usize, bytes: &[u8]) {
        let mut image = fs::read(self.card(replica)).expect("a card");
        image[at..at + bytes.len()].copy_from_slice(bytes);
        fs::write(self.card(replica), image).expect("a card is written");
    }
}

fn text(path: &Path) -> String {
    path.to_str().expect("a path of text").to_string()
}

fn done(line: &[String]) {
    let output = rope(line);
    assert!(output.status.success(), "{line:?}: {output:?}");
}
