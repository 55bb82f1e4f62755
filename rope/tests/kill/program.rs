//! The programs that are killed, and the shim that kills them.

use std::fs;
use std::os::unix::process::ExitStatusExt;
use std::path::{Path, PathBuf};
use std::process::{Command, Output, Stdio};
use std::sync::OnceLock;
use std::thread;
use std::time::Duration;

use crate::common::{card_name, Cards, Folder, ROPE};

/// Compiles a C file of the repository once.
fn compiled(name: &str, arguments: &[&str]) -> PathBuf {
    let path = Path::new(env!("CARGO_TARGET_TMPDIR")).join(name);
    // A name of its own, so that a test that runs already keeps its file.
    let made = path.with_extension(std::process::id().to_string());
    let status = Command::new("gcc")
        .args(["-O2", "-Wall", "-Wextra", "-Werror"])
        .args(arguments)
        .arg("-o")
        .arg(&made)
        .status()
        .expect("gcc starts");
    assert!(status.success(), "{name} does not compile");
    fs::rename(&made, &path).unwrap();
    path
}

fn in_repository(path: &str) -> String {
    format!("{}/../{path}", env!("CARGO_MANIFEST_DIR"))
}

fn shim() -> &'static Path {
    static SHIM: OnceLock<PathBuf> = OnceLock::new();
    SHIM.get_or_init(|| {
        let source = in_repository("rope/tests/kill/shim.c");
        compiled("shim.so", &["-shared", "-fPIC", &source, "-ldl"])
    })
}

/// `examples/cards.c`.
fn cards_c() -> &'static Path {
    static CARDS: OnceLock<PathBuf> = OnceLock::new();
    CARDS.get_or_init(|| {
        let include = format!("-I{}", in_repository("include"));
        let source = in_repository("examples/cards.c");
        let archive = in_repository("target/staticlib/libropelog.a");
        compiled(
            "cards",
            &["-std=c99", "-pedantic", &include, &source, &archive],
        )
    })
}

/// A program that recovers card files.
#[derive(Clone, Copy, Debug, PartialEq, Eq)]
pub enum Program {
    Rope,
    CardsC,
}

impl Program {
    /// The call that recovers these cards.
    pub fn recover(self, cards: &Cards) -> Command {
        match self {
            Program::Rope => {
                let mut command = Command::new(ROPE);
                command.arg("recover").args(cards.arguments()).arg("--yes");
                command
            }
            Program::CardsC => {
                let mut command = Command::new(cards_c());
                command.arg(cards.geometry.slot_count().to_string());
                command.arg(cards.leader.to_string());
                for number in 1..=cards.images.len() {
                    let is_on = cards.present.contains(&number);
                    command.arg(if is_on {
                        card_name(number)
                    } else {
                        "-".to_string()
                    });
                }
                command
            }
        }
    }
}

/// What a program does to its files, one thing after another.
#[derive(Clone, Debug, PartialEq, Eq)]
pub struct Event {
    pub kind: String,
    pub at: usize,
    pub length: usize,
    pub file: String,
}

/// When a program is killed.
#[derive(Clone, Copy, Debug, PartialEq, Eq)]
pub enum How {
    Before,
    /// Inside a write so many bytes arrive; inside a sync so many are the old ones again.
    Inside(usize),
    After,
}

/// Runs a program in a folder and lists what it does to its files.
pub fn watched(folder: &Folder, mut command: Command) -> (Output, Vec<Event>) {
    let log = Folder::new();
    let file = log.file("log");
    let output = command
        .current_dir(folder.path())
        .env("LD_PRELOAD", shim())
        .env("KILL_LOG", &file)
        .stdin(Stdio::null())
        .output()
        .expect("the program starts");
    let events = fs::read_to_string(&file).unwrap_or_default();
    (output, events.lines().map(event).collect())
}

fn event(line: &str) -> Event {
    let words: Vec<&str> = line.splitn(4, ' ').collect();
    let [kind, at, length, file] = words[..] else {
        panic!("an event: {line}");
    };
    Event {
        kind: kind.to_string(),
        at: at.parse().unwrap(),
        length: length.parse().unwrap(),
        file: file.to_string(),
    }
}

/// Runs a program in a folder whose call at an event, counted from 0, fails with an error of the system.
pub fn failed(folder: &Folder, mut command: Command, at: usize, error: i32) -> Output {
    command
        .current_dir(folder.path())
        .env("LD_PRELOAD", shim())
        .env("KILL_AT", format!("{}:fail:{error}", at + 1))
        .stdin(Stdio::null())
        .output()
        .expect("the program starts")
}

/// Runs a program in a folder, stops it before an event, counted from 0, does something meanwhile, and lets it go on.
pub fn stopped(folder: &Folder, mut command: Command, at: usize, meanwhile: impl Fn()) -> Output {
    let child = command
        .current_dir(folder.path())
        .env("LD_PRELOAD", shim())
        .env("KILL_AT", format!("{}:stop:0", at + 1))
        .stdin(Stdio::null())
        .stdout(Stdio::piped())
        .stderr(Stdio::piped())
        .spawn()
        .expect("the program starts");
    let state = format!("/proc/{}/stat", child.id());
    let is_stopped = || {
        let text = fs::read_to_string(&state).expect("the program runs");
        text.rsplit_once(") ").expect("a state").1.starts_with('T')
    };
    while !is_stopped() {
        thread::sleep(Duration::from_millis(1));
    }
    meanwhile();
    let id = child.id().to_string();
    let status = Command::new("kill").args(["-CONT", &id]).status();
    assert!(status.expect("kill starts").success());
    child.wait_with_output().expect("the program ends")
}

/// Runs a program in a folder and kills it at an event, counted from 0. The system says that it was killed.
pub fn killed(folder: &Folder, mut command: Command, at: usize, how: How) {
    let order = match how {
        How::Before => format!("{}:before:0", at + 1),
        How::Inside(part) => format!("{}:inside:{part}", at + 1),
        How::After => format!("{}:after:0", at + 1),
    };
    let output = command
        .current_dir(folder.path())
        .env("LD_PRELOAD", shim())
        .env("KILL_AT", order)
        .stdin(Stdio::null())
        .output()
        .expect("the program starts");
    assert_eq!(
        output.status.signal(),
        Some(9),
        "event {at}, {how:?}: {output:?}"
    );
}
