//! The built printing program when a read or a write fails: what it says on standard error, and that of an input
//! that was not read to its end nothing is printed.

use std::fs::{self, File, OpenOptions};
use std::io::Write;
use std::os::fd::OwnedFd;
use std::os::unix::net::UnixStream;
use std::path::{Path, PathBuf};
use std::process::{Command, Output, Stdio};
use std::sync::Mutex;

use harness::program::program;

const NOT_READ: &str = "ropeplan: the input could not be read: ";
const NOT_WRITTEN: &str = "ropeplan: the output could not be written: ";

fn sample(ending: &str) -> PathBuf {
    let samples = Path::new(env!("CARGO_MANIFEST_DIR")).join("../samples");
    samples.join(format!("healthy{ending}"))
}

fn input() -> File {
    File::open(sample(".in")).unwrap()
}

/// The program started by a shell, which can close a file or ignore a signal before.
fn from_shell(words: &str) -> Command {
    let mut command = Command::new("sh");
    command.args(["-c", words]).arg(program());
    command
}

/// A process that is being started has a copy of every file that is open, so that a pipe may still have a reader
/// when its own is gone: one is started at a time.
static START: Mutex<()> = Mutex::new(());

fn run(command: &mut Command) -> Output {
    let _alone = START.lock().unwrap();
    command.output().expect("the program starts")
}

/// The program printed nothing here, and said one line.
fn assert_said(output: &Output, beginning: &str, reason: &str) {
    assert!(output.stdout.is_empty(), "{output:?}");
    assert_eq!(
        String::from_utf8_lossy(&output.stderr),
        format!("{beginning}{reason}\n")
    );
}

#[test]
fn a_directory_as_input() {
    let folder = File::open(env!("CARGO_MANIFEST_DIR")).unwrap();
    let output = run(Command::new(program()).stdin(folder));
    assert_said(&output, NOT_READ, "Is a directory");
}

#[test]
fn a_closed_input() {
    let output = run(&mut from_shell("exec \"$0\" <&-"));
    assert_said(&output, NOT_READ, "Bad file descriptor");
}

/// The peer of a socket that closes it with something unread resets it: the read behind what has arrived
/// fails, and the next one would tell the end.
#[test]
fn a_read_that_fails_behind_a_whole_input() {
    for is_reset in [false, true] {
        let (mut near, mut far) = UnixStream::pair().unwrap();
        if is_reset {
            near.write_all(b"unread").unwrap();
        }
        far.write_all(&fs::read(sample(".in")).unwrap()).unwrap();
        drop(far);
        let output = run(Command::new(program()).stdin(OwnedFd::from(near)));
        if is_reset {
            assert_said(&output, NOT_READ, "Connection reset by peer");
        } else {
            assert_eq!(output.stdout, fs::read(sample(".plan")).unwrap());
            assert!(output.stderr.is_empty(), "{output:?}");
        }
    }
}

#[test]
fn a_full_disk() {
    let full = OpenOptions::new().write(true).open("/dev/full").unwrap();
    let output = run(Command::new(program()).stdin(input()).stdout(full));
    assert_said(&output, NOT_WRITTEN, "No space left on device");
}

/// The shell counts a file's size in blocks of 512 bytes, and 10 are left of the one that is allowed.
#[test]
fn a_file_that_takes_a_part() {
    let name = format!("harness-failures-{}", std::process::id());
    let path = std::env::temp_dir().join(name);
    fs::write(&path, [b'-'; 502]).unwrap();
    let file = OpenOptions::new().append(true).open(&path).unwrap();
    let mut command = from_shell("trap '' XFSZ; ulimit -f 1; exec \"$0\"");
    let output = run(command.stdin(input()).stdout(file));
    let written = fs::read(&path).unwrap();
    fs::remove_file(&path).unwrap();
    assert_said(&output, NOT_WRITTEN, "File too large");
    let plan = fs::read(sample(".plan")).unwrap();
    assert!(plan.len() > 10);
    assert_eq!(written[502..], plan[..10]);
}

#[test]
fn a_closed_output() {
    let output = run(from_shell("exec \"$0\" >&-").stdin(input()));
    assert_said(&output, NOT_WRITTEN, "Bad file descriptor");
}

/// What the program does when nobody reads its output any more. It reads its input after the reader is gone.
fn without_a_reader(mut command: Command) -> Output {
    let alone = START.lock().unwrap();
    let mut child = command
        .stdin(Stdio::piped())
        .stdout(Stdio::piped())
        .stderr(Stdio::piped())
        .spawn()
        .expect("the program starts");
    drop(child.stdout.take());
    drop(alone);
    let mut stdin = child.stdin.take().unwrap();
    stdin.write_all(&fs::read(sample(".in")).unwrap()).unwrap();
    drop(stdin);
    child.wait_with_output().unwrap()
}

/// Programs of the toolchain ignore the signal, so that the write fails as any other.
#[test]
fn a_pipe_without_a_reader() {
    let output = without_a_reader(Command::new(program()));
    assert!(!output.status.success(), "{output:?}");
    assert_said(&output, NOT_WRITTEN, "Broken pipe");
}

#[test]
fn a_pipe_without_a_reader_and_the_signal_ignored() {
    let output = without_a_reader(from_shell("trap '' PIPE; exec \"$0\""));
    assert_said(&output, NOT_WRITTEN, "Broken pipe");
}
