//! The built printing program, on its standard input and output.

use std::io::{ErrorKind, Write};
use std::path::{Path, PathBuf};
use std::process::{Command, Stdio};
use std::thread;
use std::time::Duration;

/// The program as the gate builds it.
pub fn program() -> PathBuf {
    let program = Path::new(env!("CARGO_MANIFEST_DIR")).join("../target/bin/ropeplan");
    assert!(
        program.is_file(),
        "{} is missing: run `.ci/build` first",
        program.display()
    );
    program
}

/// What the program prints.
pub fn report(input: &[u8]) -> Vec<u8> {
    report_of_pieces(&[input], Duration::ZERO)
}

/// What the program prints when its input arrives in the given pieces, with a pause after each.
pub fn report_of_pieces(pieces: &[&[u8]], pause: Duration) -> Vec<u8> {
    let mut child = Command::new(program())
        .stdin(Stdio::piped())
        .stdout(Stdio::piped())
        .stderr(Stdio::piped())
        .spawn()
        .expect("the program starts");
    let mut stdin = child.stdin.take().unwrap();
    for piece in pieces {
        match stdin.write_all(piece).and_then(|()| stdin.flush()) {
            Ok(()) => {}
            // The program may stop reading once it has more than it may accept.
            Err(error) if error.kind() == ErrorKind::BrokenPipe => break,
            Err(error) => panic!("cannot write the input: {error}"),
        }
        thread::sleep(pause);
    }
    drop(stdin);
    let output = child.wait_with_output().unwrap();
    assert!(output.status.success(), "{output:?}");
    assert!(output.stderr.is_empty(), "{output:?}");
    output.stdout
}
