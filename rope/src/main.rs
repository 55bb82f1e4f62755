//! `rope`: cards in files, shown, planned, and recovered store by store.

mod answers;
mod append;
mod args;
mod card;
mod cluster;
mod format;
mod gather;
mod header;
mod help;
mod intent;
mod numbers;
mod outcome;
mod page;
mod pieces;
mod plan;
mod progress;
mod recover;
mod seat;
mod show;
mod words;
mod work;

use std::ffi::OsString;
use std::io::{self, Write};
use std::process::ExitCode;

use outcome::{exit_code, Failure, Outcome};

fn main() -> ExitCode {
    let arguments: Vec<OsString> = std::env::args_os().skip(1).collect();
    let mut out = io::stdout().lock();
    let mut ended = command(&arguments, &mut out);
    if let Err(error) = out.flush() {
        ended = ended.and(Err(error.into()));
    }
    if let Err(failure) = &ended {
        // Nothing can be told if standard error is closed too; the exit code still tells it.
        let _ = writeln!(io::stderr(), "rope: {failure}{}", hint(failure));
    }
    exit_code(&ended)
}

fn command(arguments: &[OsString], out: &mut impl Write) -> Result<Outcome, Failure> {
    let Some((name, rest)) = arguments.split_first() else {
        return args::usage(
            "expected a command: show, plan, recover, append or format".to_string(),
        );
    };
    let name = name.to_string_lossy();
    if let Some(text) = help::asked(&name, rest) {
        out.write_all(text?.as_bytes())?;
        return Ok(Outcome::Done);
    }
    match &*name {
        "show" => show::command(rest, out),
        "plan" => plan::command(rest, out),
        "recover" => recover::command(rest, out),
        "append" => append::command(rest, out),
        "format" => format::command(rest, out),
        _ => args::usage(format!(
            "there is no command {name}; expected show, plan, recover, append or format"
        )),
    }
}

/// Where to read on, for whoever called the program wrongly.
fn hint(failure: &Failure) -> &'static str {
    match failure {
        Failure::Usage(_) => "\n`rope --help` says how it is called",
        _ => "",
    }
}
