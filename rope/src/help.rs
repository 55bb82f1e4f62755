//! The help texts.

use std::ffi::OsString;

use crate::args::usage;
use crate::outcome::Failure;

const TEXTS: [(&str, &str); 5] = [
    ("show", include_str!("../help/show.txt")),
    ("plan", include_str!("../help/plan.txt")),
    ("recover", include_str!("../help/recover.txt")),
    ("append", include_str!("../help/append.txt")),
    ("format", include_str!("../help/format.txt")),
];
const ALL: &str = include_str!("../help/rope.txt");
const VERSION: &str = concat!("rope ", env!("CARGO_PKG_VERSION"), "\n");

/// The text that is asked for, if one is: `rope --help`, `rope help plan`, `rope plan --help`, `rope --version`.
pub fn asked(name: &str, rest: &[OsString]) -> Option<Result<String, Failure>> {
    let about = |name: &str| {
        let found = TEXTS.iter().find(|(command, _)| *command == name);
        found.map(|(_, text)| text.to_string())
    };
    match name {
        "--version" | "-V" => Some(Ok(VERSION.to_string())),
        "--help" | "-h" | "help" => Some(match rest.first() {
            None => Ok(ALL.to_string()),
            Some(command) => match about(&command.to_string_lossy()) {
                Some(text) => Ok(text),
                None => usage(format!("there is no command {}", command.to_string_lossy())),
            },
        }),
        name => {
            let behind = rest.iter().take_while(|argument| *argument != "--");
            let is_asked = behind
                .into_iter()
                .any(|argument| argument == "--help" || argument == "-h");
            is_asked.then(|| about(name).map(Ok)).flatten()
        }
    }
}
