//! Command lines: options by name, and the cards.

use std::ffi::OsString;
use std::os::unix::ffi::{OsStrExt, OsStringExt};
use std::path::PathBuf;

use ropelog::{Edition, MAX_REPLICAS};

use crate::outcome::Failure;

/// What follows the name of an option.
#[derive(Clone, Copy, PartialEq, Eq)]
pub enum Takes {
    /// Nothing.
    Nothing,
    /// One argument.
    One,
    /// One or more numbers, as `4 5` or `4,5`.
    Numbers,
}

/// The options that a command has, without the dashes.
pub type Options = &'static [(&'static str, Takes)];

/// The options that say whose card one card is.
pub const ONE_CARD: Options = &[
    ("cabinet", Takes::One),
    ("of", Takes::One),
    ("places", Takes::One),
    ("edition", Takes::One),
    ("first", Takes::One),
    ("witness", Takes::Nothing),
];

/// A card file, with its cabinet if `C=FILE` names it.
#[derive(Clone, Debug)]
pub struct CardName {
    /// The cabinet that the command line gives.
    pub cabinet: Option<usize>,
    /// The file.
    pub path: PathBuf,
}

/// A command line that was taken apart.
pub struct Line {
    given: Vec<(&'static str, Vec<OsString>)>,
    names: Vec<OsString>,
}

impl Line {
    /// Takes the arguments behind a command's name apart. Behind `--` all are cards.
    pub fn parse(arguments: &[OsString], options: &[Options]) -> Result<Line, Failure> {
        let mut line = Line {
            given: Vec::new(),
            names: Vec::new(),
        };
        let mut rest = arguments.iter();
        while let Some(argument) = rest.next() {
            let bytes = argument.as_bytes();
            if bytes == b"--" {
                line.names.extend(rest.cloned());
                break;
            }
            if !bytes.starts_with(b"-") || bytes == b"-" {
                line.names.push(argument.clone());
                continue;
            }
            let (name, attached) = match bytes.iter().position(|&byte| byte == b'=') {
                Some(at) => (
                    &bytes[..at],
                    Some(OsString::from_vec(bytes[at + 1..].to_vec())),
                ),
                None => (bytes, None),
            };
            let found = options
                .iter()
                .flat_map(|options| options.iter())
                .find(|(option, _)| name.strip_prefix(b"--") == Some(option.as_bytes()));
            let Some(&(option, takes)) = found else {
                return usage(format!(
                    "there is no option {}{}",
                    String::from_utf8_lossy(name),
                    known(options)
                ));
            };
            let values = values(option, takes, attached, &mut rest)?;
            line.given.push((option, values));
        }
        Ok(line)
    }

    /// Whether an option is there that takes nothing.
    pub fn has(&self, option: &str) -> bool {
        self.given.iter().any(|(name, _)| *name == option)
    }

    /// The argument of an option, which stands once at most.
    pub fn value(&self, option: &str) -> Result<Option<&OsString>, Failure> {
        let mut all = self.given.iter().filter(|(name, _)| *name == option);
        let first = all.next();
        if all.next().is_some() {
            return usage(format!("--{option} stands twice"));
        }
        Ok(first.and_then(|(_, values)| values.first()))
    }

    /// A number of an option, within bounds.
    pub fn number(&self, option: &str, least: u64, most: u64) -> Result<Option<u64>, Failure> {
        let Some(value) = self.value(option)? else {
            return Ok(None);
        };
        match plain_number(value.as_bytes()) {
            Some(number) if (least..=most).contains(&number) => Ok(Some(number)),
            _ => usage(format!(
                "--{option} takes a number from {least} to {most}, not {}",
                value.to_string_lossy()
            )),
        }
    }

    /// The cabinets that an option lists, each once.
    pub fn cabinets(&self, option: &str) -> Result<Vec<usize>, Failure> {
        let mut found = Vec::new();
        let all = self.given.iter().filter(|(name, _)| *name == option);
        for value in all.flat_map(|(_, values)| values) {
            for word in value.as_bytes().split(|&byte| byte == b',') {
                match plain_number(word) {
                    Some(number) if (1..=MAX_REPLICAS as u64).contains(&number) => {
                        found.push(number as usize);
                    }
                    _ => {
                        return usage(format!(
                            "--{option} takes numbers of cabinets, 1 to {MAX_REPLICAS}, not {}",
                            String::from_utf8_lossy(word)
                        ))
                    }
                }
            }
        }
        found.sort_unstable();
        found.dedup();
        Ok(found)
    }

    /// The edition, if it is given.
    pub fn edition(&self) -> Result<Option<Edition>, Failure> {
        Ok(self.number("edition", 1, 2)?.map(|number| match number {
            1 => Edition::One,
            _ => Edition::Two,
        }))
    }

    /// The cards, at least one.
    pub fn cards(&self) -> Result<Vec<CardName>, Failure> {
        if self.names.is_empty() {
            return usage("expected the files of cards".to_string());
        }
        self.names.iter().map(card_name).collect()
    }

    /// The one card.
    pub fn card(&self) -> Result<CardName, Failure> {
        match &self.names[..] {
            [name] => card_name(name),
            names => usage(format!("expected one card, not {}", names.len())),
        }
    }
}

/// What stands behind an option: attached by `=`, or the arguments that follow.
fn values(
    option: &str,
    takes: Takes,
    attached: Option<OsString>,
    rest: &mut std::slice::Iter<'_, OsString>,
) -> Result<Vec<OsString>, Failure> {
    match (takes, attached) {
        (Takes::Nothing, Some(_)) => usage(format!("--{option} takes nothing behind it")),
        (Takes::Nothing, None) => Ok(Vec::new()),
        (_, Some(value)) => Ok(vec![value]),
        (Takes::One, None) => match rest.next() {
            Some(value) => Ok(vec![value.clone()]),
            None => usage(format!("--{option} expects something behind it")),
        },
        (Takes::Numbers, None) => {
            let found: Vec<OsString> = rest
                .as_slice()
                .iter()
                .take_while(|argument| is_list(argument.as_bytes()))
                .cloned()
                .collect();
            if found.is_empty() {
                return usage(format!("--{option} expects numbers of cabinets behind it"));
            }
            let behind = rest.as_slice();
            *rest = behind[found.len()..].iter();
            Ok(found)
        }
    }
}

/// Digits and commas: no card is taken for a number by mistake, since `./5` names a file.
fn is_list(bytes: &[u8]) -> bool {
    !bytes.is_empty()
        && bytes
            .iter()
            .all(|byte| byte.is_ascii_digit() || *byte == b',')
}

/// A number in decimal digits alone.
fn plain_number(bytes: &[u8]) -> Option<u64> {
    if bytes.is_empty() || !bytes.iter().all(u8::is_ascii_digit) {
        return None;
    }
    std::str::from_utf8(bytes).ok()?.parse().ok()
}

/// `C=FILE` gives the cabinet, any other name is a file alone.
fn card_name(name: &OsString) -> Result<CardName, Failure> {
    let bytes = name.as_bytes();
    let split = bytes.iter().position(|&byte| byte == b'=');
    let cabinet = split.and_then(|at| plain_number(&bytes[..at]));
    let (Some(at), Some(cabinet)) = (split, cabinet) else {
        return Ok(CardName {
            cabinet: None,
            path: PathBuf::from(name),
        });
    };
    if !(1..=MAX_REPLICAS as u64).contains(&cabinet) {
        return usage(format!(
            "{}: a cabinet is 1 to {MAX_REPLICAS}",
            name.to_string_lossy()
        ));
    }
    Ok(CardName {
        cabinet: Some(cabinet as usize),
        path: PathBuf::from(OsString::from_vec(bytes[at + 1..].to_vec())),
    })
}

/// The options that there are, for whoever named another.
fn known(options: &[Options]) -> String {
    let all = options.iter().flat_map(|options| options.iter());
    let names: Vec<String> = all.map(|(name, _)| format!("--{name}")).collect();
    format!("; expected one of {}", names.join(", "))
}

pub fn usage<T>(text: String) -> Result<T, Failure> {
    Err(Failure::Usage(text))
}
