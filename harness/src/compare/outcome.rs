//! What a call answered, and how it left everything that it was lent.

use std::fmt::Debug;

use crate::guarded::{Guarded, GuardedNumber, Number};
use crate::proved::clusters::ReplicaRow;
use crate::proved::{Column, Entry, Header, Measure, Record, Written};

/// What a call answers.
#[derive(Clone, Copy, Debug, PartialEq, Eq)]
pub enum Answer {
    Nothing,
    Number(u32),
    /// 0, or a refusal's number.
    Refusal(u8),
    Header(Header),
    Written(Written),
    Column(Column),
    Record(Record),
    Entry(Entry),
    Measure(Measure),
}

impl Answer {
    /// Its place among the answers of its kind.
    pub fn code(self) -> usize {
        match self {
            Answer::Nothing => 0,
            Answer::Number(number) => number as usize,
            Answer::Refusal(number) => usize::from(number),
            Answer::Header(header) => header as usize,
            Answer::Written(written) => written as usize,
            Answer::Column(column) => column as usize,
            Answer::Record(record) => record as usize,
            Answer::Entry(entry) => entry as usize,
            Answer::Measure(measure) => usize::from(measure.refusal),
        }
    }
}

/// Something that was lent, as it was left.
#[derive(Debug)]
enum Left {
    Bytes(Guarded),
    Words(Guarded<u32>),
    Rows(Guarded<ReplicaRow>),
    Number(u64),
}

#[derive(Debug)]
pub struct Outcome {
    pub answer: Answer,
    left: Vec<(&'static str, Left)>,
    /// The first thing that was written outside what was lent.
    outside: Option<String>,
}

impl Outcome {
    pub fn new(answer: Answer) -> Outcome {
        Outcome {
            answer,
            left: Vec::with_capacity(5),
            outside: None,
        }
    }

    pub fn with_bytes(mut self, name: &'static str, bytes: Guarded) -> Outcome {
        self.check_guards(name, bytes.broken_guard());
        self.left.push((name, Left::Bytes(bytes)));
        self
    }

    pub fn with_words(mut self, name: &'static str, words: Guarded<u32>) -> Outcome {
        self.check_guards(name, words.broken_guard());
        self.left.push((name, Left::Words(words)));
        self
    }

    pub fn with_rows(mut self, name: &'static str, rows: Guarded<ReplicaRow>) -> Outcome {
        self.check_guards(name, rows.broken_guard());
        self.left.push((name, Left::Rows(rows)));
        self
    }

    pub fn with_number<T: Number>(
        mut self,
        name: &'static str,
        number: GuardedNumber<T>,
    ) -> Outcome {
        self.check_guards(name, number.broken_guard());
        self.left.push((name, Left::Number(number.number().wide())));
        self
    }

    fn check_guards(&mut self, name: &str, broken: Option<isize>) {
        if let (None, Some(at)) = (&self.outside, broken) {
            self.outside = Some(format!("written outside {name}, at offset {at}"));
        }
    }

    /// The lent bytes of that name.
    pub fn bytes(&self, name: &str) -> &[u8] {
        match self.left(name) {
            Left::Bytes(bytes) => bytes.part(),
            _ => panic!("{name} is not bytes"),
        }
    }

    /// The lent table of that name.
    pub fn rows(&self, name: &str) -> &[ReplicaRow] {
        match self.left(name) {
            Left::Rows(rows) => rows.part(),
            _ => panic!("{name} is not a table"),
        }
    }

    /// The lent number of that name.
    pub fn number(&self, name: &str) -> u64 {
        match self.left(name) {
            Left::Number(number) => *number,
            _ => panic!("{name} is not a number"),
        }
    }

    fn left(&self, name: &str) -> &Left {
        let found = self.left.iter().find(|(other, _)| *other == name);
        &found.unwrap_or_else(|| panic!("no {name} was lent")).1
    }

    /// The first thing in which this outcome is not the expected one.
    pub fn difference(&self, expected: &Outcome) -> Option<String> {
        if let Some(outside) = self.outside.as_ref().or(expected.outside.as_ref()) {
            return Some(outside.clone());
        }
        if self.answer != expected.answer {
            let (found, expected) = (self.answer, expected.answer);
            return Some(format!("the answer is {found:?}, not {expected:?}"));
        }
        let pairs = self.left.iter().zip(&expected.left);
        pairs
            .map(|((name, found), (_, expected))| difference(name, found, expected))
            .find_map(|difference| difference)
    }
}

fn difference(name: &str, found: &Left, expected: &Left) -> Option<String> {
    match (found, expected) {
        (Left::Bytes(found), Left::Bytes(expected)) => {
            first_difference(name, found.part(), expected.part())
        }
        (Left::Words(found), Left::Words(expected)) => {
            first_difference(name, found.part(), expected.part())
        }
        (Left::Rows(found), Left::Rows(expected)) => {
            first_difference(name, found.part(), expected.part())
        }
        (Left::Number(found), Left::Number(expected)) => {
            (found != expected).then(|| format!("{name} is {found}, not {expected}"))
        }
        _ => Some(format!("{name} is lent otherwise")),
    }
}

/// Equal slices are compared as a whole.
fn first_difference<T: PartialEq + Debug>(
    name: &str,
    found: &[T],
    expected: &[T],
) -> Option<String> {
    if found == expected {
        return None;
    }
    let mut pairs = found.iter().zip(expected);
    let at = pairs.position(|(found, expected)| found != expected)?;
    let (found, expected) = (&found[at], &expected[at]);
    Some(format!("{name}[{at}] is {found:?}, not {expected:?}"))
}
