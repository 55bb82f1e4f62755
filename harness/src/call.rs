//! One call with everything that it is given.

use std::fmt;

use crate::model::Shape;

/// Bytes that a call is given, or a number of some width.
pub enum Field<'a> {
    Bytes(&'a mut Vec<u8>),
    Word(&'a mut u32),
    Size(&'a mut usize),
    Long(&'a mut u64),
}

/// What stands under a name in a call: a field, or a shape, which is four of them.
enum Given<'a> {
    Field(Field<'a>),
    Shape(&'a mut Shape),
}

macro_rules! given_from {
    ($($type:ty => $case:ident),*) => {
        $(impl<'a> From<&'a mut $type> for Given<'a> {
            fn from(field: &'a mut $type) -> Given<'a> {
                Given::Field(Field::$case(field))
            }
        })*
    };
}

given_from!(Vec<u8> => Bytes, u32 => Word, usize => Size, u64 => Long);

impl<'a> From<&'a mut Shape> for Given<'a> {
    fn from(shape: &'a mut Shape) -> Given<'a> {
        Given::Shape(shape)
    }
}

impl<'a> Given<'a> {
    fn fields(self, name: &'static str) -> Vec<(&'static str, Field<'a>)> {
        match self {
            Given::Field(field) => vec![(name, field)],
            Given::Shape(shape) => vec![
                ("n", Field::Size(&mut shape.n)),
                ("m", Field::Size(&mut shape.m)),
                ("edition", Field::Size(&mut shape.edition)),
                ("witnesses", Field::Word(&mut shape.witnesses)),
            ],
        }
    }
}

/// Says the calls once: the enum, their names, and their fields by name.
macro_rules! calls {
    ($($(#[$meaning:meta])* $name:ident { $($field:ident: $type:ty),* $(,)? })*) => {
        /// A call. Bytes that are only written over are given by their length.
        #[derive(Clone, Debug, PartialEq, Eq)]
        pub enum Call {
            $($(#[$meaning])* $name { $($field: $type),* }),*
        }

        impl Call {
            /// All calls there are.
            pub const NAMES: &'static [&'static str] = &[$(stringify!($name)),*];

            pub fn name(&self) -> &'static str {
                match self {
                    $(Call::$name { .. } => stringify!($name)),*
                }
            }

            fn given(&mut self) -> Vec<(&'static str, Given<'_>)> {
                match self {
                    $(Call::$name { $($field),* } => {
                        vec![$((stringify!($field), Given::from($field))),*]
                    }),*
                }
            }

            /// Everything that is given, a shape by its numbers.
            pub fn fields(&mut self) -> Vec<(&'static str, Field<'_>)> {
                let given = self.given().into_iter();
                given.flat_map(|(name, given)| given.fields(name)).collect()
            }
        }
    };
}

calls! {
    Checksum { bytes: Vec<u8> }
    WriteNumber { width: usize, number: u64 }
    ReadColumn { column: Vec<u8> }
    WriteHeader { length: usize, shape: Shape, replica: usize, first: u32 }
    JudgeHeader { header: Vec<u8>, shape: Shape, replica: usize }
    WriteRecord { length: usize, epoch: u32, index: u32 }
    WriteBlankRecord { length: usize }
    JudgeRecord { record: Vec<u8>, index: u32 }
    WriteEntry { length: usize, epoch: u32, index: u32, payload: Vec<u8> }
    WriteFreshEntry { length: usize }
    JudgeEntry { entry: Vec<u8>, index: u32 }
    Format { length: usize, shape: Shape, replica: usize, first: u32 }
    Append { shape: Shape, replica: usize, epoch: u32, payload: Vec<u8>, image: Vec<u8> }
    /// Of the lent epochs and verdicts only their numbers are given.
    Read { shape: Shape, replica: usize, epochs: usize, verdicts: usize, image: Vec<u8> }
    HasPayload { shape: Shape, replica: usize, slot: usize, image: Vec<u8> }
    Payload { shape: Shape, replica: usize, slot: usize, image: Vec<u8> }
    WitnessAppend { shape: Shape, replica: usize, epoch: u32, image: Vec<u8> }
    WitnessRead { shape: Shape, replica: usize, epochs: usize, image: Vec<u8> }
    /// The plan that is lent has so many slots, and the table so many rows.
    Plan {
        shape: Shape,
        leader: usize,
        present: u32,
        slots: usize,
        rows: usize,
        cluster: Vec<u8>,
    }
    Step { shape: Shape, leader: usize, present: u32, cluster: Vec<u8> }
    Run { shape: Shape, leader: usize, present: u32, budget: u64, cluster: Vec<u8> }
    ImageSize { shape: Shape, replica: usize }
    ClusterSize { shape: Shape }
    ImageAt { shape: Shape, replica: usize }
    RecordAt { shape: Shape, replica: usize, slot: usize }
    EntryAt { shape: Shape, replica: usize, slot: usize }
}

impl Field<'_> {
    /// The number, if it is one.
    pub fn number(&self) -> Option<u64> {
        match self {
            Field::Bytes(_) => None,
            Field::Word(number) => Some(u64::from(**number)),
            Field::Size(number) => Some(**number as u64),
            Field::Long(number) => Some(**number),
        }
    }

    /// Puts another number there; bytes stay as they are.
    pub fn set_number(&mut self, other: u64) {
        match self {
            Field::Bytes(_) => {}
            Field::Word(number) => **number = other as u32,
            Field::Size(number) => **number = other as usize,
            Field::Long(number) => **number = other,
        }
    }
}

/// As an expression of Rust.
impl fmt::Display for Given<'_> {
    fn fmt(&self, f: &mut fmt::Formatter) -> fmt::Result {
        match self {
            Given::Field(Field::Bytes(bytes)) => write!(f, "{}", bytes_text(bytes)),
            Given::Field(Field::Word(number)) => write!(f, "{number}"),
            Given::Field(Field::Size(number)) => write!(f, "{number}"),
            Given::Field(Field::Long(number)) => write!(f, "{number}"),
            Given::Shape(shape) => write!(f, "harness::model::{shape:?}"),
        }
    }
}

/// So many equal bytes are shown by their number.
const LONG: usize = 24;

/// Bytes as an expression of Rust.
fn bytes_text(bytes: &[u8]) -> String {
    let mut parts = Vec::new();
    let mut plain = 0;
    let mut at = 0;
    while at < bytes.len() {
        let equal = bytes[at..].iter().take_while(|&&byte| byte == bytes[at]);
        let end = at + equal.count();
        if end - at >= LONG {
            parts.extend(string_text(&bytes[plain..at]));
            parts.push(format!("&[{}u8; {}][..]", bytes[at], end - at));
            plain = end;
        }
        at = end;
    }
    if parts.is_empty() {
        return format!("b\"{}\".to_vec()", bytes.escape_ascii());
    }
    parts.extend(string_text(&bytes[plain..]));
    format!("[{}].concat()", parts.join(", "))
}

/// A string of bytes as a slice, if there are any.
fn string_text(bytes: &[u8]) -> Option<String> {
    (!bytes.is_empty()).then(|| format!("&b\"{}\"[..]", bytes.escape_ascii()))
}

/// As an expression of Rust.
impl fmt::Display for Call {
    fn fmt(&self, f: &mut fmt::Formatter) -> fmt::Result {
        writeln!(f, "Call::{} {{", self.name())?;
        for (name, given) in self.clone().given() {
            writeln!(f, "    {name}: {given},")?;
        }
        write!(f, "}}")
    }
}

#[cfg(test)]
mod tests {
    use super::*;

    #[test]
    fn equal_bytes_are_shown_by_their_number() {
        assert_eq!(bytes_text(b""), "b\"\".to_vec()");
        assert_eq!(bytes_text(b"a\"\n"), "b\"a\\\"\\n\".to_vec()");
        let long = [&b"ab"[..], &[0; 30], b"c", &[b' '; 24]].concat();
        let text = "[&b\"ab\"[..], &[0u8; 30][..], &b\"c\"[..], &[32u8; 24][..]].concat()";
        assert_eq!(bytes_text(&long), text);
        assert_eq!(bytes_text(&[7; 24]), "[&[7u8; 24][..]].concat()");
    }

    #[test]
    fn a_shape_is_four_numbers_and_is_shown_as_one() {
        let mut call = Call::JudgeHeader {
            header: Vec::new(),
            shape: Shape::edition_2(3, 5).with_witnesses(4),
            replica: 1,
        };
        let names: Vec<&str> = call.fields().into_iter().map(|field| field.0).collect();
        let numbers = ["n", "m", "edition", "witnesses"];
        assert_eq!(names, [&["header"][..], &numbers, &["replica"]].concat());
        let shape = "harness::model::Shape { n: 3, m: 5, edition: 2, witnesses: 4 }";
        assert!(call.to_string().contains(&format!("    shape: {shape},\n")));
    }
}
