//! One call made by two sides: the same answer, the same in everything that was lent, and nothing
//! written outside.

mod make;
mod outcome;

pub use outcome::{Answer, Outcome};

use crate::call::Call;
use crate::generate::Rng;
use crate::side::{Side, MODEL, PROVED};

/// Makes a call by both, over the same old contents, and answers how it went or what differs.
pub fn compare(call: &Call, old: u64, expected: &Side, tried: &Side) -> Result<Outcome, String> {
    let expected = make::make(call, expected, &mut Rng::new(old));
    let tried = make::make(call, tried, &mut Rng::new(old));
    match tried.difference(&expected) {
        None => Ok(expected),
        Some(difference) => Err(format!("{}: {difference}", call.name())),
    }
}

/// Makes a call by the model and the proved code, which agree; else it panics with a test to paste.
pub fn agree(rng: &mut Rng, call: &Call) -> Outcome {
    let old = rng.draw();
    compare(call, old, &MODEL, &PROVED)
        .unwrap_or_else(|difference| panic!("{difference}\n{}", test_text(call, old)))
}

/// A test of this call, as it may be pasted.
pub fn test_text(call: &Call, old: u64) -> String {
    let name = snake_case(call.name());
    let call = call.to_string().replace('\n', "\n    ");
    format!(
        "#[test]\nfn {name}_agrees() {{\n    \
         use harness::call::Call;\n    \
         use harness::compare::compare;\n    \
         use harness::side::{{MODEL, PROVED}};\n    \
         let call = {call};\n    \
         compare(&call, {old}, &MODEL, &PROVED).unwrap();\n}}\n"
    )
}

/// `JudgeRecord` as `judge_record`.
fn snake_case(name: &str) -> String {
    let mut text = String::new();
    for (at, letter) in name.char_indices() {
        if letter.is_uppercase() && at > 0 {
            text.push('_');
        }
        text.extend(letter.to_lowercase());
    }
    text
}

#[cfg(test)]
mod tests {
    use super::*;
    use crate::model::Shape;

    #[test]
    fn a_difference_is_told() {
        let wrong = Side {
            write_blank_record: |record| {
                record[3] ^= 1;
                (PROVED.write_blank_record)(record)
            },
            ..PROVED
        };
        let call = Call::WriteBlankRecord { length: 33 };
        let told = compare(&call, 0, &MODEL, &wrong).unwrap_err();
        assert!(
            told.starts_with("WriteBlankRecord: record[3] is "),
            "{told}"
        );
        assert!(compare(&call, 0, &MODEL, &PROVED).is_ok());
    }

    #[test]
    fn another_answer_is_told() {
        let wrong = Side {
            checksum: |bytes| (PROVED.checksum)(bytes) ^ 1,
            ..PROVED
        };
        let call = Call::Checksum { bytes: Vec::new() };
        let told = compare(&call, 0, &MODEL, &wrong).unwrap_err();
        assert_eq!(told, "Checksum: the answer is Number(0), not Number(1)");
    }

    #[test]
    fn a_byte_outside_is_told() {
        let wrong = Side {
            format: |image, shape, replica, first| {
                // SAFETY: `Guarded` keeps 32 bytes behind the image in the same buffer.
                unsafe { *image.as_mut_ptr().add(image.len()) ^= 1 };
                (PROVED.format)(image, shape, replica, first)
            },
            ..PROVED
        };
        let call = Call::Format {
            length: 10,
            shape: Shape::edition_1(3, 1),
            replica: 1,
            first: 1,
        };
        let told = compare(&call, 0, &MODEL, &wrong).unwrap_err();
        assert_eq!(told, "Format: written outside image, at offset 10");
    }

    #[test]
    fn the_text_of_a_test() {
        let call = Call::JudgeRecord {
            record: b"a\n".to_vec(),
            index: 7,
        };
        let expected = r#"#[test]
fn judge_record_agrees() {
    use harness::call::Call;
    use harness::compare::compare;
    use harness::side::{MODEL, PROVED};
    let call = Call::JudgeRecord {
        record: b"a\n".to_vec(),
        index: 7,
    };
    compare(&call, 5, &MODEL, &PROVED).unwrap();
}
"#;
        assert_eq!(test_text(&call, 5), expected);
    }
}
