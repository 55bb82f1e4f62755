//! Tests as fuzzing prints them. Whatever was once found wrong stands here.

/// This one and the next were found of sides that are wrong on purpose, in tests/fuzz.rs.
#[test]
fn write_entry_agrees() {
    use harness::call::Call;
    use harness::compare::compare;
    use harness::side::{MODEL, PROVED};
    let call = Call::WriteEntry {
        length: 240,
        epoch: 0,
        index: 0,
        payload: b"\x00\x00\x00".to_vec(),
    };
    compare(&call, 0, &MODEL, &PROVED).unwrap();
}

#[test]
fn checksum_agrees() {
    use harness::call::Call;
    use harness::compare::compare;
    use harness::side::{MODEL, PROVED};
    let call = Call::Checksum {
        bytes: [&[0u8; 257][..]].concat(),
    };
    compare(&call, 0, &MODEL, &PROVED).unwrap();
}

/// A call is printed with as many parts as it takes.
#[test]
fn read_agrees() {
    use harness::call::Call;
    use harness::compare::compare;
    use harness::side::{MODEL, PROVED};
    let call = Call::Read {
        shape: harness::model::Shape {
            n: 3,
            m: 1,
            edition: 1,
            witnesses: 0,
        },
        replica: 1,
        epochs: 1,
        verdicts: 1,
        image: [
            &b"rope  1  1  3  1  607126397\n          1          1  546505443\n"[..],
            &[0u8; 240][..],
        ]
        .concat(),
    };
    compare(&call, 0, &MODEL, &PROVED).unwrap();
}
