//! Reading, payloads and appending on images of any bytes, cards' and witnesses', and printing.

use super::ensure;
use crate::code::Code;
use crate::generate::{noise_image, noise_report_input, ImageCase, Rng};
use crate::model::{
    entry_offset, index_of, record_offset, Refusal, Verdict, ENTRY_LEN, RECORD_LEN,
};

/// How often each refusal came, by its number; 0 counts what was accepted.
pub type Refusals = [u64; 23];

#[derive(Clone, Debug, Default, PartialEq, Eq)]
pub struct ImageCoverage {
    pub read: Refusals,
    pub append: Refusals,
    pub verdicts: [u64; 7],
    /// What was read of each edition.
    pub editions: [u64; 2],
    /// Of these, logs that do not begin at 1.
    pub later: u64,
    /// The same calls on a witness.
    pub witness_read: Refusals,
    pub witness_append: Refusals,
}

/// One generated image.
pub fn check_image(rng: &mut Rng, code: Code, coverage: &mut ImageCoverage) -> Result<(), String> {
    let case = noise_image(rng);
    check_read(rng, code, &case, coverage)?;
    check_append(rng, code, &case, coverage)?;
    check_witness_read(rng, code, &case, coverage)?;
    check_witness_append(rng, code, &case, coverage)?;
    check_kind(code, &case)
}

fn number<T>(answer: &Result<T, Refusal>) -> usize {
    match answer {
        Ok(_) => 0,
        Err(refusal) => usize::from(refusal.number()),
    }
}

/// Mostly m.
fn some_lent(rng: &mut Rng, m: usize) -> usize {
    if rng.chance(5) {
        rng.below(9)
    } else {
        m.min(100)
    }
}

fn check_read(
    rng: &mut Rng,
    code: Code,
    case: &ImageCase,
    coverage: &mut ImageCoverage,
) -> Result<(), String> {
    let &ImageCase {
        shape,
        replica,
        ref image,
    } = case;
    let m = shape.m;
    let lent = some_lent(rng, m);
    let mut epochs = vec![99; lent];
    let mut verdicts = vec![99; lent];
    let answer = code.read(image, shape, replica, &mut epochs, &mut verdicts);
    coverage.read[number(&answer)] += 1;
    let untouched = epochs.iter().all(|&epoch| epoch == 99) && verdicts.iter().all(|&v| v == 99);
    ensure(answer.is_ok() || untouched, || {
        "a refused read filled what it was lent".into()
    })?;
    for slot in [0, 1, m / 2, m, m.wrapping_add(1)] {
        let has = code.has_payload(image, shape, replica, slot);
        let part = code.payload(image, shape, replica, slot);
        ensure(has == Ok(true) || part.is_empty(), || {
            format!("slot {slot} has no payload, yet one is given")
        })?;
        let Ok((length, _)) = answer else {
            let lent_only = answer == Err(Refusal::LentLength);
            ensure(lent_only || has.err() == answer.err(), || {
                format!("{answer:?} but {has:?}")
            })?;
            continue;
        };
        let used = (1..=length).contains(&slot);
        let whole = used && (verdicts[slot - 1] == 1 || verdicts[slot - 1] == 2);
        ensure(has == Ok(whole), || format!("slot {slot}: {has:?}"))?;
    }
    if let Ok((_, first)) = answer {
        for &verdict in &verdicts {
            coverage.verdicts[usize::from(verdict)] += 1;
        }
        coverage.editions[shape.edition - 1] += 1;
        coverage.later += u64::from(first != 1);
        ensure(shape.edition == 2 || first == 1, || {
            format!("a log of edition 1 begins at {first}")
        })?;
    }
    Ok(())
}

fn check_append(
    rng: &mut Rng,
    code: Code,
    case: &ImageCase,
    coverage: &mut ImageCoverage,
) -> Result<(), String> {
    let ImageCase { shape, replica, .. } = *case;
    let mut image = case.image.clone();
    let epoch = *rng.pick(&[0, 1, 2, 3, u32::MAX, u32::MAX]);
    let length = *rng.pick(&[0, 1, 7, 199, 200, 200, 201]);
    let bytes = vec![rng.byte(); length];
    let answer = code.append(&mut image, shape, replica, epoch, &bytes);
    coverage.append[number(&answer)] += 1;
    let Ok(slot) = answer else {
        return ensure(image == case.image, || "a refused append wrote".into());
    };
    let mut epochs = vec![0; shape.m];
    let mut verdicts = vec![0; shape.m];
    let before = code.judge_image(&case.image, shape, replica);
    let first = before.map_or(0, |log| log.first);
    let read = code.read(&image, shape, replica, &mut epochs, &mut verdicts);
    ensure(read == Ok((slot, first)), || {
        format!("{read:?} after {slot} of a log from {first} on")
    })?;
    let intact = verdicts[slot - 1] == Verdict::Intact as u8 && epochs[slot - 1] == epoch;
    ensure(intact, || format!("slot {slot} is not intact after append"))?;
    let same = code.payload(&image, shape, replica, slot) == bytes;
    ensure(same, || format!("slot {slot} has another payload"))?;
    // All other bytes are as before.
    for (at, length) in [
        (record_offset(shape, slot), RECORD_LEN),
        (entry_offset(shape, slot), ENTRY_LEN),
    ] {
        let old = &case.image[at..at + length];
        image[at..at + length].copy_from_slice(old);
    }
    ensure(image == case.image, || "append wrote elsewhere".into())
}

fn check_witness_read(
    rng: &mut Rng,
    code: Code,
    case: &ImageCase,
    coverage: &mut ImageCoverage,
) -> Result<(), String> {
    let &ImageCase {
        shape,
        replica,
        ref image,
    } = case;
    let mut epochs = vec![99; some_lent(rng, shape.m)];
    let answer = code.witness_read(image, shape, replica, &mut epochs);
    coverage.witness_read[number(&answer)] += 1;
    let Ok((length, first)) = answer else {
        return ensure(epochs.iter().all(|&epoch| epoch == 99), || {
            "a refused read filled what it was lent".into()
        });
    };
    for (slot, epoch) in (1..).zip(epochs) {
        let record = &image[record_offset(shape, slot)..][..RECORD_LEN];
        let expected = if slot <= length {
            code.write_record(epoch, index_of(first, slot))
        } else {
            code.blank_record()
        };
        let unused = slot > length;
        ensure(record == expected && (epoch == 0) == unused, || {
            format!("slot {slot} of a witness is read as of epoch {epoch}")
        })?;
    }
    Ok(())
}

fn check_witness_append(
    rng: &mut Rng,
    code: Code,
    case: &ImageCase,
    coverage: &mut ImageCoverage,
) -> Result<(), String> {
    let ImageCase { shape, replica, .. } = *case;
    let mut image = case.image.clone();
    let epoch = *rng.pick(&[0, 1, 2, 3, u32::MAX, u32::MAX]);
    let answer = code.witness_append(&mut image, shape, replica, epoch);
    coverage.witness_append[number(&answer)] += 1;
    let Ok(slot) = answer else {
        return ensure(image == case.image, || "a refused append wrote".into());
    };
    let before = code.judge_image(&case.image, shape, replica);
    let before = before.map_err(|refusal| format!("appended to, yet {refusal:?}"))?;
    let after = code.judge_image(&image, shape, replica);
    let mut expected = before.clone();
    expected.length += 1;
    expected.epochs[slot - 1] = epoch;
    let goes_on = slot == before.length + 1 && after.as_ref() == Ok(&expected);
    ensure(goes_on, || format!("{after:?} after {slot} of {before:?}"))?;
    // All other bytes are as before.
    let at = record_offset(shape, slot);
    let old = &case.image[at..at + RECORD_LEN];
    image[at..at + RECORD_LEN].copy_from_slice(old);
    ensure(image == case.image, || "append wrote elsewhere".into())
}

/// A call for the other kind of image is refused by 3, unless it is by 1 or 2.
fn check_kind(code: Code, case: &ImageCase) -> Result<(), String> {
    let &ImageCase {
        shape,
        replica,
        ref image,
    } = case;
    let refusal = if shape.is_witness(replica) {
        code.has_payload(image, shape, replica, 1).err()
    } else {
        code.witness_read(image, shape, replica, &mut []).err()
    };
    let number = refusal.map_or(0, Refusal::number);
    ensure((1..=3).contains(&number), || {
        format!("a call of the wrong kind is answered {number}")
    })
}

/// One generated input of the printing program.
pub fn check_report(rng: &mut Rng, code: Code, refusals: &mut Refusals) -> Result<(), String> {
    let input = noise_report_input(rng);
    let output = code.report(&input);
    ensure(output.last() == Some(&b'\n'), || {
        "no newline at the end".into()
    })?;
    let refused = output.strip_prefix(b"refused");
    let number = match refused {
        None => 0,
        Some(rest) => {
            let text = String::from_utf8_lossy(rest);
            ensure(rest.len() == 5, || format!("refused{text}"))?;
            text.trim().parse::<usize>().map_err(|_| text.to_string())?
        }
    };
    refusals[number] += 1;
    Ok(())
}
