//! The calls about one image.

use super::{old_bytes, Call, Guarded, Outcome, Rng, Side};
use crate::compare::Answer;
use crate::guarded::GuardedNumber;

pub fn make(call: &Call, side: &Side, rng: &mut Rng) -> Option<Outcome> {
    let outcome = match *call {
        Call::Format {
            length,
            shape,
            replica,
            first,
        } => {
            let mut image = old_bytes(rng, length);
            let answer = (side.format)(image.part_mut(), shape, replica, first);
            Outcome::new(Answer::Refusal(answer)).with_bytes("image", image)
        }
        Call::Append { .. } => append(call, side, rng)?,
        Call::Read { .. } => read(call, side, rng)?,
        Call::HasPayload {
            ref image,
            shape,
            replica,
            slot,
        } => {
            let image = Guarded::new(rng, image);
            let mut has = GuardedNumber::drawn(rng);
            let answer = (side.has_payload)(image.part(), shape, replica, slot, has.number_mut());
            Outcome::new(Answer::Refusal(answer))
                .with_bytes("image", image)
                .with_number("has", has)
        }
        Call::Payload { .. } => payload(call, side, rng)?,
        Call::WitnessAppend { .. } => witness_append(call, side, rng)?,
        Call::WitnessRead { .. } => witness_read(call, side, rng)?,
        _ => return None,
    };
    Some(outcome)
}

fn append(call: &Call, side: &Side, rng: &mut Rng) -> Option<Outcome> {
    let &Call::Append {
        shape,
        replica,
        epoch,
        ref payload,
        ref image,
    } = call
    else {
        return None;
    };
    let mut image = Guarded::new(rng, image);
    let payload = Guarded::new(rng, payload);
    let mut slot = GuardedNumber::drawn(rng);
    let answer = (side.append)(
        image.part_mut(),
        shape,
        replica,
        epoch,
        payload.part(),
        slot.number_mut(),
    );
    let outcome = Outcome::new(Answer::Refusal(answer))
        .with_bytes("image", image)
        .with_bytes("payload", payload)
        .with_number("slot", slot);
    Some(outcome)
}

/// So many lent words, of any old contents.
fn old_words(rng: &mut Rng, length: usize) -> Guarded<u32> {
    let old: Vec<u32> = (0..length).map(|_| rng.draw() as u32).collect();
    Guarded::new(rng, &old)
}

fn read(call: &Call, side: &Side, rng: &mut Rng) -> Option<Outcome> {
    let &Call::Read {
        shape,
        replica,
        epochs,
        verdicts,
        ref image,
    } = call
    else {
        return None;
    };
    let image = Guarded::new(rng, image);
    let mut epochs = old_words(rng, epochs);
    let mut verdicts = old_bytes(rng, verdicts);
    let (mut used, mut first) = (GuardedNumber::drawn(rng), GuardedNumber::drawn(rng));
    let answer = (side.read)(
        image.part(),
        shape,
        replica,
        epochs.part_mut(),
        verdicts.part_mut(),
        used.number_mut(),
        first.number_mut(),
    );
    let outcome = Outcome::new(Answer::Refusal(answer))
        .with_bytes("image", image)
        .with_words("epochs", epochs)
        .with_bytes("verdicts", verdicts)
        .with_number("used", used)
        .with_number("first", first);
    Some(outcome)
}

fn payload(call: &Call, side: &Side, rng: &mut Rng) -> Option<Outcome> {
    let &Call::Payload {
        shape,
        replica,
        slot,
        ref image,
    } = call
    else {
        return None;
    };
    let image = Guarded::new(rng, image);
    let (mut at, mut size) = (GuardedNumber::drawn(rng), GuardedNumber::drawn(rng));
    let (lent_at, lent_size) = (at.number_mut(), size.number_mut());
    (side.payload)(image.part(), shape, replica, slot, lent_at, lent_size);
    let outcome = Outcome::new(Answer::Nothing)
        .with_bytes("image", image)
        .with_number("at", at)
        .with_number("size", size);
    Some(outcome)
}

fn witness_append(call: &Call, side: &Side, rng: &mut Rng) -> Option<Outcome> {
    let &Call::WitnessAppend {
        shape,
        replica,
        epoch,
        ref image,
    } = call
    else {
        return None;
    };
    let mut image = Guarded::new(rng, image);
    let mut slot = GuardedNumber::drawn(rng);
    let (lent, lent_slot) = (image.part_mut(), slot.number_mut());
    let answer = (side.witness_append)(lent, shape, replica, epoch, lent_slot);
    let outcome = Outcome::new(Answer::Refusal(answer))
        .with_bytes("image", image)
        .with_number("slot", slot);
    Some(outcome)
}

fn witness_read(call: &Call, side: &Side, rng: &mut Rng) -> Option<Outcome> {
    let &Call::WitnessRead {
        shape,
        replica,
        epochs,
        ref image,
    } = call
    else {
        return None;
    };
    let image = Guarded::new(rng, image);
    let mut epochs = old_words(rng, epochs);
    let (mut used, mut first) = (GuardedNumber::drawn(rng), GuardedNumber::drawn(rng));
    let answer = (side.witness_read)(
        image.part(),
        shape,
        replica,
        epochs.part_mut(),
        used.number_mut(),
        first.number_mut(),
    );
    let outcome = Outcome::new(Answer::Refusal(answer))
        .with_bytes("image", image)
        .with_words("epochs", epochs)
        .with_number("used", used)
        .with_number("first", first);
    Some(outcome)
}
