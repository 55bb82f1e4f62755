//! The words for people with cards: cabinet, place, line, cell, lead.

use ropelog::{Edition, Refusal, StoreKind, Verdict};

/// A verdict in a few words.
pub fn verdict(verdict: Verdict) -> &'static str {
    match verdict {
        Verdict::Unused => "unused",
        Verdict::Intact => "whole",
        Verdict::RecordLost => "whole, its line is lost",
        Verdict::Corrupt => "damaged",
        Verdict::Ambiguous => "doubtful: damage, or a write cut short",
        Verdict::Partial => "unfinished write",
        Verdict::Stale => "stale: an older reading stands here",
        _ => "a verdict that this program does not know",
    }
}

/// A faulty verdict in one word.
pub fn short(of: Verdict) -> &'static str {
    match of {
        Verdict::Ambiguous => "doubtful",
        Verdict::Stale => "stale",
        of => verdict(of),
    }
}

/// What a store writes.
pub fn kind(kind: StoreKind) -> &'static str {
    match kind {
        StoreKind::Entry => "cell",
        StoreKind::Record => "line",
        StoreKind::BlankRecord => "line blanked",
    }
}

/// A refusal: its number, what it means and what to do.
pub fn refused(refusal: Refusal) -> String {
    let (meaning, advice) = meaning(refusal);
    format!(
        "refused by {}: {meaning}.\nWhat to do: {advice}.",
        refusal.number()
    )
}

/// What a refusal means, and what to do about it.
pub fn meaning(refusal: Refusal) -> (&'static str, &'static str) {
    match refusal {
        Refusal::SlotCount => ("a card has 1 to 64 places", "correct the number of places"),
        Refusal::ReplicaCount => (
            "a fleet has 3 to 7 cabinets, numbered from 1, and edition 1 or 2",
            "correct the numbers",
        ),
        Refusal::BufferLength => (
            "the image has the wrong length",
            "read the card again, whole; never fill a short copy up and never cut a long one",
        ),
        Refusal::Header => (
            "the first line is not the one that is written for this cabinet and these numbers",
            "see whether it is another cabinet's card. If the line is damaged leave the card as it \
             is: it counts as off, and the others can be mended without it. Never format it",
        ),
        Refusal::UsedAfterBlank => (
            "a used place stands behind an empty line, so the card cannot be trusted",
            "leave the card as it is: it counts as off, and the others can be mended without it",
        ),
        Refusal::BothLost => (
            "line and cell of one place are both lost; on a witness box, a line is",
            "leave the card as it is: it counts as off, and the others can be mended without it. \
             A witness box is formatted anew once the others are recovered, and not before: if \
             they wait, stop there and format nothing",
        ),
        Refusal::EpochFalls => (
            "the epoch of a place is below an earlier one's",
            "leave the card as it is: it counts as off. Look for a writer that used an old epoch",
        ),
        Refusal::AppendEpoch => (
            "the epoch is 0 or below the last one on the card",
            "take a new epoch, above the last one that `rope show` prints",
        ),
        Refusal::AppendPayload => (
            "a reading has at most 200 bytes",
            "store it in parts",
        ),
        Refusal::AppendFull => (
            "every place is used",
            "the log is full: keep its readings elsewhere and write the cards anew",
        ),
        Refusal::Present => (
            "a cabinet is named that the fleet does not have",
            "correct the number",
        ),
        Refusal::Leader => (
            "the lead is no cabinet of the fleet, is off, is a witness box, or its card is refused",
            "show the lead's card to see why, or choose another lead",
        ),
        Refusal::LentLength => ("a lent buffer has the wrong length", "report this program"),
        Refusal::CommandLine => (
            "the first line of the input is not well formed",
            "correct it",
        ),
        Refusal::FirstIndex => (
            "a log cannot begin with this number",
            "take 1; only in edition 2 a log may begin later, and its last number is at most 4294967295",
        ),
        Refusal::FirstDiffers => (
            "the log of a card begins with another number than the lead's",
            "cards are being written anew: leave those out, with --off, until all begin with the same",
        ),
        Refusal::Witnesses => (
            "a witness box is named that the fleet does not have",
            "correct the number",
        ),
        _ => ("a refusal that this program does not know", "report this program"),
    }
}

/// Cabinets in a sentence: "cabinet 2", "cabinets 2 and 3", "cabinets 2, 3 and 4".
pub fn cabinets(numbers: &[usize]) -> String {
    let word = if numbers.len() == 1 {
        "cabinet"
    } else {
        "cabinets"
    };
    format!("{word} {}", listed(numbers))
}

/// "2", "2 and 3", "2, 3 and 4".
pub fn listed(numbers: &[usize]) -> String {
    let words: Vec<String> = numbers.iter().map(usize::to_string).collect();
    match words.split_last() {
        None => "none".to_string(),
        Some((last, [])) => last.clone(),
        Some((last, before)) => format!("{} and {last}", before.join(", ")),
    }
}

/// "1 place", "3 places".
pub fn count(number: usize, word: &str) -> String {
    let ending = if number == 1 { "" } else { "s" };
    format!("{number} {word}{ending}")
}

/// "edition 2, first 1205": how the image is laid out, and the number of its first reading.
pub fn edition(edition: Edition, first: u32) -> String {
    format!("edition {}, first {first}", edition.number())
}

/// The most characters that are shown of a reading.
const SHOWN: usize = 48;

/// A readable piece of a reading: what a terminal could take for a command, and bytes that are no
/// text, are spelt out.
pub fn piece(payload: &[u8]) -> String {
    let mut text = String::new();
    for chunk in payload.utf8_chunks() {
        for character in chunk.valid().chars() {
            if character.is_control() || is_invisible(character) || character == '\\' {
                text.extend(character.escape_default());
            } else {
                text.push(character);
            }
        }
        for byte in chunk.invalid() {
            text.push_str(&format!("\\x{byte:02x}"));
        }
    }
    if text.chars().count() <= SHOWN {
        return text;
    }
    let kept: String = text.chars().take(SHOWN - 2).collect();
    kept + ".."
}

/// Marks that turn the direction of the text or have no width would hide what stands there.
fn is_invisible(character: char) -> bool {
    matches!(character, '\u{200b}'..='\u{200f}' | '\u{2028}'..='\u{202e}' | '\u{2060}'..='\u{206f}' | '\u{feff}' | '\u{ad}')
}
