//! The clusters whose pages are tested, and what their grids have to show.

use std::path::PathBuf;

use crate::fleet::Fleet;

/// A page, and what its grid has to show.
pub struct Example {
    /// Its name.
    pub name: &'static str,
    /// The page.
    pub page: PathBuf,
    /// What was printed beside it.
    pub said: String,
    /// How many columns of cabinets.
    pub replicas: usize,
    /// How many rows of single slots.
    pub rows: usize,
    /// The leader.
    pub leader: usize,
    /// The fetches: slot and donor.
    pub fetches: &'static [(usize, usize)],
    /// The slots that wait.
    pub waits: &'static [usize],
    /// The slots that are cut.
    pub cuts: &'static [usize],
    /// The slots whose record is written anew.
    pub anew: &'static [usize],
}

/// All examples, under a folder of this name.
pub fn all(folder: &str) -> Vec<Example> {
    [
        fetch, waiting, cut, full, later, latest, witness, payloads, kinds, empty,
    ]
    .into_iter()
    .map(|example| example(folder))
    .collect()
}

fn example(
    name: &'static str,
    fleet: &Fleet,
    leader: usize,
    off: &[usize],
    rows: usize,
) -> Example {
    let (page, said) = fleet.page(leader, off);
    Example {
        name,
        page,
        said,
        replicas: fleet.replicas,
        rows,
        leader,
        fetches: &[],
        waits: &[],
        cuts: &[],
        anew: &[],
    }
}

fn metres(fleet: &Fleet, replicas: &[usize], epoch: u32, numbers: std::ops::RangeInclusive<u32>) {
    for number in numbers {
        let reading = format!("metre {}, wire broken", 1200 + number);
        fleet.append(&replicas[..1], epoch, reading.as_bytes());
        for &replica in &replicas[1..] {
            fleet.append(&[replica], epoch, reading.as_bytes());
        }
    }
}

/// The lead fetches place 2 and writes the line of place 3 anew.
pub fn fetch(folder: &str) -> Example {
    let fleet = Fleet::new(&format!("{folder}-fetch"), 3, 4, &[]);
    metres(&fleet, &[1, 2, 3], 1, 1..=4);
    fleet.spoil_entry(1, 2);
    fleet.spoil_entry(2, 2);
    fleet.spoil_record(1, 3);
    Example {
        fetches: &[(2, 3)],
        anew: &[3],
        ..example("fetch", &fleet, 1, &[], 4)
    }
}

/// Too few answer about place 3.
pub fn waiting(folder: &str) -> Example {
    let fleet = Fleet::new(&format!("{folder}-waiting"), 5, 16, &[]);
    metres(&fleet, &[1, 2, 3, 4, 5], 1, 1..=2);
    metres(&fleet, &[1, 3, 4], 2, 3..=4);
    fleet.spoil_entry(1, 2);
    fleet.spoil_entry(1, 3);
    fleet.spoil_entry(3, 3);
    Example {
        fetches: &[(2, 2)],
        waits: &[3],
        ..example("waiting", &fleet, 1, &[4, 5], 4)
    }
}

/// Nobody else has place 3, and 4 and 5 go with it. A card is fresh.
fn cut(folder: &str) -> Example {
    let fleet = Fleet::new(&format!("{folder}-cut"), 4, 6, &[]);
    metres(&fleet, &[2, 1, 4], 3, 1..=2);
    metres(&fleet, &[2], 4, 3..=5);
    fleet.spoil_entry(2, 3);
    Example {
        cuts: &[3, 4, 5],
        ..example("cut", &fleet, 2, &[4], 6)
    }
}

/// As much as a page can have to show: 7 cabinets, 64 places, epochs of ten digits.
pub fn full(folder: &str) -> Example {
    let fleet = Fleet::new(&format!("{folder}-full"), 7, 64, &[]);
    metres(&fleet, &[1], 7, 1..=20);
    metres(&fleet, &[1], 123_456, 21..=40);
    metres(&fleet, &[1], u32::MAX, 41..=64);
    fleet.copy(1, &[2, 3, 4, 5, 6, 7]);
    for replica in 1..=6 {
        fleet.spoil_entry(replica, 5);
    }
    for replica in 2..=7 {
        fleet.spoil_entry(replica, 50);
    }
    fleet.spoil_entry(4, 30);
    fleet.spoil_record(4, 31);
    fleet.spoil_entry(4, 64);
    fleet.spoil_header(6);
    Example {
        fetches: &[(5, 7), (30, 1), (50, 1), (64, 1)],
        anew: &[31],
        ..example("full", &fleet, 4, &[], 64)
    }
}

/// A log that begins at 1205.
fn later(folder: &str) -> Example {
    let fleet = Fleet::from(&format!("{folder}-later"), 3, 13, &[], 1205);
    metres(&fleet, &[1, 2, 3], 8, 5..=7);
    fleet.spoil_entry(3, 2);
    Example {
        fetches: &[(2, 1)],
        ..example("later", &fleet, 3, &[], 3)
    }
}

/// The longest numbers of readings, in the narrowest columns.
fn latest(folder: &str) -> Example {
    let fleet = Fleet::from(&format!("{folder}-latest"), 7, 4, &[6], u32::MAX - 10);
    metres(&fleet, &[1, 2, 3, 4, 5, 6, 7], 4_000_000_000, 1..=3);
    fleet.spoil_entry(7, 1);
    Example {
        fetches: &[(1, 1)],
        ..example("latest", &fleet, 7, &[5], 4)
    }
}

/// Two cards and a witness box, whose line keeps place 4 from being cut.
fn witness(folder: &str) -> Example {
    let fleet = Fleet::new(&format!("{folder}-witness"), 3, 8, &[3]);
    metres(&fleet, &[1, 2, 3], 1, 1..=3);
    metres(&fleet, &[1, 3], 2, 4..=4);
    fleet.spoil_entry(1, 2);
    fleet.spoil_entry(1, 4);
    Example {
        fetches: &[(2, 2)],
        waits: &[4],
        ..example("witness", &fleet, 1, &[], 4)
    }
}

/// Readings that are no text, or would be markup.
pub fn payloads(folder: &str) -> Example {
    let fleet = Fleet::new(&format!("{folder}-payloads"), 3, 6, &[]);
    let noise: Vec<u8> = (0..200).map(|at| 128 + (at % 128) as u8).collect();
    let readings: [&[u8]; 6] = [
        b"<script>document.title='taken'</script>",
        b"</td></table><img src=x onerror=alert(1)>&amp;\"'",
        b"\x1b[2J\x07\x00\x01 \r\n\t",
        &noise,
        "\u{202e}turned \u{627}\u{644}\u{639} \u{1f6a0} \u{fc}ber".as_bytes(),
        &[b'W'; 200],
    ];
    for reading in readings {
        fleet.append(&[1, 2, 3], 1, reading);
    }
    fleet.spoil_entry(2, 4);
    Example {
        fetches: &[(4, 1)],
        ..example("payloads", &fleet, 2, &[], 6)
    }
}

/// Every kind of cell.
fn kinds(folder: &str) -> Example {
    let fleet = Fleet::new(&format!("{folder}-kinds"), 6, 12, &[5]);
    metres(&fleet, &[2], 1, 1..=2);
    metres(&fleet, &[1, 3, 4, 5, 6], 1, 1..=1);
    metres(&fleet, &[1, 3, 4, 5], 2, 2..=5);
    fleet.plant_entry(2, 1, 2);
    fleet.renew(2);
    metres(&fleet, &[2], 1, 1..=1);
    metres(&fleet, &[2], 2, 2..=6);
    fleet.plant_entry(2, 3, 6);
    fleet.spoil_entry(1, 5);
    fleet.spoil_record(1, 3);
    fleet.spoil_entry(1, 4);
    fleet.spoil_record(4, 4);
    fleet.spoil_header(6);
    Example {
        fetches: &[(2, 2), (4, 2), (5, 2)],
        anew: &[3],
        ..example("kinds", &fleet, 1, &[], 6)
    }
}

/// Nothing stands anywhere.
fn empty(folder: &str) -> Example {
    let fleet = Fleet::new(&format!("{folder}-empty"), 3, 64, &[]);
    example("empty", &fleet, 1, &[], 0)
}
