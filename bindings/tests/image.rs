//! The calls about one image, refused ones included.

mod common;

use common::{assert_no_card, epoch, Cluster};
use ropelog::pieces::Header;
use ropelog::{
    append, format, format_from, has_payload, payload, pieces, read, Epoch, Geometry, Refusal,
    Verdict,
};

fn verdicts(cluster: &Cluster, number: usize) -> Vec<Verdict> {
    let replica = cluster.replica(number);
    let log = read(cluster.image(number), cluster.geometry, replica).unwrap();
    log.states().iter().map(|state| state.verdict).collect()
}

#[test]
fn a_fresh_image() {
    let cluster = Cluster::fresh(3, 2);
    let replica = cluster.replica(2);
    let log = read(cluster.image(2), cluster.geometry, replica).unwrap();
    assert_eq!(log.length(), 0);
    assert_eq!(log.states().len(), 2);
    assert_eq!(log.slot(1).unwrap().epoch, None);
    assert_eq!(log.slot(1).unwrap().verdict, Verdict::Unused);
    assert_eq!((log.slot(0), log.slot(3)), (None, None));
    assert_eq!(log.first(), 1);
    let header = pieces::judge_header(&cluster.image(2)[..28], cluster.geometry.shape(), 2);
    assert_eq!(header, Header::Good { first: 1 });
}

#[test]
fn a_log_that_begins_at_7() {
    let mut cluster = Cluster::fresh_from(3, 2, 7);
    let (geometry, replica) = (cluster.geometry, cluster.replica(2));
    assert_eq!(&cluster.image(2)[..27], b"rope  2  2  3  2          7");
    assert_eq!(cluster.append(&[2], 4, b"seven"), 1);
    assert_eq!(cluster.append(&[2], 5, b"eight"), 2);
    let log = read(cluster.image(2), geometry, replica).unwrap();
    assert_eq!((log.length(), log.first()), (2, 7));
    let indexes = [0, 1, 2, 3, usize::MAX].map(|slot| log.index(slot));
    assert_eq!(indexes, [None, Some(7), Some(8), None, None]);
    let states = log.states().iter();
    let expected = [(Some(epoch(4)), 1), (Some(epoch(5)), 1)];
    assert!(states
        .map(|state| (state.epoch, state.verdict.number()))
        .eq(expected));
    assert_eq!(payload(cluster.image(2), geometry, replica, 2), b"eight");
    // No slot has the number of its index.
    for slot in [7, 8] {
        let has = has_payload(cluster.image(2), geometry, replica, slot);
        assert_eq!(has, Ok(false));
    }
    for (slot, index) in [(1, 7), (2, 8)] {
        let record = &cluster.image(2)[geometry.record_range(slot)];
        let record = pieces::judge_record(record.try_into().unwrap(), index);
        let in_epoch = 3 + slot as u32;
        assert_eq!(record, pieces::Record::Good { epoch: in_epoch });
    }
}

/// Neither edition's image has the other's length.
#[test]
fn images_of_the_other_edition() {
    for (mine, other) in [
        (Cluster::fresh(3, 2), Cluster::fresh_from(3, 2, 1)),
        (Cluster::fresh_from(3, 2, 1), Cluster::fresh(3, 2)),
    ] {
        assert_no_card(
            other.image(1),
            mine.geometry,
            mine.replica(1),
            Refusal::BufferLength,
        );
    }
}

/// A header with such a first index is refused though its checksum is right, and a record or entry of
/// another first index is none of its slot's.
#[test]
fn headers_of_another_first_index() {
    let mut cluster = Cluster::fresh_from(3, 2, 7);
    cluster.append(&[1], 4, b"seven");
    let (geometry, replica) = (cluster.geometry, cluster.replica(1));
    for (first, refusal) in [
        (0, Refusal::Header),
        (u32::MAX, Refusal::Header),
        (6, Refusal::BothLost),
        (u32::MAX - 1, Refusal::BothLost),
    ] {
        let header = &mut cluster.image_mut(1)[..geometry.header_len()];
        pieces::write_header(header, geometry.shape(), 1, first).unwrap();
        assert_no_card(cluster.image(1), geometry, replica, refusal);
    }
}

#[test]
fn format_is_refused() {
    let geometry = Geometry::new(3, 2).unwrap();
    let replica = geometry.replica(1).unwrap();
    for length in [
        0,
        geometry.image_len(replica) - 1,
        geometry.image_len(replica) + 1,
    ] {
        let mut image = vec![7; length];
        assert_eq!(
            format(&mut image, geometry, replica),
            Err(Refusal::BufferLength)
        );
        assert!(image.iter().all(|&byte| byte == 7));
    }
    let other = Geometry::new(7, 2).unwrap().replica(7).unwrap();
    let mut image = vec![7; geometry.image_len(replica)];
    assert_eq!(
        format(&mut image, geometry, other),
        Err(Refusal::ReplicaCount)
    );
    assert!(image.iter().all(|&byte| byte == 7));
}

/// 20 in each of its ways, behind 2 and before 3; a last index of 4,294,967,295 is accepted.
#[test]
fn first_indexes() {
    let one = Geometry::new(3, 2).unwrap();
    let two = Geometry::edition_2(3, 2).unwrap();
    let replica = one.replica(1).unwrap();
    let other = Geometry::new(7, 2).unwrap().replica(7).unwrap();
    for (geometry, first) in [
        (one, 0),
        (one, 2),
        (one, u32::MAX),
        (two, 0),
        (two, u32::MAX),
    ] {
        for length in [0, geometry.image_len(replica)] {
            let mut image = vec![7; length];
            let refused = format_from(&mut image, geometry, replica, first);
            assert_eq!(refused, Err(Refusal::FirstIndex));
            let refused = format_from(&mut image, geometry, other, first);
            assert_eq!(refused, Err(Refusal::ReplicaCount));
            assert!(image.iter().all(|&byte| byte == 7));
        }
    }
    for (geometry, first) in [(one, 1), (two, 1), (two, u32::MAX - 1)] {
        let mut image = vec![7; geometry.image_len(replica)];
        format_from(&mut image, geometry, replica, first).unwrap();
        let log = read(&image, geometry, replica).unwrap();
        assert_eq!((log.first(), log.index(2)), (first, Some(first + 1)));
        if first == 1 {
            let mut plain = vec![8; geometry.image_len(replica)];
            format(&mut plain, geometry, replica).unwrap();
            assert_eq!(plain, image);
        }
    }
}

#[test]
fn appended_and_read_back() {
    let mut cluster = Cluster::fresh(5, 64);
    let payloads: Vec<Vec<u8>> = (0..64u8)
        .map(|at| vec![at; usize::from(at) * 3 + 8])
        .collect();
    for (at, payload) in payloads.iter().enumerate() {
        let slot = cluster.append(&[3], at as u32 / 10 + 1, payload);
        assert_eq!(slot, at + 1);
    }
    let (geometry, replica) = (cluster.geometry, cluster.replica(3));
    let log = read(cluster.image(3), geometry, replica).unwrap();
    assert_eq!(log.length(), 64);
    for (at, expected) in payloads.iter().enumerate() {
        let state = log.slot(at + 1).unwrap();
        assert_eq!(state.verdict, Verdict::Intact);
        assert_eq!(state.epoch, Some(epoch(at as u32 / 10 + 1)));
        let found = payload(cluster.image(3), geometry, replica, at + 1);
        assert_eq!(found, expected);
    }
}

#[test]
fn an_empty_payload_is_a_payload() {
    let mut cluster = Cluster::fresh(3, 2);
    cluster.append(&[1], 1, b"");
    let (geometry, replica) = (cluster.geometry, cluster.replica(1));
    let image = cluster.image(1);
    assert_eq!(payload(image, geometry, replica, 1), b"");
    assert_eq!(has_payload(image, geometry, replica, 1), Ok(true));
    for slot in [0, 2, 3, usize::MAX] {
        assert_eq!(payload(image, geometry, replica, slot), b"");
        assert_eq!(has_payload(image, geometry, replica, slot), Ok(false));
    }
}

/// An entry of epoch 1 beside a record of epoch 2: before the last used slot and at it.
#[test]
fn an_entry_of_another_epoch_is_stale() {
    let mut cluster = Cluster::fresh(3, 3);
    for text in [b"one", b"two"] {
        cluster.append(&[1], 2, text);
    }
    for slot in [1, 2] {
        let range = cluster.geometry.entry_range(slot);
        let entry = &mut cluster.image_mut(1)[range];
        let entry = entry.try_into().expect("it has 240 bytes");
        pieces::write_entry(entry, 1, slot as u32, b"old").unwrap();
    }
    let expected = [Verdict::Stale, Verdict::Stale, Verdict::Unused];
    assert_eq!(verdicts(&cluster, 1), expected);
    let (geometry, replica) = (cluster.geometry, cluster.replica(1));
    for slot in [1, 2] {
        let image = cluster.image(1);
        assert_eq!(has_payload(image, geometry, replica, slot), Ok(false));
        assert_eq!(payload(image, geometry, replica, slot), b"");
    }
}

#[test]
fn verdicts_of_damage() {
    let mut cluster = Cluster::fresh(3, 4);
    for text in [b"one", b"two", b"six"] {
        cluster.append(&[1], 1, text);
    }
    cluster.spoil_entry(1, 1);
    cluster.spoil_record(1, 2);
    cluster.spoil_entry(1, 3);
    let range = cluster.geometry.entry_range(4);
    cluster.image_mut(1)[range][100] = b'#';
    let expected = [
        Verdict::Corrupt,
        Verdict::RecordLost,
        Verdict::Ambiguous,
        Verdict::Partial,
    ];
    assert_eq!(verdicts(&cluster, 1), expected);
    let (geometry, replica) = (cluster.geometry, cluster.replica(1));
    for (slot, expected) in [(1, &b""[..]), (2, b"two"), (3, b""), (4, b"")] {
        let image = cluster.image(1);
        assert_eq!(payload(image, geometry, replica, slot), expected);
        let has = has_payload(image, geometry, replica, slot);
        assert_eq!(has, Ok(!expected.is_empty()));
    }
}

#[test]
fn images_of_the_wrong_length_or_replica() {
    let cluster = Cluster::fresh(3, 2);
    let replica = cluster.replica(1);
    let image = cluster.image(1);
    for length in [0, image.len() - 1] {
        assert_no_card(
            &image[..length],
            cluster.geometry,
            replica,
            Refusal::BufferLength,
        );
    }
    let other = Geometry::new(5, 2).unwrap().replica(4).unwrap();
    assert_no_card(image, cluster.geometry, other, Refusal::ReplicaCount);
    let second = cluster.replica(2);
    assert_no_card(image, cluster.geometry, second, Refusal::Header);
}

#[test]
fn refused_images() {
    let mut good = Cluster::fresh(3, 3);
    good.append(&[1], 2, b"one");
    good.append(&[1], 3, b"two");
    let (geometry, replica) = (good.geometry, good.replica(1));
    let refused = |spoil: &dyn Fn(&mut Cluster), refusal| {
        let mut spoilt = Cluster {
            geometry,
            bytes: good.bytes.clone(),
        };
        spoil(&mut spoilt);
        assert_no_card(spoilt.image(1), geometry, replica, refusal);
    };
    refused(&|cluster| cluster.spoil_header(1), Refusal::Header);
    refused(
        &|cluster| cluster.blank_record(1, 1),
        Refusal::UsedAfterBlank,
    );
    refused(
        &|cluster| {
            cluster.spoil_record(1, 2);
            cluster.spoil_entry(1, 2);
        },
        Refusal::BothLost,
    );
    refused(
        &|cluster| {
            let range = geometry.record_range(2);
            let record = &mut cluster.image_mut(1)[range];
            pieces::write_record(record.try_into().unwrap(), 1, 2);
        },
        Refusal::EpochFalls,
    );
}

#[test]
fn refused_appends() {
    let mut cluster = Cluster::fresh(3, 2);
    let (geometry, replica) = (cluster.geometry, cluster.replica(1));
    cluster.append(&[1], 5, &[b'x'; 200]);
    let refused = |cluster: &mut Cluster, in_epoch, payload: &[u8], refusal| {
        let before = cluster.bytes.clone();
        let image = cluster.image_mut(1);
        let answer = append(image, geometry, replica, in_epoch, payload);
        assert_eq!(answer, Err(refusal));
        assert_eq!(cluster.bytes, before);
    };
    refused(&mut cluster, Epoch::FIRST, b"", Refusal::AppendEpoch);
    refused(&mut cluster, epoch(4), &[b'x'; 201], Refusal::AppendEpoch);
    refused(&mut cluster, epoch(5), &[b'x'; 201], Refusal::AppendPayload);
    assert_eq!(cluster.append(&[1], 5, b"last"), 2);
    refused(&mut cluster, epoch(5), &[b'x'; 201], Refusal::AppendPayload);
    refused(&mut cluster, epoch(5), b"more", Refusal::AppendFull);
}
