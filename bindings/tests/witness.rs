//! Witnesses: the calls about one image, and clusters that have some.

mod common;

use common::{assert_cluster_refused, assert_no_card, epoch, set_of, Cluster};
use ropelog::{
    format, format_from, payload, pieces, plan, read, run, step, witness_append, witness_read,
    Epoch, Geometry, Plan, PlanAction, PlanAnswer, Refusal, Replica, ReplicaRow, ReplicaSet,
    RunAnswer, StepAnswer, Store, StoreKind, Verdict,
};

/// Both calls for witnesses are refused so, and no byte changes.
fn assert_refused(image: &[u8], geometry: Geometry, replica: Replica, refusal: Refusal) {
    assert_eq!(witness_read(image, geometry, replica), Err(refusal));
    let mut lent = image.to_vec();
    let late = witness_append(&mut lent, geometry, replica, epoch(u32::MAX));
    assert_eq!(late, Err(refusal));
    assert_eq!(lent, image);
}

#[test]
fn a_fresh_witness() {
    let cluster = Cluster::fresh_with(3, 2, &[3]);
    let (geometry, witness) = (cluster.geometry, cluster.replica(3));
    let image = cluster.image(3);
    assert_eq!(image.len(), 28 + 34 * 2);
    assert_eq!(&image[..16], b"wits  1  3  3  2");
    for slot in [1, 2] {
        let record = image[geometry.record_range(slot)].try_into().unwrap();
        assert_eq!(pieces::judge_record(record, 1), pieces::Record::Blank);
    }
    let log = witness_read(image, geometry, witness).unwrap();
    assert_eq!((log.length(), log.first()), (0, 1));
    assert_eq!(log.epochs(), [None, None]);
    assert_eq!([0, 1, 2, 3].map(|slot| log.epoch(slot)), [None; 4]);
    let indexes = [0, 1, 2, 3, usize::MAX].map(|slot| log.index(slot));
    assert_eq!(indexes, [None, Some(1), Some(2), None, None]);
}

#[test]
fn appended_and_read_back() {
    let cards = [Geometry::new(5, 64), Geometry::edition_2(5, 64)].map(Result::unwrap);
    for (cards, first) in [(cards[0], 1), (cards[1], 1), (cards[1], 1205)] {
        let mut cluster = Cluster::of(cards.with_witnesses(set_of(cards, &[1, 4])), first);
        let (geometry, witness) = (cluster.geometry, cluster.replica(4));
        let others = cluster.bytes.clone();
        let expected: Vec<Epoch> = (0..64).map(|at| epoch(at / 10 + 1)).collect();
        for (at, &in_epoch) in expected.iter().enumerate() {
            let image = cluster.image_mut(4);
            let slot = witness_append(image, geometry, witness, in_epoch);
            assert_eq!(slot, Ok(at + 1));
        }
        let log = witness_read(cluster.image(4), geometry, witness).unwrap();
        assert_eq!((log.length(), log.first()), (64, first));
        for (at, &in_epoch) in expected.iter().enumerate() {
            assert_eq!(log.epoch(at + 1), Some(in_epoch));
            assert_eq!(log.index(at + 1), Some(first + at as u32));
            let record = &cluster.image(4)[geometry.record_range(at + 1)];
            let record = pieces::judge_record(record.try_into().unwrap(), first + at as u32);
            let epoch = in_epoch.number();
            assert_eq!(record, pieces::Record::Good { epoch });
        }
        // The header stays, and so does every other image.
        let range = geometry.image_range(witness);
        let header = range.start..range.start + geometry.header_len();
        for kept in [0..range.start, header, range.end..others.len()] {
            assert_eq!(cluster.bytes[kept.clone()], others[kept]);
        }
    }
}

#[test]
fn refused_appends() {
    let mut cluster = Cluster::fresh_with(3, 2, &[2]);
    let (geometry, witness) = (cluster.geometry, cluster.replica(2));
    cluster.append(&[2], 5, b"");
    let refused = |cluster: &mut Cluster, in_epoch, refusal| {
        let before = cluster.bytes.clone();
        let answer = witness_append(cluster.image_mut(2), geometry, witness, in_epoch);
        assert_eq!(answer, Err(refusal));
        assert_eq!(cluster.bytes, before);
    };
    refused(&mut cluster, epoch(4), Refusal::AppendEpoch);
    assert_eq!(cluster.append(&[2], 5, b""), 2);
    refused(&mut cluster, epoch(4), Refusal::AppendEpoch);
    refused(&mut cluster, epoch(5), Refusal::AppendFull);
}

/// 4 to 7, as for cards; on a witness 6 is any bad record, wherever it stands.
#[test]
fn refused_images() {
    let mut good = Cluster::fresh_with(3, 3, &[3]);
    good.append(&[3], 2, b"");
    good.append(&[3], 3, b"");
    let (geometry, witness) = (good.geometry, good.replica(3));
    let refused = |spoil: &dyn Fn(&mut Cluster), refusal| {
        let mut spoilt = Cluster {
            geometry,
            bytes: good.bytes.clone(),
        };
        spoil(&mut spoilt);
        assert_refused(spoilt.image(3), geometry, witness, refusal);
    };
    let write_record = |cluster: &mut Cluster, slot, in_epoch, index| {
        let range = geometry.record_range(slot);
        let record = &mut cluster.image_mut(3)[range];
        pieces::write_record(record.try_into().unwrap(), in_epoch, index);
    };
    refused(&|cluster| cluster.spoil_header(3), Refusal::Header);
    refused(
        &|cluster| {
            let cards = geometry.with_witnesses(ReplicaSet::EMPTY).shape();
            pieces::write_header(&mut cluster.image_mut(3)[..28], cards, 3, 1).unwrap();
        },
        Refusal::Header,
    );
    refused(
        &|cluster| cluster.blank_record(3, 1),
        Refusal::UsedAfterBlank,
    );
    for slot in 1..=3 {
        refused(&|cluster| cluster.spoil_record(3, slot), Refusal::BothLost);
    }
    refused(&|cluster| write_record(cluster, 2, 3, 1), Refusal::BothLost);
    refused(
        &|cluster| write_record(cluster, 2, 1, 2),
        Refusal::EpochFalls,
    );
}

/// Lengths 0, a witness's, a card's and one more.
fn lengths(geometry: Geometry) -> [usize; 4] {
    let cards = geometry.with_witnesses(ReplicaSet::EMPTY);
    let one = geometry.replica(1).unwrap();
    let witnesses = cards.with_witnesses(ReplicaSet::EMPTY.with(one));
    let card = cards.image_len(one);
    [0, witnesses.image_len(one), card, card + 1]
}

/// A call for cards refuses a witness by 3 and a call for witnesses a card, whatever the length; a foreign
/// replica is 2 in both.
#[test]
fn the_other_kind_of_replica() {
    let foreign = Geometry::new(7, 2).unwrap().replica(7).unwrap();
    for cards in [Geometry::new(3, 2), Geometry::edition_2(3, 2)] {
        let cards = cards.unwrap();
        let geometry = cards.with_witnesses(set_of(cards, &[2]).with(foreign));
        let (card, witness) = (geometry.replica(1).unwrap(), geometry.replica(2).unwrap());
        for length in lengths(geometry) {
            let mut images = vec![vec![b'#'; length]];
            for replica in [card, witness] {
                let mut image = vec![b'#'; length];
                let made = format(&mut image, geometry, replica);
                assert_eq!(made.is_ok(), length == geometry.image_len(replica));
                images.push(image);
            }
            for image in images {
                assert_no_card(&image, geometry, witness, Refusal::BufferLength);
                assert_refused(&image, geometry, card, Refusal::BufferLength);
                assert_no_card(&image, geometry, foreign, Refusal::ReplicaCount);
                assert_refused(&image, geometry, foreign, Refusal::ReplicaCount);
            }
        }
    }
}

#[test]
fn images_of_the_wrong_length_or_witness() {
    let cluster = Cluster::fresh_with(3, 2, &[1, 2]);
    let (geometry, witness) = (cluster.geometry, cluster.replica(1));
    let image = cluster.image(1);
    for length in [0, image.len() - 1] {
        let short = &image[..length];
        assert_refused(short, geometry, witness, Refusal::BufferLength);
    }
    assert_refused(image, geometry, cluster.replica(2), Refusal::Header);
}

/// 20 before 3, for a witness too; a last index of 4,294,967,295 is accepted.
#[test]
fn first_indexes() {
    let cards = [Geometry::new(3, 2), Geometry::edition_2(3, 2)].map(Result::unwrap);
    let [one, two] = cards.map(|cards| cards.with_witnesses(set_of(cards, &[3])));
    let witness = one.replica(3).unwrap();
    for (geometry, first) in [(one, 0), (one, 2), (two, 0), (two, u32::MAX)] {
        for length in [0, geometry.image_len(witness)] {
            let mut image = vec![7; length];
            let refused = format_from(&mut image, geometry, witness, first);
            assert_eq!(refused, Err(Refusal::FirstIndex));
            assert!(image.iter().all(|&byte| byte == 7));
        }
    }
    for first in [1, 7, u32::MAX - 1] {
        let mut image = vec![7; two.image_len(witness)];
        format_from(&mut image, two, witness, first).unwrap();
        assert_eq!(witness_append(&mut image, two, witness, epoch(4)), Ok(1));
        let log = witness_read(&image, two, witness).unwrap();
        assert_eq!((log.first(), log.index(2)), (first, Some(first + 1)));
    }
}

/// Cards 1 and 2 and witness 3, led by 1, with slots 1 to 3 in epochs 1, 1 and 2 on all.
fn three() -> Cluster {
    let mut cluster = Cluster::fresh_with(3, 4, &[3]);
    cluster.append(&[1, 2, 3], 1, b"one");
    cluster.append(&[1, 2, 3], 1, b"two");
    cluster.append(&[1, 2, 3], 2, b"three");
    cluster
}

fn planned(cluster: &Cluster, present: ReplicaSet) -> Plan {
    let leader = cluster.replica(1);
    plan(&cluster.bytes, cluster.geometry, leader, present).unwrap()
}

/// Steps until none makes a store; the stores, and how it ended.
fn all_steps(cluster: &mut Cluster, present: ReplicaSet) -> (Vec<Store>, StepAnswer) {
    let (geometry, leader) = (cluster.geometry, cluster.replica(1));
    let mut stores = Vec::new();
    loop {
        match step(&mut cluster.bytes, geometry, leader, present).unwrap() {
            StepAnswer::Stored(store) => stores.push(store),
            answer => return (stores, answer),
        }
    }
}

fn numbers(stores: &[Store]) -> Vec<(usize, usize, StoreKind)> {
    let triple = |store: &Store| (store.replica.number(), store.slot, store.kind);
    stores.iter().map(triple).collect()
}

/// The leader's slot 3 is faulty, and card 2 never had it: it is cut exactly if the witness answers
/// don't-have too.
#[test]
fn what_a_witness_answers() {
    let faulty = || {
        let mut cluster = three();
        cluster.blank_record(2, 3);
        cluster.spoil_entry(1, 3);
        cluster
    };
    let asked = |cluster: &Cluster, numbers: &[usize]| {
        let plan = planned(cluster, cluster.set(numbers));
        (plan.action(3).unwrap(), plan.answer())
    };
    let wait = (PlanAction::Wait, PlanAnswer::Waiting { slot: 3 });
    let cut = (PlanAction::Truncate, PlanAnswer::Ready { length: 2 });
    // Have-faulty.
    let cluster = faulty();
    assert_eq!(asked(&cluster, &[1, 2, 3]), wait);
    assert_eq!(asked(&cluster, &[1, 3]), wait);
    // Don't-have, with no record there and with one of another epoch.
    let mut cluster = faulty();
    cluster.blank_record(3, 3);
    assert_eq!(asked(&cluster, &[1, 2, 3]), cut);
    assert_eq!(asked(&cluster, &[1, 3]), wait);
    cluster.append(&[3], 3, b"");
    assert_eq!(asked(&cluster, &[1, 2, 3]), cut);
    // Away: one don't-have of three cuts nothing.
    cluster.spoil_record(3, 1);
    assert_eq!(asked(&cluster, &[1, 2, 3]), wait);
    // It never donates: as long as a card has the slot, it is fetched from that card.
    let mut cluster = three();
    cluster.spoil_entry(1, 3);
    let fetch = PlanAction::Fetch(cluster.replica(2));
    assert_eq!(asked(&cluster, &[1, 2, 3]).0, fetch);
    assert_eq!(asked(&cluster, &[1, 3]), wait);
}

#[test]
fn rows_of_witnesses() {
    let mut cluster = three();
    let row = |cluster: &Cluster| {
        let plan = planned(cluster, cluster.geometry.all_present());
        plan.row(cluster.replica(3)).unwrap()
    };
    let readable = ReplicaRow {
        readable: true,
        length: 3,
        last_epoch: Some(epoch(2)),
    };
    assert_eq!(row(&cluster), readable);
    cluster.spoil_record(3, 2);
    let away = ReplicaRow {
        readable: false,
        length: 0,
        last_epoch: None,
    };
    assert_eq!(row(&cluster), away);
}

/// Its records are blanked from the last down to the first that differs, and those that are missing are
/// added, in its turn by number.
#[test]
fn stores_on_a_witness() {
    let mut cluster = Cluster::fresh_with(4, 4, &[2]);
    cluster.append(&[1, 2, 3], 1, b"one");
    cluster.append(&[1, 3], 3, b"two");
    cluster.append(&[1], 3, b"three");
    cluster.append(&[2], 2, b"");
    cluster.append(&[2], 2, b"");
    cluster.append(&[2], 2, b"");
    let all = cluster.geometry.all_present();
    let (stores, answer) = all_steps(&mut cluster, all);
    assert_eq!(answer, StepAnswer::Recovered);
    let expected = [
        (2, 4, StoreKind::BlankRecord),
        (2, 3, StoreKind::BlankRecord),
        (2, 2, StoreKind::BlankRecord),
        (2, 2, StoreKind::Record),
        (2, 3, StoreKind::Record),
        (3, 3, StoreKind::Entry),
        (3, 3, StoreKind::Record),
        (4, 1, StoreKind::Entry),
        (4, 1, StoreKind::Record),
        (4, 2, StoreKind::Entry),
        (4, 2, StoreKind::Record),
        (4, 3, StoreKind::Entry),
        (4, 3, StoreKind::Record),
    ];
    assert_eq!(numbers(&stores), expected);
    let witness = cluster.replica(2);
    let log = witness_read(cluster.image(2), cluster.geometry, witness).unwrap();
    let epochs = [Some(epoch(1)), Some(epoch(3)), Some(epoch(3)), None];
    assert_eq!(log.epochs(), epochs);
}

/// With every set of witnesses that leaves the leader a card, in both editions: the damaged cluster is
/// recovered, no entry is stored on a witness, and all logs are the leader's.
#[test]
fn every_set_of_witnesses() {
    for n in 3..=7 {
        for (cards, first) in [(Geometry::new(n, 3), 1), (Geometry::edition_2(n, 3), 1205)] {
            let cards = cards.unwrap();
            for word in 0..1 << (n - 1) {
                let witnesses = cards
                    .replicas()
                    .filter(|replica| word << 1 >> (replica.number() - 1) & 1 == 1);
                recovers(cards.with_witnesses(witnesses.collect()), first);
            }
        }
    }
}

/// All replicas have slot 1, all but the last slot 2, and the leader alone slot 3. The leader's record of
/// slot 1 is lost, and its entry of slot 2 is spoilt if another card has that slot.
fn recovers(geometry: Geometry, first: u32) {
    let n = geometry.replica_count();
    let mut cluster = Cluster::of(geometry, first);
    let all: Vec<usize> = (1..=n).collect();
    cluster.append(&all, 1, b"one");
    cluster.append(&all[..n - 1], 2, b"two");
    cluster.append(&[1], 2, b"three");
    cluster.spoil_record(1, 1);
    if (2..n).any(|number| !geometry.is_witness(cluster.replica(number))) {
        cluster.spoil_entry(1, 2);
    }
    let present = geometry.all_present();
    let mut at_once = cluster.bytes.clone();
    let (stores, answer) = all_steps(&mut cluster, present);
    assert_eq!(answer, StepAnswer::Recovered, "{geometry:?}");
    let enough = geometry.enough_stores();
    let ran = run(&mut at_once, geometry, cluster.replica(1), present, enough);
    let made = stores.len() as u64;
    assert_eq!(ran, Ok(RunAnswer::Recovered { stores: made }));
    assert_eq!(at_once, cluster.bytes);
    for store in stores {
        let on_witness = geometry.is_witness(store.replica);
        assert!(!on_witness || store.kind != StoreKind::Entry, "{store:?}");
    }
    let expected = [1, 2, 2].map(|number| Some(epoch(number)));
    for replica in geometry.replicas() {
        let image = cluster.image(replica.number());
        if geometry.is_witness(replica) {
            let log = witness_read(image, geometry, replica).unwrap();
            assert_eq!((log.first(), log.epochs()), (first, &expected[..]));
            continue;
        }
        let log = read(image, geometry, replica).unwrap();
        assert_eq!(log.first(), first);
        for (at, text) in [&b"one"[..], b"two", b"three"].iter().enumerate() {
            let state = log.slot(at + 1).unwrap();
            assert_eq!(state.verdict, Verdict::Intact);
            assert_eq!(state.epoch, expected[at]);
            assert_eq!(payload(image, geometry, replica, at + 1), *text);
        }
    }
}

/// A witness with a bad record keeps every byte, however many recoveries there are. Formatted anew it is
/// filled by the next.
#[test]
fn an_unreadable_witness_is_formatted_anew() {
    let cards = Geometry::edition_2(3, 4).unwrap();
    let mut cluster = Cluster::of(cards.with_witnesses(set_of(cards, &[3])), 7);
    cluster.append(&[1, 2, 3], 1, b"seven");
    cluster.append(&[1, 3], 1, b"eight");
    cluster.spoil_record(3, 1);
    let (geometry, all) = (cluster.geometry, cluster.geometry.all_present());
    let before = cluster.image(3).to_vec();
    let (stores, answer) = all_steps(&mut cluster, all);
    assert_eq!(answer, StepAnswer::Recovered);
    let expected = [(2, 2, StoreKind::Entry), (2, 2, StoreKind::Record)];
    assert_eq!(numbers(&stores), expected);
    assert_eq!(cluster.image(3), before);
    // Under another first index it would only be refused.
    cluster.format_from(3, 1);
    let leader = cluster.replica(1);
    let refused = plan(&cluster.bytes, geometry, leader, all);
    assert_eq!(refused, Err(Refusal::FirstDiffers));
    cluster.format_from(3, 7);
    let (stores, answer) = all_steps(&mut cluster, all);
    assert_eq!(answer, StepAnswer::Recovered);
    let expected = [(3, 1, StoreKind::Record), (3, 2, StoreKind::Record)];
    assert_eq!(numbers(&stores), expected);
    let log = witness_read(cluster.image(3), geometry, cluster.replica(3)).unwrap();
    assert_eq!((log.length(), log.first()), (2, 7));
}

/// Where witnesses are the majority no other copy may be left; the slot waits and nothing is written.
#[test]
fn a_majority_of_witnesses() {
    let mut cluster = Cluster::fresh_with(5, 2, &[3, 4, 5]);
    cluster.append(&[1, 3, 4, 5], 1, b"one");
    cluster.spoil_entry(1, 1);
    let all = cluster.geometry.all_present();
    let before = cluster.bytes.clone();
    let (stores, answer) = all_steps(&mut cluster, all);
    assert_eq!(stores, []);
    assert_eq!(answer, StepAnswer::Waiting { slot: 1 });
    assert_eq!(cluster.bytes, before);
}

/// The length is right, the images from the first difference to the last are unreadable, and keep every
/// byte.
#[test]
fn another_set_of_the_same_size() {
    let mut cluster = Cluster::fresh_with(5, 2, &[3]);
    cluster.append(&[1, 2, 3, 4], 1, b"one");
    cluster.spoil_entry(1, 1);
    let (geometry, leader) = (cluster.geometry, cluster.replica(1));
    let all = geometry.all_present();
    for number in [2, 4, 5] {
        let wrong = geometry.with_witnesses(cluster.set(&[number]));
        assert_eq!(wrong.cluster_len(), geometry.cluster_len());
        let rows: Vec<bool> = plan(&cluster.bytes, wrong, leader, all)
            .unwrap()
            .rows()
            .iter()
            .map(|row| row.readable)
            .collect();
        let (low, high) = (number.min(3), number.max(3));
        let expected: Vec<bool> = (1..=5).map(|at| at < low || high < at).collect();
        assert_eq!(rows, expected, "witness {number}");
        let mut bytes = cluster.bytes.clone();
        let _ = run(&mut bytes, wrong, leader, all, 100).unwrap();
        let first = wrong.image_range(cluster.replica(low)).start;
        let end = wrong.image_range(cluster.replica(high)).end;
        assert_eq!(bytes[first..end], cluster.bytes[first..end]);
    }
    // If it is the leader's image that shows it, the call is refused.
    let wrong = geometry.with_witnesses(cluster.set(&[1]));
    let refused = plan(&cluster.bytes, wrong, leader, all);
    assert_eq!(refused, Err(Refusal::Leader));
}

/// 12, its image readable or not.
#[test]
fn a_witness_never_leads() {
    let mut cluster = three();
    let (geometry, witness) = (cluster.geometry, cluster.replica(3));
    let all = geometry.all_present();
    assert_cluster_refused(&cluster.bytes, geometry, witness, all, Refusal::Leader);
    cluster.spoil_record(3, 1);
    assert_cluster_refused(&cluster.bytes, geometry, witness, all, Refusal::Leader);
}

/// 22 behind 3 and 11, before 12 and 21; the replica that is none adds nothing to the length.
#[test]
fn refused_witnesses() {
    let cards = Geometry::edition_2(3, 2).unwrap();
    let mut cluster = Cluster::of(cards.with_witnesses(set_of(cards, &[3])), 7);
    cluster.format_from(3, 8);
    let seven = Geometry::new(7, 2).unwrap();
    let beyond = seven.replica(7).unwrap();
    let (leader, all) = (cluster.replica(1), cards.all_present());
    let bytes = &cluster.bytes;
    let right = cluster.geometry;
    assert_cluster_refused(bytes, right, leader, all, Refusal::FirstDiffers);
    let wrong = right.with_witnesses(right.witnesses().with(beyond));
    for leader in [leader, cluster.replica(3), beyond] {
        assert_cluster_refused(bytes, wrong, leader, all, Refusal::Witnesses);
        let none = ReplicaSet::EMPTY;
        assert_cluster_refused(bytes, wrong, leader, none, Refusal::Witnesses);
        let present = seven.all_present();
        assert_cluster_refused(bytes, wrong, leader, present, Refusal::Present);
        let short = &bytes[1..];
        assert_cluster_refused(short, wrong, leader, all, Refusal::BufferLength);
        assert_cluster_refused(bytes, cards, leader, all, Refusal::BufferLength);
    }
    // No call about one image minds it.
    let witness = cluster.replica(3);
    let log = witness_read(cluster.image(3), wrong, witness).unwrap();
    assert_eq!(log.first(), 8);
    assert_eq!(read(cluster.image(1), wrong, leader).unwrap().first(), 7);
}
