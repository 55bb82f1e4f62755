//! The pieces of an image, and where they stand.

use ropelog::pieces::{
    checksum, cluster_size, entry_at, image_at, image_size, judge_entry, judge_header,
    judge_record, payload_range, read_column, record_at, write_blank_record, write_entry,
    write_fresh_entry, write_header, write_number, write_record, Column, Entry, Header, Record,
    Shape,
};
use ropelog::{Refusal, ENTRY_LEN, HEADER_LEN, HEADER_LEN_2, RECORD_LEN};

#[test]
fn checksums() {
    assert_eq!(checksum(b""), 1);
    assert_eq!(checksum(b"A"), 4_325_442);
}

#[test]
fn columns() {
    let mut column = [b'#'; 5];
    for (number, text) in [(0, b"    0"), (42, b"   42"), (1_234_567, b"34567")] {
        write_number(&mut column, number);
        assert_eq!(&column, text);
    }
    assert_eq!(read_column(b"   42"), Ok(Column::Number(42)));
    assert_eq!(read_column(b"    "), Ok(Column::Blank));
    for text in [&b"  042"[..], b"42   ", b" -42 ", b"4 2", b"x"] {
        assert_eq!(read_column(text), Ok(Column::Malformed));
    }
    assert_eq!(
        read_column(b"9999999999999999999"),
        Ok(Column::Number(9_999_999_999_999_999_999))
    );
    assert_eq!(
        read_column(b"                   1"),
        Err(Refusal::BufferLength)
    );
}

#[test]
fn headers() {
    let shape = shape_of(1);
    let mut header = [b'#'; HEADER_LEN];
    write_header(&mut header, shape, 2, 1).unwrap();
    assert_eq!(&header[..16], b"rope  1  2  5 64");
    assert_eq!(header[27], b'\n');
    let good = Header::Good { first: 1 };
    assert_eq!(judge_header(&header, shape, 2), good);
    assert_eq!(judge_header(&header, shape, 3), Header::Other);
    assert_eq!(judge_header(&header[..27], shape, 2), Header::Other);
    assert_eq!(judge_header(&header, shape_of(2), 2), Header::Other);
    // The first index does not stand in it.
    let before = header;
    write_header(&mut header, shape, 2, 7).unwrap();
    assert_eq!(header, before);
    header[27] = b' ';
    assert_eq!(judge_header(&header, shape, 2), Header::Other);
}

/// Five replicas of 64 slots.
fn shape_of(edition: usize) -> Shape {
    Shape {
        n: 5,
        m: 64,
        edition,
        witnesses: 0,
    }
}

/// The header of a witness begins with another word, and neither is the other's.
#[test]
fn headers_of_witnesses() {
    for (edition, len, rest) in [
        (1, HEADER_LEN, "  1  2  5 64"),
        (2, HEADER_LEN_2, "  2  2  5 64          7"),
    ] {
        let cards = shape_of(edition);
        let first = if edition == 1 { 1 } else { 7 };
        for witnesses in [0b10, 0b11010, u32::MAX] {
            let shape = Shape { witnesses, ..cards };
            let mut header = vec![b'#'; len];
            write_header(&mut header, shape, 2, first).unwrap();
            let text = format!("wits{rest}");
            assert_eq!(&header[..text.len()], text.as_bytes());
            let sum = format!("{:>11}\n", checksum(text.as_bytes()));
            assert_eq!(&header[text.len()..], sum.as_bytes());
            assert_eq!(judge_header(&header, shape, 2), Header::Good { first });
            assert_eq!(judge_header(&header, cards, 2), Header::Other);
            write_header(&mut header, cards, 2, first).unwrap();
            assert_eq!(&header[..4], b"rope");
            assert_eq!(judge_header(&header, shape, 2), Header::Other);
        }
        // The bits of others make no witness of it.
        let shape = Shape {
            witnesses: !0b10,
            ..cards
        };
        let mut header = vec![b'#'; len];
        write_header(&mut header, shape, 2, first).unwrap();
        assert_eq!(judge_header(&header, cards, 2), Header::Good { first });
    }
}

#[test]
fn headers_of_edition_2() {
    let shape = shape_of(2);
    let mut header = [b'#'; HEADER_LEN_2];
    let refused = write_header(&mut header, shape_of(1), 2, 7);
    assert_eq!(refused, Err(Refusal::BufferLength));
    assert_eq!(header, [b'#'; HEADER_LEN_2]);
    for first in [1, 7, 4_294_967_232] {
        write_header(&mut header, shape, 2, first).unwrap();
        let text = format!("rope  2  2  5 64{first:>11}");
        assert_eq!(&header[..27], text.as_bytes());
        let sum = format!("{:>11}\n", checksum(text.as_bytes()));
        assert_eq!(&header[27..], sum.as_bytes());
        assert_eq!(judge_header(&header, shape, 2), Header::Good { first });
        assert_eq!(judge_header(&header, shape, 1), Header::Other);
        assert_eq!(judge_header(&header, shape_of(1), 2), Header::Other);
    }
    // Written as they are, and no header of 64 slots.
    for first in [0, 4_294_967_233, u32::MAX] {
        write_header(&mut header, shape, 2, first).unwrap();
        assert_eq!(judge_header(&header, shape, 2), Header::Other);
    }
}

/// More slots than there are indexes: only a header of edition 2 gives a first index, which is refused.
#[test]
fn headers_of_more_slots_than_indexes() {
    let shape = |edition| Shape {
        n: 3,
        m: 1 << 32,
        edition,
        witnesses: 0,
    };
    for edition in [0, 1, 3] {
        let mut header = [b'#'; HEADER_LEN];
        write_header(&mut header, shape(edition), 1, 7).unwrap();
        let good = Header::Good { first: 1 };
        assert_eq!(judge_header(&header, shape(edition), 1), good);
    }
    let mut header = [b'#'; HEADER_LEN_2];
    write_header(&mut header, shape(2), 1, 1).unwrap();
    assert_eq!(judge_header(&header, shape(2), 1), Header::Other);
}

#[test]
fn records() {
    let mut record = [b'#'; RECORD_LEN];
    assert_eq!(judge_record(&record, 1), Record::Bad);
    write_record(&mut record, 1, 1);
    assert_eq!(&record, b"          1          1  546505443\n");
    assert_eq!(judge_record(&record, 1), Record::Good { epoch: 1 });
    assert_eq!(judge_record(&record, 2), Record::Bad);
    write_blank_record(&mut record);
    assert_eq!(&record[..33], [b' '; 33]);
    assert_eq!(judge_record(&record, 1), Record::Blank);
}

#[test]
fn entries() {
    let mut entry = [b'#'; ENTRY_LEN];
    assert_eq!(judge_entry(&entry, 4), Entry::Broken);
    write_entry(&mut entry, 9, 4, b"wire").unwrap();
    assert_eq!(judge_entry(&entry, 4), Entry::Intact { epoch: 9, size: 4 });
    assert_eq!(&entry[payload_range(4)], b"wire");
    assert_eq!(judge_entry(&entry, 5), Entry::Broken);
    let before = entry;
    let long = write_entry(&mut entry, 9, 4, &[b'x'; 201]);
    assert_eq!(long, Err(Refusal::AppendPayload));
    assert_eq!(entry, before);
    write_entry(&mut entry, u32::MAX, 4, &[b'x'; 200]).unwrap();
    let intact = Entry::Intact {
        epoch: u32::MAX,
        size: 200,
    };
    assert_eq!(judge_entry(&entry, 4), intact);
    write_fresh_entry(&mut entry);
    assert_eq!(entry, [b' '; ENTRY_LEN]);
    assert_eq!(judge_entry(&entry, 4), Entry::Broken);
}

#[test]
fn sizes_and_offsets() {
    for (edition, header) in [(1, HEADER_LEN), (2, HEADER_LEN_2)] {
        for n in 3..=7 {
            for m in [1, 2, 64] {
                // The last set also has a bit for every replica that is none.
                for witnesses in (0..1 << n).chain([u32::MAX]) {
                    let shape = Shape {
                        n,
                        m,
                        edition,
                        witnesses,
                    };
                    assert_measures(shape, header);
                }
            }
        }
    }
}

/// The images end to end, with their records and entries.
fn assert_measures(shape: Shape, header: usize) {
    let entries = header + RECORD_LEN * shape.m;
    let mut at = 0;
    for replica in 1..=shape.n {
        let witness = shape.witnesses >> (replica - 1) & 1 == 1;
        let size = entries + if witness { 0 } else { ENTRY_LEN * shape.m };
        assert_eq!(image_size(shape, replica), Ok(size));
        assert_eq!(image_at(shape, replica), Ok(at));
        for slot in 1..=shape.m {
            let record = header + RECORD_LEN * (slot - 1);
            assert_eq!(record_at(shape, replica, slot), Ok(record));
            let entry = match witness {
                true => Err(Refusal::BufferLength),
                false => Ok(entries + ENTRY_LEN * (slot - 1)),
            };
            assert_eq!(entry_at(shape, replica, slot), entry);
        }
        at += size;
    }
    assert_eq!(cluster_size(shape), Ok(at));
}

/// 1 is tried before 2, and 2 before 3.
#[test]
fn sizes_and_offsets_that_are_refused() {
    let shape = Shape {
        witnesses: 0b10,
        ..shape_of(1)
    };
    let none = Shape {
        n: 2,
        edition: 3,
        ..shape
    };
    for m in [0, 65, usize::MAX] {
        assert_refused(Shape { m, ..shape }, 2, 1, Refusal::SlotCount);
        assert_refused(Shape { m, ..none }, 0, 1, Refusal::SlotCount);
    }
    for n in [0, 2, 8, usize::MAX] {
        assert_refused(Shape { n, ..shape }, 2, 1, Refusal::ReplicaCount);
    }
    for edition in [0, 3, usize::MAX] {
        assert_refused(Shape { edition, ..shape }, 2, 1, Refusal::ReplicaCount);
    }
    for replica in [0, 6, 34, usize::MAX] {
        let refused = Err(Refusal::ReplicaCount);
        assert_eq!(image_size(shape, replica), refused);
        assert_eq!(image_at(shape, replica), refused);
        assert_eq!(record_at(shape, replica, 1), refused);
        assert_eq!(entry_at(shape, replica, 1), refused);
    }
    for slot in [0, 65, usize::MAX] {
        for shape in [shape, none] {
            assert_eq!(record_at(shape, 2, slot), Err(Refusal::SlotCount));
            assert_eq!(entry_at(shape, 2, slot), Err(Refusal::SlotCount));
        }
    }
    assert_eq!(entry_at(shape, 2, 1), Err(Refusal::BufferLength));
}

fn assert_refused(shape: Shape, replica: usize, slot: usize, refusal: Refusal) {
    assert_eq!(image_size(shape, replica), Err(refusal));
    assert_eq!(cluster_size(shape), Err(refusal));
    assert_eq!(image_at(shape, replica), Err(refusal));
    assert_eq!(record_at(shape, replica, slot), Err(refusal));
    assert_eq!(entry_at(shape, replica, slot), Err(refusal));
}
