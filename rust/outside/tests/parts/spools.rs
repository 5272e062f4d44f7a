//! Spool files.

use outside::{by_both, put_length, said, sound_record, Random, PAIRS};
use reference::spool::{self, Contents, Record, FRAME_LIMIT};
use std::borrow::Cow;
use std::ops::Range;

fn of_library(record: &Record) -> kiosk::Record {
    kiosk::Record {
        offset: record.offset,
        width: record.width,
        height: record.height,
        kind: record.kind,
        bits: record.bits,
        copies: record.copies,
        order: record.order,
    }
}

fn of_reference(record: &kiosk::Record, stride: u32) -> Record {
    Record {
        offset: record.offset,
        width: record.width,
        height: record.height,
        kind: record.kind,
        bits: record.bits,
        copies: record.copies,
        order: record.order,
        stride,
    }
}

/// Is this part of a file the one that the range says, and not only one with the same bytes?
fn is_part(file: &[u8], part: &[u8], range: Range<usize>) -> bool {
    std::ptr::eq(part, &file[range])
}

/// A frame's record, and that its pixels are the part of the file that the record names, gaps included.
fn found(
    file: &[u8],
    answer: Result<kiosk::Frame, kiosk::Refusal>,
) -> Result<Record, kiosk::Refusal> {
    let frame = answer?;
    let record = of_reference(&frame.record, frame.stride);
    let pixels = record.offset as usize..record.pixel_end() as usize;
    assert!(is_part(file, frame.pixels, pixels), "where the pixels lie");
    assert_eq!(frame.row_bytes() as u64, record.row_bytes());
    assert_eq!(frame.packed_bytes() as u64, record.pixel_bytes());
    Ok(record)
}

/// Opens a file, by the library and by the reference. Gives the frame count, or 0.
fn compare_open(file: &[u8]) -> usize {
    let opened = said(kiosk::open(file).map(|c| Contents {
        count: c.count as u16,
        shop: c.shop,
        table: c.table,
    }));
    let expected = spool::open(file);
    assert_eq!(opened, expected, "open {file:?}");
    expected.map_or(0, |contents| usize::from(contents.count))
}

/// Rows of a frame: all, if there are few, or else the first and the last; and some behind the last.
fn compare_rows(file: &[u8], number: usize, height: usize) -> u64 {
    let first = 0..height.min(8);
    let rows = first.chain([height.saturating_sub(1), height, height + 1, usize::MAX]);
    let mut compared = 0;
    for row in rows {
        let answer = said(kiosk::row(file, number, row));
        let expected = spool::row(file, number, row);
        let same = match (&answer, &expected) {
            (Ok(part), Ok(range)) => is_part(file, part, range.clone()),
            (Err(refusal), Err(expected)) => refusal == expected,
            _ => false,
        };
        assert!(
            same,
            "row {row} of frame {number} is {answer:?}, not {expected:?}, in {file:?}"
        );
        compared += 1;
    }
    compared
}

/// The rows that a frame gives one after another are its rows, and without gaps it holds just these.
fn compare_packed(file: &[u8], number: usize) {
    let Ok(frame) = kiosk::find(file, number) else {
        return;
    };
    let rows: Vec<&[u8]> = frame.rows().collect();
    assert_eq!(rows.len(), usize::from(frame.record.height));
    for (k, row) in rows.iter().enumerate() {
        let range = spool::row(file, number, k).expect("the frame is found");
        assert!(is_part(file, row, range), "row {k} of {number} in {file:?}");
    }
    let packed = frame.packed();
    assert_eq!(*packed, *rows.concat());
    let has_gaps = rows.len() > 1 && frame.stride as usize > frame.row_bytes();
    assert_eq!(matches!(packed, Cow::Owned(_)), has_gaps, "copied or not");
}

/// The start of a file that may be long.
fn start_of(file: &[u8]) -> &[u8] {
    &file[..file.len().min(400)]
}

/// Writes a file in the other layout, into the length that it takes and into others. Gives how many answers were
/// compared.
pub fn compare_relayout(file: &[u8]) -> u64 {
    let length = spool::relayout_length(file);
    let rooms = match length {
        Ok(length) => vec![length, length + 1, length - 1, 0],
        Err(_) => vec![0, file.len().min(200)],
    };
    for &room in &rooms {
        // Bytes that differ from place to place, and from those of most files.
        let before: Vec<u8> = (0..room).map(|k| (k * 7 + 0x3b) as u8).collect();
        let (refused, after) = by_both(
            &before,
            0xa5,
            |dst| kiosk::relayout_into(file, dst),
            |dst| spool::relayout(file, dst),
            || format!("relayout {:?}", start_of(file)),
        );
        if refused.is_some() {
            assert_eq!(after, before, "a refused call has written");
        }
        if length == Ok(room) {
            assert_eq!(kiosk::relayout(file), Ok(after));
        }
    }
    if let Err(refusal) = length {
        assert_eq!(said(kiosk::relayout(file)), Err(refusal));
    }
    rooms.len() as u64 + 1
}

/// Opens a file, finds frames and rows of it, walks it, lists it and writes it in the other layout, by the library and by
/// the reference. Gives how many answers were compared.
pub fn compare(file: &[u8]) -> u64 {
    let count = compare_open(file);
    let numbers = (0..count + 2).chain([FRAME_LIMIT, 256, 1 << 32, usize::MAX]);
    let mut compared = 1 + compare_relayout(file);
    for number in numbers {
        let answer = said(found(file, kiosk::find(file, number)));
        let expected = spool::find(file, number);
        assert_eq!(answer, expected, "find {number} in {file:?}");
        let height = expected.map_or(0, |record| usize::from(record.height));
        compared += 1 + compare_rows(file, number, height);
        compare_packed(file, number);
    }
    compared + compare_walk(file, count)
}

/// Walks a file to the end and beyond, and lists it.
fn compare_walk(file: &[u8], count: usize) -> u64 {
    let mut compared = 0;
    let mut frames = kiosk::Frames::new(file);
    let mut next = 0;
    for _ in 0..count + 2 {
        let (expected, after) = spool::step(file, next);
        assert_eq!(
            said(found(file, frames.step())),
            expected,
            "step {next} in {file:?}"
        );
        assert_eq!(
            frames.number(),
            after,
            "the number after {next} in {file:?}"
        );
        next = after;
        compared += 1;
    }
    assert_eq!(next, count, "a walk ends behind the last frame");
    assert_eq!(kiosk::listing(file), spool::listing(file), "list {file:?}");
    compared + 1
}

/// A spool by the library's layout, which is also the reference's.
fn spool_of(records: &[Record], shop: u16, random: &mut Random) -> Vec<u8> {
    let pixels: u64 = records.iter().map(Record::pixel_bytes).sum();
    let before = random.bytes(12 + 16 * records.len() + pixels as usize);
    let file = lay_out(records, shop, &before);
    assert_eq!(
        spool::open(&file).map(|contents| usize::from(contents.count)),
        Ok(records.len())
    );
    file
}

/// Lays out by both, between guard bytes, and compares answer and bytes. Gives the destination after it.
fn lay_out(records: &[Record], shop: u16, before: &[u8]) -> Vec<u8> {
    let lent: Vec<kiosk::Record> = records.iter().map(of_library).collect();
    by_both(
        before,
        0xa5,
        |dst| kiosk::lay_out(&lent, shop, dst),
        |dst| spool::lay_out(records, shop, dst),
        || format!("lay out {records:?}"),
    )
    .1
}

/// Spools laid out and compared whole; with every byte of header and table damaged; cut at every length; and
/// files of random bytes, some with a header that opens.
pub fn spools() -> u64 {
    let mut random = Random::new(5);
    let mut compared = 0;
    for frames in [0, 1, 2, 3, 4, 7] {
        let records: Vec<Record> = (0..frames).map(|_| sound_record(&mut random)).collect();
        let file = spool_of(&records, random.number() as u16, &mut random);
        compared += compare(&file);
        for at in 0..12 + 16 * frames {
            let mut damaged = file.clone();
            for value in (0..=255u8).step_by(if at < 12 { 1 } else { 5 }) {
                damaged[at] = value;
                compared += compare(&damaged);
            }
            for bit in 0..8 {
                damaged[at] = file[at] ^ 1 << bit;
                compared += compare(&damaged);
            }
        }
        for length in 0..file.len() {
            let mut cut = file[..length].to_vec();
            compared += compare(&cut);
            // With the length in the header put right, the table or the pixels reach past the file.
            put_length(&mut cut);
            compared += compare(&cut);
        }
    }
    for _ in 0..100_000 {
        let length = random.below(120) as usize;
        let mut file = random.bytes(length);
        if length >= 12 && random.below(8) != 0 {
            let count = random.below(5) as u16;
            let table = random.pick(&[12, 12, 12, 11, 13, 28, length as u32]);
            file[0..2].copy_from_slice(&count.to_le_bytes());
            file[4..8].copy_from_slice(&table.to_le_bytes());
            file[8..12].copy_from_slice(&(length as u32).to_le_bytes());
            for record in file[12..].chunks_mut(16) {
                let sound = sound_record(&mut random);
                if record.len() == 16 && random.below(2) == 0 {
                    let offset = random.below(length as u64 + 4) as u32;
                    record[0..4].copy_from_slice(&offset.to_le_bytes());
                    record[4..6].copy_from_slice(&sound.width.to_le_bytes());
                    record[6..8].copy_from_slice(&sound.height.to_le_bytes());
                    record[8..10].copy_from_slice(&[sound.kind, sound.bits]);
                }
            }
        }
        compared += compare(&file);
    }
    // The most frames, and one more.
    let many: Vec<Record> = (0..FRAME_LIMIT)
        .map(|_| sound_record(&mut random))
        .collect();
    let file = spool_of(&many, 7, &mut random);
    compared += compare(&file);
    let mut more = file;
    more[0..2].copy_from_slice(&(FRAME_LIMIT as u16 + 1).to_le_bytes());
    compared + compare(&more)
}

/// Every kind with every number of bits, in a file and laid out: all are refused but the pairs of rule 7.3.
pub fn every_kind_and_bits() -> u64 {
    let mut random = Random::new(11);
    let esrgb = Record {
        width: 1,
        height: 1,
        kind: 2,
        bits: 16,
        ..sound_record(&mut random)
    };
    let mut file = spool_of(&[esrgb], 7, &mut random);
    let mut sound = Vec::new();
    let mut compared = 0;
    for (kind, bits) in (0..=255).flat_map(|kind| (0..=255).map(move |bits| (kind, bits))) {
        file[12 + 8..12 + 10].copy_from_slice(&[kind, bits]);
        compared += compare(&file);
        if kiosk::find(&file, 0).is_ok() {
            sound.push((kind, bits));
        }
        let record = Record {
            kind,
            bits,
            ..esrgb
        };
        lay_out(&[record], 7, &file[..28 + record.pixel_bytes() as usize]);
        compared += 1;
    }
    assert_eq!(sound, PAIRS);
    compared
}

/// Lists of records, sound and at fault, laid out in rooms that fit or do not.
pub fn layouts() -> u64 {
    let mut random = Random::new(6);
    let mut count = 0;
    for _ in 0..60_000 {
        let mut records: Vec<Record> = (0..random.below(6))
            .map(|_| sound_record(&mut random))
            .collect();
        for record in &mut records {
            match random.below(16) {
                0 => record.kind = random.below(8) as u8,
                1 => record.bits = random.pick(&[0, 7, 8, 9, 10, 11, 12, 16, 255]),
                2 => record.width = random.pick(&[0, 8192, 8193, 65_535]),
                3 => record.height = random.pick(&[0, 8192, 8193, 65_535]),
                _ => {}
            }
        }
        let total =
            12 + 16 * records.len() as u64 + records.iter().map(Record::pixel_bytes).sum::<u64>();
        let room = match random.below(6) {
            0 => random.below(200),
            1 => total + 1,
            2 => total.saturating_sub(1),
            _ => total,
        };
        let before = random.bytes(room.min(200_000) as usize);
        lay_out(&records, random.number() as u16, &before);
        count += 1;
    }
    // The most records and more; totals above the limit, which the room cannot have.
    let frame = sound_record(&mut random);
    let large = Record {
        width: 8192,
        height: 8192,
        kind: 2,
        bits: 16,
        ..frame
    };
    for records in [
        vec![frame; FRAME_LIMIT + 1],
        vec![frame; 300],
        vec![large; 10],
        vec![large; 11],
        vec![large; FRAME_LIMIT],
        vec![large; FRAME_LIMIT + 1],
    ] {
        lay_out(&records, 1, &random.bytes(100));
        count += 1;
    }
    let fitting = vec![frame; FRAME_LIMIT];
    spool_of(&fitting, 9, &mut random);
    count + 1
}
