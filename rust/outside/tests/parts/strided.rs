//! Strided spools, and both layouts carried to the other.

use super::spools::{compare, compare_relayout};
use outside::{put, put_length, said, sound_record, sound_records, spool_file, with_gaps, Random};
use reference::spool::{self, Layout, Record, FRAME_LIMIT};

const BOTH: [Layout; 2] = [Layout::Plain, Layout::Strided];

/// A record of 8-bit sRGB.
fn srgb(width: u16, height: u16) -> Record {
    Record {
        width,
        height,
        kind: 1,
        bits: 8,
        copies: 1,
        order: 501,
        ..Record::default()
    }
    .gapless()
}

fn number_of<T>(answer: Result<T, kiosk::Refusal>) -> Option<u8> {
    answer.err().map(|refusal| refusal.fault.number())
}

/// What the library says of a file as a whole, of frame 0, and of the way to the other layout, each as a refusal's
/// number or none. It is compared with the reference too.
fn numbers(file: &[u8]) -> [Option<u8>; 3] {
    compare(file);
    [
        number_of(kiosk::open(file)),
        number_of(kiosk::find(file, 0)),
        number_of(kiosk::relayout(file)),
    ]
}

/// Each byte of spools of both layouts, put to the ends and to its neighbours, and with each bit changed.
pub fn every_byte() -> u64 {
    let mut random = Random::new(31);
    let mut compared = 0;
    for (layout, frames) in BOTH.into_iter().flat_map(|l| [0, 1, 3, 5].map(|n| (l, n))) {
        let records = sound_records(layout, frames, &mut random);
        let file = spool_file(layout, &records, 7, &mut random);
        assert_eq!(Layout::of(&file), layout);
        compared += compare(&file);
        for at in 0..file.len() {
            let own = file[at];
            let bits = (0..8).map(|bit| own ^ 1 << bit);
            let ends = [0, 1, 20, 254, 255, own.wrapping_add(1), own.wrapping_sub(1)];
            for value in ends.into_iter().chain(bits) {
                let mut damaged = file.clone();
                damaged[at] = value;
                compared += compare(&damaged);
            }
        }
    }
    compared
}

/// Spools of both layouts cut at every length and made longer, with the header's length as it was and put right.
pub fn every_length() -> u64 {
    let mut random = Random::new(32);
    let mut compared = 0;
    for (layout, frames) in BOTH.into_iter().flat_map(|l| [0, 1, 4].map(|n| (l, n))) {
        let records = sound_records(layout, frames, &mut random);
        let file = spool_file(layout, &records, 7, &mut random);
        for length in 0..file.len() + 40 {
            let mut other = file.clone();
            other.resize(length, 0x55);
            compared += compare(&other);
            put_length(&mut other);
            compared += compare(&other);
        }
    }
    compared
}

/// Spools of both layouts with several bytes of header and table changed.
pub fn several_bytes() -> u64 {
    let mut random = Random::new(38);
    let mut compared = 0;
    for round in 0..30_000 {
        let layout = BOTH[round % 2];
        let count = 1 + random.below(4) as usize;
        let records = sound_records(layout, count, &mut random);
        let mut file = spool_file(layout, &records, random.number() as u16, &mut random);
        let behind = layout.header() + layout.record() * count;
        for _ in 0..1 + random.below(4) {
            let at = random.below(behind as u64) as usize;
            let own = file[at];
            let any = random.number() as u8;
            file[at] = random.pick(&[any, 0, 1, 255, own.wrapping_add(1), own.wrapping_sub(1)]);
        }
        compared += compare(&file);
    }
    compared
}

/// Short files with every start that is near the limits, and headers with every count and size of records near theirs.
pub fn headers() -> u64 {
    let mut compared = 0;
    let most = FRAME_LIMIT as u16;
    for first in [0, 1, most, most + 1, 65_279, 65_280, 65_534, 65_535] {
        for length in 0..40 {
            for table in [11u32, 12, 13, 15, 16, 17] {
                let mut file = vec![0; length];
                put(&mut file, 0, first.to_le_bytes());
                put(&mut file, 4, table.to_le_bytes());
                put(&mut file, 14, 20u16.to_le_bytes());
                compared += compare(&file);
                put_length(&mut file);
                compared += compare(&file);
            }
        }
    }
    let mut random = Random::new(33);
    let file = spool_file(Layout::Strided, &[srgb(2, 2)], 7, &mut random);
    for size in [0u16, 12, 16, 19, 20, 21, 276, 5_120, 65_535] {
        for count in [0, 1, 2, most, most + 1, 65_535] {
            let mut file = file.clone();
            put(&mut file, 12, count.to_le_bytes());
            put(&mut file, 14, size.to_le_bytes());
            compared += compare(&file);
        }
    }
    assert_eq!(numbers(&[0xff; 15])[0], Some(1));
    assert_eq!(numbers(&[0xff; 16])[0], Some(2));
    assert_eq!(numbers(&[0xfe; 12])[0], Some(2));
    compared + 3
}

/// Strides at each limit, with the end of the pixels at the file's end and around it.
pub fn strides() -> u64 {
    let mut random = Random::new(34);
    let mut compared = 0;
    for (width, height) in [(1, 1), (2, 1), (8_192, 1), (1, 2), (3, 2), (2, 3), (1, 5)] {
        for record in [srgb(width, height), esrgb(width, height)] {
            let row = record.row_bytes() as u32;
            let near = [row - 1, row, row + 1, row + 2, 2 * row];
            let far = [0, 1, 1 << 16, 1 << 30, 1 << 31, (1 << 31) + 1, u32::MAX];
            for stride in near.into_iter().chain(far) {
                let record = Record { stride, ..record };
                compared += around_the_end(record, &mut random);
            }
        }
    }
    compared
}

/// A record of 16-bit e-sRGB.
fn esrgb(width: u16, height: u16) -> Record {
    Record {
        kind: 2,
        bits: 16,
        ..srgb(width, height)
    }
    .gapless()
}

/// A frame whose pixels end at the file's end, a byte before it and a byte behind it. If sums had 32 bits, some that end
/// far behind it would end there too.
fn around_the_end(record: Record, random: &mut Random) -> u64 {
    let start = Layout::Strided.header() + Layout::Strided.record();
    let placed = Record {
        offset: start as u32,
        ..record
    };
    let end = placed.pixel_end() as u32 as usize;
    let mut compared = 0;
    for length in [end.saturating_sub(1), end, end + 1] {
        // Where that is far, the pixels end behind the file, however long it is.
        let length = length.clamp(start, start + 200_000);
        let mut file = Layout::Strided.write_header(1, 7, length as u32);
        file.extend(placed.write(Layout::Strided));
        file.extend(random.bytes(length - start));
        let expected = refusal_of(&placed, length);
        let gapped = record.height > 1 && u64::from(record.stride) > record.row_bytes();
        let back = match expected {
            None | Some(8) if gapped => Some(21),
            other => other,
        };
        assert_eq!(numbers(&file), [None, expected, back], "{placed:?}");
        compared += 1;
    }
    compared
}

/// What Find refuses a record with that neither 6 nor 7 does, in a file of this length.
fn refusal_of(record: &Record, length: usize) -> Option<u8> {
    let (row, stride) = (record.row_bytes(), u64::from(record.stride));
    let end = u64::from(record.offset) + u64::from(record.height - 1) * stride + row;
    if stride < row {
        Some(21)
    } else if end > length as u64 {
        Some(8)
    } else {
        None
    }
}

/// A fault: two bytes that are put into a file, and the refusal that it gets for them.
type Fault = (usize, [u8; 2], u8);

/// A file with those of four faults whose bits are set, and the refusal of the first of these.
fn with_faults(file: &[u8], faults: [Fault; 4], set: u32) -> (Vec<u8>, Option<u8>) {
    let mut file = file.to_vec();
    let mut first = None;
    for (k, (at, bytes, number)) in faults.into_iter().enumerate() {
        if set >> k & 1 == 1 {
            put(&mut file, at, bytes);
            first = first.or(Some(number));
        }
    }
    (file, first)
}

/// Every set of faults of a header and of a record: the first in the order of the rules decides.
pub fn faults_in_order() -> u64 {
    let mut random = Random::new(35);
    let sound = spool_file(Layout::Strided, &[srgb(2, 1); 2], 7, &mut random);
    let of_header = [
        (8, [0, 1], 2),
        (14, [16, 0], 20),
        (12, [0, 1], 3),
        (4, [15, 0], 4),
    ];
    // Of the first record, which stands at 16.
    let of_record = [
        (16 + 8, [1, 10], 6),
        (16 + 6, [0, 0], 7),
        (16 + 16, [5, 0], 21),
        (16, [15, 0], 8),
    ];
    for set in 0..16 {
        let (file, first) = with_faults(&sound, of_header, set);
        assert_eq!(numbers(&file), [first; 3], "faults {set:b} of a header");
        let (file, first) = with_faults(&sound, of_record, set);
        let expected = [None, first, first];
        assert_eq!(numbers(&file), expected, "faults {set:b} of a record");
    }
    2 * 16 + places(&mut random)
}

/// The way to the other layout is refused for the first record at fault, with its number, whatever later ones deserve;
/// gaps are refused before 8 of the same record, and a row alone has none.
fn places(random: &mut Random) -> u64 {
    let sound = srgb(2, 2);
    let gapped = Record { stride: 7, ..sound };
    let short = Record { stride: 5, ..sound };
    let one_row = Record {
        stride: u32::MAX,
        ..srgb(2, 1)
    };
    let mut compared = 0;
    for (records, expected) in [
        (vec![sound, gapped, sound], Some((21, 1))),
        (vec![sound, sound, gapped], Some((21, 2))),
        (vec![short, gapped, sound], Some((21, 0))),
        (vec![sound, one_row, short], Some((21, 2))),
        (vec![one_row, sound, one_row], None),
    ] {
        let mut file = spool_file(Layout::Strided, &records, 7, random);
        let expect = |file: &[u8], expected: Option<(u8, usize)>| {
            compare(file);
            let refused = said(kiosk::relayout(file)).err();
            let refused = refused.map(|refusal| (refusal.number, refusal.place));
            assert_eq!(
                refused,
                expected.map(|(number, place)| (number, Some(place)))
            );
        };
        expect(&file, expected);
        // The last record's pixels are put behind the file: 8, but for gaps, and for what comes before it.
        put(&mut file, 16 + 2 * 20, [0xff; 4]);
        expect(&file, Some(expected.unwrap_or((8, 2))));
        // The first record's kind is none: 6 comes before all that is later.
        put(&mut file, 16 + 8, [9]);
        expect(&file, Some((6, 0)));
        compared += 3;
    }
    compared
}

/// A frame's record, but for its place, and its pixels without gaps.
fn shown(file: &[u8]) -> Vec<(kiosk::Record, Vec<u8>)> {
    let count = kiosk::open(file).map_or(0, |contents| contents.count);
    (0..count)
        .map(|number| {
            let frame = kiosk::find(file, number).expect("a sound frame");
            let record = kiosk::Record {
                offset: 0,
                ..frame.record
            };
            (record, frame.packed().into_owned())
        })
        .collect()
}

/// Spools with frames that may lie over each other and over the table: there and back they show the same pixels, and what
/// was there and back once stays as it is.
pub fn there_and_back() -> u64 {
    let mut random = Random::new(36);
    let mut compared = 0;
    for round in 0..2_000 {
        let layout = BOTH[round % 2];
        let count = random.below(6) as usize;
        let mut file = overlapping(layout, count, &mut random);
        compared += compare(&file);
        let frames = shown(&file);
        assert_eq!(frames.len(), count);
        for _ in 0..4 {
            let other = kiosk::relayout(&file).expect("no gaps");
            assert_eq!(Layout::of(&other), Layout::of(&file).other());
            assert_eq!(shown(&other), frames);
            compared += compare(&other);
            let again = kiosk::relayout(&other).expect("no gaps");
            assert_eq!(shown(&again), frames);
            file = other;
        }
        let there = kiosk::relayout(&file).expect("no gaps");
        assert_eq!(kiosk::relayout(&there), Ok(file));
    }
    compared
}

/// A spool without gaps, but behind single rows, whose frames start anywhere behind the header.
fn overlapping(layout: Layout, count: usize, random: &mut Random) -> Vec<u8> {
    let mut records: Vec<Record> = (0..count)
        .map(|_| {
            let record = sound_record(random).gapless();
            match record.height {
                1 => with_gaps(record, random),
                _ => record,
            }
        })
        .collect();
    let room: u64 = 60 + random.below(60);
    let header = layout.header();
    let length = header + layout.record() * count + room as usize;
    for record in &mut records {
        let last = length as u64 - record.pixel_bytes();
        record.offset = (header as u64 + random.below(last - header as u64 + 1)) as u32;
    }
    let mut file = layout.write_header(count as u16, random.number() as u16, length as u32);
    file.extend(random.bytes(length - header));
    let table: Vec<u8> = records.iter().flat_map(|r| r.write(layout)).collect();
    file[header..header + table.len()].copy_from_slice(&table);
    file
}

/// Spools of no frame, of the most and of one more.
pub fn fewest_and_most() -> u64 {
    assert_eq!(kiosk::FRAME_LIMIT, FRAME_LIMIT);
    let plain = Layout::Plain.write_header(0, 7, 12);
    let strided = Layout::Strided.write_header(0, 7, 16);
    assert_eq!(kiosk::relayout(&plain), Ok(strided.clone()));
    assert_eq!(kiosk::relayout(&strided), Ok(plain.clone()));
    let mut compared = compare(&plain) + compare(&strided);
    let mut random = Random::new(37);
    for layout in BOTH {
        let records = vec![srgb(1, 1); FRAME_LIMIT + 1];
        let most = spool_file(layout, &records[1..], 7, &mut random);
        assert_eq!(numbers(&most), [None; 3]);
        let more = spool_file(layout, &records, 7, &mut random);
        assert_eq!(numbers(&more), [Some(3); 3]);
        compared += 2;
    }
    compared
}

/// The longest spool that a header can hold.
const LONGEST: u64 = 4_294_967_295;

/// Sizes of frames of three bytes a pixel, which make a spool of exactly this length in a layout: frames of one size, a
/// lower one and one of a row.
fn sizes_of(layout: Layout, total: u64) -> Option<Vec<(u16, u16)>> {
    // From this height on, all of it is no more frames than a spool has.
    let least = (total / 3 / 8_192 / (FRAME_LIMIT as u64 - 2) + 1) as u16;
    (least..=8_192).find_map(|height| {
        let whole = 8_192 * u64::from(height);
        let count = total / 3 / whole;
        let table = (layout.header() + layout.record() * (count as usize + 2)) as u64;
        let left = (total - table).checked_sub(3 * count * whole)?;
        let (rows, rest) = (left / 3 / 8_192, left / 3 % 8_192);
        if left % 3 != 0 || rows == 0 || rest == 0 {
            return None;
        }
        let mut sizes = vec![(8_192, height); count as usize];
        sizes.extend([(8_192, rows as u16), (rest as u16, 1)]);
        Some(sizes)
    })
}

/// A spool with frames of these sizes, the largest first, which all start at the same byte.
fn all_over_each_other(layout: Layout, sizes: &[(u16, u16)]) -> Vec<u8> {
    let start = layout.header() + layout.record() * sizes.len();
    let records = sizes.iter().map(|&(width, height)| Record {
        offset: start as u32,
        ..srgb(width, height)
    });
    let table: Vec<u8> = records.flat_map(|r| r.write(layout)).collect();
    let (width, height) = sizes[0];
    let length = start + srgb(width, height).pixel_bytes() as usize;
    let mut file = layout.write_header(sizes.len() as u16, 7, length as u32);
    file.extend(table);
    file.resize(length, 0);
    file
}

/// Frames that all lie over each other, so that a small file becomes as long as a spool can be, or longer. None of these
/// is written: a destination of another length shows by its refusal which of the two it is.
pub fn longest() -> u64 {
    let totals = [
        (LONGEST - 2, 11),
        (LONGEST, 11),
        (LONGEST + 1, 14),
        (LONGEST + 3, 14),
    ];
    let mut compared = 0;
    for (layout, (total, number)) in BOTH.into_iter().flat_map(|l| totals.map(|t| (l, t))) {
        let sizes = sizes_of(layout.other(), total).expect("sizes with this sum");
        let file = all_over_each_other(layout, &sizes);
        let expected = reference::Refusal {
            number,
            place: None,
        };
        for room in [0, 60] {
            let mut dst = vec![0x5a; room];
            let refused = said(kiosk::relayout_into(&file, &mut dst));
            assert_eq!(refused, Err(expected), "a total of {total}");
            assert_eq!(spool::relayout(&file, &mut dst), Err(expected));
            assert_eq!(dst, vec![0x5a; room]);
            compared += 1;
        }
        if number == 14 {
            compared += compare_relayout(&file);
        }
    }
    compared
}
