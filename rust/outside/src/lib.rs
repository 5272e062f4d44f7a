//! What the outside tests share: random numbers and records with fixed seeds, destinations between guard bytes, and
//! the library's types beside the reference's.

#![forbid(unsafe_code)]

use reference::buffers::{Conversion, Converted};
use reference::spool::{Layout, Record};
use std::fmt::Debug;

/// SplitMix64: the same numbers at every run.
pub struct Random(u64);

impl Random {
    pub fn new(seed: u64) -> Self {
        Random(seed)
    }

    pub fn number(&mut self) -> u64 {
        self.0 = self.0.wrapping_add(0x9e37_79b9_7f4a_7c15);
        let mut z = self.0;
        z = (z ^ (z >> 30)).wrapping_mul(0xbf58_476d_1ce4_e5b9);
        z = (z ^ (z >> 27)).wrapping_mul(0x94d0_49bb_1331_11eb);
        z ^ (z >> 31)
    }

    /// A number below `end`.
    pub fn below(&mut self, end: u64) -> u64 {
        ((u128::from(self.number()) * u128::from(end)) >> 64) as u64
    }

    pub fn pick<T: Copy>(&mut self, choices: &[T]) -> T {
        choices[self.below(choices.len() as u64) as usize]
    }

    pub fn bytes(&mut self, count: usize) -> Vec<u8> {
        (0..count).map(|_| self.number() as u8).collect()
    }
}

/// The kinds and bits that go together (rule 7.3).
pub const PAIRS: [(u8, u8); 11] = [
    (1, 8),
    (2, 10),
    (2, 12),
    (2, 16),
    (3, 10),
    (3, 12),
    (3, 16),
    (4, 10),
    (4, 12),
    (4, 16),
    (5, 8),
];

/// A record that neither 6 nor 7 refuses, of a few pixels. Its offset and stride may be anything.
pub fn sound_record(random: &mut Random) -> Record {
    let (kind, bits) = random.pick(&PAIRS);
    Record {
        offset: random.number() as u32,
        width: 1 + random.below(3) as u16,
        height: 1 + random.below(3) as u16,
        kind,
        bits,
        copies: random.number() as u16,
        order: random.number() as u32,
        stride: random.number() as u32,
    }
}

/// The same with a stride that is a row's own bytes or a few more.
pub fn with_gaps(record: Record, random: &mut Random) -> Record {
    Record {
        stride: (record.row_bytes() + random.below(4)) as u32,
        ..record
    }
}

/// Sound records of a layout, in a strided spool some with gaps. Their offsets may be anything.
pub fn sound_records(layout: Layout, count: usize, random: &mut Random) -> Vec<Record> {
    let mut sound = || {
        let record = sound_record(random).gapless();
        match layout {
            Layout::Plain => record,
            Layout::Strided => with_gaps(record, random),
        }
    };
    (0..count).map(|_| sound()).collect()
}

/// A spool with these records, whose pixels follow the table one frame after another, with gaps as the strides say.
/// Pixels and gaps are any bytes.
pub fn spool_file(layout: Layout, records: &[Record], shop: u16, random: &mut Random) -> Vec<u8> {
    let mut end = (layout.header() + layout.record() * records.len()) as u64;
    let mut table = Vec::new();
    for record in records {
        let placed = Record {
            offset: end as u32,
            ..*record
        };
        end = placed.pixel_end();
        table.extend(placed.write(layout));
    }
    let mut file = layout.write_header(records.len() as u16, shop, end as u32);
    file.extend(table);
    let pixels = random.bytes(end as usize - file.len());
    file.extend(pixels);
    file
}

/// Puts a number of `N` bytes into a file, and leaves out what does not fit.
pub fn put<const N: usize>(file: &mut [u8], at: usize, bytes: [u8; N]) {
    for (place, byte) in file.iter_mut().skip(at).zip(bytes) {
        *place = byte;
    }
}

/// Puts the file's own length into its header.
pub fn put_length(file: &mut [u8]) {
    let length = file.len() as u32;
    put(file, 8, length.to_le_bytes());
}

const GUARD: usize = 24;

/// Destinations with guards around each, lent to `fill`. Gives what `fill` gives and the destinations after
/// it; a guard that is changed stops the test.
pub fn all_guarded<T: Copy + PartialEq, R, const N: usize>(
    before: [&[T]; N],
    guard: T,
    fill: impl FnOnce([&mut [T]; N]) -> R,
) -> (R, [Vec<T>; N]) {
    let guards = [guard; GUARD];
    let mut rooms = before.map(|bytes| [&guards, bytes, &guards].concat());
    let given = fill(rooms.each_mut().map(|room| {
        let end = room.len() - GUARD;
        &mut room[GUARD..end]
    }));
    let after = rooms.map(|room| {
        let end = room.len() - GUARD;
        assert!(room[..GUARD] == guards, "bytes before a destination");
        assert!(room[end..] == guards, "bytes behind a destination");
        room[GUARD..end].to_vec()
    });
    (given, after)
}

/// One destination, as in [`all_guarded`].
pub fn guarded<T: Copy + PartialEq, R>(
    before: &[T],
    guard: T,
    fill: impl FnOnce(&mut [T]) -> R,
) -> (R, Vec<T>) {
    let (given, [after]) = all_guarded([before], guard, |[dst]| fill(dst));
    (given, after)
}

/// A call by the library and by the reference, over destinations that held the same: answers and every byte or number
/// are compared. `what` names the call if they differ. Gives the number of the refusal, if it is refused, and the
/// destination after it.
pub fn by_both<T: Copy + PartialEq + Debug, A: PartialEq + Debug>(
    before: &[T],
    guard: T,
    library: impl FnOnce(&mut [T]) -> Result<A, kiosk::Refusal>,
    reference: impl FnOnce(&mut [T]) -> Result<A, reference::Refusal>,
    what: impl FnOnce() -> String,
) -> (Option<u8>, Vec<T>) {
    let (answer, after) = guarded(before, guard, library);
    let mut expected = before.to_vec();
    let expected_answer = reference(&mut expected);
    let answer = said(answer);
    assert_eq!(
        (&answer, &after),
        (&expected_answer, &expected),
        "{} into a length of {}",
        what(),
        before.len()
    );
    (answer.err().map(|refusal| refusal.number), after)
}

/// The library's conversion of the reference's.
pub fn of_library(conversion: Conversion) -> kiosk::Conversion {
    match conversion {
        Conversion::FromSrgb(depth) => kiosk::Conversion::FromSrgb { depth },
        Conversion::ToSrgb(depth) => kiosk::Conversion::ToSrgb { depth },
        Conversion::ChangeDepth(from, to) => kiosk::Conversion::ChangeDepth { from, to },
        Conversion::ToLumaChroma(depth) => kiosk::Conversion::ToLumaChroma { depth },
        Conversion::FromLumaChroma(depth) => kiosk::Conversion::FromLumaChroma { depth },
        Conversion::ToEsycc(depth) => kiosk::Conversion::ToEsycc { depth },
        Conversion::FromEsycc(depth) => kiosk::Conversion::FromEsycc { depth },
        Conversion::ToSycc(depth) => kiosk::Conversion::ToSycc { depth },
        Conversion::FromSycc(depth) => kiosk::Conversion::FromSycc { depth },
    }
}

/// What the library says of an accepted conversion, in the reference's words.
pub fn counts(converted: kiosk::Converted) -> Converted {
    Converted {
        pixels: converted.pixels,
        clipped: converted.clipped,
    }
}

/// An answer of the library in the reference's words.
pub fn said<T>(answer: Result<T, kiosk::Refusal>) -> Result<T, reference::Refusal> {
    answer.map_err(|refusal| reference::Refusal {
        number: refusal.fault.number(),
        place: refusal.place,
    })
}
