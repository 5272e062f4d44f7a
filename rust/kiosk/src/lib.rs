//! Colour pictures, tints, stickers, spool files and a printer's turns for photo kiosks: a safe wrapper of the proved
//! library. Buffers are slices, an answer is a `Result`, and a refused conversion leaves its destination as it was.
//! Numbers of rules are those of docs/RULES.md.

#![deny(unsafe_code)]

mod calls;
mod refusal;

use calls::{Given, StridedRecord};
pub use refusal::{Fault, Refusal};
use std::borrow::Cow;

/// The conversions. A depth may be any number; 10, 12 and 16 are offered.
#[derive(Clone, Copy, Debug, PartialEq, Eq)]
pub enum Conversion {
    /// 8-bit sRGB to e-sRGB.
    FromSrgb { depth: u32 },
    /// E-sRGB to 8-bit sRGB.
    ToSrgb { depth: u32 },
    /// E-sRGB of one depth to another: down to the nearest code, ties upward. Equal depths copy.
    ChangeDepth { from: u32, to: u32 },
    /// E-sRGB to luma and chroma.
    ToLumaChroma { depth: u32 },
    /// Luma and chroma to e-sRGB.
    FromLumaChroma { depth: u32 },
    /// E-sRGB to e-sYCC of its depth.
    ToEsycc { depth: u32 },
    /// E-sYCC to e-sRGB of its depth.
    FromEsycc { depth: u32 },
    /// E-sRGB to sYCC, the standard's sRGB YCC of 8 bits.
    ToSycc { depth: u32 },
    /// sYCC to e-sRGB. A grey does not come back as a grey.
    FromSycc { depth: u32 },
}

impl Conversion {
    /// The bytes that a destination needs for a source of `bytes` bytes: two-byte samples but for sRGB and sYCC.
    pub fn needed(self, bytes: usize) -> usize {
        match self {
            Conversion::FromSrgb { .. } | Conversion::FromSycc { .. } => bytes.saturating_mul(2),
            Conversion::ToSrgb { .. } | Conversion::ToSycc { .. } => bytes / 2,
            Conversion::ChangeDepth { .. }
            | Conversion::ToLumaChroma { .. }
            | Conversion::FromLumaChroma { .. }
            | Conversion::ToEsycc { .. }
            | Conversion::FromEsycc { .. } => bytes,
        }
    }
}

/// What an accepted conversion gives.
#[derive(Clone, Copy, Debug, PartialEq, Eq)]
pub struct Converted {
    pub pixels: usize,
    /// The pixels with a channel whose code is below black's or above white's, which sRGB cannot hold. Only e-sRGB to
    /// sRGB counts them; it is 0 for every other conversion.
    pub clipped: usize,
}

fn counted(given: Given) -> Result<usize, Refusal> {
    refusal::judge(given.answer, given.place)
}

fn converted(given: Given) -> Result<Converted, Refusal> {
    let clipped = given.clipped;
    counted(given).map(|pixels| Converted { pixels, clipped })
}

/// Converts the picture `src` into `dst`, and gives how many pixels it has and how many were clipped.
pub fn convert(conversion: Conversion, src: &[u8], dst: &mut [u8]) -> Result<Converted, Refusal> {
    converted(calls::convert(conversion, src, dst))
}

/// What the two conversions of a round trip give.
#[derive(Clone, Copy, Debug, PartialEq, Eq)]
pub struct RoundTrip {
    pub there: Result<usize, Refusal>,
    pub again: Result<usize, Refusal>,
}

/// Converts e-sRGB codes to luma and chroma in `ycc`, and `ycc` back to codes in `back` (rule 5.1). Where the first
/// conversion is refused, the second converts what `ycc` held before.
pub fn round_trip(depth: u32, codes: &[u8], ycc: &mut [u8], back: &mut [u8]) -> RoundTrip {
    let (there, again) = calls::round_trip(depth, codes, ycc, back);
    RoundTrip {
        there: counted(there),
        again: counted(again),
    }
}

/// What the five conversions of both runs give, each under the name of its destination.
#[derive(Clone, Copy, Debug, PartialEq, Eq)]
pub struct BothRuns {
    pub codes: Result<usize, Refusal>,
    pub ycc: Result<usize, Refusal>,
    pub back: Result<usize, Refusal>,
    pub direct: Result<Converted, Refusal>,
    pub round: Result<Converted, Refusal>,
}

/// Converts an sRGB picture to e-sRGB in `codes`, these to luma and chroma in `ycc`, those back to e-sRGB in
/// `back`, then `codes` to 8-bit sRGB in `direct` and `back` to 8-bit sRGB in `round` (rule 5.2). All five
/// conversions are made: where one is refused, a later one that reads its destination converts what was there
/// before.
pub fn both_runs(
    depth: u32,
    picture: &[u8],
    codes: &mut [u8],
    ycc: &mut [u8],
    back: &mut [u8],
    direct: &mut [u8],
    round: &mut [u8],
) -> BothRuns {
    let [codes, ycc, back, direct, round] =
        calls::both_runs(depth, picture, codes, ycc, back, direct, round);
    BothRuns {
        codes: counted(codes),
        ycc: counted(ycc),
        back: counted(back),
        direct: converted(direct),
        round: converted(round),
    }
}

/// Converts e-sRGB codes of 10, 12 or 16 bits to linear light, in signed millionths of reference white, and
/// gives the pixel count. At 16 bits each is within two millionths of the exact light (rule 6.9).
pub fn code_to_light(depth: u32, src: &[u8], dst: &mut [i32]) -> Result<usize, Refusal> {
    counted(calls::code_to_light(depth, src, dst))
}

/// Converts linear light to e-sRGB codes of 10 or 12 bits, clipping, and gives the pixel count.
pub fn light_to_code(depth: u32, src: &[i32], dst: &mut [u8]) -> Result<usize, Refusal> {
    counted(calls::light_to_code(depth, src, dst))
}

/// The depths that light has codes at, and by how many millionths light may be moved at each, up or down, and still have
/// the code that it was taken from (rule 6.10): the header's KIOSK_STEADY_AT_10_BITS and KIOSK_STEADY_AT_12_BITS.
pub const STEADY: [(u32, i32); 2] = [(10, 72), (12, 18)];

/// Takes e-sRGB codes of 10 or 12 bits to light, adds a move to each number of it, and takes the sums back to codes
/// (rule 6.12): `light` gets the sums, clipped to 32 bits, and `back` the codes. Gives the pixel count. If no move is
/// greater than [`STEADY`] says, `back` is `codes`. Refused, both stay as they were.
pub fn through_light(
    depth: u32,
    codes: &[u8],
    moves: &[i32],
    light: &mut [i32],
    back: &mut [u8],
) -> Result<usize, Refusal> {
    counted(calls::through_light(depth, codes, moves, light, back))
}

/// A tint: a colour as red, green and blue (rule 11.1).
#[derive(Clone, Copy, Debug, PartialEq)]
pub enum Tint {
    /// Values of 8-bit sRGB.
    Code([u8; 3]),
    /// Nonlinear numbers: 0 is black and 1 is white.
    Nonlinear([f64; 3]),
    /// Linear light: 1 is reference white.
    Light([f64; 3]),
}

/// Converts a tint to a pixel of 12-bit e-sRGB codes, clipping. Infinities, and what is not a number, are refused; the
/// place is that of the first channel at fault, 0 to 2.
pub fn tint_to_pixel(tint: Tint) -> Result<[u16; 3], Refusal> {
    let mut pixel = [0; 3];
    match tint {
        Tint::Code(values) => calls::tint_code(values, &mut pixel),
        Tint::Nonlinear(numbers) => {
            counted(calls::tint_nonlinear(numbers, &mut pixel))?;
        }
        Tint::Light(numbers) => {
            counted(calls::tint_light(numbers, &mut pixel))?;
        }
    }
    Ok(pixel)
}

/// How many codes the 16 tints have that stickers are chosen from: three each.
pub const TINT_CODES: usize = 48;

/// How many choices of four tints out of 16 there are.
pub const CHOICES: usize = 1_820;

/// What accepted stickers are.
#[derive(Clone, Copy, Debug, PartialEq, Eq)]
pub struct Stickers {
    /// The numbers of the four tints chosen, ascending.
    pub tints: [u8; 4],
    /// The sum of all pixels' distances to the nearest of the four.
    pub sum: u32,
    /// How many choices were looked at: [`CHOICES`], or the budget if that is less.
    pub looked: usize,
    /// The sum with all 16 tints. No choice has a smaller one, so that none is better by more than `sum - least`.
    pub least: u32,
}

/// Chooses four of 16 tints for a picture of 12-bit e-sRGB, and writes the number of each pixel's tint to `dst`, one
/// byte a pixel (rule 13). `tints` are red, green and blue of tint 0, then of tint 1, and so on. No more than `budget`
/// of the [`CHOICES`] are looked at, in lexicographic order, and the first with the smallest sum is chosen. A pixel's
/// tint is the nearest of the four; of those as near the one with the smallest luma, as [`Conversion::ToLumaChroma`]
/// rounds it; and of those whose luma is the same too, the one with the lowest number.
pub fn stickers(
    picture: &[u8],
    tints: &[u16; TINT_CODES],
    budget: usize,
    dst: &mut [u8],
) -> Result<Stickers, Refusal> {
    let (given, four, [sum, least]) = calls::stickers(picture, tints, budget, dst);
    let looked = counted(given)?;
    Ok(Stickers {
        tints: four,
        sum,
        looked,
        least,
    })
}

/// Prints that come for a kiosk at the start of a turn (rule 14.1). A turn, a kiosk and a number of prints beyond the
/// limits may be asked for, and are refused.
#[repr(C)]
#[derive(Clone, Copy, Debug, PartialEq, Eq)]
pub struct Arrival {
    pub turn: u32,
    pub kiosk: u32,
    pub prints: u32,
}

// The library takes an arrival as three numbers.
const _: () = assert!(size_of::<Arrival>() == 3 * size_of::<u32>());

/// The kiosks at a printer, which count from 0: the header's KIOSK_PRINTER_KIOSKS.
pub const KIOSKS: usize = 8;

/// What [`printer`] writes for a turn without a print: the header's KIOSK_PRINTER_IDLE.
pub const IDLE: u8 = 255;

/// The most arrivals of a list: the header's KIOSK_ARRIVAL_LIMIT.
pub const ARRIVAL_LIMIT: usize = 1_000;

/// The turn that each arrival comes before: the header's KIOSK_TURN_LIMIT.
pub const TURN_LIMIT: u32 = 100_000;

/// The most prints of an arrival: the header's KIOSK_PRINT_LIMIT.
pub const PRINT_LIMIT: u32 = 999;

/// Simulates a printer that [`KIOSKS`] kiosks share, as many turns as `served` has bytes, and gives their number (rule
/// 14). A turn begins with its arrivals; then a print is made for the first kiosk with prints waiting, going round from
/// the kiosk behind the last one served. The turn's byte gets that kiosk, or [`IDLE`] if no kiosk has prints waiting. An
/// arrival that breaks a limit is refused with its number as place.
pub fn printer(arrivals: &[Arrival], served: &mut [u8]) -> Result<usize, Refusal> {
    counted(calls::printer(arrivals, served))
}

/// A frame's record, with the bytes that it has in a plain spool; in a strided one the stride follows them.
#[repr(C)]
#[derive(Clone, Copy, Debug, Default, PartialEq, Eq)]
pub struct Record {
    /// Where the frame's pixels start in the file.
    pub offset: u32,
    pub width: u16,
    pub height: u16,
    /// 1 sRGB, 2 e-sRGB, 3 luma and chroma, 4 e-sYCC, 5 sYCC.
    pub kind: u8,
    pub bits: u8,
    pub copies: u16,
    pub order: u32,
}

// The library writes a record as 16 bytes, the low byte of each number first.
const _: () = assert!(size_of::<Record>() == 16 && cfg!(target_endian = "little"));

/// The most frames of a spool (rule 7.2): the header's KIOSK_FRAME_LIMIT.
pub const FRAME_LIMIT: usize = 96;

/// What an open spool holds.
#[derive(Clone, Copy, Debug, PartialEq, Eq)]
pub struct Contents {
    pub count: usize,
    pub shop: u16,
    /// Where the record table starts.
    pub table: u32,
}

/// Opens a spool file, plain or strided: the first two bytes of a strided one are 65,535.
pub fn open(file: &[u8]) -> Result<Contents, Refusal> {
    let (answer, shop, table) = calls::open(file);
    let count = refusal::judge(answer, None)?;
    Ok(Contents { count, shop, table })
}

/// A frame: its record, and its pixels in the lent file.
#[derive(Clone, Copy, Debug, PartialEq, Eq)]
pub struct Frame<'a> {
    pub record: Record,
    /// The bytes from the start of a row to the start of the next: in a plain spool those of a row's pixels.
    pub stride: u32,
    /// From the first row to the end of the last row's pixels, with the gaps between rows if there are any.
    pub pixels: &'a [u8],
}

impl<'a> Frame<'a> {
    /// The bytes that a row's pixels take.
    pub fn row_bytes(&self) -> usize {
        self.pixels.len() - (usize::from(self.record.height) - 1) * self.stride as usize
    }

    /// The bytes that the pixels take without gaps.
    pub fn packed_bytes(&self) -> usize {
        self.row_bytes() * usize::from(self.record.height)
    }

    /// The pixels of one row after another, without the gaps behind them.
    pub fn rows(&self) -> impl Iterator<Item = &'a [u8]> {
        let bytes = self.row_bytes();
        let strides = self.pixels.chunks(self.stride as usize);
        strides.map(move |row| &row[..bytes])
    }

    /// The pixels without gaps, as [`convert`] takes them: those of the file where it has no gaps, or else a copy.
    pub fn packed(&self) -> Cow<'a, [u8]> {
        if self.pixels.len() == self.packed_bytes() {
            return Cow::Borrowed(self.pixels);
        }
        Cow::Owned(self.rows().collect::<Vec<_>>().concat())
    }
}

fn frame_in(file: &[u8], answer: i64, found: StridedRecord) -> Result<Frame<'_>, Refusal> {
    let length = refusal::judge(answer, None)?;
    let StridedRecord { record, stride } = found;
    let start = record.offset as usize;
    Ok(Frame {
        record,
        stride,
        // The library has seen that the pixels are inside the file.
        pixels: &file[start..start + length],
    })
}

/// Finds a frame of a spool file. Frames count from 0.
pub fn find(file: &[u8], number: usize) -> Result<Frame<'_>, Refusal> {
    let (answer, record) = calls::find(file, number);
    frame_in(file, answer, record)
}

/// A row of a frame: the part of the file with its pixels. Frames and rows count from 0. From the frame's height on a
/// row is the empty part at the file's start.
pub fn row(file: &[u8], number: usize, row: usize) -> Result<&[u8], Refusal> {
    let (answer, start) = calls::row(file, number, row);
    let length = refusal::judge(answer, None)?;
    // The library has seen that the row is inside the file.
    Ok(&file[start..start + length])
}

/// The frames of a spool file one after another.
#[derive(Clone, Copy, Debug)]
pub struct Frames<'a> {
    file: &'a [u8],
    next: usize,
}

impl<'a> Frames<'a> {
    pub fn new(file: &'a [u8]) -> Self {
        Frames { file, next: 0 }
    }

    /// The number of the next frame.
    pub fn number(&self) -> usize {
        self.next
    }

    /// The next frame. A frame refused by itself (6, 7, 21 or 8) is passed; a file that does not open, and the
    /// end of its frames, are stayed at.
    pub fn step(&mut self) -> Result<Frame<'a>, Refusal> {
        let (answer, record) = calls::step(self.file, &mut self.next);
        frame_in(self.file, answer, record)
    }
}

/// Lays out a plain spool in `dst` and gives its total length: the header and the record table are written, the
/// pixels are placed behind them in the records' order, and the pixel bytes stay as found. The records'
/// own offsets are ignored.
pub fn lay_out(records: &[Record], shop: u16, dst: &mut [u8]) -> Result<usize, Refusal> {
    counted(calls::lay_out(records, shop, dst))
}

/// A spool in the other layout: a plain one strided, a strided one plain. Its table is right behind the header, then
/// the pixels of the frames follow one after another, without gaps. A frame at fault is refused with its number as
/// place, and so is one of a strided spool that has gaps between its rows.
pub fn relayout(file: &[u8]) -> Result<Vec<u8>, Refusal> {
    // A file that is refused, or whose frames are too long for a spool, is so with any destination.
    let length = relayout_length(file).unwrap_or(0);
    let mut spool = vec![0; length];
    relayout_into(file, &mut spool)?;
    Ok(spool)
}

/// As [`relayout`], in a destination of exactly the length that it takes, which it gives.
pub fn relayout_into(file: &[u8], dst: &mut [u8]) -> Result<usize, Refusal> {
    counted(calls::relayout(file, dst))
}

/// The length that a spool has in the other layout, if it is one that a header can hold.
fn relayout_length(file: &[u8]) -> Option<usize> {
    let strided = file.starts_with(&[0xff; 2]);
    let (header, record) = if strided { (12, 16) } else { (16, 20) };
    let count = open(file).ok()?.count;
    let mut length = header + record * count;
    let mut frames = Frames::new(file);
    for _ in 0..count {
        length += frames.step().ok()?.packed_bytes();
    }
    (length <= u32::MAX as usize).then_some(length)
}

/// The most bytes of a file that is listed (rule 9.1).
pub const LISTING_LIMIT: usize = 65_536;

/// The listing of a spool file as text (rules 9.1 to 9.4): a heading and a line for each frame, or `refused` and
/// the number where the file does not open or has more than [`LISTING_LIMIT`] bytes.
pub fn listing(file: &[u8]) -> String {
    String::from_utf8(calls::listing(file)).expect("the library's listing is plain text")
}
