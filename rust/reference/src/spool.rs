//! The spool file in both layouts: open, find, walk, rows, lay out, write in the other layout (rule 7), and the listing
//! (rule 9).

use crate::Refusal;
use std::ops::Range;

/// How a spool is laid out (rule 7): the sizes of its header and of a record.
#[derive(Clone, Copy, Debug, PartialEq, Eq)]
pub enum Layout {
    Plain,
    Strided,
}

/// What the first two bytes of a strided spool say.
const STRIDED: u64 = 65_535;

/// The most frames of a spool (rule 7.2).
pub const FRAME_LIMIT: usize = 96;

/// The greatest length that a header can hold.
const LONGEST: u64 = 4_294_967_295;

impl Layout {
    /// The layout of a file. The first two bytes tell; a file without them is plain.
    pub fn of(file: &[u8]) -> Self {
        match file.get(0..2) {
            Some(bytes) if number(bytes) == STRIDED => Layout::Strided,
            _ => Layout::Plain,
        }
    }

    pub fn other(self) -> Self {
        match self {
            Layout::Plain => Layout::Strided,
            Layout::Strided => Layout::Plain,
        }
    }

    pub fn header(self) -> usize {
        match self {
            Layout::Plain => 12,
            Layout::Strided => 16,
        }
    }

    pub fn record(self) -> usize {
        match self {
            Layout::Plain => 16,
            Layout::Strided => 20,
        }
    }

    /// A header whose table is right behind it.
    pub fn write_header(self, count: u16, shop: u16, length: u32) -> Vec<u8> {
        let first = match self {
            Layout::Plain => count,
            Layout::Strided => STRIDED as u16,
        };
        let mut header = [
            &first.to_le_bytes()[..],
            &shop.to_le_bytes(),
            &(self.header() as u32).to_le_bytes(),
            &length.to_le_bytes(),
        ]
        .concat();
        if self == Layout::Strided {
            header.extend(count.to_le_bytes());
            header.extend((self.record() as u16).to_le_bytes());
        }
        header
    }
}

/// What an open spool holds.
#[derive(Clone, Copy, Debug, PartialEq, Eq)]
pub struct Contents {
    pub count: u16,
    pub shop: u16,
    pub table: u32,
}

/// A frame's record. In a plain spool the stride is a row's own bytes.
#[derive(Clone, Copy, Debug, Default, PartialEq, Eq)]
pub struct Record {
    pub offset: u32,
    pub width: u16,
    pub height: u16,
    pub kind: u8,
    pub bits: u8,
    pub copies: u16,
    pub order: u32,
    pub stride: u32,
}

fn number(bytes: &[u8]) -> u64 {
    bytes.iter().rev().fold(0, |n, &b| 256 * n + u64::from(b))
}

impl Record {
    fn read(layout: Layout, bytes: &[u8]) -> Self {
        let record = Record {
            offset: number(&bytes[0..4]) as u32,
            width: number(&bytes[4..6]) as u16,
            height: number(&bytes[6..8]) as u16,
            kind: bytes[8],
            bits: bytes[9],
            copies: number(&bytes[10..12]) as u16,
            order: number(&bytes[12..16]) as u32,
            stride: 0,
        };
        match layout {
            Layout::Plain => record.gapless(),
            Layout::Strided => Record {
                stride: number(&bytes[16..20]) as u32,
                ..record
            },
        }
    }

    /// The record's bytes in a file.
    pub fn write(&self, layout: Layout) -> Vec<u8> {
        let mut bytes = [
            &self.offset.to_le_bytes()[..],
            &self.width.to_le_bytes(),
            &self.height.to_le_bytes(),
            &[self.kind, self.bits],
            &self.copies.to_le_bytes(),
            &self.order.to_le_bytes(),
        ]
        .concat();
        if layout == Layout::Strided {
            bytes.extend(self.stride.to_le_bytes());
        }
        bytes
    }

    /// The same with no gaps between the rows.
    pub fn gapless(self) -> Self {
        Record {
            stride: self.row_bytes() as u32,
            ..self
        }
    }

    /// The bytes of a row's pixels.
    pub fn row_bytes(&self) -> u64 {
        let sample = if self.bits == 8 { 1 } else { 2 };
        u64::from(self.width) * 3 * sample
    }

    /// The bytes of the frame's pixels without gaps.
    pub fn pixel_bytes(&self) -> u64 {
        u64::from(self.height) * self.row_bytes()
    }

    /// Where the pixels of the last row end. The height is not 0.
    pub fn pixel_end(&self) -> u64 {
        self.row_start(u64::from(self.height) - 1) + self.row_bytes()
    }

    /// Where a row starts.
    pub fn row_start(&self, row: u64) -> u64 {
        u64::from(self.offset) + row * u64::from(self.stride)
    }

    fn has_gaps(&self) -> bool {
        self.height >= 2 && u64::from(self.stride) > self.row_bytes()
    }

    /// Refusals 6 and 7.
    fn check(&self) -> Result<(), u8> {
        match (self.kind, self.bits) {
            (1 | 5, 8) | (2..=4, 10 | 12 | 16) => {}
            _ => return Err(6),
        }
        if [self.width, self.height]
            .iter()
            .any(|&side| side == 0 || side > 8192)
        {
            return Err(7);
        }
        Ok(())
    }

    /// Refusals 6, 7, 21 and 8 in a file of a layout and a length. Gaps are refused where they are not allowed.
    fn check_in(&self, layout: Layout, length: usize, gaps_allowed: bool) -> Result<(), u8> {
        self.check()?;
        if u64::from(self.stride) < self.row_bytes() || self.has_gaps() && !gaps_allowed {
            return Err(21);
        }
        if (self.offset as usize) < layout.header() || self.pixel_end() > length as u64 {
            return Err(8);
        }
        Ok(())
    }
}

/// Opens a spool.
pub fn open(file: &[u8]) -> Result<Contents, Refusal> {
    let layout = Layout::of(file);
    if file.len() < layout.header() {
        return Err(Refusal::plain(1));
    }
    if number(&file[8..12]) != file.len() as u64 {
        return Err(Refusal::plain(2));
    }
    let count = match layout {
        Layout::Plain => number(&file[0..2]),
        Layout::Strided if number(&file[14..16]) != 20 => return Err(Refusal::plain(20)),
        Layout::Strided => number(&file[12..14]),
    };
    if count > FRAME_LIMIT as u64 {
        return Err(Refusal::plain(3));
    }
    let table = number(&file[4..8]);
    let table_end = table + layout.record() as u64 * count;
    if table < layout.header() as u64 || table_end > file.len() as u64 {
        return Err(Refusal::plain(4));
    }
    Ok(Contents {
        count: count as u16,
        shop: number(&file[2..4]) as u16,
        table: table as u32,
    })
}

/// The record of a frame that an open spool has, whatever it says.
fn record_of(file: &[u8], contents: &Contents, frame: usize) -> Record {
    let layout = Layout::of(file);
    Record::read(
        layout,
        &file[contents.table as usize + layout.record() * frame..],
    )
}

/// Finds a frame: its record.
pub fn find(file: &[u8], frame: usize) -> Result<Record, Refusal> {
    let contents = open(file)?;
    if frame >= usize::from(contents.count) {
        return Err(Refusal::plain(5));
    }
    let record = record_of(file, &contents, frame);
    record
        .check_in(Layout::of(file), file.len(), true)
        .map_err(Refusal::plain)?;
    Ok(record)
}

/// One step of the walk over the frames: what Find gives for `next`, and the number after it.
pub fn step(file: &[u8], next: usize) -> (Result<Record, Refusal>, usize) {
    let found = find(file, next);
    match found {
        Ok(_) => (found, next + 1),
        Err(refusal) if [6, 7, 21, 8].contains(&refusal.number) => (found, next + 1),
        Err(_) => (found, next),
    }
}

/// A row of a frame: where it lies in the file. One past the height is empty, at the file's start.
pub fn row(file: &[u8], frame: usize, row: usize) -> Result<Range<usize>, Refusal> {
    let record = find(file, frame)?;
    if row >= usize::from(record.height) {
        return Ok(0..0);
    }
    let start = record.row_start(row as u64) as usize;
    Ok(start..start + record.row_bytes() as usize)
}

/// The length of a spool, or refusal 14 if no header can hold it.
fn total_of(layout: Layout, records: &[Record]) -> Result<usize, Refusal> {
    let table_end = (layout.header() + layout.record() * records.len()) as u64;
    let total = table_end + records.iter().map(Record::pixel_bytes).sum::<u64>();
    if total > LONGEST {
        return Err(Refusal::plain(14));
    }
    Ok(total as usize)
}

/// The header and the table of a spool whose pixels follow one after another, without gaps.
fn head_of(layout: Layout, records: &[Record], shop: u16, total: usize) -> Vec<u8> {
    let mut head = layout.write_header(records.len() as u16, shop, total as u32);
    let mut offset = layout.header() + layout.record() * records.len();
    for record in records {
        let placed = Record {
            offset: offset as u32,
            ..record.gapless()
        };
        head.extend(placed.write(layout));
        offset += record.pixel_bytes() as usize;
    }
    head
}

/// Lays out a plain spool. Accepted, it gives the total length.
pub fn lay_out(records: &[Record], shop: u16, dst: &mut [u8]) -> Result<usize, Refusal> {
    if records.len() > FRAME_LIMIT {
        return Err(Refusal::plain(3));
    }
    for (place, record) in records.iter().enumerate() {
        record
            .check()
            .map_err(|number| Refusal::at(number, place))?;
    }
    let total = total_of(Layout::Plain, records)?;
    if dst.len() != total {
        return Err(Refusal::plain(11));
    }
    let head = head_of(Layout::Plain, records, shop, total);
    dst[..head.len()].copy_from_slice(&head);
    Ok(total)
}

/// All records of a spool that can be written in the other layout.
fn records_of(file: &[u8]) -> Result<Vec<Record>, Refusal> {
    let layout = Layout::of(file);
    let contents = open(file)?;
    let records: Vec<Record> = (0..usize::from(contents.count))
        .map(|frame| record_of(file, &contents, frame))
        .collect();
    // A plain spool has no gaps to begin with.
    let gaps_allowed = layout == Layout::Plain;
    for (place, record) in records.iter().enumerate() {
        record
            .check_in(layout, file.len(), gaps_allowed)
            .map_err(|number| Refusal::at(number, place))?;
    }
    Ok(records)
}

/// The length of a spool in the other layout, or why it has none.
pub fn relayout_length(file: &[u8]) -> Result<usize, Refusal> {
    total_of(Layout::of(file).other(), &records_of(file)?)
}

/// Writes a spool in the other layout. Accepted, it gives the total length.
pub fn relayout(file: &[u8], dst: &mut [u8]) -> Result<usize, Refusal> {
    let total = relayout_length(file)?;
    if dst.len() != total {
        return Err(Refusal::plain(11));
    }
    let records = records_of(file)?;
    let head = head_of(Layout::of(file).other(), &records, open(file)?.shop, total);
    let pixels = records
        .iter()
        .flat_map(|record| &file[record.offset as usize..record.pixel_end() as usize]);
    let bytes: Vec<u8> = head.iter().chain(pixels).copied().collect();
    dst.copy_from_slice(&bytes);
    Ok(total)
}

/// The listing of a spool file.
pub fn listing(file: &[u8]) -> String {
    if file.len() > 65_536 {
        return "refused 15\n".to_string();
    }
    match open(file) {
        Err(refusal) => format!("refused {}\n", refusal.number),
        Ok(contents) => {
            let mut text = "frame order kind bits width height copies offset\n".to_string();
            for frame in 0..usize::from(contents.count) {
                match find(file, frame) {
                    Err(refusal) => {
                        text += &format!("{frame} refused {}\n", refusal.number);
                    }
                    Ok(r) => {
                        text += &format!(
                            "{frame} {} {} {} {} {} {} {}\n",
                            r.order, r.kind, r.bits, r.width, r.height, r.copies, r.offset
                        );
                    }
                }
            }
            text
        }
    }
}

#[cfg(test)]
mod tests {
    use super::*;

    /// The sample file's frames, laid out, and its listing.
    #[test]
    fn listing_of_two_frames() {
        let srgb = Record {
            width: 2,
            height: 1,
            kind: 1,
            bits: 8,
            copies: 1,
            order: 501,
            ..Record::default()
        };
        let esrgb = Record {
            width: 1,
            kind: 2,
            bits: 10,
            copies: 3,
            ..srgb
        };
        let mut file = [0; 56];
        assert_eq!(lay_out(&[srgb, esrgb], 7, &mut file), Ok(56));
        assert_eq!(open(&file).map(|c| c.shop), Ok(7));
        assert_eq!(
            listing(&file),
            include_str!("../../../samples/two-frames.txt")
        );
    }

    /// Two rows of a pixel with a byte between them, then one row with a stride that nothing follows.
    const GAPPED: &[u8] = b"\xff\xff\x07\x00\x10\x00\x00\x00\x45\x00\x00\x00\x02\x00\x14\x00\
        \x38\x00\x00\x00\x01\x00\x02\x00\x01\x08\x01\x00\xf5\x01\x00\x00\x04\x00\x00\x00\
        \x3f\x00\x00\x00\x01\x00\x01\x00\x02\x0a\x03\x00\xf5\x01\x00\x00\x64\x00\x00\x00\
        \x01\x02\x03\xee\x04\x05\x06\x80\x01\x80\x01\x80\x01";

    #[test]
    fn rows_with_a_gap() {
        assert_eq!(open(GAPPED).map(|c| (c.count, c.shop)), Ok((2, 7)));
        assert_eq!(row(GAPPED, 0, 0), Ok(56..59));
        assert_eq!(row(GAPPED, 0, 1), Ok(60..63));
        assert_eq!(row(GAPPED, 0, 2), Ok(0..0));
        assert_eq!(row(GAPPED, 1, 0), Ok(63..69));
        let refused = Refusal::at(21, 0);
        assert_eq!(relayout(GAPPED, &mut [0; 56]), Err(refused));
    }

    /// With a stride of a row's own bytes, the second row starts with the byte that was the gap.
    #[test]
    fn there_and_back() {
        let mut strided = GAPPED.to_vec();
        strided[32] = 3;
        let mut plain = [0; 56];
        assert_eq!(relayout(&strided, &mut plain), Ok(56));
        let pixels = [1, 2, 3, 0xee, 4, 5, 128, 1, 128, 1, 128, 1];
        assert_eq!(plain[44..], pixels);
        let mut again = [0; 68];
        assert_eq!(relayout(&plain, &mut again), Ok(68));
        assert_eq!(again[56..], pixels);
        // The stride of the one row is its own bytes now.
        assert_eq!(find(&again, 1).map(|record| record.stride), Ok(6));
        let mut back = [0; 56];
        assert_eq!(relayout(&again, &mut back), Ok(56));
        assert_eq!(back, plain);
    }
}
