//! Every frame of a spool: whether it is sound, and how many of its pixels sRGB cannot hold.

use crate::form::{self, Form};
use crate::progress::Progress;
use crate::{print, read, Failure};
use kiosk::{Frame, Frames, Refusal};
use std::io;
use std::path::Path;

/// The most bytes of a frame that are converted at a time, so that memory does not grow with the frame. The longest row
/// has 49,152.
const PIECE: usize = 1 << 18;

pub fn run(path: &Path) -> Result<(), Failure> {
    let file = read(path)?;
    let opened = kiosk::open(&file).map_err(|refusal| Failure::about(path, refusal))?;
    if opened.count == 0 {
        return print("no frames\n");
    }
    let refused = print_lines(&file, opened.count)?;
    if refused > 0 {
        let count = opened.count;
        return Err(Failure::about(
            path,
            format!("{refused} of {count} frames are refused"),
        ));
    }
    Ok(())
}

/// Prints the line of each frame, and gives how many are refused.
fn print_lines(file: &[u8], count: usize) -> Result<usize, Failure> {
    let mut progress = Progress::new(io::stderr(), pixel_bytes(file, count));
    let mut frames = Frames::new(file);
    let (mut passed, mut refused) = (0, 0);
    for number in 0..count {
        let found = frames.step();
        let length = found.map_or(0, |frame| frame.packed_bytes());
        let judged = found.and_then(|frame| judge(frame, |at| progress.reach(passed + at)));
        passed += length;
        refused += usize::from(judged.is_err());
        let line = judged.unwrap_or_else(|refusal| refusal.to_string());
        progress.erase();
        print(&format!("frame {number}: {line}\n"))?;
    }
    Ok(refused)
}

/// The bytes of all pixels that are found, without gaps.
fn pixel_bytes(file: &[u8], count: usize) -> usize {
    let mut frames = Frames::new(file);
    (0..count)
        .filter_map(|_| frames.step().ok())
        .map(|frame| frame.packed_bytes())
        .sum()
}

/// What is said of a sound frame. `reached` is told how many of its bytes are done, without gaps.
fn judge(frame: Frame, reached: impl FnMut(usize)) -> Result<String, Refusal> {
    let form = Form::of(&frame.record)?;
    let (width, height) = (
        usize::from(frame.record.width),
        usize::from(frame.record.height),
    );
    let clipped = clipped(form, &frame, reached)?;
    let beyond = form::beyond_srgb(clipped, width * height);
    Ok(format!("sound, {beyond}"))
}

/// How many pixels are clipped on the way to sRGB, as a preview takes it: piece by piece, of whole rows.
fn clipped(form: Form, frame: &Frame, mut reached: impl FnMut(usize)) -> Result<usize, Refusal> {
    let at_a_time = (PIECE / frame.row_bytes()).max(1);
    let mut rows = frame.rows();
    let (mut start, mut clipped) = (0, 0);
    while start < frame.packed_bytes() {
        let piece = rows.by_ref().take(at_a_time).collect::<Vec<_>>().concat();
        let converted = form::converted(form, Form::Srgb, &piece);
        clipped += converted.map_err(|refusal| behind(start, refusal))?.clipped;
        start += piece.len();
        reached(start);
    }
    Ok(clipped)
}

/// A refusal in a piece, with its place in the frame.
fn behind(start: usize, refusal: Refusal) -> Refusal {
    Refusal {
        place: refusal.place.map(|place| start + place),
        ..refusal
    }
}

#[cfg(test)]
mod tests {
    use super::*;
    use kiosk::{Fault, Record};

    /// Rows of three pixels of 10-bit codes, each with a gap behind it but for the last. The greatest code is clipped; a
    /// gap has bytes that no code has.
    fn rows(count: usize, code: u16, gap: usize) -> Vec<u8> {
        let row = [&code.to_le_bytes().repeat(9)[..], &vec![0xff; gap]].concat();
        let mut rows = row.repeat(count);
        rows.truncate(rows.len() - gap);
        rows
    }

    /// A frame of so many rows.
    fn frame(pixels: &[u8], count: usize, stride: usize) -> Frame<'_> {
        Frame {
            record: Record {
                height: count as u16,
                ..Record::default()
            },
            stride: stride as u32,
            pixels,
        }
    }

    /// More rows than a piece has, with gaps and without: each pixel counts once, and a fault has its place in the frame
    /// without gaps.
    #[test]
    fn pieces_are_put_together() {
        let per_piece = PIECE / 18;
        let counts = [1, per_piece - 1, per_piece, per_piece + 1, 3 * per_piece];
        for (count, gap) in counts
            .into_iter()
            .flat_map(|count| [(count, 0), (count, 5)])
        {
            let mut ends = Vec::new();
            let mut picture = rows(count, 1023, gap);
            let whole = frame(&picture, count, 18 + gap);
            let counted = clipped(Form::Esrgb(10), &whole, |at| ends.push(at));
            assert_eq!(counted, Ok(3 * count));
            assert_eq!(ends.len(), count.div_ceil(per_piece));
            assert_eq!(ends.last(), Some(&(18 * count)));
            for place in [0, count / 2 * 18, 18 * count - 2] {
                let high = place + place / 18 * gap + 1;
                picture[high] = 4;
                let refused = Refusal {
                    fault: Fault::SampleTooGreat,
                    place: Some(place),
                };
                let faulty = frame(&picture, count, 18 + gap);
                assert_eq!(clipped(Form::Esrgb(10), &faulty, |_| {}), Err(refused));
                picture[high] = 3;
            }
        }
    }

    /// A row that is longer than a piece is a piece.
    #[test]
    fn long_rows_are_whole() {
        let picture = rows(2 * PIECE / 18, 1023, 0);
        let mut ends = Vec::new();
        let whole = frame(&picture, 1, picture.len());
        let counted = clipped(Form::Esrgb(10), &whole, |at| ends.push(at));
        assert_eq!(
            (counted, ends),
            (Ok(picture.len() / 6), vec![picture.len()])
        );
    }
}
