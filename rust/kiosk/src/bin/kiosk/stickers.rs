//! Stickers for a frame: four of the tints in a text file, and each pixel's tint of the four.

use crate::form::{self, Form};
use crate::text::{self, cut, uncommented};
use crate::{found, png, print, read, save, tell_clipped, Failure};
use kiosk::{Conversion, Frame, Refusal, Stickers, CHOICES, TINT_CODES};
use std::path::Path;

/// What is asked for.
pub struct Asked<'a> {
    pub tints: &'a Path,
    pub budget: usize,
    pub out: &'a Path,
    pub preview: Option<&'a Path>,
}

/// The depth of pictures and tints.
const DEPTH: u32 = 12;

/// The most bytes of a file of tints: room for long comments.
const TINTS_LIMIT: usize = 65_536;

pub fn run(path: &Path, number: usize, asked: Asked) -> Result<(), Failure> {
    let text = text::read(asked.tints, TINTS_LIMIT, "tints")?;
    let tints = codes(&text).map_err(|wrong| Failure::about(asked.tints, wrong))?;
    let file = read(path)?;
    let (frame, place) = found(path, &file, number)?;
    let refused = |refusal| Failure::about(&place, refusal);
    let picture = Form::of(&frame.record)
        .and_then(|form| form::codes(form, DEPTH, &frame.packed()))
        .map_err(refused)?;
    let mut numbers = vec![0; picture.len() / 6];
    let chosen =
        kiosk::stickers(&picture, &tints, asked.budget, &mut numbers).map_err(|refusal| {
            match refusal.tint_code(&picture) {
                Some(code) => Failure::about(asked.tints, too_great(&refusal, &text, code)),
                None => refused(refusal),
            }
        })?;
    // The preview comes first: where it cannot be written, no file is.
    let clipped = match asked.preview {
        Some(preview) => save_preview(preview, &frame, &tints, &numbers)?,
        None => 0,
    };
    save(asked.out, &numbers)?;
    print(&report(&chosen))?;
    tell_clipped(&place, &frame.record, clipped)
}

/// The words of a file of tints, each with the number of its line, from 1.
fn words(text: &str) -> impl Iterator<Item = (usize, &str)> {
    text.lines().enumerate().flat_map(|(k, line)| {
        uncommented(line)
            .split(|c: char| c == ',' || c.is_whitespace())
            .filter(|word| !word.is_empty())
            .map(move |word| (k + 1, word))
    })
}

/// The codes of the tints, or what is wrong with the text. A number that 16 bits do not hold becomes their greatest,
/// which the library refuses too.
fn codes(text: &str) -> Result<[u16; TINT_CODES], String> {
    let code = |(line, word): (usize, &str)| {
        if word.bytes().all(|b| b.is_ascii_digit()) {
            return Ok(word.parse().unwrap_or(u16::MAX));
        }
        Err(format!(
            "line {line}: {:?} is not a whole number",
            cut(word)
        ))
    };
    let codes: Vec<u16> = words(text).map(code).collect::<Result<_, _>>()?;
    let count = codes.len();
    codes
        .try_into()
        .map_err(|_| format!("{count} numbers, where 16 tints have {TINT_CODES}"))
}

/// The refusal of a code of the tints, with its line and what it says there.
fn too_great(refusal: &Refusal, text: &str, code: usize) -> String {
    let (line, word) = words(text).nth(code).unwrap_or_default();
    let channel = ["red", "green", "blue"][code % 3];
    format!(
        "refusal {}: line {line}: tint {}, {channel}, is {}, above 4,095",
        refusal.fault.number(),
        code / 3,
        cut(word)
    )
}

/// Writes the picture in its tints, as sRGB. Gives how many pixels have a tint that sRGB cannot hold.
fn save_preview(
    path: &Path,
    frame: &Frame,
    tints: &[u16; TINT_CODES],
    numbers: &[u8],
) -> Result<usize, Failure> {
    let codes: Vec<u8> = numbers
        .iter()
        .flat_map(|&number| &tints[3 * usize::from(number)..][..3])
        .flat_map(|code| code.to_le_bytes())
        .collect();
    let picture = form::convert(Conversion::ToSrgb { depth: DEPTH }, &codes)
        .map_err(|refusal| Failure::about(path, refusal))?;
    let (width, height) = (frame.record.width, frame.record.height);
    save(path, &png::encoded(width, height, &picture.pixels))?;
    Ok(picture.clipped)
}

/// What was chosen, in words.
fn report(chosen: &Stickers) -> String {
    let [a, b, c, d] = chosen.tints;
    let better = chosen.sum - chosen.least;
    let bound = if chosen.looked == CHOICES || better == 0 {
        "no choice has a smaller sum".into()
    } else {
        format!("no choice has a sum smaller by more than {better}")
    };
    format!(
        "tints {a}, {b}, {c}, {d}\n\
         sum {}\n\
         choices looked at: {} of {CHOICES}\n\
         sum with all 16 tints: {}\n\
         {bound}\n",
        chosen.sum, chosen.looked, chosen.least
    )
}
