//! A picture of codes against its round trip through luma and chroma, and both at 8 bits (rules 5.1 and 5.2).

use crate::form::{self, Form, Picture};
use kiosk::{Conversion, Converted, Refusal};
use std::fmt;

/// How the channels of two pictures compare.
#[derive(Default)]
pub struct Tally {
    equal: usize,
    less: usize,
    more: usize,
    further: usize,
}

impl Tally {
    pub fn of(before: &[u8], after: &[u8], width: usize) -> Tally {
        let mut tally = Tally::default();
        for (a, b) in before.chunks_exact(width).zip(after.chunks_exact(width)) {
            let number =
                |sample: &[u8]| sample.iter().rev().fold(0, |n, &x| 256 * n + i32::from(x));
            match number(b) - number(a) {
                0 => tally.equal += 1,
                -1 => tally.less += 1,
                1 => tally.more += 1,
                _ => tally.further += 1,
            }
        }
        tally
    }
}

impl fmt::Display for Tally {
    fn fmt(&self, f: &mut fmt::Formatter<'_>) -> fmt::Result {
        write!(
            f,
            "{} equal, {} one less, {} one more, {} further",
            self.equal, self.less, self.more, self.further
        )
    }
}

/// A picture of codes and its round trip, and both at 8 bits.
struct Runs {
    codes: Vec<u8>,
    back: Vec<u8>,
    direct: Picture,
    round: Picture,
}

impl Runs {
    /// All of it from a picture of sRGB.
    fn of_srgb(depth: u32, picture: &[u8]) -> Result<Runs, Refusal> {
        let wide = || vec![0; Conversion::FromSrgb { depth }.needed(picture.len())];
        let (mut codes, mut ycc, mut back) = (wide(), wide(), wide());
        let (mut direct, mut round) = (vec![0; picture.len()], vec![0; picture.len()]);
        let runs = kiosk::both_runs(
            depth,
            picture,
            &mut codes,
            &mut ycc,
            &mut back,
            &mut direct,
            &mut round,
        );
        for answer in [runs.codes, runs.ycc, runs.back] {
            answer?;
        }
        let picture = |pixels, answer: Result<Converted, Refusal>| {
            let clipped = answer?.clipped;
            Ok(Picture { pixels, clipped })
        };
        Ok(Runs {
            codes,
            back,
            direct: picture(direct, runs.direct)?,
            round: picture(round, runs.round)?,
        })
    }

    /// The round trip of codes, then both to 8 bits.
    fn of_codes(depth: u32, codes: Vec<u8>) -> Result<Runs, Refusal> {
        let (mut ycc, mut back) = (vec![0; codes.len()], vec![0; codes.len()]);
        let trip = kiosk::round_trip(depth, &codes, &mut ycc, &mut back);
        trip.there?;
        trip.again?;
        let direct = form::convert(Conversion::ToSrgb { depth }, &codes)?;
        let round = form::convert(Conversion::ToSrgb { depth }, &back)?;
        Ok(Runs {
            codes,
            back,
            direct,
            round,
        })
    }

    fn report(&self, depth: u32) -> String {
        let (direct, round) = (&self.direct, &self.round);
        let mut report = format!(
            "{depth} bits: {} channels: {}\n{depth} bits, brought to 8: {} channels: {}\n",
            self.codes.len() / 2,
            Tally::of(&self.codes, &self.back, 2),
            direct.pixels.len(),
            Tally::of(&direct.pixels, &round.pixels, 1)
        );
        for (run, picture) in [("", direct), (", after the round trip", round)] {
            if picture.clipped > 0 {
                let beyond = form::beyond_srgb(picture.clipped, picture.pixels.len() / 3);
                report += &format!("{depth} bits{run}: {beyond}\n");
            }
        }
        report
    }
}

/// The comparison in words: at the picture's own depth, and at each depth if it has none.
pub fn report(from: Form, pixels: &[u8]) -> Result<String, Refusal> {
    let depths = from.depth().map_or(vec![10, 12, 16], |depth| vec![depth]);
    let runs = |depth| match from {
        Form::Srgb => Runs::of_srgb(depth, pixels),
        _ => Runs::of_codes(depth, form::codes(from, depth, pixels)?),
    };
    depths
        .into_iter()
        .map(|depth| Ok(runs(depth)?.report(depth)))
        .collect()
}
