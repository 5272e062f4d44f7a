//! Convert and light over buffers: the refusals in the order of rules 4.2, 6.7 and 6.12, then every sample.

use crate::{light, samples, ycc, Refusal};

/// What a pixel buffer holds.
#[derive(Clone, Copy, Debug, PartialEq, Eq)]
pub enum Form {
    Srgb,
    Esrgb(u32),
    LumaChroma(u32),
    Esycc(u32),
    Sycc,
}

impl Form {
    fn offered(self) -> bool {
        match self {
            Form::Srgb | Form::Sycc => true,
            Form::Esrgb(depth) | Form::LumaChroma(depth) | Form::Esycc(depth) => {
                samples::offered(depth)
            }
        }
    }

    /// The bits of a sample.
    pub fn bits(self) -> u32 {
        match self {
            Form::Srgb | Form::Sycc => 8,
            Form::Esrgb(depth) | Form::LumaChroma(depth) | Form::Esycc(depth) => depth,
        }
    }

    /// The bytes of a sample.
    pub fn width(self) -> usize {
        if self.bits() == 8 {
            1
        } else {
            2
        }
    }

    fn read(self, bytes: &[u8]) -> Vec<i64> {
        bytes
            .chunks_exact(self.width())
            .map(|sample| sample.iter().rev().fold(0, |n, &b| 256 * n + i64::from(b)))
            .collect()
    }

    fn write(self, samples: &[i64]) -> Vec<u8> {
        samples
            .iter()
            .flat_map(|sample| sample.to_le_bytes().into_iter().take(self.width()))
            .collect()
    }

    /// The first sample at fault, in byte order. Of all forms only luma and chroma have no chroma of 0.
    fn fault(self, samples: &[i64]) -> Option<Refusal> {
        let ycc = matches!(self, Form::LumaChroma(_));
        samples.iter().enumerate().find_map(|(k, &sample)| {
            if sample > samples::greatest(self.bits()) {
                Some(Refusal::at(12, self.width() * k))
            } else if ycc && k % 3 != 0 && sample == 0 {
                Some(Refusal::at(13, self.width() * k))
            } else {
                None
            }
        })
    }
}

/// The conversions of rule 4.1.
#[derive(Clone, Copy, Debug, PartialEq, Eq)]
pub enum Conversion {
    FromSrgb(u32),
    ToSrgb(u32),
    ChangeDepth(u32, u32),
    ToLumaChroma(u32),
    FromLumaChroma(u32),
    ToEsycc(u32),
    FromEsycc(u32),
    ToSycc(u32),
    FromSycc(u32),
}

impl Conversion {
    pub fn source(self) -> Form {
        match self {
            Conversion::FromSrgb(_) => Form::Srgb,
            Conversion::ToSrgb(depth)
            | Conversion::ChangeDepth(depth, _)
            | Conversion::ToLumaChroma(depth)
            | Conversion::ToEsycc(depth)
            | Conversion::ToSycc(depth) => Form::Esrgb(depth),
            Conversion::FromLumaChroma(depth) => Form::LumaChroma(depth),
            Conversion::FromEsycc(depth) => Form::Esycc(depth),
            Conversion::FromSycc(_) => Form::Sycc,
        }
    }

    pub fn target(self) -> Form {
        match self {
            Conversion::ToSrgb(_) => Form::Srgb,
            Conversion::FromSrgb(depth)
            | Conversion::ChangeDepth(_, depth)
            | Conversion::FromLumaChroma(depth)
            | Conversion::FromEsycc(depth)
            | Conversion::FromSycc(depth) => Form::Esrgb(depth),
            Conversion::ToLumaChroma(depth) => Form::LumaChroma(depth),
            Conversion::ToEsycc(depth) => Form::Esycc(depth),
            Conversion::ToSycc(_) => Form::Sycc,
        }
    }

    /// One pixel, converted, and whether it is counted as clipped: whether one of its channels is, on the way to sRGB.
    pub fn pixel(self, pixel: [i64; 3]) -> ([i64; 3], bool) {
        let converted = match self {
            Conversion::ToSrgb(depth) => {
                let channels = pixel.map(|c| samples::to_srgb(depth, c));
                let clipped = channels.iter().any(|&(_, clipped)| clipped);
                return (channels.map(|(sample, _)| sample), clipped);
            }
            Conversion::FromSrgb(depth) => pixel.map(|a| samples::from_srgb(depth, a)),
            Conversion::ChangeDepth(from, to) => pixel.map(|c| samples::change_depth(from, to, c)),
            Conversion::ToLumaChroma(depth) => samples::to_luma_chroma(depth, pixel),
            Conversion::FromLumaChroma(depth) => samples::from_luma_chroma(depth, pixel),
            Conversion::ToEsycc(depth) => ycc::to_esycc(depth, pixel),
            Conversion::FromEsycc(depth) => ycc::from_esycc(depth, pixel),
            Conversion::ToSycc(depth) => ycc::to_sycc(depth, pixel),
            Conversion::FromSycc(depth) => ycc::from_sycc(depth, pixel),
        };
        (converted, false)
    }
}

/// What an accepted conversion gives: how many pixels there are, and how many of them are clipped.
#[derive(Clone, Copy, Debug, PartialEq, Eq)]
pub struct Converted {
    pub pixels: usize,
    pub clipped: usize,
}

/// A buffer as rule 4.2 looks at it: its length in bytes or numbers, and how many of them make a sample.
struct Extent {
    length: usize,
    sample: usize,
}

impl Extent {
    fn of<T>(buffer: &[T], sample: usize) -> Self {
        Extent {
            length: buffer.len(),
            sample,
        }
    }
}

/// The refusals of rule 4.2 that no sample decides, in their order; or the pixel count.
fn count_pixels(offered: bool, source: Extent, destination: Extent) -> Result<usize, Refusal> {
    if !offered {
        return Err(Refusal::plain(9));
    }
    if !source.length.is_multiple_of(source.sample) {
        return Err(Refusal::plain(10));
    }
    if !source.length.is_multiple_of(3 * source.sample) {
        return Err(Refusal::plain(16));
    }
    let pixels = source.length / (3 * source.sample);
    if destination.length != pixels * 3 * destination.sample {
        return Err(Refusal::plain(11));
    }
    Ok(pixels)
}

/// Converts a picture.
pub fn convert(conversion: Conversion, src: &[u8], dst: &mut [u8]) -> Result<Converted, Refusal> {
    let (from, to) = (conversion.source(), conversion.target());
    let pixels = count_pixels(
        from.offered() && to.offered(),
        Extent::of(src, from.width()),
        Extent::of(dst, to.width()),
    )?;
    let samples = from.read(src);
    if let Some(refusal) = from.fault(&samples) {
        return Err(refusal);
    }
    let mut clipped = 0;
    let mut converted = Vec::new();
    for p in samples.chunks_exact(3) {
        let (pixel, is_clipped) = conversion.pixel([p[0], p[1], p[2]]);
        converted.extend(pixel);
        clipped += usize::from(is_clipped);
    }
    dst.copy_from_slice(&to.write(&converted));
    Ok(Converted { pixels, clipped })
}

/// E-sRGB codes to light. Accepted, it gives the pixel count.
pub fn code_to_light(depth: u32, src: &[u8], dst: &mut [i32]) -> Result<usize, Refusal> {
    let form = Form::Esrgb(depth);
    let pixels = count_pixels(
        samples::offered(depth),
        Extent::of(src, form.width()),
        Extent::of(dst, 1),
    )?;
    let samples = form.read(src);
    if let Some(refusal) = form.fault(&samples) {
        return Err(refusal);
    }
    for (number, &code) in dst.iter_mut().zip(&samples) {
        *number = light::from_code(depth, code);
    }
    Ok(pixels)
}

/// Light to e-sRGB codes. Accepted, it gives the pixel count.
pub fn light_to_code(depth: u32, src: &[i32], dst: &mut [u8]) -> Result<usize, Refusal> {
    let form = Form::Esrgb(depth);
    let pixels = count_pixels(
        light::has_codes(depth),
        Extent::of(src, 1),
        Extent::of(dst, form.width()),
    )?;
    let codes: Vec<i64> = src.iter().map(|&q| light::to_code(depth, q)).collect();
    dst.copy_from_slice(&form.write(&codes));
    Ok(pixels)
}

/// E-sRGB codes to light, a move added to each number of it, and back to codes: `light` gets the sums, and `back` the
/// codes. Accepted, it gives the pixel count.
pub fn through_light(
    depth: u32,
    codes: &[u8],
    moves: &[i32],
    light: &mut [i32],
    back: &mut [u8],
) -> Result<usize, Refusal> {
    let form = Form::Esrgb(depth);
    let pixels = count_pixels(
        light::has_codes(depth),
        Extent::of(codes, form.width()),
        Extent::of(light, 1),
    )?;
    if moves.len() != 3 * pixels || back.len() != codes.len() {
        return Err(Refusal::plain(11));
    }
    let samples = form.read(codes);
    if let Some(refusal) = form.fault(&samples) {
        return Err(refusal);
    }
    let mut found = Vec::new();
    for (k, &code) in samples.iter().enumerate() {
        light[k] = light::from_code(depth, code).saturating_add(moves[k]);
        found.push(light::to_code(depth, light[k]));
    }
    back.copy_from_slice(&form.write(&found));
    Ok(pixels)
}
