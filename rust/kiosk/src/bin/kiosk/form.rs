//! What a frame's pixels are, and the chain of conversions from one form to another.

use kiosk::{Conversion, Fault, Record, Refusal};

/// What the pixels of a frame are.
#[derive(Clone, Copy, Debug, PartialEq, Eq)]
pub enum Form {
    Srgb,
    Esrgb(u32),
    LumaChroma(u32),
    Esycc(u32),
    Sycc,
}

/// The depth of e-sRGB between two forms that have none of their own, sRGB and sYCC. To sYCC every depth gives the same
/// bytes, since each has sRGB's values exactly. Back, a byte is rounded twice, and the finest codes do least: over all
/// sYCC pixels one byte in 6 is not the nearest by way of 10 bits, one in 23 by 12, and one in 420 by 16.
const FINEST: u32 = 16;

/// What a frame can be converted to.
#[derive(Clone, Copy, Debug, PartialEq, Eq)]
pub enum Target {
    Picture(Form),
    Light(u32),
}

/// The forms, by their words on the command line.
const FORMS: [(&str, Form); 11] = [
    ("srgb", Form::Srgb),
    ("esrgb10", Form::Esrgb(10)),
    ("esrgb12", Form::Esrgb(12)),
    ("esrgb16", Form::Esrgb(16)),
    ("lumachroma10", Form::LumaChroma(10)),
    ("lumachroma12", Form::LumaChroma(12)),
    ("lumachroma16", Form::LumaChroma(16)),
    ("esycc10", Form::Esycc(10)),
    ("esycc12", Form::Esycc(12)),
    ("esycc16", Form::Esycc(16)),
    ("sycc", Form::Sycc),
];

impl Target {
    /// The target of a word on the command line.
    pub fn named(word: &str) -> Option<Target> {
        match word {
            "light10" => Some(Target::Light(10)),
            "light12" => Some(Target::Light(12)),
            "light16" => Some(Target::Light(16)),
            _ => {
                let (_, form) = FORMS.into_iter().find(|(name, _)| *name == word)?;
                Some(Target::Picture(form))
            }
        }
    }
}

impl Form {
    /// The form of a frame. Finding a frame has checked its kind and bits, so it is one of these.
    pub fn of(record: &Record) -> Result<Form, Refusal> {
        FORMS
            .into_iter()
            .map(|(_, form)| form)
            .find(|form| form.kind_and_bits() == (record.kind, record.bits))
            .ok_or(Refusal {
                fault: Fault::UnknownKind,
                place: None,
            })
    }

    /// The depth that the form itself has.
    pub fn depth(self) -> Option<u32> {
        match self {
            Form::Srgb | Form::Sycc => None,
            Form::Esrgb(depth) | Form::LumaChroma(depth) | Form::Esycc(depth) => Some(depth),
        }
    }

    /// The kind and bits that a record has for this form.
    fn kind_and_bits(self) -> (u8, u8) {
        let kind = match self {
            Form::Srgb => 1,
            Form::Esrgb(_) => 2,
            Form::LumaChroma(_) => 3,
            Form::Esycc(_) => 4,
            Form::Sycc => 5,
        };
        (kind, self.depth().unwrap_or(8) as u8)
    }
}

/// A converted picture.
pub struct Picture {
    pub pixels: Vec<u8>,
    /// The pixels that were clipped, if its last conversion is from e-sRGB to sRGB.
    pub clipped: usize,
}

/// The sentence on clipped pixels.
pub fn beyond_srgb(clipped: usize, pixels: usize) -> String {
    format!("{clipped} of {pixels} pixels have a colour that sRGB cannot hold")
}

/// One conversion, into a buffer of its own.
pub fn convert(conversion: Conversion, src: &[u8]) -> Result<Picture, Refusal> {
    let mut pixels = vec![0; conversion.needed(src.len())];
    let clipped = kiosk::convert(conversion, src, &mut pixels)?.clipped;
    Ok(Picture { pixels, clipped })
}

/// E-sRGB codes of a depth, from a picture of any form.
pub fn codes(from: Form, depth: u32, pixels: &[u8]) -> Result<Vec<u8>, Refusal> {
    let own = |conversion| Ok(convert(conversion, pixels)?.pixels);
    let changed = |from, codes: &[u8]| {
        let change = Conversion::ChangeDepth { from, to: depth };
        Ok(convert(change, codes)?.pixels)
    };
    match from {
        Form::Srgb => own(Conversion::FromSrgb { depth }),
        Form::Sycc => own(Conversion::FromSycc { depth }),
        Form::Esrgb(from) => changed(from, pixels),
        Form::LumaChroma(from) => changed(from, &own(Conversion::FromLumaChroma { depth: from })?),
        Form::Esycc(from) => changed(from, &own(Conversion::FromEsycc { depth: from })?),
    }
}

/// A picture of one form in another, by the conversions that the library has (rule 4.1): to e-sRGB codes, and from
/// these to the other form. The codes have the depth of the form that is asked for, or else that of the picture.
pub fn converted(from: Form, to: Form, pixels: &[u8]) -> Result<Picture, Refusal> {
    let depth = to.depth().or(from.depth()).unwrap_or(FINEST);
    let codes = codes(from, depth, pixels)?;
    let whole = |pixels| Ok(Picture { pixels, clipped: 0 });
    if from == to {
        // The same samples, since there and back again would change some. Their codes have shown that they are sound.
        return whole(pixels.to_vec());
    }
    match to {
        Form::Srgb => convert(Conversion::ToSrgb { depth }, &codes),
        Form::Esrgb(_) => whole(codes),
        Form::LumaChroma(_) => convert(Conversion::ToLumaChroma { depth }, &codes),
        Form::Esycc(_) => convert(Conversion::ToEsycc { depth }, &codes),
        Form::Sycc => convert(Conversion::ToSycc { depth }, &codes),
    }
}

/// The linear light of a picture, its numbers as bytes.
pub fn light(from: Form, depth: u32, pixels: &[u8]) -> Result<Vec<u8>, Refusal> {
    let codes = codes(from, depth, pixels)?;
    let mut numbers = vec![0; codes.len() / 2];
    kiosk::code_to_light(depth, &codes, &mut numbers)?;
    Ok(numbers.into_iter().flat_map(i32::to_le_bytes).collect())
}

/// A spool with one frame: that of a record, its pixels in another form.
pub fn spool_of(record: Record, form: Form, shop: u16, pixels: &[u8]) -> Result<Vec<u8>, Refusal> {
    let (kind, bits) = form.kind_and_bits();
    let record = Record {
        kind,
        bits,
        ..record
    };
    let start = 12 + 16;
    let mut spool = vec![0; start + pixels.len()];
    kiosk::lay_out(&[record], shop, &mut spool)?;
    spool[start..].copy_from_slice(pixels);
    Ok(spool)
}
