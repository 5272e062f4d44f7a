//! Refusals in words, with their numbers.

use std::error::Error;
use std::fmt;

/// Why an operation refuses, in the order of the numbers (rule 8).
#[derive(Clone, Copy, Debug, PartialEq, Eq, PartialOrd, Ord)]
pub enum Fault {
    TooShort = 1,
    WrongFileLength,
    TooManyFrames,
    TableOutside,
    NoSuchFrame,
    UnknownKind,
    WrongSize,
    PixelsOutside,
    DepthNotOffered,
    NotWholeSamples,
    WrongDestinationLength,
    SampleTooGreat,
    ChromaZero,
    TotalTooLong,
    InputTooLong,
    NotWholePixels,
    NotFinite,
    NoBudget,
    TooManyPixels,
    WrongRecordSize,
    WrongStride,
    WrongArrival,
}

impl Fault {
    /// All faults, each at its number less one.
    pub const ALL: [Fault; 22] = [
        Fault::TooShort,
        Fault::WrongFileLength,
        Fault::TooManyFrames,
        Fault::TableOutside,
        Fault::NoSuchFrame,
        Fault::UnknownKind,
        Fault::WrongSize,
        Fault::PixelsOutside,
        Fault::DepthNotOffered,
        Fault::NotWholeSamples,
        Fault::WrongDestinationLength,
        Fault::SampleTooGreat,
        Fault::ChromaZero,
        Fault::TotalTooLong,
        Fault::InputTooLong,
        Fault::NotWholePixels,
        Fault::NotFinite,
        Fault::NoBudget,
        Fault::TooManyPixels,
        Fault::WrongRecordSize,
        Fault::WrongStride,
        Fault::WrongArrival,
    ];

    /// The number of the refusal.
    pub fn number(self) -> u8 {
        self as u8
    }

    /// The fault of a number.
    pub fn numbered(number: usize) -> Option<Fault> {
        Fault::ALL.get(number.checked_sub(1)?).copied()
    }

    fn words(self) -> &'static str {
        match self {
            Fault::TooShort => "the spool is shorter than its header",
            Fault::WrongFileLength => "the length in the header is not the file's",
            Fault::TooManyFrames => "a spool has at most 96 frames",
            Fault::TableOutside => "the record table is not inside the file behind the header",
            Fault::NoSuchFrame => "no frame has this number",
            Fault::UnknownKind => "kind and bits are no pair that a picture has",
            Fault::WrongSize => "the width or height is 0 or above 8,192",
            Fault::PixelsOutside => "the pixels are not inside the file behind the header",
            Fault::DepthNotOffered => "this depth is not offered",
            Fault::NotWholeSamples => "the source is not whole samples: two bytes make one",
            Fault::WrongDestinationLength => "the destination has not exactly the length needed",
            Fault::SampleTooGreat => "a sample is above the greatest of its depth",
            Fault::ChromaZero => "a chroma sample has code 0",
            Fault::TotalTooLong => "the spool would be longer than 4,294,967,295 bytes",
            Fault::InputTooLong => "a listing takes at most 65,536 bytes",
            Fault::NotWholePixels => "the source is not whole pixels: three samples make one",
            Fault::NotFinite => "a channel of the tint is infinite or not a number",
            Fault::NoBudget => "a budget of 0 lets no choice be looked at",
            Fault::TooManyPixels => "a picture for stickers has at most 65,536 pixels",
            Fault::WrongRecordSize => "the header has another size of records than 20 bytes",
            Fault::WrongStride => "the stride is below a row's own bytes",
            Fault::WrongArrival => {
                "at most 1,000 arrivals, of 1 to 999 prints for kiosks 0 to 7, in ascending turns below 100,000"
            }
        }
    }
}

/// A refusal: the fault, and its place where it has one.
#[derive(Clone, Copy, Debug, PartialEq, Eq)]
pub struct Refusal {
    pub fault: Fault,
    /// The byte offset of a sample, or the number of a record, of a tint's channel or of an arrival. For a code of the
    /// 16 tints of [`crate::stickers`] it is the picture's length plus the code's number, 0 to 47.
    pub place: Option<usize>,
}

impl Refusal {
    /// The number, 0 to 47, of the tints' code at fault, if that is why [`crate::stickers`] refused this picture.
    pub fn tint_code(&self, picture: &[u8]) -> Option<usize> {
        match self.fault {
            Fault::SampleTooGreat => self.place?.checked_sub(picture.len()),
            _ => None,
        }
    }
}

/// The refusal in words. A code of the 16 tints is shown as a byte behind the picture: how long the picture is, and so
/// which code it is, only the caller knows, by [`Refusal::tint_code`].
impl fmt::Display for Refusal {
    fn fmt(&self, f: &mut fmt::Formatter<'_>) -> fmt::Result {
        write!(f, "refusal {}: {}", self.fault.number(), self.fault.words())?;
        match (self.place, self.fault) {
            (None, _) => Ok(()),
            // Only a spool on its way to the other layout has a place of this.
            (Some(place), Fault::WrongStride) => write!(
                f,
                ", or leaves gaps that a plain spool cannot have (record {place})"
            ),
            (Some(place), Fault::UnknownKind | Fault::WrongSize | Fault::PixelsOutside) => {
                write!(f, " (record {place})")
            }
            (Some(place), Fault::WrongArrival) => write!(f, " (arrival {place})"),
            (Some(place), Fault::NotFinite) => {
                let name = ["red", "green", "blue"].get(place).unwrap_or(&"unknown");
                write!(f, " (channel {place}, {name})")
            }
            (Some(place), _) => write!(f, " (byte {place})"),
        }
    }
}

impl Error for Refusal {}

/// An answer of the library: a count, or minus the number of a refusal.
pub(crate) fn judge(answer: i64, place: Option<usize>) -> Result<usize, Refusal> {
    if let Ok(count) = usize::try_from(answer) {
        return Ok(count);
    }
    let fault = usize::try_from(answer.unsigned_abs())
        .ok()
        .and_then(Fault::numbered)
        .expect("the library returns a count or one of its refusals");
    Err(Refusal { fault, place })
}

#[cfg(test)]
mod tests {
    use super::*;

    #[test]
    fn numbers_are_in_order() {
        for (index, fault) in Fault::ALL.into_iter().enumerate() {
            assert_eq!(usize::from(fault.number()), index + 1);
            assert_eq!(
                judge(-i64::from(fault.number()), None).map_err(|r| r.fault),
                Err(fault)
            );
        }
    }

    #[test]
    fn words_with_the_number() {
        let words = |fault, place| Refusal { fault, place }.to_string();
        assert_eq!(
            words(Fault::SampleTooGreat, Some(8)),
            "refusal 12: a sample is above the greatest of its depth (byte 8)"
        );
        assert_eq!(
            words(Fault::NotWholeSamples, None),
            "refusal 10: the source is not whole samples: two bytes make one"
        );
        assert_eq!(
            words(Fault::NotWholePixels, None),
            "refusal 16: the source is not whole pixels: three samples make one"
        );
        assert_eq!(
            words(Fault::NotFinite, Some(1)),
            "refusal 17: a channel of the tint is infinite or not a number (channel 1, green)"
        );
        assert_eq!(
            words(Fault::NoBudget, None),
            "refusal 18: a budget of 0 lets no choice be looked at"
        );
        assert_eq!(
            words(Fault::TooManyPixels, None),
            "refusal 19: a picture for stickers has at most 65,536 pixels"
        );
        assert_eq!(
            words(Fault::WrongRecordSize, None),
            "refusal 20: the header has another size of records than 20 bytes"
        );
        assert_eq!(
            words(Fault::WrongArrival, Some(7)),
            "refusal 22: at most 1,000 arrivals, of 1 to 999 prints for kiosks 0 to 7, in ascending turns below 100,000 \
             (arrival 7)"
        );
    }

    /// A frame that is not found has no place; a record of a list, or of a spool on its way to the other layout, has.
    #[test]
    fn words_of_records() {
        let words = |fault, place| Refusal { fault, place }.to_string();
        let outside = "refusal 8: the pixels are not inside the file behind the header";
        assert_eq!(words(Fault::PixelsOutside, None), outside);
        assert_eq!(
            words(Fault::PixelsOutside, Some(3)),
            format!("{outside} (record 3)")
        );
        let stride = "refusal 21: the stride is below a row's own bytes";
        assert_eq!(words(Fault::WrongStride, None), stride);
        assert_eq!(
            words(Fault::WrongStride, Some(3)),
            format!("{stride}, or leaves gaps that a plain spool cannot have (record 3)")
        );
    }

    #[test]
    fn codes_of_tints_lie_behind_the_picture() {
        let code = |fault, place| Refusal { fault, place }.tint_code(&[0; 12]);
        assert_eq!(code(Fault::SampleTooGreat, Some(10)), None);
        assert_eq!(code(Fault::SampleTooGreat, Some(12)), Some(0));
        assert_eq!(code(Fault::SampleTooGreat, Some(59)), Some(47));
        assert_eq!(code(Fault::NoBudget, None), None);
    }
}
