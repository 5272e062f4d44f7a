//! A second implementation of the kiosk operations, written from docs/RULES.md and PIMA 7667:2001 and
//! sharing nothing with the proved library. It is exact and simple, and not quick: whole numbers only, one
//! rule at a time. Rules are cited by their numbers in docs/RULES.md.

#![forbid(unsafe_code)]

mod big;
pub mod buffers;
pub mod light;
pub mod printer;
pub mod samples;
pub mod spool;
pub mod stickers;
pub mod tints;
pub mod ycc;

/// Why an operation refuses: the number (rule 8), and the place where it has one.
#[derive(Clone, Copy, Debug, PartialEq, Eq)]
pub struct Refusal {
    pub number: u8,
    pub place: Option<usize>,
}

impl Refusal {
    fn plain(number: u8) -> Self {
        Refusal {
            number,
            place: None,
        }
    }

    fn at(number: u8, place: usize) -> Self {
        Refusal {
            number,
            place: Some(place),
        }
    }
}
