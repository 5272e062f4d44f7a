//! The calls of the proved library, and the only `unsafe` code of this crate. Each function here is safe:
//! it takes slices and references, and what it hands on is what include/kiosk.h asks for.

#![allow(unsafe_code)]

use crate::{Arrival, Conversion, Record, TINT_CODES};

mod c {
    use super::StridedRecord;
    use crate::{Record, TINT_CODES};

    /// A conversion that names one depth.
    pub type Convert =
        unsafe extern "C" fn(u32, *const u8, usize, *mut u8, usize, *mut usize) -> i64;

    /// Declares conversions that name one depth, each as in include/kiosk.h.
    macro_rules! conversions {
        ($($name:ident)*) => {
            extern "C" {
                $(pub fn $name(
                    depth: u32,
                    src: *const u8,
                    src_len: usize,
                    dst: *mut u8,
                    dst_len: usize,
                    place: *mut usize,
                ) -> i64;)*
            }
        };
    }

    conversions! {
        kiosk_from_srgb
        kiosk_to_luma_chroma kiosk_from_luma_chroma
        kiosk_to_esycc kiosk_from_esycc
        kiosk_to_sycc kiosk_from_sycc
    }

    /// A tint of doubles.
    pub type Tint = unsafe extern "C" fn(f64, f64, f64, *mut [u16; 3], *mut usize) -> i64;

    /// Declares tints of doubles, each as in include/kiosk.h.
    macro_rules! tints {
        ($($name:ident)*) => {
            extern "C" {
                $(pub fn $name(
                    red: f64,
                    green: f64,
                    blue: f64,
                    pixel: *mut [u16; 3],
                    place: *mut usize,
                ) -> i64;)*
            }
        };
    }

    tints! { kiosk_tint_nonlinear kiosk_tint_light }

    // As in include/kiosk.h.
    extern "C" {
        pub fn kiosk_to_srgb(
            depth: u32,
            src: *const u8,
            src_len: usize,
            dst: *mut u8,
            dst_len: usize,
            place: *mut usize,
            clipped: *mut usize,
        ) -> i64;
        pub fn kiosk_change_depth(
            from: u32,
            to: u32,
            src: *const u8,
            src_len: usize,
            dst: *mut u8,
            dst_len: usize,
            place: *mut usize,
        ) -> i64;
        pub fn kiosk_round_trip(
            depth: u32,
            codes: *const u8,
            codes_len: usize,
            ycc: *mut u8,
            ycc_len: usize,
            back: *mut u8,
            back_len: usize,
            place: *mut usize,
            again: *mut i64,
            again_place: *mut usize,
        ) -> i64;
        pub fn kiosk_both_runs(
            depth: u32,
            picture: *const u8,
            picture_len: usize,
            codes: *mut u8,
            codes_len: usize,
            ycc: *mut u8,
            ycc_len: usize,
            back: *mut u8,
            back_len: usize,
            direct: *mut u8,
            direct_len: usize,
            round: *mut u8,
            round_len: usize,
            answers: *mut [i64; 5],
            places: *mut [usize; 5],
            clipped: *mut [usize; 2],
        );
        pub fn kiosk_code_to_light(
            depth: u32,
            src: *const u8,
            src_len: usize,
            dst: *mut i32,
            dst_len: usize,
            place: *mut usize,
        ) -> i64;
        pub fn kiosk_light_to_code(
            depth: u32,
            src: *const i32,
            src_len: usize,
            dst: *mut u8,
            dst_len: usize,
        ) -> i64;
        pub fn kiosk_through_light(
            depth: u32,
            codes: *const u8,
            codes_len: usize,
            moves: *const i32,
            moves_len: usize,
            light: *mut i32,
            light_len: usize,
            back: *mut u8,
            back_len: usize,
            place: *mut usize,
        ) -> i64;
        pub fn kiosk_tint_code(red: u8, green: u8, blue: u8, pixel: *mut [u16; 3]);
        pub fn kiosk_stickers(
            src: *const u8,
            src_len: usize,
            tints: *const [u16; TINT_CODES],
            budget: usize,
            dst: *mut u8,
            dst_len: usize,
            four: *mut [u8; 4],
            sums: *mut [u32; 2],
            place: *mut usize,
        ) -> i64;
        pub fn kiosk_printer(
            arrivals: *const u32,
            arrivals_len: usize,
            served: *mut u8,
            served_len: usize,
            place: *mut usize,
        ) -> i64;
        pub fn kiosk_open(file: *const u8, file_len: usize, shop: *mut u16, table: *mut u32)
            -> i64;
        pub fn kiosk_find_strided(
            file: *const u8,
            file_len: usize,
            number: usize,
            record: *mut StridedRecord,
        ) -> i64;
        pub fn kiosk_step_strided(
            file: *const u8,
            file_len: usize,
            next: *mut usize,
            record: *mut StridedRecord,
        ) -> i64;
        pub fn kiosk_row(
            file: *const u8,
            file_len: usize,
            number: usize,
            row: usize,
            start: *mut usize,
        ) -> i64;
        pub fn kiosk_relayout(
            file: *const u8,
            file_len: usize,
            dst: *mut u8,
            dst_len: usize,
            place: *mut usize,
        ) -> i64;
        pub fn kiosk_lay_out(
            records: *const Record,
            records_len: usize,
            shop: u16,
            dst: *mut u8,
            dst_len: usize,
            place: *mut usize,
        ) -> i64;
        pub fn kiosk_listing(
            file: *const u8,
            file_len: usize,
            text: *mut [u8; super::LISTING_ROOM],
        ) -> usize;
    }
}

/// The bytes that are lent for a listing: the header's KIOSK_LISTING_ROOM.
const LISTING_ROOM: usize = 49 + 52 * crate::FRAME_LIMIT;

/// What a call gives: its answer, the place if it wrote one, and the clipped pixels, which only a conversion to sRGB
/// counts.
pub struct Given {
    pub answer: i64,
    pub place: Option<usize>,
    pub clipped: usize,
}

/// No place is this great: a slice has half as many bytes at most.
const UNWRITTEN: usize = usize::MAX;

fn given(answer: i64, place: usize) -> Given {
    Given {
        answer,
        place: (place != UNWRITTEN).then_some(place),
        clipped: 0,
    }
}

fn with_clipped(given: Given, clipped: usize) -> Given {
    Given { clipped, ..given }
}

/// What a call gives that may write a place.
fn placed(call: impl FnOnce(&mut usize) -> i64) -> Given {
    let mut place = UNWRITTEN;
    let answer = call(&mut place);
    given(answer, place)
}

pub fn convert(conversion: Conversion, src: &[u8], dst: &mut [u8]) -> Given {
    let (s, n, d, m) = (src.as_ptr(), src.len(), dst.as_mut_ptr(), dst.len());
    let (depth, call): (u32, c::Convert) = match conversion {
        Conversion::ChangeDepth { from, to } => {
            // SAFETY: the pointers and lengths are those of two slices that do not overlap, and of a local.
            return placed(|place| unsafe { c::kiosk_change_depth(from, to, s, n, d, m, place) });
        }
        Conversion::ToSrgb { depth } => {
            let mut clipped = 0;
            let count = &mut clipped;
            // SAFETY: as of a change of depth, and of one more local.
            let given =
                placed(|place| unsafe { c::kiosk_to_srgb(depth, s, n, d, m, place, count) });
            return with_clipped(given, clipped);
        }
        Conversion::FromSrgb { depth } => (depth, c::kiosk_from_srgb),
        Conversion::ToLumaChroma { depth } => (depth, c::kiosk_to_luma_chroma),
        Conversion::FromLumaChroma { depth } => (depth, c::kiosk_from_luma_chroma),
        Conversion::ToEsycc { depth } => (depth, c::kiosk_to_esycc),
        Conversion::FromEsycc { depth } => (depth, c::kiosk_from_esycc),
        Conversion::ToSycc { depth } => (depth, c::kiosk_to_sycc),
        Conversion::FromSycc { depth } => (depth, c::kiosk_from_sycc),
    };
    // SAFETY: as of a change of depth.
    placed(|place| unsafe { call(depth, s, n, d, m, place) })
}

/// What the two conversions of a round trip give.
pub fn round_trip(depth: u32, codes: &[u8], ycc: &mut [u8], back: &mut [u8]) -> (Given, Given) {
    let mut place = UNWRITTEN;
    let mut again = 0;
    let mut again_place = UNWRITTEN;
    // SAFETY: the pointers and lengths are those of three slices that do not overlap, and of locals.
    let answer = unsafe {
        c::kiosk_round_trip(
            depth,
            codes.as_ptr(),
            codes.len(),
            ycc.as_mut_ptr(),
            ycc.len(),
            back.as_mut_ptr(),
            back.len(),
            &mut place,
            &mut again,
            &mut again_place,
        )
    };
    (given(answer, place), given(again, again_place))
}

/// What the five conversions of both runs give, in the order in which they are made.
pub fn both_runs(
    depth: u32,
    picture: &[u8],
    codes: &mut [u8],
    ycc: &mut [u8],
    back: &mut [u8],
    direct: &mut [u8],
    round: &mut [u8],
) -> [Given; 5] {
    let mut answers = [0; 5];
    let mut places = [UNWRITTEN; 5];
    let mut clipped = [0; 2];
    // SAFETY: the pointers and lengths are those of six slices that do not overlap, and of locals.
    unsafe {
        c::kiosk_both_runs(
            depth,
            picture.as_ptr(),
            picture.len(),
            codes.as_mut_ptr(),
            codes.len(),
            ycc.as_mut_ptr(),
            ycc.len(),
            back.as_mut_ptr(),
            back.len(),
            direct.as_mut_ptr(),
            direct.len(),
            round.as_mut_ptr(),
            round.len(),
            &mut answers,
            &mut places,
            &mut clipped,
        );
    }
    // The last two are conversions to sRGB.
    let clipped = [0, 0, 0, clipped[0], clipped[1]];
    std::array::from_fn(|k| with_clipped(given(answers[k], places[k]), clipped[k]))
}

pub fn code_to_light(depth: u32, src: &[u8], dst: &mut [i32]) -> Given {
    let (s, n, d, m) = (src.as_ptr(), src.len(), dst.as_mut_ptr(), dst.len());
    // SAFETY: as of `convert`; the destination's length counts numbers.
    placed(|place| unsafe { c::kiosk_code_to_light(depth, s, n, d, m, place) })
}

pub fn light_to_code(depth: u32, src: &[i32], dst: &mut [u8]) -> Given {
    // SAFETY: the pointers and lengths are those of two slices that do not overlap; the source's length
    // counts numbers.
    let answer = unsafe {
        c::kiosk_light_to_code(depth, src.as_ptr(), src.len(), dst.as_mut_ptr(), dst.len())
    };
    given(answer, UNWRITTEN)
}

pub fn through_light(
    depth: u32,
    codes: &[u8],
    moves: &[i32],
    light: &mut [i32],
    back: &mut [u8],
) -> Given {
    let (c, c_len, m, m_len) = (codes.as_ptr(), codes.len(), moves.as_ptr(), moves.len());
    let (l, l_len, b, b_len) = (
        light.as_mut_ptr(),
        light.len(),
        back.as_mut_ptr(),
        back.len(),
    );
    // SAFETY: the pointers and lengths are those of four slices, two of which are not shared, and of a local.
    placed(|place| unsafe {
        c::kiosk_through_light(depth, c, c_len, m, m_len, l, l_len, b, b_len, place)
    })
}

pub fn tint_code([red, green, blue]: [u8; 3], pixel: &mut [u16; 3]) {
    // SAFETY: the pointer is that of three numbers.
    unsafe { c::kiosk_tint_code(red, green, blue, pixel) }
}

fn tint(call: c::Tint, [red, green, blue]: [f64; 3], pixel: &mut [u16; 3]) -> Given {
    // SAFETY: the pointers are those of three numbers and of a local.
    placed(|place| unsafe { call(red, green, blue, pixel, place) })
}

pub fn tint_nonlinear(channels: [f64; 3], pixel: &mut [u16; 3]) -> Given {
    tint(c::kiosk_tint_nonlinear, channels, pixel)
}

pub fn tint_light(channels: [f64; 3], pixel: &mut [u16; 3]) -> Given {
    tint(c::kiosk_tint_light, channels, pixel)
}

/// What a call of stickers gives, the numbers of the four tints, and the two sums.
pub fn stickers(
    picture: &[u8],
    tints: &[u16; TINT_CODES],
    budget: usize,
    dst: &mut [u8],
) -> (Given, [u8; 4], [u32; 2]) {
    let (s, n, d, m) = (picture.as_ptr(), picture.len(), dst.as_mut_ptr(), dst.len());
    let (mut four, mut sums) = ([0; 4], [0; 2]);
    // SAFETY: the pointers and lengths are those of two slices that do not overlap, of an array, and of locals.
    let given = placed(|place| unsafe {
        c::kiosk_stickers(s, n, tints, budget, d, m, &mut four, &mut sums, place)
    });
    (given, four, sums)
}

/// What a call of the printer gives.
pub fn printer(arrivals: &[Arrival], served: &mut [u8]) -> Given {
    let (a, n) = (arrivals.as_ptr().cast(), 3 * arrivals.len());
    let (d, m) = (served.as_mut_ptr(), served.len());
    // SAFETY: the pointers and lengths are those of two slices that do not overlap; an arrival is three numbers.
    placed(|place| unsafe { c::kiosk_printer(a, n, d, m, place) })
}

/// The frame count or a refusal, the shop and the table offset.
pub fn open(file: &[u8]) -> (i64, u16, u32) {
    let (mut shop, mut table) = (0, 0);
    // SAFETY: the pointer and length are those of a slice, and the others those of locals.
    let answer = unsafe { c::kiosk_open(file.as_ptr(), file.len(), &mut shop, &mut table) };
    (answer, shop, table)
}

/// A record with its stride, as the library writes it.
#[repr(C)]
#[derive(Clone, Copy, Default)]
pub struct StridedRecord {
    pub record: Record,
    pub stride: u32,
}

// As in C, there is no padding between the two.
const _: () = assert!(size_of::<StridedRecord>() == 20);

/// The length of a frame's pixels or a refusal, and the record.
pub fn find(file: &[u8], number: usize) -> (i64, StridedRecord) {
    let (f, n, mut record) = (file.as_ptr(), file.len(), StridedRecord::default());
    // SAFETY: the pointer and length are those of a slice; a record is 20 bytes, and any bytes are one.
    let answer = unsafe { c::kiosk_find_strided(f, n, number, &mut record) };
    (answer, record)
}

/// As `find`, and moves the number on.
pub fn step(file: &[u8], next: &mut usize) -> (i64, StridedRecord) {
    let (f, n, mut record) = (file.as_ptr(), file.len(), StridedRecord::default());
    // SAFETY: as of `find`.
    let answer = unsafe { c::kiosk_step_strided(f, n, next, &mut record) };
    (answer, record)
}

/// The length of a row or a refusal, and where the row starts.
pub fn row(file: &[u8], number: usize, row: usize) -> (i64, usize) {
    let mut start = 0;
    // SAFETY: the pointer and length are those of a slice, and the other is that of a local.
    let answer = unsafe { c::kiosk_row(file.as_ptr(), file.len(), number, row, &mut start) };
    (answer, start)
}

pub fn lay_out(records: &[Record], shop: u16, dst: &mut [u8]) -> Given {
    let (r, n, d, m) = (records.as_ptr(), records.len(), dst.as_mut_ptr(), dst.len());
    // SAFETY: a record is 16 bytes with no padding, as in C, and the length counts records; the slice does
    // not overlap the destination.
    placed(|place| unsafe { c::kiosk_lay_out(r, n, shop, d, m, place) })
}

pub fn relayout(file: &[u8], dst: &mut [u8]) -> Given {
    let (f, n, d, m) = (file.as_ptr(), file.len(), dst.as_mut_ptr(), dst.len());
    // SAFETY: the pointers and lengths are those of two slices that do not overlap, and of a local.
    placed(|place| unsafe { c::kiosk_relayout(f, n, d, m, place) })
}

pub fn listing(file: &[u8]) -> Vec<u8> {
    let mut text = [0; LISTING_ROOM];
    // SAFETY: the pointer and length are those of a slice, and the text is a local of the length asked for.
    let length = unsafe { c::kiosk_listing(file.as_ptr(), file.len(), &mut text) };
    text[..length].to_vec()
}
