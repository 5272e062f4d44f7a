//! The C versions, plain (c/plain.c) and by hand for SSE2 (c/sse2.c), and the library before, by its C interface: the
//! only `unsafe` code of this crate.

#![allow(unsafe_code)]

use kiosk::{Arrival, Conversion, Tint, TINT_CODES};

/// What a version gives: its answer, and the clipped pixels, which only a conversion to sRGB counts.
#[derive(Clone, Copy, Debug, PartialEq, Eq)]
pub struct Given {
    pub answer: i64,
    pub clipped: usize,
}

/// A version's Convert: what it gives, or none for a conversion that it does not have.
pub type Convert = fn(Conversion, &[u8], &mut [u8]) -> Option<Given>;

/// Declares a version's conversions, and makes a Convert of them. What a version lacks is named.
macro_rules! convert_by {
    ($version:ident: $change_depth:ident, $to_srgb:ident, $($conversion:ident $name:ident),* $(; lacks $($lacking:ident),*)?) => {
        extern "C" {
            fn $change_depth(
                from: u32,
                to: u32,
                src: *const u8,
                src_len: usize,
                dst: *mut u8,
                dst_len: usize,
                place: *mut usize,
            ) -> i64;
            fn $to_srgb(
                depth: u32,
                src: *const u8,
                src_len: usize,
                dst: *mut u8,
                dst_len: usize,
                place: *mut usize,
                clipped: *mut usize,
            ) -> i64;
            $(fn $name(
                depth: u32,
                src: *const u8,
                src_len: usize,
                dst: *mut u8,
                dst_len: usize,
                place: *mut usize,
            ) -> i64;)*
        }

        pub fn $version(conversion: Conversion, src: &[u8], dst: &mut [u8]) -> Option<Given> {
            let (mut place, mut clipped) = (0, 0);
            let (s, n, d, m) = (src.as_ptr(), src.len(), dst.as_mut_ptr(), dst.len());
            // SAFETY: the pointers and lengths are those of two slices that do not overlap, and of locals.
            let answer = unsafe {
                match conversion {
                    Conversion::ChangeDepth { from, to } => {
                        $change_depth(from, to, s, n, d, m, &mut place)
                    }
                    Conversion::ToSrgb { depth } => {
                        $to_srgb(depth, s, n, d, m, &mut place, &mut clipped)
                    }
                    $(Conversion::$conversion { depth } => $name(depth, s, n, d, m, &mut place),)*
                    $($(Conversion::$lacking { .. } => return None,)*)?
                }
            };
            Some(Given { answer, clipped })
        }
    };
}

convert_by!(
    plain: plain_change_depth, plain_to_srgb,
    FromSrgb plain_from_srgb,
    ToLumaChroma plain_to_luma_chroma,
    FromLumaChroma plain_from_luma_chroma,
    ToEsycc plain_to_esycc,
    FromEsycc plain_from_esycc,
    ToSycc plain_to_sycc,
    FromSycc plain_from_sycc
);

#[cfg(target_arch = "x86_64")]
convert_by!(
    sse2: sse2_change_depth, sse2_to_srgb,
    FromSrgb sse2_from_srgb,
    ToLumaChroma sse2_to_luma_chroma,
    FromLumaChroma sse2_from_luma_chroma;
    lacks ToEsycc, FromEsycc, ToSycc, FromSycc
);

/// Other machines have no SSE2.
#[cfg(not(target_arch = "x86_64"))]
pub fn sse2(_: Conversion, _: &[u8], _: &mut [u8]) -> Option<Given> {
    None
}

// An earlier library may count no clipped pixels, and takes one argument less to sRGB. That one stands on the stack,
// where it does not look, so that both are called in the same way; but what `before` says of clipped pixels is nothing
// to compare.
convert_by!(
    before: before_change_depth, before_to_srgb,
    FromSrgb before_from_srgb,
    ToLumaChroma before_to_luma_chroma,
    FromLumaChroma before_from_luma_chroma;
    lacks ToEsycc, FromEsycc, ToSycc, FromSycc
);

/// Declares a version's function from codes to light, and makes one over slices of it.
macro_rules! light_by {
    ($version:ident: $name:ident) => {
        extern "C" {
            fn $name(
                depth: u32,
                src: *const u8,
                src_len: usize,
                dst: *mut i32,
                dst_len: usize,
                place: *mut usize,
            ) -> i64;
        }

        pub fn $version(depth: u32, src: &[u8], dst: &mut [i32]) -> i64 {
            let mut place = 0;
            let (s, n, d, m) = (src.as_ptr(), src.len(), dst.as_mut_ptr(), dst.len());
            // SAFETY: the pointers and lengths are those of two slices that do not overlap, and of a local.
            unsafe { $name(depth, s, n, d, m, &mut place) }
        }
    };
}

light_by!(plain_light: plain_code_to_light);
light_by!(before_light: before_code_to_light);

/// What a version's stickers give: the answer, the four tints, and the sums with these and with all.
pub type Chosen = (i64, [u8; 4], [u32; 2]);

/// A version's stickers.
pub type Stickers = fn(&[u8], &[u16; TINT_CODES], usize, &mut [u8]) -> Chosen;

/// Declares a version's stickers, and makes a function over slices of them.
macro_rules! stickers_by {
    ($version:ident: $name:ident) => {
        extern "C" {
            fn $name(
                src: *const u8,
                src_len: usize,
                tints: *const [u16; TINT_CODES],
                budget: usize,
                dst: *mut u8,
                dst_len: usize,
                four: *mut [u8; 4],
                sums: *mut [u32; 2],
                place: *mut usize,
            ) -> i64;
        }

        pub fn $version(
            src: &[u8],
            tints: &[u16; TINT_CODES],
            budget: usize,
            dst: &mut [u8],
        ) -> Chosen {
            let (mut four, mut sums, mut place) = ([0; 4], [0; 2], 0);
            let (s, n, d, m) = (src.as_ptr(), src.len(), dst.as_mut_ptr(), dst.len());
            // SAFETY: the pointers and lengths are those of two slices that do not overlap, of an array, and of locals.
            let answer =
                unsafe { $name(s, n, tints, budget, d, m, &mut four, &mut sums, &mut place) };
            (answer, four, sums)
        }
    };
}

stickers_by!(stickers_in_blocks: plain_stickers);
stickers_by!(stickers_pixel_by_pixel: obvious_stickers);

extern "C" {
    fn plain_set_tables(light: *const u32, ten: *const u32, twelve: *const u32);
    fn plain_tint_code(red: u8, green: u8, blue: u8, pixel: *mut u16) -> i64;
    fn plain_tint_nonlinear(
        red: f64,
        green: f64,
        blue: f64,
        pixel: *mut u16,
        place: *mut usize,
    ) -> i64;
    fn plain_tint_light(red: f64, green: f64, blue: f64, pixel: *mut u16, place: *mut usize)
        -> i64;
    fn plain_light_to_code(
        depth: u32,
        src: *const i32,
        src_len: usize,
        dst: *mut u8,
        dst_len: usize,
    ) -> i64;
    fn plain_through_light(
        depth: u32,
        codes: *const u8,
        codes_len: usize,
        moves: *const i32,
        moves_len: usize,
        light: *mut i32,
        light_len: usize,
        back: *mut u8,
        back_len: usize,
        place: *mut usize,
    ) -> i64;
    fn plain_printer(
        arrivals: *const u32,
        arrivals_len: usize,
        served: *mut u8,
        served_len: usize,
        place: *mut usize,
    ) -> i64;
}

/// Gives plain C its tables: the light of each 12-bit level from 0 to 2,560, and the least light of each level at 10 and
/// 12 bits.
pub fn set_tables(light: &[u32; 2561], ten: &[u32; 640], twelve: &[u32; 2560]) {
    // SAFETY: the arrays have the lengths that c/plain.c copies, and nothing else runs meanwhile.
    unsafe { plain_set_tables(light.as_ptr(), ten.as_ptr(), twelve.as_ptr()) }
}

/// Light to codes in plain C.
pub fn light_to_code(depth: u32, src: &[i32], dst: &mut [u8]) -> i64 {
    let (s, n, d, m) = (src.as_ptr(), src.len(), dst.as_mut_ptr(), dst.len());
    // SAFETY: the pointers and lengths are those of two slices that do not overlap.
    unsafe { plain_light_to_code(depth, s, n, d, m) }
}

/// Codes through moved light in plain C.
pub fn through_light(
    depth: u32,
    codes: &[u8],
    moves: &[i32],
    light: &mut [i32],
    back: &mut [u8],
) -> i64 {
    let (c, c_len, m, m_len) = (codes.as_ptr(), codes.len(), moves.as_ptr(), moves.len());
    let (l, l_len, b, b_len) = (
        light.as_mut_ptr(),
        light.len(),
        back.as_mut_ptr(),
        back.len(),
    );
    let mut place = 0;
    // SAFETY: the pointers and lengths are those of four slices, two of which are not shared, and of a local.
    unsafe { plain_through_light(depth, c, c_len, m, m_len, l, l_len, b, b_len, &mut place) }
}

/// A tint in plain C.
pub fn tint(tint: Tint, pixel: &mut [u16; 3]) -> i64 {
    let (p, mut place) = (pixel.as_mut_ptr(), 0);
    // SAFETY: the pointers are those of three numbers and of a local.
    unsafe {
        match tint {
            Tint::Code([red, green, blue]) => plain_tint_code(red, green, blue, p),
            Tint::Nonlinear([red, green, blue]) => {
                plain_tint_nonlinear(red, green, blue, p, &mut place)
            }
            Tint::Light([red, green, blue]) => plain_tint_light(red, green, blue, p, &mut place),
        }
    }
}

/// A printer's turns in plain C: the answer, and the place of an arrival at fault.
pub fn printer(arrivals: &[Arrival], served: &mut [u8]) -> (i64, usize) {
    let (a, n) = (arrivals.as_ptr().cast(), 3 * arrivals.len());
    let (d, m, mut place) = (served.as_mut_ptr(), served.len(), 0);
    // SAFETY: the pointers and lengths are those of two slices that do not overlap, and of a local; an arrival is three
    // numbers.
    let answer = unsafe { plain_printer(a, n, d, m, &mut place) };
    (answer, place)
}
