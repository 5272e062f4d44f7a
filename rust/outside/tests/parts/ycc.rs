//! E-sYCC and sYCC.

use super::pictures::{compare, converted, corners, wide, DEPTHS};
use outside::Random;
use reference::buffers::Conversion;
use reference::samples;

/// The random pixels of a conversion and depth are 20 million, so many at a time that they stay in the cache.
const PIXELS: usize = 4_000;
const TURNS: usize = 20_000_000 / PIXELS;

/// Pixels of two-byte samples by a conversion at each depth: those of edges, greys of every code, as e-sRGB has them
/// and as e-sYCC does, and random ones.
fn pixels(conversion: fn(u32) -> Conversion, seed: u64) -> u64 {
    let mut random = Random::new(seed);
    let mut count = 0;
    for depth in DEPTHS {
        let top = samples::greatest(depth);
        let middle = (top + 1) / 2;
        let mut check = |samples: Vec<i64>| {
            let src = wide(samples);
            count += compare(conversion(depth), &src, &converted(conversion(depth), &src));
        };
        check(corners(depth));
        check((0..=top).flat_map(|code| [code; 3]).collect());
        check((0..=top).flat_map(|luma| [luma, middle, middle]).collect());
        for _ in 0..TURNS {
            let pixels = (0..PIXELS).flat_map(|_| {
                let bits = random.number() as i64;
                [bits, bits >> 16, bits >> 32].map(|sample| sample & top)
            });
            check(pixels.collect());
        }
    }
    count
}

pub fn to_esycc() -> u64 {
    pixels(Conversion::ToEsycc, 8)
}

pub fn from_esycc() -> u64 {
    pixels(Conversion::FromEsycc, 9)
}

pub fn to_sycc() -> u64 {
    pixels(Conversion::ToSycc, 10)
}

/// All pixels of sYCC.
pub fn from_sycc() -> u64 {
    let mut count = 0;
    for (luma, blue) in (0..=255).flat_map(|luma| (0..=255).map(move |blue| (luma, blue))) {
        let src: Vec<u8> = (0..=255).flat_map(|red| [luma, blue, red]).collect();
        for conversion in DEPTHS.map(Conversion::FromSycc) {
            count += compare(conversion, &src, &converted(conversion, &src));
        }
    }
    count
}
