//! Tints: doubles by their bits, so that every kind of not a number and -0.0 come through as they are.

use crate::parts::light::code_at_twelve;
use outside::{said, Random};
use reference::tints::{to_pixel_by, Tint};
use std::collections::BTreeSet;

const KINDS: [fn([u64; 3]) -> Tint; 2] = [Tint::Nonlinear, Tint::Light];

/// The bits of infinities and of what is not a number: quiet, signalling, negative, with other digits.
const NOT_FINITE: [u64; 8] = [
    0x7ff0_0000_0000_0000,
    0xfff0_0000_0000_0000,
    0x7ff8_0000_0000_0000,
    0xfff8_0000_0000_0000,
    0x7ff0_0000_0000_0001,
    0xfff0_0000_0000_0001,
    0x7ff7_ffff_ffff_ffff,
    0xffff_ffff_ffff_ffff,
];

/// The bits of the ends of the finite doubles: zeros, the least, the greatest without and the least with all digits, ones
/// whose products are just finite and just infinite, the greatest.
const ENDS: [u64; 16] = [
    0x0000_0000_0000_0000,
    0x8000_0000_0000_0000,
    0x0000_0000_0000_0001,
    0x8000_0000_0000_0001,
    0x000f_ffff_ffff_ffff,
    0x800f_ffff_ffff_ffff,
    0x0010_0000_0000_0000,
    0x8010_0000_0000_0000,
    0x7f40_1010_1010_100f,
    0xff40_1010_1010_1010,
    0x7eb0_c6f7_a0b5_ed8c,
    0xfeb0_c6f7_a0b5_ed8d,
    0x7fe0_0000_0000_0000,
    0xffe0_0000_0000_0000,
    0x7fef_ffff_ffff_ffff,
    0xffef_ffff_ffff_ffff,
];

fn of_library(tint: Tint) -> kiosk::Tint {
    match tint {
        Tint::Code(values) => kiosk::Tint::Code(values),
        Tint::Nonlinear(bits) => kiosk::Tint::Nonlinear(bits.map(f64::from_bits)),
        Tint::Light(bits) => kiosk::Tint::Light(bits.map(f64::from_bits)),
    }
}

/// A tint by both. Gives the place where it is refused.
fn by_both(tint: Tint) -> Option<usize> {
    let found = kiosk::tint_to_pixel(of_library(tint)).map(|pixel| pixel.map(i64::from));
    let expected = to_pixel_by(code_at_twelve, tint);
    assert_eq!(said(found), expected, "{tint:x?}");
    expected.err().and_then(|refusal| refusal.place)
}

/// Many doubles, three to a tint, both kinds. All are finite.
fn all_by_both(mut bits: Vec<u64>) -> u64 {
    while !bits.len().is_multiple_of(3) {
        bits.push(0);
    }
    for channels in bits.chunks_exact(3) {
        for kind in KINDS {
            assert_eq!(by_both(kind([channels[0], channels[1], channels[2]])), None);
        }
    }
    2 * bits.len() as u64
}

/// A double and the two on either side.
fn with_neighbours(x: f64) -> impl Iterator<Item = u64> {
    let bits = x.to_bits();
    // From 0 the next double down is the first negative one.
    (-2..=2).map(move |k: i64| match (bits << 1, k) {
        (0, ..=0) => 1 << 63 | k.unsigned_abs(),
        (0, _) => k.unsigned_abs(),
        _ => bits.wrapping_add_signed(k),
    })
}

/// What is nearest to every code and halfway between every two, and to where the code of a light changes, each with its
/// neighbours; and every 8-bit code.
pub fn every_code() -> u64 {
    let mut bits = Vec::new();
    for twice in -4..=2 * 4097 {
        bits.extend(with_neighbours((f64::from(twice) / 2.0 - 1536.0) / 2040.0));
    }
    for q in -2_000_001..=2_000_001 {
        if code_at_twelve(q) != code_at_twelve(q - 1) || q % 1000 == 0 {
            for light in [f64::from(q) - 0.5, f64::from(q)] {
                bits.extend(with_neighbours(light / 1_000_000.0));
            }
        }
    }
    for value in 0..=255u8 {
        assert_eq!(by_both(Tint::Code([value, 255 - value, value / 2])), None);
    }
    all_by_both(bits) + 3 * 256
}

/// Every choice of three among the ends of the finite doubles and what is not finite: 17 at the first that is not.
pub fn ends() -> u64 {
    let choices: Vec<u64> = [&ENDS[..], &NOT_FINITE].concat();
    let mut places = BTreeSet::new();
    let mut count = 0;
    for &red in &choices {
        for &green in &choices {
            for &blue in &choices {
                for kind in KINDS {
                    places.insert(by_both(kind([red, green, blue])));
                    count += 3;
                }
            }
        }
    }
    assert_eq!(places, BTreeSet::from([None, Some(0), Some(1), Some(2)]));
    count
}

/// Ten million patterns of 64 bits, and three million doubles near the codes.
pub fn any_bits() -> u64 {
    let mut random = Random::new(5);
    let mut refused = 0;
    let mut count = 0;
    while count < 10_000_000 {
        let channels = [random.number(), random.number(), random.number()];
        for kind in KINDS {
            refused += u64::from(by_both(kind(channels)).is_some());
        }
        count += 3;
    }
    // One pattern of 2,048 is not finite.
    assert!((8_000..12_000).contains(&refused), "{refused} refused");
    let near = (0..3_000_000).map(|_| {
        let x = random.number();
        // From 2^-30 to 2^2, of either sign.
        (x & (1 << 63 | ((1 << 52) - 1))) | (993 + random.below(32)) << 52
    });
    count + all_by_both(near.collect()) / 2
}
