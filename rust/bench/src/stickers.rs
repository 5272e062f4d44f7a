//! Stickers, beside plain C that goes about it as the library does, and plain C by the obvious method.

use crate::buffer::Buffer;
use crate::{best_of, c, noise, Version};
use kiosk::{CHOICES, TINT_CODES};

/// The most pixels that a picture for stickers has.
const PIXELS: usize = 65_536;

/// Few choices are quick, and what does not depend on their number shows.
const BUDGETS: [usize; 3] = [1, 100, CHOICES];

/// How often all take turns. The obvious method takes long.
const ROUNDS: usize = 11;

/// The versions, with names for a message.
const VERSIONS: [(&str, c::Stickers); 3] = [
    ("library", by_library),
    ("plain C", c::stickers_in_blocks),
    ("obvious C", c::stickers_pixel_by_pixel),
];

/// The library's answer as C gives it. Of a refusal there are no tints and sums.
fn by_library(src: &[u8], tints: &[u16; TINT_CODES], budget: usize, dst: &mut [u8]) -> c::Chosen {
    match kiosk::stickers(src, tints, budget, dst) {
        Ok(done) => (done.looked as i64, done.tints, [done.sum, done.least]),
        Err(refusal) => (-i64::from(refusal.fault.number()), [0; 4], [0; 2]),
    }
}

/// A picture of any codes below `end`, and 16 tints of such codes.
fn any_codes(pixels: usize, end: u64) -> (Vec<u8>, [u16; TINT_CODES]) {
    let mut codes = noise(3 * pixels + TINT_CODES).map(|x| (x % end) as u16);
    let tints = [0; TINT_CODES].map(|_| codes.next().expect("one more"));
    (codes.flat_map(u16::to_le_bytes).collect(), tints)
}

/// Stickers by every version, which must give and write the same over what `before` holds. Gives the library's answer.
fn agreed(src: &[u8], tints: &[u16; TINT_CODES], budget: usize, before: &[u8]) -> i64 {
    let mut expected = before.to_vec();
    let given = by_library(src, tints, budget, &mut expected);
    for (name, version) in VERSIONS {
        let mut dst = before.to_vec();
        assert_eq!(version(src, tints, budget, &mut dst), given, "{name}");
        assert!(dst == expected, "{name} differs");
    }
    given.0
}

/// Times stickers of any codes by all versions.
pub fn compare() {
    println!("\nstickers of {PIXELS} pixels of any codes, milliseconds a call, the best of {ROUNDS} rounds");
    println!(
        "{:>8} {:>9} {:>9} {:>9} {:>9} {:>11}",
        "budget", "library", "plain C", "obvious C", "/ plain C", "/ obvious C"
    );
    let (picture, tints) = any_codes(PIXELS, 4096);
    let src = &Buffer::source(&picture);
    let mut dst = Buffer::destination(PIXELS);
    for budget in BUDGETS {
        agreed(src, &tints, budget, &dst);
        let calls =
            VERSIONS.map(|(_, version)| move |dst: &mut [u8]| version(src, &tints, budget, dst).0);
        let versions = calls.each_ref().map(|call| call as Version<u8>);
        let turns = if budget < CHOICES { 9 } else { 1 };
        let times = best_of(ROUNDS, turns, &mut dst, &versions);
        let [library, plain, obvious] = [0, 1, 2].map(|k| 1000.0 * times[k]);
        println!(
            "{budget:>8} {library:>9.3} {plain:>9.3} {obvious:>9.3} {:>9.2} {:>11.2}",
            library / plain,
            library / obvious
        );
    }
}

#[cfg(test)]
mod tests {
    use super::*;

    /// Pictures of few codes and of any, of sizes about the library's blocks, with every kind of budget.
    #[test]
    fn plain_c_agrees_on_stickers() {
        for pixels in [0, 1, 2, 7, 255, 256, 257, 511, 512, 513, 1000] {
            for end in [3, 4096] {
                let (src, tints) = any_codes(pixels, end);
                for budget in [1, 2, 3, 14, 100, 1819, 1820, 1821, usize::MAX] {
                    let looked = agreed(&src, &tints, budget, &vec![7; pixels]);
                    assert_eq!(looked, budget.min(CHOICES) as i64);
                }
            }
        }
    }

    /// Each refusal, and the greatest picture that stands.
    #[test]
    fn plain_c_refuses_stickers() {
        let (mut src, mut tints) = any_codes(PIXELS + 1, 4096);
        let room = vec![7; PIXELS + 2];
        let refused = |src: &[u8], tints: &[u16; TINT_CODES], budget, pixels, number| {
            assert_eq!(agreed(src, tints, budget, &room[..pixels]), number);
        };
        refused(&src[..6 * PIXELS], &tints, 2, PIXELS, 2);
        refused(&src, &tints, 2, PIXELS + 1, -19);
        refused(&src, &tints, 0, PIXELS + 1, -18);
        refused(&src[..0], &tints, 0, 0, -18);
        tints[47] = 4096;
        refused(&src, &tints, 0, PIXELS + 1, -12);
        tints[47] = 0;
        let last = src.len() - 1;
        src[last] = 16;
        refused(&src, &tints, 0, PIXELS + 1, -12);
        refused(&src, &tints, 0, PIXELS, -11);
        refused(&src, &tints, 0, PIXELS + 2, -11);
        refused(&src[2..], &tints, 0, 0, -16);
        refused(&src[1..], &tints, 0, 0, -10);
    }
}
