//! The pixels that are clipped on the way to sRGB, and how many there are.

use super::pictures::{compare, convert_by_both, converted, wide, DEPTHS};
use kiosk::Converted;
use outside::{of_library, Random};
use reference::buffers::Conversion;
use reference::samples;

/// The codes of black and white, which sRGB still holds.
fn black_and_white(depth: u32) -> (i64, i64) {
    let black = samples::offset(depth);
    (black, black + samples::scale(depth))
}

/// Every code in each channel of a pixel, whose other channels are black and white.
pub fn every_code() -> u64 {
    let mut count = 0;
    for depth in DEPTHS {
        let (black, white) = black_and_white(depth);
        for code in 0..=samples::greatest(depth) {
            for pixel in [
                [code, black, white],
                [white, code, black],
                [black, white, code],
            ] {
                let refused = convert_by_both(Conversion::ToSrgb(depth), &wide(pixel), &[0x5a; 3]);
                assert_eq!(refused, None, "{pixel:?}");
                count += 1;
            }
        }
    }
    count
}

/// Codes at which the count or the byte changes: beside black and white, half a step from them, and the ends.
fn edges(depth: u32) -> Vec<i64> {
    let (black, white) = black_and_white(depth);
    let half = samples::scale(depth) / 255 / 2;
    let ends = [0, samples::greatest(depth)];
    [
        black - half,
        black,
        black + half,
        white - half,
        white,
        white + half,
    ]
    .into_iter()
    .flat_map(|edge| [edge - 1, edge, edge + 1])
    .chain(ends)
    .collect()
}

/// Pictures of any codes, of codes inside, of edges, and of codes inside with few others between them.
pub fn pictures() -> u64 {
    const PICTURES: usize = 1_000;
    let mut random = Random::new(11);
    let mut count = 0;
    for depth in DEPTHS {
        let (black, white) = black_and_white(depth);
        let (codes, edges) = (samples::greatest(depth) as u64 + 1, edges(depth));
        let any = |random: &mut Random| random.below(codes) as i64;
        let inside = |random: &mut Random| black + random.below((white - black) as u64 + 1) as i64;
        let mut check = |sample: &dyn Fn(&mut Random) -> i64| {
            let (mut fewest, mut most) = (usize::MAX, 0);
            for _ in 0..PICTURES {
                let pixels = random.below(300);
                let src = wide((0..3 * pixels).map(|_| sample(&mut random)));
                let picture = converted(Conversion::ToSrgb(depth), &src);
                count += compare(Conversion::ToSrgb(depth), &src, &picture);
                fewest = fewest.min(picture.clipped);
                most = most.max(picture.clipped);
            }
            (fewest, most)
        };
        assert!(check(&any).1 > 200);
        assert_eq!(check(&inside), (0, 0));
        assert!(check(&|random| random.pick(&edges)).1 > 200);
        let few = check(&|random| match random.below(300) {
            0 => random.pick(&edges),
            _ => inside(random),
        });
        assert!(few.0 == 0 && (2..20).contains(&few.1), "{few:?}");
    }
    count
}

/// How many pixels the library brings to sRGB at a time.
const BLOCK: usize = 16_384;

/// Numbers of pixels: few, and around those at which a loop or a block may end.
fn sizes() -> impl Iterator<Item = usize> {
    (0..=70)
        .chain(255..=260)
        .chain(511..=514)
        .chain(1023..=1026)
        .chain(BLOCK - 1..=BLOCK + 2)
        .chain(2 * BLOCK - 1..=2 * BLOCK + 1)
}

/// The pixels of a picture that are clipped one by one: all of a small one, and those beside the ends of blocks.
fn looked_at(size: usize) -> impl Iterator<Item = usize> {
    (0..size).filter(move |k| size < 2_000 || (k + 3) % BLOCK < 6 || k + 3 >= size)
}

/// The library's conversion, over a destination that is used again.
fn clipped_into(dst: &mut [u8], depth: u32, src: &[u8]) -> usize {
    let pixels = dst.len() / 3;
    match kiosk::convert(of_library(Conversion::ToSrgb(depth)), src, dst) {
        Ok(Converted { pixels: p, clipped }) if p == pixels => clipped,
        other => panic!("{pixels} pixels of {depth} bits give {other:?}"),
    }
}

/// The codes that are clipped, for the pixels of a picture in turn.
fn clipped_code(depth: u32, pixel: usize) -> i64 {
    let (black, white) = black_and_white(depth);
    [black - 1, white + 1, 0, samples::greatest(depth)][pixel % 4]
}

/// Replaces a sample, and gives what was there.
fn put(src: &mut [u8], sample: usize, code: i64) -> i64 {
    let bytes = &mut src[2 * sample..2 * sample + 2];
    let held = u16::from_le_bytes([bytes[0], bytes[1]]);
    bytes.copy_from_slice(&(code as u16).to_le_bytes());
    i64::from(held)
}

/// A picture in which no pixel is clipped, with samples replaced by one that is, each by itself.
fn one_by_one(depth: u32, src: &mut [u8]) {
    let mut expected = vec![0; src.len() / 2];
    assert_eq!(clipped_into(&mut expected, depth, src), 0);
    let mut after = expected.clone();
    for k in looked_at(src.len() / 6).flat_map(|pixel| 3 * pixel..3 * pixel + 3) {
        let code = clipped_code(depth, k / 3);
        let held = put(src, k, code);
        let byte = std::mem::replace(&mut expected[k], samples::to_srgb(depth, code).0 as u8);
        assert_eq!(clipped_into(&mut after, depth, src), 1, "sample {k}");
        assert!(after == expected, "sample {k}");
        put(src, k, held);
        expected[k] = byte;
    }
}

/// Pictures of black and white alone, in which exactly one pixel is clipped, at each position that is looked at and by its
/// first, second or third channel; and in which every pixel is.
pub fn positions() -> u64 {
    let mut count = 0;
    for depth in DEPTHS {
        let (black, white) = black_and_white(depth);
        for size in sizes() {
            let mut src = wide((0..3 * size).map(|k| [black, white][k * k / 5 % 2]));
            one_by_one(depth, &mut src);
            for k in 0..size {
                put(&mut src, 3 * k + k % 3, clipped_code(depth, k));
            }
            assert_eq!(clipped_into(&mut vec![0; 3 * size], depth, &src), size);
            count += 3 * looked_at(size).count() as u64 + 2;
        }
    }
    count
}
