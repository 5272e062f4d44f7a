//! E-sRGB codes (rule 1) and luma and chroma (rule 2), one sample or pixel at a time.

/// Is e-sRGB offered at this depth?
pub fn offered(depth: u32) -> bool {
    [10, 12, 16].contains(&depth)
}

/// The greatest code of a depth.
pub fn greatest(depth: u32) -> i64 {
    (1 << depth) - 1
}

/// The code of level 0.
pub fn offset(depth: u32) -> i64 {
    (1 << (depth - 2)) + (1 << (depth - 3))
}

/// How far apart the codes of neighbouring 8-bit samples are.
fn step(depth: u32) -> i64 {
    1 << (depth - 9)
}

/// The level of reference white.
pub fn scale(depth: u32) -> i64 {
    255 * step(depth)
}

/// A quotient to the nearest whole number, ties upward. The denominator is positive.
pub fn nearest(numerator: i64, denominator: i64) -> i64 {
    (2 * numerator + denominator).div_euclid(2 * denominator)
}

/// A quotient to the nearest whole number, ties towards zero. The denominator is positive.
fn nearest_towards_zero(numerator: i64, denominator: i64) -> i64 {
    let whole = numerator / denominator;
    let left = numerator % denominator;
    if 2 * left.abs() > denominator {
        whole + numerator.signum()
    } else {
        whole
    }
}

/// The code of an 8-bit sRGB sample.
pub fn from_srgb(depth: u32, sample: i64) -> i64 {
    step(depth) * sample + offset(depth)
}

/// The 8-bit sRGB sample of a code, and whether the code is clipped: darker than black or lighter than white. A level
/// that rounding alone would bring to black or white is clipped too.
pub fn to_srgb(depth: u32, code: i64) -> (i64, bool) {
    let level = code - offset(depth);
    let sample = nearest(level, step(depth)).clamp(0, 255);
    (sample, level < 0 || scale(depth) < level)
}

/// A code at another depth.
pub fn change_depth(from: u32, to: u32, code: i64) -> i64 {
    if to >= from {
        code * (1 << (to - from))
    } else {
        nearest(code, 1 << (from - to)).min(greatest(to))
    }
}

/// Luma, blue chroma and red chroma of three codes.
pub fn to_luma_chroma(depth: u32, [r, g, b]: [i64; 3]) -> [i64; 3] {
    let middle = 1 << (depth - 1);
    [
        nearest(299 * r + 587 * g + 114 * b, 1000),
        nearest_towards_zero(-299 * r - 587 * g + 886 * b, 1772) + middle,
        nearest_towards_zero(701 * r - 587 * g - 114 * b, 1402) + middle,
    ]
}

/// The codes of luma, blue chroma and red chroma.
pub fn from_luma_chroma(depth: u32, [y, blue, red]: [i64; 3]) -> [i64; 3] {
    let middle = 1 << (depth - 1);
    let (cb, cr) = (blue - middle, red - middle);
    [
        nearest(1000 * y + 1402 * cr, 1000),
        nearest(587_000 * y - 419_198 * cr - 202_008 * cb, 587_000),
        nearest(1000 * y + 1772 * cb, 1000),
    ]
    .map(|code| code.clamp(0, greatest(depth)))
}

#[cfg(test)]
mod tests {
    use super::*;

    /// Rules 10.1 and 10.3 to 10.6.
    #[test]
    fn examples() {
        assert_eq!([0, 128, 255].map(|a| from_srgb(10, a)), [384, 640, 894]);
        assert_eq!(from_srgb(16, 255), 57_216);
        assert_eq!(
            [383, 385, 893, 1023].map(|c| to_srgb(10, c)),
            [(0, true), (1, false), (255, false), (255, true)]
        );
        assert_eq!(
            [1539, 1540].map(|c| to_srgb(12, c)),
            [(0, false), (1, false)]
        );
        assert_eq!(change_depth(10, 12, 1023), 4092);
        assert_eq!(
            [1537, 1538, 1539, 4095].map(|c| change_depth(12, 10, c)),
            [384, 385, 385, 1023]
        );
        assert_eq!(
            [10, 12, 16].map(|to| change_depth(16, to, 65_535)),
            [1023, 4095, 65_535]
        );
        assert_eq!(to_luma_chroma(10, [894, 384, 384]), [536, 426, 767]);
        assert_eq!(from_luma_chroma(10, [536, 426, 767]), [894, 383, 384]);
        assert_eq!(to_luma_chroma(10, [0, 0, 1023]), [117, 1023, 429]);
        assert_eq!(to_luma_chroma(10, [1023, 1023, 0]), [906, 1, 595]);
        assert_eq!(to_luma_chroma(10, [894, 894, 894]), [894, 512, 512]);
        assert_eq!(to_luma_chroma(10, [1, 0, 0])[2], 512);
        let trip = |n, p| from_luma_chroma(n, to_luma_chroma(n, p));
        assert_eq!(trip(10, [384, 384, 894]), [385, 384, 894]);
        assert_eq!(
            trip(10, [384, 384, 894]).map(|c| to_srgb(10, c).0),
            [1, 0, 255]
        );
        assert_eq!(trip(12, [1536, 1536, 3576]), [1536, 1537, 3576]);
        assert_eq!(
            trip(12, [1536, 1536, 3576]).map(|c| to_srgb(12, c).0),
            [0, 0, 255]
        );
    }

    /// Black and white are the last codes that are not clipped; the codes beyond have the same bytes.
    #[test]
    fn clipped_codes() {
        for (depth, black, white) in [(10, 384, 894), (12, 1536, 3576), (16, 24_576, 57_216)] {
            for code in 0..=greatest(depth) {
                let (sample, clipped) = to_srgb(depth, code);
                assert_eq!(clipped, !(black..=white).contains(&code), "{depth} {code}");
                assert!(!clipped || sample == if code < black { 0 } else { 255 });
            }
        }
    }

    #[test]
    fn ties() {
        assert_eq!([-3, -1, 1, 3].map(|a| nearest(a, 2)), [-1, 0, 1, 2]);
        assert_eq!(
            [-3, -1, 1, 3].map(|a| nearest_towards_zero(a, 2)),
            [-1, 0, 0, 1]
        );
        assert_eq!(nearest_towards_zero(-4, 3), -1);
        assert_eq!(nearest_towards_zero(-5, 3), -2);
    }
}
