//! E-sYCC and sYCC, which is the standard's sRGB YCC of 8 bits, one pixel at a time: annexes B and C of PIMA 7667:2001,
//! equation by equation. What stands between samples and samples are exact fractions. They are rounded once, at the
//! end, to the nearest with ties upward, and then clipped.

use crate::samples::{greatest, nearest, offset, scale};

/// The bits of sYCC.
const SYCC_BITS: u32 = 8;

/// A quotient of whole numbers, not reduced. The denominator is positive.
#[derive(Clone, Copy)]
struct Fraction {
    numerator: i64,
    denominator: i64,
}

impl Fraction {
    const fn new(numerator: i64, denominator: i64) -> Self {
        Fraction {
            numerator,
            denominator,
        }
    }

    fn times(self, numerator: i64, denominator: i64) -> Self {
        Fraction::new(self.numerator * numerator, self.denominator * denominator)
    }

    /// The sum with a fraction of the same denominator.
    fn plus(self, other: Self) -> Self {
        assert_eq!(self.denominator, other.denominator);
        Fraction::new(self.numerator + other.numerator, self.denominator)
    }

    fn minus(self, other: Self) -> Self {
        self.plus(other.times(-1, 1))
    }

    fn plus_whole(self, whole: i64) -> Self {
        Fraction::new(self.numerator + whole * self.denominator, self.denominator)
    }

    fn is_below(self, other: Self) -> bool {
        self.numerator * other.denominator < other.numerator * self.denominator
    }

    fn clipped(self, low: Self, high: Self) -> Self {
        if self.is_below(low) {
            low
        } else if high.is_below(self) {
            high
        } else {
            self
        }
    }

    /// Rounded and clipped to the codes of so many bits.
    fn code(self, bits: u32) -> i64 {
        nearest(self.numerator, self.denominator).clamp(0, greatest(bits))
    }
}

/// Three fractions times three weights, which are given in parts of `unit`, summed.
fn weighted([a, b, c]: [Fraction; 3], [of_a, of_b, of_c]: [i64; 3], unit: i64) -> Fraction {
    a.times(of_a, unit)
        .plus(b.times(of_b, unit))
        .plus(c.times(of_c, unit))
}

/// Codes as numbers with black at 0 and white at 1: B1 with the offset of B2, which are C1 and C2.
fn nonlinear(depth: u32, codes: [i64; 3]) -> [Fraction; 3] {
    codes.map(|code| Fraction::new(code - offset(depth), scale(depth)))
}

/// Luma, blue chroma and red chroma: B3 or C3, which differ in what chroma is divided by. The divisors are given in
/// thousandths. B4 and C4 are not used: their coefficients are B3's and C3's rounded to four places.
fn luma_chroma([r, g, b]: [Fraction; 3], [of_blue, of_red]: [i64; 2]) -> [Fraction; 3] {
    let luma = weighted([r, g, b], [299, 587, 114], 1000);
    // Over luma's denominator first.
    let chroma = |x: Fraction, divisor| x.times(1000, 1000).minus(luma).times(1000, divisor);
    [luma, chroma(b, of_blue), chroma(r, of_red)]
}

/// Luma clipped to 0..1 and as a code: B5a to B5c; for sYCC the clip that stands before C5, and C5.
fn encoded_luma(bits: u32, luma: Fraction) -> i64 {
    luma.clipped(Fraction::new(0, 1), Fraction::new(1, 1))
        .times(greatest(bits), 1)
        .code(bits)
}

/// Chroma as a code: B6, which is C6.
fn encoded_chroma(bits: u32, chroma: Fraction) -> i64 {
    chroma
        .times(greatest(bits), 1)
        .plus_whole(1 << (bits - 1))
        .code(bits)
}

/// E-sYCC of three e-sRGB codes (B.1), at their depth.
pub fn to_esycc(depth: u32, codes: [i64; 3]) -> [i64; 3] {
    let [luma, blue, red] = luma_chroma(nonlinear(depth, codes), [3544, 2804]);
    [
        encoded_luma(depth, luma),
        encoded_chroma(depth, blue),
        encoded_chroma(depth, red),
    ]
}

/// SYCC of three e-sRGB codes (C.1).
pub fn to_sycc(depth: u32, codes: [i64; 3]) -> [i64; 3] {
    let [luma, blue, red] = luma_chroma(nonlinear(depth, codes), [1772, 1402]);
    // Before C5 the annex clips luma to 0..1 and chroma to -0.5..0.5.
    let clipped = |chroma: Fraction| chroma.clipped(Fraction::new(-1, 2), Fraction::new(1, 2));
    [
        encoded_luma(SYCC_BITS, luma),
        encoded_chroma(SYCC_BITS, clipped(blue)),
        encoded_chroma(SYCC_BITS, clipped(red)),
    ]
}

/// The e-sRGB codes of luma and chroma: B9, then B10 with the offset of B11.
fn codes(depth: u32, ycc: [Fraction; 3]) -> [i64; 3] {
    // B9 in ten-thousandths.
    let rows = [
        [10_000, 0, 28_040],
        [10_000, -6_882, -14_282],
        [10_000, 35_440, 3],
    ];
    rows.map(|row| {
        weighted(ycc, row, 10_000)
            .times(scale(depth), 1)
            .plus_whole(offset(depth))
            .code(depth)
    })
}

/// The e-sRGB codes of e-sYCC of their depth (B.2).
pub fn from_esycc(depth: u32, [y, blue, red]: [i64; 3]) -> [i64; 3] {
    // B7 and B8.
    let luma = Fraction::new(y, greatest(depth));
    let chroma = |c| Fraction::new(c - (1 << (depth - 1)), greatest(depth));
    codes(depth, [luma, chroma(blue), chroma(red)])
}

/// The e-sRGB codes of sYCC (C.2).
pub fn from_sycc(depth: u32, [y, blue, red]: [i64; 3]) -> [i64; 3] {
    let top = greatest(SYCC_BITS);
    // C7, over the denominator that C8 gives.
    let luma = Fraction::new(y, top).times(4, 4);
    // C8 as it is printed: half of the range is taken off, 127.5, where C6 adds 128.
    let half = Fraction::new(top, 2 * top);
    let chroma = |c| Fraction::new(c, top).times(2, 2).minus(half).times(1, 2);
    codes(depth, [luma, chroma(blue), chroma(red)])
}

#[cfg(test)]
mod tests {
    use super::*;

    /// Red, green and blue from 0 to 1 as codes.
    fn codes_of(depth: u32, channels: [i64; 3]) -> [i64; 3] {
        channels.map(|x| x * scale(depth) + offset(depth))
    }

    const WHITE: [i64; 3] = [1, 1, 1];
    const BLACK: [i64; 3] = [0, 0, 0];
    const RED: [i64; 3] = [1, 0, 0];
    const GREEN: [i64; 3] = [0, 1, 0];
    const BLUE: [i64; 3] = [0, 0, 1];

    /// Black and white have no chroma: code 2^(n-1). Of the primaries B3 makes
    ///
    /// | | luma | blue chroma | red chroma |
    /// |---|---|---|---|
    /// | red | 0.299 | -0.299 / 3.544 = -0.084368 | 0.701 / 2.804 = 1/4 |
    /// | green | 0.587 | -0.587 / 3.544 = -0.165632 | -0.587 / 2.804 = -0.209344 |
    /// | blue | 0.114 | 0.886 / 3.544 = 1/4 | -0.114 / 2.804 = -0.040656 |
    ///
    /// which, times 1,023, 4,095 or 65,535 and chroma plus 512, 2,048 or 32,768 (B5, B6), is before rounding
    ///
    /// | | 10 bits | 12 bits | 16 bits |
    /// |---|---|---|---|
    /// | red | 305.877, 425.692, 767.75 | 1224.405, 1702.513, 3071.75 | 19594.965, 27238.947, 49151.75 |
    /// | green | 600.501, 342.558, 297.841 | 2403.765, 1369.737, 1190.737 | 38469.045, 21913.303, 19048.655 |
    /// | blue | 116.622, 767.75, 470.409 | 466.83, 3071.75, 1881.513 | 7470.99, 49151.75, 30103.595 |
    #[test]
    fn primaries_in_esycc() {
        for (depth, expected) in [
            (10, [[306, 426, 768], [601, 343, 298], [117, 768, 470]]),
            (
                12,
                [[1224, 1703, 3072], [2404, 1370, 1191], [467, 3072, 1882]],
            ),
            (
                16,
                [
                    [19_595, 27_239, 49_152],
                    [38_469, 21_913, 19_049],
                    [7_471, 49_152, 30_104],
                ],
            ),
        ] {
            let ycc = |channels| to_esycc(depth, codes_of(depth, channels));
            assert_eq!([RED, GREEN, BLUE].map(ycc), expected, "{depth} bits");
            let middle = 1 << (depth - 1);
            for (channels, luma) in [(WHITE, greatest(depth)), (BLACK, 0)] {
                assert_eq!(ycc(channels), [luma, middle, middle], "{depth} bits");
                assert_eq!(
                    from_esycc(depth, ycc(channels)),
                    codes_of(depth, channels),
                    "{depth} bits"
                );
            }
        }
    }

    /// 10 bits: (1023, 1023, 0) are the levels 639, 639, -384 over 510, with luma 522.378 / 510, which is above 1. Blue
    /// chroma is -906.378 / (510 * 3.544) = -0.501471, which times 1,023 plus 512 is -1.004; red chroma is 116.622 /
    /// (510 * 2.804) = 0.081551, which gives 595.427.
    ///
    /// Red comes back from (306, 426, 768), which are 306, -86 and 256 over 1,023. B9 makes 1023.824, -0.434 and 1.293
    /// over 1,023; times 510 / 1,023 plus 384 they are 894.411, 383.784 and 384.645.
    #[test]
    fn esycc_clipped_and_back() {
        assert_eq!(to_esycc(10, [1023, 1023, 0]), [1023, 0, 595]);
        assert_eq!(from_esycc(10, [306, 426, 768]), [894, 384, 385]);
    }

    /// By C3 the primaries have twice the chroma that B3 gives, so that red's red chroma and blue's blue chroma are
    /// 1/2: 255 / 2 + 128 = 255.5 is rounded up and clipped. Before rounding red is 76.245, 84.972, 255.5, green
    /// 149.685, 43.528, 21.235, and blue 29.07, 255.5, 107.265. No depth enters.
    #[test]
    fn primaries_in_sycc() {
        for depth in [10, 12, 16] {
            assert_eq!(
                [WHITE, BLACK, RED, GREEN, BLUE]
                    .map(|channels| to_sycc(depth, codes_of(depth, channels))),
                [
                    [255, 128, 128],
                    [0, 128, 128],
                    [76, 85, 255],
                    [150, 44, 21],
                    [29, 255, 107]
                ],
                "{depth} bits"
            );
        }
    }

    /// C8 makes (128 / 255 - 0.5) / 2 of a grey's chroma, which is 1 / 1,020, so that B9 makes of luma y, in 255ths,
    /// y + 0.701, y - 0.5291 and y + 0.886075. Red, (76, 85, 255), has the chromas -1/12 and 1/4: 254.755, -0.4235 and
    /// 0.709125. Times 2, 8 or 128 and plus 384, 1,536 or 24,576 (B10) that is, before rounding,
    ///
    /// | | 10 bits | 12 bits | 16 bits |
    /// |---|---|---|---|
    /// | white | 895.402, 892.942, 895.772 | 3581.608, 3571.767, 3583.089 | 57305.728, 57148.275, 57329.418 |
    /// | black | 385.402, 382.942, 385.772 | 1541.608, 1531.767, 1543.089 | 24665.728, 24508.275, 24689.418 |
    /// | red | 893.51, 383.153, 385.418 | 3574.04, 1532.612, 1541.673 | 57184.64, 24521.792, 24666.768 |
    #[test]
    fn codes_of_sycc() {
        for (depth, expected) in [
            (10, [[895, 893, 896], [385, 383, 386], [894, 383, 385]]),
            (
                12,
                [[3582, 3572, 3583], [1542, 1532, 1543], [3574, 1533, 1542]],
            ),
            (
                16,
                [
                    [57_306, 57_148, 57_329],
                    [24_666, 24_508, 24_689],
                    [57_185, 24_522, 24_667],
                ],
            ),
        ] {
            let back = |ycc| from_sycc(depth, ycc);
            assert_eq!(
                [[255, 128, 128], [0, 128, 128], [76, 85, 255]].map(back),
                expected,
                "{depth} bits"
            );
        }
    }

    /// A grey of 10 bits does not come back from sYCC. (0, 1023, 0) are the levels -384, 639, -384 over 510, with luma
    /// 216.501 / 510, which gives 108.2505. Both chromas are below -1/2, blue is -600.501 / (510 * 1.772) = -0.664469:
    /// they are clipped before C6 makes 0.5 of -1/2, which is rounded up.
    #[test]
    fn greys_and_least_chroma_of_sycc() {
        assert_eq!(to_sycc(10, [640; 3]), [128; 3]);
        assert_eq!(from_sycc(10, [128; 3]), [641, 639, 642]);
        assert_eq!(to_sycc(10, [0, 1023, 0]), [108, 1, 1]);
    }
}
