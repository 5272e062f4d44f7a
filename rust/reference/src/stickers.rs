//! Stickers (rule 13): every choice that is looked at is summed by itself, over all pixels, one after the other.

use crate::samples::{greatest, to_luma_chroma};
use crate::Refusal;
use std::array::from_fn;

/// The codes of 16 tints: red, green and blue of tint 0, then of tint 1, and so on.
pub type Tints = [u16; 48];

const DEPTH: u32 = 12;

/// The most pixels of a picture.
const MOST: usize = 65_536;

/// What accepted stickers are: the numbers of the four tints, the sum of all pixels' distances to the nearest of them,
/// how many choices were looked at, and the sum with all 16 tints.
#[derive(Clone, Copy, Debug, PartialEq, Eq)]
pub struct Stickers {
    pub tints: [u8; 4],
    pub sum: u64,
    pub looked: usize,
    pub least: u64,
}

/// All choices of four tints, in the order in which they are looked at.
fn choices() -> Vec<[u8; 4]> {
    let mut choices = Vec::new();
    for first in 0..16 {
        for second in first + 1..16 {
            for third in second + 1..16 {
                for fourth in third + 1..16 {
                    choices.push([first, second, third, fourth]);
                }
            }
        }
    }
    choices
}

/// A pixel's distance to each of the 16 tints.
type Distances = [u64; 16];

fn distances(pixel: &[i64], tints: &Tints) -> Distances {
    let mut all = [0; 16];
    for (number, distance) in all.iter_mut().enumerate() {
        for channel in 0..3 {
            *distance += pixel[channel].abs_diff(tints[3 * number + channel].into());
        }
    }
    all
}

/// The luma of each of the 16 tints.
fn lumas(tints: &Tints) -> [i64; 16] {
    from_fn(|number| {
        let codes = from_fn(|channel| tints[3 * number + channel].into());
        to_luma_chroma(DEPTH, codes)[0]
    })
}

/// The tint that a pixel takes of a set: the nearest, of those as near the one with the smallest luma, and of those
/// with the same luma the one with the lowest number.
fn taken(distances: &Distances, lumas: &[i64; 16], set: &[u8]) -> u8 {
    let order = |&tint: &u8| (distances[usize::from(tint)], lumas[usize::from(tint)], tint);
    let first = set.iter().copied().min_by_key(order);
    first.expect("a set has tints")
}

/// The sum over all pixels of the shortest distance to a tint of a set.
fn sum(pixels: &[Distances], set: &[u8]) -> u64 {
    let shortest = |distances: &Distances| {
        let of_set = set.iter().map(|&tint| distances[usize::from(tint)]);
        of_set.min().expect("a set has tints")
    };
    pixels.iter().map(shortest).sum()
}

/// The refusal of the first code above the greatest, if there is one.
fn too_great(codes: &[i64], place: impl Fn(usize) -> usize) -> Option<Refusal> {
    let first = codes.iter().position(|&code| code > greatest(DEPTH))?;
    Some(Refusal::at(12, place(first)))
}

/// The refusals, in their order.
fn refusal(
    picture: &[u8],
    samples: &[i64],
    tints: &Tints,
    budget: usize,
    room: usize,
) -> Option<Refusal> {
    let bytes = picture.len();
    if !bytes.is_multiple_of(2) {
        return Some(Refusal::plain(10));
    }
    if !bytes.is_multiple_of(6) {
        return Some(Refusal::plain(16));
    }
    if room != bytes / 6 {
        return Some(Refusal::plain(11));
    }
    if let Some(refusal) = too_great(samples, |k| 2 * k) {
        return Some(refusal);
    }
    if let Some(refusal) = too_great(&tints.map(i64::from), |k| bytes + k) {
        return Some(refusal);
    }
    if budget == 0 {
        return Some(Refusal::plain(18));
    }
    if bytes / 6 > MOST {
        return Some(Refusal::plain(19));
    }
    None
}

/// Chooses four tints for a picture of 12-bit e-sRGB, and writes the number of each pixel's tint.
pub fn stickers(
    picture: &[u8],
    tints: &Tints,
    budget: usize,
    dst: &mut [u8],
) -> Result<Stickers, Refusal> {
    let samples: Vec<i64> = picture
        .chunks_exact(2)
        .map(|sample| i64::from(sample[0]) + 256 * i64::from(sample[1]))
        .collect();
    if let Some(refusal) = refusal(picture, &samples, tints, budget, dst.len()) {
        return Err(refusal);
    }
    let pixels: Vec<Distances> = samples
        .chunks_exact(3)
        .map(|pixel| distances(pixel, tints))
        .collect();
    let mut looked_at = choices();
    looked_at.truncate(budget);
    let mut best = (looked_at[0], sum(&pixels, &looked_at[0]));
    for choice in &looked_at {
        let sum = sum(&pixels, choice);
        if sum < best.1 {
            best = (*choice, sum);
        }
    }
    let lumas = lumas(tints);
    for (byte, pixel) in dst.iter_mut().zip(&pixels) {
        *byte = taken(pixel, &lumas, &best.0);
    }
    let every: Vec<u8> = (0..16).collect();
    Ok(Stickers {
        tints: best.0,
        sum: best.1,
        looked: looked_at.len(),
        least: sum(&pixels, &every),
    })
}

#[cfg(test)]
mod tests {
    use super::*;

    /// 16 tints, all white but these.
    fn white_but(others: &[(usize, [u16; 3])]) -> Tints {
        let mut tints = [4095; 48];
        for (number, codes) in others {
            tints[3 * number..3 * number + 3].copy_from_slice(codes);
        }
        tints
    }

    fn bytes(pixels: &[[u16; 3]]) -> Vec<u8> {
        let codes = pixels.iter().flatten();
        codes.flat_map(|code| code.to_le_bytes()).collect()
    }

    /// What an accepted picture gives, and its pixels' tints.
    fn accepted(pixels: &[[u16; 3]], tints: &Tints, budget: usize) -> (Stickers, Vec<u8>) {
        let mut dst = vec![99; pixels.len()];
        let given = stickers(&bytes(pixels), tints, budget, &mut dst);
        (given.expect("a sound picture is accepted"), dst)
    }

    fn given(tints: [u8; 4], sum: u64, looked: usize, least: u64) -> Stickers {
        Stickers {
            tints,
            sum,
            looked,
            least,
        }
    }

    /// 16 × 15 × 14 × 13 / 24 choices. The first 13 have the fourth number from 3 to 15.
    #[test]
    fn order_of_choices() {
        let all = choices();
        assert_eq!(all.len(), 1820);
        assert_eq!(all[..2], [[0, 1, 2, 3], [0, 1, 2, 4]]);
        assert_eq!(all[12..14], [[0, 1, 2, 15], [0, 1, 3, 4]]);
        assert_eq!(all[1819], [12, 13, 14, 15]);
        assert!(all.windows(2).all(|pair| pair[0] < pair[1]));
        assert!(all.iter().flatten().all(|&number| number < 16));
    }

    /// Tint 5 is (10, 0, 0) and tint 9 is (0, 20, 0). The pixels' distances to 5 are 0, 30 and 10, to 9 they are 30, 0
    /// and 20, and to white 12,285 less 10, 20 and 0. So with 5 and 9 the sum is 0 + 0 + 10, with 5 alone 0 + 30 + 10,
    /// and with neither 36,825. The first choice with both is 0, 1, 5, 9. Before it come 13 choices that begin with 0,
    /// 1, 2, 12 with 0, 1, 3, 11 with 0, 1, 4, and three that begin with 0, 1, 5: it is the 40th.
    #[test]
    fn the_first_with_the_smallest_sum_of_those_looked_at() {
        let tints = white_but(&[(5, [10, 0, 0]), (9, [0, 20, 0])]);
        let pixels = [[10, 0, 0], [0, 20, 0], [0, 0, 0]];
        for (budget, expected, numbers) in [
            (1, given([0, 1, 2, 3], 36_825, 1, 10), vec![0, 0, 0]),
            (2, given([0, 1, 2, 3], 36_825, 2, 10), vec![0, 0, 0]),
            (3, given([0, 1, 2, 5], 40, 3, 10), vec![5, 5, 5]),
            (39, given([0, 1, 2, 5], 40, 39, 10), vec![5, 5, 5]),
            (40, given([0, 1, 5, 9], 10, 40, 10), vec![5, 9, 5]),
            (1819, given([0, 1, 5, 9], 10, 1819, 10), vec![5, 9, 5]),
            (1821, given([0, 1, 5, 9], 10, 1820, 10), vec![5, 9, 5]),
            (usize::MAX, given([0, 1, 5, 9], 10, 1820, 10), vec![5, 9, 5]),
        ] {
            assert_eq!(accepted(&pixels, &tints, budget), (expected, numbers));
        }
    }

    /// The pixel (10, 0, 0) is 2 away from tint 2, (10, 1, 1), and from tint 4, (8, 0, 0), whose lumas are 3.691 and
    /// 2.392: it takes tint 4. The pixel (9, 0, 0) is 1 away from tint 4 and 3 from tint 2. All choices with 4 sum to 3:
    /// the first is 0, 1, 2, 4. Tint 11 is tint 2 again, and of these two the lower number is taken.
    #[test]
    fn ties_go_to_the_darkest_and_then_to_the_lowest_number() {
        let tints = white_but(&[(2, [10, 1, 1]), (4, [8, 0, 0]), (11, [10, 1, 1])]);
        assert_eq!(
            accepted(&[[10, 0, 0], [9, 0, 0]], &tints, 1820),
            (given([0, 1, 2, 4], 3, 1820, 3), vec![4, 4])
        );
        let of = |set: &[u8]| taken(&distances(&[10, 0, 0], &tints), &lumas(&tints), set);
        assert_eq!(of(&[0, 1, 4, 11]), 4);
        assert_eq!(of(&[0, 1, 2, 11]), 2);
    }

    /// Rule 10.10, ties: luma counts rounded, and only where the distances are equal. The lumas are 0.228, 0, 10 and
    /// 4.56.
    #[test]
    fn luma_is_rounded_and_comes_behind_the_distance() {
        let tints = white_but(&[
            (0, [0, 0, 2]),
            (1, [0, 0, 0]),
            (2, [10, 10, 10]),
            (3, [0, 0, 40]),
        ]);
        assert_eq!(lumas(&tints)[..5], [0, 0, 10, 5, 4095]);
        assert_eq!(
            accepted(&[[0, 0, 1], [5, 5, 25], [10, 10, 10]], &tints, 1),
            (given([0, 1, 2, 3], 26, 1, 26), vec![0, 3, 2])
        );
    }

    /// The last choice alone has the four tints that the pixels are: it needs the whole budget.
    #[test]
    fn the_last_choice() {
        let pixels = [[1, 0, 0], [0, 1, 0], [0, 0, 1], [0, 0, 0]];
        let tints = white_but(&[
            (12, pixels[3]),
            (13, pixels[2]),
            (14, pixels[1]),
            (15, pixels[0]),
        ]);
        assert_eq!(
            accepted(&pixels, &tints, 1820),
            (given([12, 13, 14, 15], 0, 1820, 0), vec![15, 14, 13, 12])
        );
        // Every other choice has three of the four at most, and one pixel is 1 away then. The first with three is this.
        assert_eq!(
            accepted(&pixels, &tints, 1819),
            (given([0, 12, 13, 14], 1, 1819, 0), vec![12, 14, 13, 12])
        );
    }

    #[test]
    fn an_empty_picture() {
        let tints = white_but(&[]);
        for (budget, looked) in [(1, 1), (7, 7), (5000, 1820)] {
            let expected = given([0, 1, 2, 3], 0, looked, 0);
            assert_eq!(accepted(&[], &tints, budget), (expected, vec![]));
        }
        let refused = stickers(&[], &tints, 0, &mut []);
        assert_eq!(refused, Err(Refusal::plain(18)));
    }

    /// Each refusal in a call that deserves all those behind it too.
    #[test]
    fn refusals_in_order() {
        let sound = white_but(&[]);
        let mut tints = sound;
        tints[47] = 4096;
        let refused = |picture: &[u8], tints: &Tints, budget: usize, room: usize| {
            let mut dst = vec![99; room];
            let refusal = stickers(picture, tints, budget, &mut dst).expect_err("it is refused");
            assert!(dst.iter().all(|&byte| byte == 99));
            refusal
        };
        let many = vec![255; 6 * 65_537];
        assert_eq!(refused(&many[1..], &tints, 0, 7), Refusal::plain(10));
        assert_eq!(refused(&many[2..], &tints, 0, 7), Refusal::plain(16));
        assert_eq!(refused(&many, &tints, 0, 7), Refusal::plain(11));
        assert_eq!(refused(&many, &tints, 0, 65_537), Refusal::at(12, 0));
        let many = vec![0; 6 * 65_537];
        let place = many.len() + 47;
        assert_eq!(refused(&many, &tints, 0, 65_537), Refusal::at(12, place));
        assert_eq!(refused(&many, &sound, 0, 65_537), Refusal::plain(18));
        assert_eq!(refused(&many, &sound, 1, 65_537), Refusal::plain(19));
    }
}
