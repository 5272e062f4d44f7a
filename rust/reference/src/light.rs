//! Linear light (rule 6), in signed millionths of reference white. No power of 2.4 is computed: whether a
//! number is reached is told in whole numbers, with 12th powers on one side and 5th powers on the other.

use crate::big::Big;
use crate::samples::{greatest, nearest, offset, scale};
use std::cmp::Ordering;
use std::sync::LazyLock;

/// Has light codes at this depth? Codes of every depth have light.
pub fn has_codes(depth: u32) -> bool {
    [10, 12].contains(&depth)
}

/// The last number from 0 to `top` that passes a test which holds up to some number and fails
/// beyond it. 0 passes.
fn last_passing(top: u64, passes: impl Fn(u64) -> bool) -> u64 {
    let (mut pass, mut fail) = (0, top + 1);
    while fail - pass > 1 {
        let middle = pass + (fail - pass) / 2;
        if passes(middle) {
            pass = middle;
        } else {
            fail = middle;
        }
    }
    pass
}

/// The light of a level without its sign, by rule 6.2.
fn light_of_level(depth: u32, level: i64) -> i64 {
    let scale = scale(depth);
    if 100_000 * level <= 4045 * scale {
        return nearest(100_000_000 * level, 1292 * scale);
    }
    // With x = 1,000,000 × ((200 level + 11 scale) ÷ (211 scale))^(12 ÷ 5), the nearest to x, ties
    // upward, is the last q with q − 1/2 ≤ x.
    let (scale, level) = (scale as u64, level as u64);
    let right = Big::new(2_000_000)
        .power(5)
        .times(Big::new(200 * level + 11 * scale).power(12));
    let unit = Big::new(211 * scale).power(12);
    let reaches = |q: u64| q == 0 || Big::new(2 * q - 1).power(5).times(unit) <= right;
    last_passing(1 << 31, reaches) as i64
}

/// The light of each 12-bit level from 0 to 2,560, one more than codes have.
static AT_TWELVE: LazyLock<Vec<i64>> =
    LazyLock::new(|| (0..=2560).map(|level| light_of_level(12, level)).collect());

/// The light of a 16-bit level without its sign: it lies between those of two 12-bit levels (rule 6.8).
fn light_between(level: i64) -> i64 {
    let (below, sixteenths) = ((level / 16) as usize, level % 16);
    let sum = AT_TWELVE[below] * (16 - sixteenths) + AT_TWELVE[below + 1] * sixteenths;
    nearest(sum, 16)
}

/// The light of a code.
pub fn from_code(depth: u32, code: i64) -> i32 {
    let level = code - offset(depth);
    let size = match depth {
        16 => light_between(level.abs()),
        _ => light_of_level(depth, level.abs()),
    };
    (level.signum() * size) as i32
}

/// The exact light of a level without its sign, before any rounding, compared with a whole number.
fn compare_exact(depth: u32, level: u64, number: u64) -> Ordering {
    let scale = scale(depth) as u64;
    if 100_000 * level <= 4045 * scale {
        return (100_000_000 * level).cmp(&(1292 * scale * number));
    }
    let power = Big::new(1_000_000)
        .power(5)
        .times(Big::new(200 * level + 11 * scale).power(12));
    power.cmp(
        &Big::new(number)
            .power(5)
            .times(Big::new(211 * scale).power(12)),
    )
}

/// Is a light within so many millionths of the exact light of a code (rule 6.9)?
pub fn is_near(depth: u32, code: i64, light: i32, millionths: i64) -> bool {
    let level = code - offset(depth);
    let light = i64::from(light) * if level < 0 { -1 } else { 1 };
    let compared = |number: i64| compare_exact(depth, level.unsigned_abs(), number as u64);
    let (low, high) = (light - millionths, light + millionths);
    high >= 0 && compared(high).is_le() && (low <= 0 || compared(low).is_ge())
}

/// Is light `q`, without its sign and above the line, at least half a level past `level − 1`?
fn reaches_level(scale: u64, q: u64, level: u64) -> bool {
    // level − 1/2 ≤ scale × (1.055 × (q ÷ 1,000,000)^(5 ÷ 12) − 0.055), times 200.
    level == 0
        || Big::new(200 * level + 11 * scale - 100)
            .power(12)
            .times(Big::new(1_000_000).power(5))
            <= Big::new(q).power(5).times(Big::new(211 * scale).power(12))
}

/// The level of a light without its sign.
fn level_of_light(depth: u32, q: u64) -> i64 {
    let scale = scale(depth) as u64;
    if 10 * q <= 31_308 {
        return nearest((1292 * q * scale) as i64, 100_000_000);
    }
    last_passing(32 * scale, |level| reaches_level(scale, q, level)) as i64
}

fn code_of_level(depth: u32, negative: bool, level: i64) -> i64 {
    let level = if negative { -level } else { level };
    (level + offset(depth)).clamp(0, greatest(depth))
}

/// The code of a light.
pub fn to_code(depth: u32, light: i32) -> i64 {
    let level = level_of_light(depth, u64::from(light.unsigned_abs()));
    code_of_level(depth, light < 0, level)
}

/// The codes of the lights 0, 1, .. `top`, and of 0, −1, .. `−top`. More light never has a lower level, so a level is
/// that of all lights up to the last one that has it, and only that one is searched for.
pub fn codes_around_zero(depth: u32, top: u32) -> (Vec<i64>, Vec<i64>) {
    let top = u64::from(top);
    let (mut up, mut down) = (Vec::new(), Vec::new());
    while up.len() as u64 <= top {
        let first = up.len() as u64;
        let level = level_of_light(depth, first);
        let more = last_passing(top - first, |more| {
            level_of_light(depth, first + more) == level
        });
        up.resize(
            (first + more + 1) as usize,
            code_of_level(depth, false, level),
        );
        down.resize(up.len(), code_of_level(depth, true, level));
    }
    (up, down)
}

#[cfg(test)]
mod tests {
    use super::*;

    /// Rule 10.2.
    #[test]
    fn examples() {
        assert_eq!(
            [1, -1, 82, 2040].map(|v| from_code(12, v + 1536)),
            [38, -38, 3111, 1_000_000]
        );
        assert_eq!(from_code(10, 20 + 384), 3035);
        assert_eq!(
            [16, 8, 4, -4, 40_959, -24_576].map(|v| from_code(16, v + 24_576)),
            [38, 19, 10, -10, 1_680_904, -527_115]
        );
        assert_eq!(to_code(12, 3130), 1618);
        assert_eq!(to_code(12, 3131), 1619);
        assert_eq!(
            [18, 19, -18, -19].map(|light| to_code(12, light)),
            [1536, 1537, 1536, 1535]
        );
        assert_eq!([75, 76].map(|light| to_code(10, light)), [384, 385]);
    }

    /// Rule 10.7: what the standard's table (PIMA 7667, 4.4.3) has for neutral patches at 10 and 12 bits.
    #[test]
    fn neutral_patches() {
        let patches = [
            (0, 384, 1536),
            (10_100, 435, 1741),
            (30_300, 481, 1925),
            (70_710, 534, 2137),
            (141_410, 594, 2376),
            (292_930, 679, 2714),
            (595_960, 790, 3158),
            (797_980, 846, 3383),
            (1_000_000, 894, 3576),
        ];
        for (light, at_ten, at_twelve) in patches {
            assert_eq!(to_code(10, light), at_ten);
            assert_eq!(to_code(12, light), at_twelve);
        }
    }

    /// Level 1 of 16 bits has an exact light of 2.371.., and level 40,959 one of 1,680,903.6...
    #[test]
    fn near_is_by_the_exact_light() {
        let near = |level: i64, light, most| is_near(16, level + 24_576, light, most);
        assert!(near(1, 2, 1) && !near(1, 2, 0));
        assert!(near(1, 3, 1) && near(1, 4, 2) && near(1, 1, 2));
        assert!(!near(1, 5, 2) && !near(1, 0, 2) && !near(1, -2, 2));
        assert!(near(-1, -2, 1) && !near(-1, 2, 2) && !near(-1, -5, 2));
        assert!(near(0, 0, 0) && near(0, -2, 2) && !near(0, -1, 0));
        assert!(near(40_959, 1_680_904, 1) && !near(40_959, 1_680_904, 0));
        assert!(near(40_959, 1_680_902, 2) && !near(40_959, 1_680_901, 2));
        assert!(near(32_640, 1_000_000, 0));
    }

    #[test]
    fn extremes_clip() {
        assert_eq!(to_code(10, i32::MAX), 1023);
        assert_eq!(to_code(12, i32::MIN), 0);
        assert_eq!(to_code(12, 0), 1536);
    }

    #[test]
    fn neighbours_agree_with_the_search() {
        for depth in [10, 12] {
            let (up, down) = codes_around_zero(depth, 5000);
            for q in (0..=5000).step_by(37) {
                assert_eq!(up[q as usize], to_code(depth, q));
                assert_eq!(down[q as usize], to_code(depth, -q));
            }
        }
    }
}
