//! Linear light.

use outside::{by_both, guarded, Random};
use reference::{buffers, light, samples};
use std::collections::BTreeSet;
use std::sync::LazyLock;

pub const DEPTHS: [u32; 3] = [10, 12, 16];

/// The greatest light whose code the reference works out beforehand.
const TOP: i32 = 2_100_000;

/// The reference's codes of 0, 1, .. and of 0, -1, ..
type Around = (Vec<i64>, Vec<i64>);

static AT_TWELVE: LazyLock<Around> = LazyLock::new(|| light::codes_around_zero(12, TOP as u32));

fn code_in((up, down): &Around, q: i32) -> i64 {
    let side = if q < 0 { down } else { up };
    side[q.unsigned_abs() as usize]
}

/// The 12-bit code of a light from -[`TOP`] to [`TOP`], by the reference.
pub fn code_at_twelve(q: i32) -> i64 {
    code_in(&AT_TWELVE, q)
}

fn codes_of(lights: &[i32], depth: u32) -> Vec<u16> {
    let before = vec![0x5a; 2 * lights.len()];
    let (answer, after) = guarded(&before, 0xa5, |dst| {
        kiosk::light_to_code(depth, lights, dst)
    });
    assert_eq!(answer, Ok(lights.len() / 3));
    after
        .chunks_exact(2)
        .map(|code| u16::from_le_bytes([code[0], code[1]]))
        .collect()
}

/// The lights of codes, each of which stands in all three places of a pixel.
pub fn lights_of(codes: &[u16], depth: u32) -> Vec<[i32; 3]> {
    let src: Vec<u8> = codes
        .iter()
        .flat_map(|code| [code.to_le_bytes(); 3])
        .flatten()
        .collect();
    let (answer, lights) = guarded(&vec![7; 3 * codes.len()], -1, |dst| {
        kiosk::code_to_light(depth, &src, dst)
    });
    assert_eq!(answer, Ok(codes.len()));
    lights.chunks_exact(3).map(|p| [p[0], p[1], p[2]]).collect()
}

/// Every code of every depth to light, in all three places.
pub fn every_code() -> u64 {
    let mut count = 0;
    for depth in DEPTHS {
        let codes: Vec<u16> = (0..=samples::greatest(depth) as u16).collect();
        for (&code, found) in codes.iter().zip(lights_of(&codes, depth)) {
            let expected = light::from_code(depth, i64::from(code));
            assert_eq!(found, [expected; 3], "code {code} at {depth} bits to light");
            count += 3;
        }
    }
    count
}

/// Rule 6.9: the light of every 16-bit code is within two millionths of the exact light, and one would not do. A code
/// that is 16 times a 12-bit code has that code's light.
pub fn near_the_exact_light() -> u64 {
    let codes: Vec<u16> = (0..=u16::MAX).collect();
    let lights = lights_of(&codes, 16);
    let mut beyond_one = 0;
    for (&code, found) in codes.iter().zip(&lights) {
        let near = |most| light::is_near(16, i64::from(code), found[0], most);
        assert!(near(2), "16-bit code {code} has light {}", found[0]);
        beyond_one += u32::from(!near(1));
    }
    assert_eq!(beyond_one, 51);
    let at_twelve: Vec<u16> = (0..4096).collect();
    for (&code, found) in at_twelve.iter().zip(lights_of(&at_twelve, 12)) {
        assert_eq!(lights[16 * usize::from(code)], found, "12-bit code {code}");
    }
    codes.len() as u64 + at_twelve.len() as u64
}

/// Every light of a wide range, and random ones of all 32 bits, to codes.
pub fn every_light() -> u64 {
    let mut count = 0;
    let at_ten = light::codes_around_zero(10, TOP as u32);
    for (depth, around) in [(10, &at_ten), (12, &*AT_TWELVE)] {
        let mut lights: Vec<i32> = (-TOP..=TOP).collect();
        while !lights.len().is_multiple_of(3) {
            lights.push(0);
        }
        for (&q, code) in lights.iter().zip(codes_of(&lights, depth)) {
            assert_eq!(
                i64::from(code),
                code_in(around, q),
                "light {q} at {depth} bits"
            );
            count += 1;
        }
        let mut random = Random::new(3);
        let mut far: Vec<i32> = vec![i32::MIN, i32::MIN + 1, i32::MAX, i32::MAX - 1, 0, -1];
        for _ in 0..30_000 {
            far.push((random.number() as i32) >> random.below(32));
        }
        for (&q, code) in far.iter().zip(codes_of(&far, depth)) {
            assert_eq!(
                i64::from(code),
                light::to_code(depth, q),
                "light {q} at {depth} bits"
            );
            count += 1;
        }
    }
    count
}

/// A call of codes to light by both, over a destination that held `before`. Gives the number of the refusal, if it is
/// refused.
fn to_light_by_both(depth: u32, src: &[u8], before: &[i32]) -> Option<u8> {
    by_both(
        before,
        -1,
        |dst| kiosk::code_to_light(depth, src, dst),
        |dst| buffers::code_to_light(depth, src, dst),
        || format!("codes {src:?} of {depth} bits"),
    )
    .0
}

/// The same of light to codes.
fn to_code_by_both(depth: u32, lights: &[i32], before: &[u8]) -> Option<u8> {
    by_both(
        before,
        0xa5,
        |dst| kiosk::light_to_code(depth, lights, dst),
        |dst| buffers::light_to_code(depth, lights, dst),
        || format!("light {lights:?} at {depth} bits"),
    )
    .0
}

/// Codes of 0 to 40 bytes to light, and 0 to 40 numbers of light to codes, into destinations of every length up to what
/// the longest needs. The codes are sound, or above what there is. Light never gets 10, and at 16 bits it has no codes.
pub fn every_length() -> u64 {
    let mut count = 0;
    let (mut of_codes, mut of_light) = (BTreeSet::new(), BTreeSet::new());
    for (depth, len) in DEPTHS
        .into_iter()
        .flat_map(|n| (0..=40).map(move |len| (n, len)))
    {
        for (fill, room) in (0..=20).flat_map(|room| [(1, room), (255, room)]) {
            of_codes.extend(to_light_by_both(depth, &vec![fill; len], &vec![7; room]));
            count += 1;
        }
        for room in 0..=80 {
            of_light.extend(to_code_by_both(depth, &vec![-1; len], &vec![0x5a; room]));
            count += 1;
        }
    }
    assert_eq!(of_codes, BTreeSet::from([10, 11, 12, 16]));
    assert_eq!(of_light, BTreeSet::from([9, 11, 16]));
    count
}

/// Short buffers of any length and depth, with faults, both ways.
pub fn refusals() -> u64 {
    let mut random = Random::new(4);
    let mut count = 0;
    for _ in 0..40_000 {
        let depth = random.pick(&[10, 12, 16, 10, 12, 16, 8, 11, 0, u32::MAX]);
        let top = match depth {
            10 => 1100,
            16 => 65_536,
            _ => 4200,
        };
        let mut src: Vec<u8> = (0..3 * random.below(5))
            .flat_map(|_| (random.below(top) as u16).to_le_bytes())
            .collect();
        if random.below(8) == 0 {
            src.truncate(random.below(src.len() as u64 + 1) as usize);
        }
        let room = match random.below(8) {
            0 => random.below(16) as usize,
            _ => src.len() / 2,
        };
        let before: Vec<i32> = (0..room).map(|_| random.number() as i32).collect();
        to_light_by_both(depth, &src, &before);

        let lights: Vec<i32> = (0..random.below(13))
            .map(|_| random.number() as i32 >> random.below(32))
            .collect();
        let room = match random.below(8) {
            0 => random.below(30) as usize,
            _ => 2 * lights.len(),
        };
        to_code_by_both(depth, &lights, &random.bytes(room));
        count += 2;
    }
    count
}
