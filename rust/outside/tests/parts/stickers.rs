//! Stickers.

use super::pictures::wide;
use outside::{by_both, Random};
use reference::stickers::{stickers, Stickers, Tints};
use std::array::from_fn;
use std::collections::BTreeSet;

/// The choices of four tints out of 16.
const CHOICES: usize = 1820;

/// How many pixels the library takes at a time.
const BLOCK: usize = 256;

/// The most pixels that a picture for stickers has.
const MOST: usize = 65_536;

/// The ways to draw codes: any, so few that most distances are equal to others, the ends, and close together.
const RANGES: [&[(u64, u64)]; 4] = [
    &[(0, 4096)],
    &[(0, 3)],
    &[(0, 1), (4095, 1)],
    &[(2000, 40), (2100, 40)],
];

fn code(range: &[(u64, u64)], random: &mut Random) -> u16 {
    let (start, count) = random.pick(range);
    (start + random.below(count)) as u16
}

/// 16 tints, of which some are equal to others, in half of all cases.
fn any_tints(range: &[(u64, u64)], random: &mut Random) -> Tints {
    let mut tints = [0; 48].map(|_: u16| code(range, random));
    if random.below(2) == 0 {
        for _ in 0..random.below(12) {
            let [from, to] = [0; 2].map(|_| 3 * random.below(16) as usize);
            tints.copy_within(from..from + 3, to);
        }
    }
    tints
}

/// A picture of codes, with a tint for a pixel here and there.
fn any_picture(range: &[(u64, u64)], tints: &Tints, pixels: usize, random: &mut Random) -> Vec<u8> {
    let pixel = |_| match random.below(4) {
        0 => {
            let tint = 3 * random.below(16) as usize;
            [tints[tint], tints[tint + 1], tints[tint + 2]]
        }
        _ => [0; 3].map(|_| code(range, random)),
    };
    wide((0..pixels).flat_map(pixel).map(i64::from))
}

/// What the library says of accepted stickers, in the reference's words.
fn in_other_words(given: kiosk::Stickers) -> Stickers {
    Stickers {
        tints: given.tints,
        sum: given.sum.into(),
        looked: given.looked,
        least: given.least.into(),
    }
}

/// What an accepted call gives, and each pixel's tint.
type Stuck = (Stickers, Vec<u8>);

/// A call by both, over a destination that held `before`. Gives the number of the refusal if there is one.
fn stick(picture: &[u8], tints: &Tints, budget: usize, before: &[u8]) -> Result<Stuck, u8> {
    let mut given = None;
    let (refused, numbers) = by_both(
        before,
        0xa5,
        |dst| kiosk::stickers(picture, tints, budget, dst).map(in_other_words),
        |dst| {
            let answer = stickers(picture, tints, budget, dst);
            given = answer.ok();
            answer
        },
        || format!("stickers of {picture:?} in {tints:?} with a budget of {budget}"),
    );
    match given {
        Some(given) => Ok((given, numbers)),
        None => Err(refused.unwrap_or_default()),
    }
}

/// Stickers of a sound picture, in a destination that held something else.
fn sticks(picture: &[u8], tints: &Tints, budget: usize) -> Stuck {
    let stuck = stick(picture, tints, budget, &vec![0x5a; picture.len() / 6]);
    stuck.expect("a sound picture is accepted")
}

/// A budget: few, any number of choices, about all, and more than there are.
fn any_budget(random: &mut Random) -> usize {
    let any = 1 + random.below(CHOICES as u64) as usize;
    random.pick(&[1, 2, 3, any, any, 1819, 1820, 1821, usize::MAX])
}

/// Pictures of few pixels, in which choices often have equal sums. Most choices are made somewhere, and tints that are
/// chosen are often as good as all 16.
pub fn small() -> u64 {
    const PICTURES: usize = 8_000;
    let mut random = Random::new(12);
    let (mut chosen, mut perfect) = (BTreeSet::new(), 0);
    for _ in 0..PICTURES {
        let range = random.pick(&RANGES);
        let tints = any_tints(range, &mut random);
        let pixels = random.below(10) as usize;
        let picture = any_picture(range, &tints, pixels, &mut random);
        let (given, _) = sticks(&picture, &tints, any_budget(&mut random));
        chosen.insert(given.tints);
        perfect += usize::from(given.sum == given.least);
    }
    assert!(chosen.len() > 1000, "only {} choices", chosen.len());
    assert!((1000..PICTURES - 1000).contains(&perfect), "{perfect}");
    PICTURES as u64
}

/// A tint beside a pixel: its distance, its luma, 1000 times its luma before that is rounded, and its number.
struct Beside {
    distance: i64,
    luma: i64,
    exact: i64,
    number: i64,
}

impl Beside {
    fn new(pixel: &[u8], tints: &Tints, number: u8) -> Self {
        let tint: [i64; 3] = from_fn(|k| tints[3 * usize::from(number) + k].into());
        let code = |k: usize| i64::from(u16::from_le_bytes([pixel[2 * k], pixel[2 * k + 1]]));
        let exact = 299 * tint[0] + 587 * tint[1] + 114 * tint[2];
        Beside {
            distance: (0..3).map(|k| (code(k) - tint[k]).abs()).sum(),
            luma: (exact + 500) / 1000,
            exact,
            number: number.into(),
        }
    }
}

/// What a pixel's tint goes by: the tint with the least of these is taken.
type Rule = fn(&Beside) -> [i64; 3];

const RULE: Rule = |b| [b.distance, b.luma, b.number];

const WRONG_RULES: [(&str, Rule); 5] = [
    ("the lowest number", |b| [b.distance, b.number, 0]),
    ("the lighter", |b| [b.distance, -b.luma, b.number]),
    ("the highest number", |b| [b.distance, b.luma, -b.number]),
    ("luma first", |b| [b.luma, b.distance, b.number]),
    ("exact luma", |b| [b.distance, b.exact, b.number]),
];

/// Pictures of few codes, in which tints are often as near as others. The test finds each pixel's tint by itself, and
/// sums the distances of those written; and many pixels tell the rule from wrong ones.
pub fn ties() -> u64 {
    const PICTURES: u64 = 3_000;
    let mut random = Random::new(17);
    let mut told = [0; WRONG_RULES.len()];
    for _ in 0..PICTURES {
        let range = random.pick(&RANGES[1..]);
        let tints = any_tints(range, &mut random);
        let picture = any_picture(range, &tints, 30, &mut random);
        let (given, numbers) = sticks(&picture, &tints, 1 + random.below(30) as usize);
        let mut sum = 0;
        for (pixel, &number) in picture.chunks_exact(6).zip(&numbers) {
            let four = given.tints.map(|tint| Beside::new(pixel, &tints, tint));
            let taken = |rule: Rule| four.iter().min_by_key(|b| rule(b)).expect("there are four");
            assert_eq!(taken(RULE).number, number.into(), "{pixel:?} in {tints:?}");
            sum += taken(RULE).distance as u64;
            for (told, (_, wrong)) in told.iter_mut().zip(WRONG_RULES) {
                *told += u64::from(taken(wrong).number != number.into());
            }
        }
        assert_eq!(given.sum, sum);
    }
    for ((name, _), told) in WRONG_RULES.iter().zip(told) {
        assert!(told > 1000, "{name}: only {told} pixels tell it apart");
    }
    PICTURES
}

/// Pictures whose last block is full, one pixel short of that or one beyond, and one of some thousand pixels.
pub fn blocks() -> u64 {
    let mut random = Random::new(13);
    let mut count = 0;
    let beside = |blocks| [blocks * BLOCK - 1, blocks * BLOCK, blocks * BLOCK + 1];
    let sizes = [1, 2, 3, 8].into_iter().flat_map(beside).chain([3000]);
    for pixels in sizes {
        for range in RANGES {
            let tints = any_tints(range, &mut random);
            let picture = any_picture(range, &tints, pixels, &mut random);
            for budget in [1, 1 + random.below(400) as usize, CHOICES] {
                sticks(&picture, &tints, budget);
                count += 1;
            }
        }
    }
    count
}

/// Pictures of the most pixels that there may be, one with the whole budget, and one with the greatest sum; and of
/// more, which are refused for it at last.
pub fn largest() -> u64 {
    let mut random = Random::new(14);
    let tints = any_tints(RANGES[0], &mut random);
    let mut picture = any_picture(RANGES[0], &tints, MOST, &mut random);
    for budget in [1, 40, CHOICES] {
        sticks(&picture, &tints, budget);
    }
    let (given, _) = sticks(&vec![0; 6 * MOST], &[4095; 48], 2);
    assert_eq!((given.sum, given.least), (12_285 << 16, 12_285 << 16));

    let mut refused = Vec::new();
    let mut faulty = tints;
    for pixels in [MOST + 1, MOST + 2, 2 * MOST] {
        picture.resize(6 * pixels, 0);
        let before = vec![0x5a; pixels];
        let mut refuse = |picture: &[u8], tints: &Tints, budget: usize| {
            refused.extend(stick(picture, tints, budget, &before).err());
        };
        refuse(&picture, &tints, CHOICES);
        refuse(&picture, &tints, 0);
        faulty[random.below(48) as usize] = 4096;
        refuse(&picture, &faulty, 1);
        refuse(&picture, &faulty, 0);
        let last = picture.len() - 1;
        picture[last] = 16;
        refuse(&picture, &tints, 1);
        refuse(&picture, &faulty, 0);
        picture[last] = 0;
    }
    assert_eq!(refused, [19, 18, 12, 12, 12, 12].repeat(3));
    4 + refused.len() as u64
}

/// Pictures of 0 to 40 bytes in destinations of 0 to 10, whose samples and tints are sound or not, with budgets of
/// none, one and all.
pub fn every_length() -> u64 {
    let mut count = 0;
    let mut refused = BTreeSet::new();
    for (len, fill) in (0..=40).flat_map(|len| [(len, 15), (len, 16)]) {
        let picture = vec![fill; len];
        for (room, code) in (0..=10).flat_map(|room| [(room, 4095), (room, 4096)]) {
            for budget in [0, 1, CHOICES] {
                let given = stick(&picture, &[code; 48], budget, &vec![0x5a; room]);
                refused.extend(given.err());
                count += 1;
            }
        }
    }
    assert_eq!(refused, BTreeSet::from([10, 11, 12, 16, 18]));
    count
}

/// Each sample of a picture and each code of the tints at fault by itself, with some budget and with none.
pub fn every_place() -> u64 {
    let mut random = Random::new(15);
    let mut count = 0;
    for pixels in [0, 1, 2, BLOCK + 1] {
        let tints = any_tints(RANGES[0], &mut random);
        let picture = any_picture(RANGES[0], &tints, pixels, &mut random);
        let before = random.bytes(pixels);
        for (fault, budget) in [(4096, 1), (65_535, CHOICES), (5000, 0)] {
            for k in 0..3 * pixels {
                let mut picture = picture.clone();
                picture[2 * k..2 * k + 2].copy_from_slice(&u16::to_le_bytes(fault));
                assert_eq!(stick(&picture, &tints, budget, &before), Err(12));
                count += 1;
            }
            for k in 0..48 {
                let mut tints = tints;
                tints[k] = fault;
                assert_eq!(stick(&picture, &tints, budget, &before), Err(12));
                count += 1;
            }
        }
    }
    count
}

/// Short pictures with any number of faults of every kind at once. Each refusal occurs that a short picture can get.
pub fn refusals() -> u64 {
    const CALLS: u64 = 60_000;
    let mut random = Random::new(16);
    let mut refused = BTreeSet::new();
    for _ in 0..CALLS {
        let mut tints = any_tints(RANGES[0], &mut random);
        let pixels = random.below(5) as usize;
        let mut picture = any_picture(RANGES[0], &tints, pixels, &mut random);
        for _ in 0..random.below(3) {
            if let Some(byte) = picture.get_mut(2 * random.below(16) as usize + 1) {
                *byte = 16 + random.below(240) as u8;
            }
            tints[random.below(48) as usize] = random.below(5000) as u16;
        }
        if random.below(8) == 0 {
            picture.truncate(random.below(30) as usize);
        }
        let room = match random.below(8) {
            0 => random.below(8) as usize,
            _ => picture.len() / 6,
        };
        let budget = random.below(4) as usize;
        refused.extend(stick(&picture, &tints, budget, &random.bytes(room)).err());
    }
    assert_eq!(refused, BTreeSet::from([10, 11, 12, 16, 18]));
    CALLS
}
