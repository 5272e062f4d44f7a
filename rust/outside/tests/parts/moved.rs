//! Light that is moved, and which of two codes has more of it (rules 6.10 to 6.12).

use super::light::{code_at_twelve, lights_of, DEPTHS};
use outside::{guarded, said, Random};
use reference::{buffers, light, samples};
use std::collections::BTreeSet;

/// The bytes of codes, each in all three places of a pixel.
fn pixels_of(codes: impl Iterator<Item = u16>) -> Vec<u8> {
    codes
        .flat_map(|code| [code.to_le_bytes(); 3])
        .flatten()
        .collect()
}

/// Codes through moved light by the library: the moved light, and the codes that come back. It must be accepted.
fn through(depth: u32, codes: &[u8], moves: &[i32]) -> (Vec<i32>, Vec<u8>) {
    let ((answer, back), light) = guarded(&vec![7; moves.len()], -1, |light| {
        guarded(&vec![0x5a; codes.len()], 0xa5, |back| {
            kiosk::through_light(depth, codes, moves, light, back)
        })
    });
    assert_eq!(answer, Ok(codes.len() / 6));
    (light, back)
}

/// How many of all codes come back as others when their light is moved by so much, up and down, by the library. The
/// reference says the same of each.
fn lost(depth: u32, most: i32) -> usize {
    let codes: Vec<i64> = (0..=samples::greatest(depth)).collect();
    let bytes = pixels_of(codes.iter().map(|&code| code as u16));
    let mut lost = 0;
    for step in [most, -most] {
        let (_, back) = through(depth, &bytes, &vec![step; bytes.len() / 2]);
        for (&code, pixel) in codes.iter().zip(back.chunks_exact(6)) {
            let moved = light::from_code(depth, code) + step;
            let expected = match depth {
                12 => code_at_twelve(moved),
                _ => light::to_code(depth, moved),
            };
            assert_eq!(
                pixel,
                pixels_of([expected as u16].into_iter()),
                "code {code} of {depth} bits moved by {step}"
            );
            lost += usize::from(expected != code);
        }
    }
    lost
}

/// Every code of 10 and 12 bits, moved by each number of millionths that rule 6.10 allows, up and down, comes back. At
/// 12 bits one more is too much for some codes; at 10 bits 75 would do, and 76 would not.
pub fn every_code() -> u64 {
    let mut count = 0;
    for (depth, most) in kiosk::STEADY {
        let codes = pixels_of(0..=samples::greatest(depth) as u16);
        for step in -most..=most {
            let (_, back) = through(depth, &codes, &vec![step; codes.len() / 2]);
            assert!(back == codes, "{depth} bits, moved by {step}");
            count += codes.len() as u64 / 2;
        }
    }
    assert_eq!([18, 19].map(|most| lost(12, most)), [0, 176]);
    assert_eq!([73, 74, 75, 76].map(|most| lost(10, most)), [0, 0, 0, 50]);
    count
}

/// Every code of each depth has more light than the code before it. The least that light rises by is 151, 37 and 2
/// millionths at 10, 12 and 16 bits.
pub fn every_step_up() -> u64 {
    let mut count = 0;
    let mut least = Vec::new();
    for depth in DEPTHS {
        let codes: Vec<u16> = (0..=samples::greatest(depth) as u16).collect();
        let lights = lights_of(&codes, depth);
        let rises = lights.windows(2).map(|pair| pair[1][0] - pair[0][0]);
        least.extend(rises.min());
        count += codes.len() as u64 - 1;
    }
    assert_eq!(least, [151, 37, 2]);
    count
}

/// A call by the library and by the reference, over the same light and the same bytes. Gives the number of the refusal,
/// if it is refused.
fn by_both(depth: u32, codes: &[u8], moves: &[i32], light: &[i32], back: &[u8]) -> Option<u8> {
    let ((answer, bytes), numbers) = guarded(light, -1, |light| {
        guarded(back, 0xa5, |back| {
            kiosk::through_light(depth, codes, moves, light, back)
        })
    });
    let (mut expected_light, mut expected_back) = (light.to_vec(), back.to_vec());
    let expected =
        buffers::through_light(depth, codes, moves, &mut expected_light, &mut expected_back);
    let answer = said(answer);
    assert_eq!(
        (&answer, &numbers, &bytes),
        (&expected, &expected_light, &expected_back),
        "codes {codes:?} of {depth} bits, moves {moves:?}"
    );
    answer.err().map(|refusal| refusal.number)
}

/// Codes of 0 to 14 bytes, 0 to 7 moves and numbers of light, and 0 to 14 bytes for what comes back. The codes are
/// sound, or above what there is.
pub fn every_length() -> u64 {
    let mut count = 0;
    let mut refused = BTreeSet::new();
    for (depth, fill) in [(10, 1), (12, 1), (12, 255), (16, 1)] {
        for (codes, back) in (0..=14).flat_map(|codes| (0..=14).map(move |back| (codes, back))) {
            for (moves, light) in (0..=7).flat_map(|moves| (0..=7).map(move |light| (moves, light)))
            {
                refused.extend(by_both(
                    depth,
                    &vec![fill; codes],
                    &vec![-1; moves],
                    &vec![7; light],
                    &vec![0x5a; back],
                ));
                count += 1;
            }
        }
    }
    assert_eq!(refused, BTreeSet::from([9, 10, 11, 12, 16]));
    count
}

const CALLS: u64 = 6_000;

/// Short buffers of any codes and any moves, up to the ends of 32 bits, some with faults or of another length.
pub fn any_moves() -> u64 {
    let mut random = Random::new(13);
    let mut accepted = 0;
    for _ in 0..CALLS {
        let depth = random.pick(&[10, 12, 10, 12, 10, 12, 16, 11, 0, u32::MAX]);
        let top = if depth == 10 { 1030 } else { 4100 };
        let numbers = 3 * random.below(4) as usize;
        let codes: Vec<u8> = (0..numbers)
            .flat_map(|_| (random.below(top) as u16).to_le_bytes())
            .collect();
        let moves: Vec<i32> = (0..numbers)
            .map(|_| match random.below(8) {
                0 => random.pick(&[i32::MIN, i32::MIN + 1, i32::MAX - 1, i32::MAX]),
                _ => random.number() as i32 >> random.below(32),
            })
            .collect();
        let mut other = |length: usize| match random.below(12) {
            0 => random.below(24) as usize,
            _ => length,
        };
        let (light, back) = (other(numbers), other(2 * numbers));
        let light: Vec<i32> = (0..light).map(|_| random.number() as i32).collect();
        let back = random.bytes(back);
        accepted += u64::from(by_both(depth, &codes, &moves, &light, &back).is_none());
    }
    assert!(accepted > CALLS / 4, "{accepted} calls accepted");
    CALLS
}
