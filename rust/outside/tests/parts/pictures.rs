//! Convert.

use outside::{all_guarded, by_both, counts, guarded, of_library, said, Random};
use reference::buffers::{convert, Conversion, Converted, Form};
use reference::samples;
use std::collections::{BTreeSet, HashMap};
use std::mem::discriminant;

pub const DEPTHS: [u32; 3] = [10, 12, 16];

pub fn wide(samples: impl IntoIterator<Item = i64>) -> Vec<u8> {
    samples
        .into_iter()
        .flat_map(|sample| (sample as u16).to_le_bytes())
        .collect()
}

fn read(bytes: &[u8], width: usize) -> Vec<i64> {
    bytes
        .chunks_exact(width)
        .map(|sample| sample.iter().rev().fold(0, |n, &b| 256 * n + i64::from(b)))
        .collect()
}

/// A picture that the library converted, and how many of its pixels it counted as clipped.
pub struct Picture {
    pub bytes: Vec<u8>,
    pub clipped: usize,
}

/// The library's conversion of a sound picture, in a destination that held something else.
pub fn converted(conversion: Conversion, src: &[u8]) -> Picture {
    let pixels = src.len() / (3 * conversion.source().width());
    let before = vec![0x5a; pixels * 3 * conversion.target().width()];
    let (answer, bytes) = guarded(&before, 0xa5, |dst| {
        kiosk::convert(of_library(conversion), src, dst)
    });
    let answer = answer.expect("a sound picture is converted");
    assert_eq!(answer.pixels, pixels, "{conversion:?}");
    Picture {
        bytes,
        clipped: answer.clipped,
    }
}

/// The samples of a pixel of one-byte or two-byte samples.
fn pixel(bytes: &[u8]) -> [i64; 3] {
    match *bytes {
        [a, b, c] => [a, b, c].map(i64::from),
        [a, b, c, d, e, f] => [[a, b], [c, d], [e, f]].map(|x| i64::from(u16::from_le_bytes(x))),
        _ => panic!("{} bytes are no pixel", bytes.len()),
    }
}

/// Compares the library's pixels with the reference's rule, pixel by pixel, and how many are clipped.
pub fn compare(conversion: Conversion, src: &[u8], after: &Picture) -> u64 {
    let bytes = |form: Form| 3 * form.width();
    let before = src.chunks_exact(bytes(conversion.source()));
    let pixels = after.bytes.chunks_exact(bytes(conversion.target()));
    let count = before.len() as u64;
    let mut clipped = 0;
    for (p, q) in before.zip(pixels) {
        let (p, q) = (pixel(p), pixel(q));
        let (expected, is_clipped) = conversion.pixel(p);
        assert_eq!(q, expected, "{conversion:?} of {p:?}");
        clipped += usize::from(is_clipped);
    }
    assert_eq!(after.clipped, clipped, "clipped by {conversion:?}");
    count
}

/// Every code of every depth through every rule of a single sample. Each code stands in all three places.
pub fn every_sample() -> u64 {
    let mut count = 0;
    let mut check = |conversion: Conversion, src: Vec<u8>| {
        count += 3 * compare(conversion, &src, &converted(conversion, &src));
    };
    for depth in DEPTHS {
        let codes = wide((0..=samples::greatest(depth)).flat_map(|code| [code; 3]));
        check(
            Conversion::FromSrgb(depth),
            (0..=255).flat_map(|a| [a; 3]).collect(),
        );
        check(Conversion::ToSrgb(depth), codes.clone());
        for to in DEPTHS {
            check(Conversion::ChangeDepth(depth, to), codes.clone());
        }
    }
    count
}

/// `both_runs` of a sound picture gives what the five conversions give one after another.
fn compare_both_runs(depth: u32, picture: &[u8], steps: [&Picture; 5]) {
    let before = steps.map(|like| vec![0x5a; like.bytes.len()]);
    let (answers, after) = both_runs(depth, picture, before.each_ref().map(Vec::as_slice));
    let pixels = picture.len() / 3;
    let expected = steps.map(|&Picture { clipped, .. }| Ok(Converted { pixels, clipped }));
    assert_eq!(answers, expected);
    assert!(after == steps.map(|step| step.bytes.clone()));
}

/// All sRGB pixels through the five conversions of rule 5.2 at each depth: each conversion against the reference,
/// rule 5.2 itself on what comes back, and the same by `both_runs` in one call.
pub fn every_srgb_pixel() -> u64 {
    let mut count = 0;
    for depth in DEPTHS {
        let mut greater = 0u64;
        for red in 0..=255 {
            let picture: Vec<u8> = (0..=255)
                .flat_map(|green| (0..=255).flat_map(move |blue| [red, green, blue]))
                .collect();
            let codes = converted(Conversion::FromSrgb(depth), &picture);
            let ycc = converted(Conversion::ToLumaChroma(depth), &codes.bytes);
            let back = converted(Conversion::FromLumaChroma(depth), &ycc.bytes);
            let direct = converted(Conversion::ToSrgb(depth), &codes.bytes);
            let round = converted(Conversion::ToSrgb(depth), &back.bytes);
            count += compare(Conversion::FromSrgb(depth), &picture, &codes);
            compare(Conversion::ToLumaChroma(depth), &codes.bytes, &ycc);
            compare(Conversion::FromLumaChroma(depth), &ycc.bytes, &back);
            compare(Conversion::ToSrgb(depth), &back.bytes, &round);
            assert_eq!(direct.bytes, picture, "straight back at {depth} bits");
            assert_eq!(direct.clipped, 0, "sRGB holds its own colours");
            compare_both_runs(depth, &picture, [&codes, &ycc, &back, &direct, &round]);
            let (codes, back) = (read(&codes.bytes, 2), read(&back.bytes, 2));
            for (k, (&a, &x)) in picture.iter().zip(&round.bytes).enumerate() {
                assert!((codes[k] - back[k]).abs() <= 1, "within one code");
                let more = depth == 10 && back[k] == codes[k] + 1 && a < 255;
                assert_eq!(i64::from(x), i64::from(a) + i64::from(more));
                greater += u64::from(more);
            }
        }
        // Counted by another program, before the library was written.
        assert_eq!(greater, if depth == 10 { 8_278_086 } else { 0 });
    }
    count
}

/// Codes at which something changes.
fn edges(depth: u32) -> Vec<i64> {
    let top = samples::greatest(depth);
    let middle = (top + 1) / 2;
    let offset = samples::offset(depth);
    let white = offset + samples::scale(depth);
    let mut edges: Vec<i64> = [0, middle, offset, white, top]
        .into_iter()
        .flat_map(|edge| [edge - 2, edge - 1, edge, edge + 1, edge + 2])
        .filter(|code| (0..=top).contains(code))
        .collect();
    edges.sort_unstable();
    edges.dedup();
    edges
}

/// The samples of all pixels whose channels are edges.
pub fn corners(depth: u32) -> Vec<i64> {
    let edges = edges(depth);
    let mut corners = Vec::new();
    for &a in &edges {
        for &b in &edges {
            for &c in &edges {
                corners.extend([a, b, c]);
            }
        }
    }
    corners
}

/// Pixels of codes, and of luma and chroma: all combinations of edges, and random ones.
pub fn pixels_with_edges() -> u64 {
    let mut random = Random::new(1);
    let mut count = 0;
    for depth in DEPTHS {
        let top = samples::greatest(depth);
        // Chroma has no code 0.
        let mut check = |samples: &[i64]| {
            let codes = wide(samples.iter().copied());
            let yccs = wide(samples.iter().enumerate().map(|(k, &sample)| {
                if k % 3 == 0 {
                    sample
                } else {
                    sample.max(1)
                }
            }));
            for (conversion, src) in [
                (Conversion::ToLumaChroma(depth), &codes),
                (Conversion::FromLumaChroma(depth), &yccs),
                (Conversion::ToSrgb(depth), &codes),
            ] {
                count += compare(conversion, src, &converted(conversion, src));
            }
            let ycc = converted(Conversion::ToLumaChroma(depth), &codes).bytes;
            let back = read(&converted(Conversion::FromLumaChroma(depth), &ycc).bytes, 2);
            for (before, after) in samples.chunks_exact(3).zip(back.chunks_exact(3)) {
                assert!(before.iter().zip(after).all(|(a, b)| (a - b).abs() <= 1));
                let grey = before[0] == before[1] && before[1] == before[2];
                assert!(!grey || before == after, "a grey comes back exactly");
            }
            let mut again = vec![0; codes.len()];
            let mut there = vec![0; codes.len()];
            let trip = kiosk::round_trip(depth, &codes, &mut there, &mut again);
            assert_eq!(trip.there, Ok(samples.len() / 3));
            assert_eq!(trip.again, Ok(samples.len() / 3));
            assert_eq!((there, read(&again, 2)), (ycc, back));
        };
        check(&corners(depth));
        for _ in 0..32 {
            let samples: Vec<i64> = (0..3 * 65_536)
                .map(|_| random.below(top as u64 + 1) as i64)
                .collect();
            check(&samples);
            // Near a grey, where luma and chroma round most finely.
            let near: Vec<i64> = (0..65_536)
                .flat_map(|_| {
                    let grey = random.below(top as u64 + 1) as i64;
                    [0; 3].map(|_| (grey + random.below(9) as i64 - 4).clamp(0, top))
                })
                .collect();
            check(&near);
        }
    }
    count
}

/// The conversions that name one depth.
const OF_ONE_DEPTH: [fn(u32) -> Conversion; 8] = [
    Conversion::FromSrgb,
    Conversion::ToSrgb,
    Conversion::ToLumaChroma,
    Conversion::FromLumaChroma,
    Conversion::ToEsycc,
    Conversion::FromEsycc,
    Conversion::ToSycc,
    Conversion::FromSycc,
];

/// Depths to ask for, offered and others.
const ANY_DEPTH: [u32; 15] = [
    10,
    12,
    16,
    10,
    12,
    16,
    0,
    8,
    9,
    11,
    13,
    15,
    17,
    32,
    u32::MAX,
];

/// A call of Convert by both, over a destination that held `before`. Gives the number of the refusal, if it is refused.
pub fn convert_by_both(conversion: Conversion, src: &[u8], before: &[u8]) -> Option<u8> {
    by_both(
        before,
        0xa5,
        |dst| kiosk::convert(of_library(conversion), src, dst).map(counts),
        |dst| convert(conversion, src, dst),
        || format!("{conversion:?} of {src:?}"),
    )
    .0
}

/// Any conversion, of any depths.
fn any_conversion(random: &mut Random) -> Conversion {
    let depth = random.pick(&ANY_DEPTH);
    match random.below(OF_ONE_DEPTH.len() as u64 + 1) {
        0 => Conversion::ChangeDepth(depth, random.pick(&ANY_DEPTH)),
        _ => random.pick(&OF_ONE_DEPTH)(depth),
    }
}

/// A few pixels of a form, with a sample at fault, sometimes two, and sometimes a length that is not whole.
fn faulty_source(form: Form, random: &mut Random) -> Vec<u8> {
    let samples = 3 * random.below(6) as usize;
    let mut src = if form.width() == 1 {
        random.bytes(samples)
    } else {
        let codes = if samples::offered(form.bits()) {
            1 << form.bits()
        } else {
            65_536
        };
        wide((0..samples).map(|_| random.below(codes) as i64))
    };
    for _ in 0..random.below(3) {
        if !src.is_empty() {
            let k = random.below(src.len() as u64) as usize & !1;
            for byte in src.iter_mut().skip(k).take(2) {
                *byte = random.pick(&[0, 0, 1, 3, 4, 15, 16, 255]);
            }
        }
    }
    if random.below(8) == 0 {
        src.truncate(random.below(src.len() as u64 + 1) as usize);
    }
    src
}

/// The refusals that a source can get, by rules 4.2 and 4.3.
fn possible(source: Form) -> &'static [u8] {
    match source {
        Form::Srgb | Form::Sycc => &[9, 11, 16],
        Form::Esrgb(_) | Form::Esycc(_) => &[9, 10, 11, 12, 16],
        Form::LumaChroma(_) => &[9, 10, 11, 12, 13, 16],
    }
}

/// Short buffers of any length and depth, with faults: answers, places and every byte against the reference. Each
/// refusal that a form can get occurs, and no other.
pub fn refusals() -> u64 {
    const CALLS: u64 = 720_000;
    let mut random = Random::new(2);
    let mut refused: HashMap<_, (Form, BTreeSet<u8>)> = HashMap::new();
    for _ in 0..CALLS {
        let conversion = any_conversion(&mut random);
        let (from, to) = (conversion.source(), conversion.target());
        let src = faulty_source(from, &mut random);
        let needed = src.len() / (3 * from.width()) * 3 * to.width();
        let room = match random.below(8) {
            0 => random.below(40) as usize,
            1 => needed + 1,
            _ => needed,
        };
        let number = convert_by_both(conversion, &src, &random.bytes(room));
        let (_, numbers) = refused
            .entry(discriminant(&from))
            .or_insert((from, BTreeSet::new()));
        numbers.extend(number);
    }
    assert_eq!(refused.len(), 5, "forms");
    for (form, numbers) in refused.into_values() {
        assert!(numbers.iter().eq(possible(form)), "{form:?} {numbers:?}");
    }
    CALLS
}

/// Every conversion at every depth offered, from sources of 0 to 40 bytes into destinations of every length up to what
/// the longest needs: answers and every byte against the reference. The source's samples are sound, or above what 10
/// and 12 bits have, so that lengths are seen to be looked at first. Bytes of sRGB and of sYCC never get 10.
pub fn every_length() -> u64 {
    let mut count = 0;
    let mut check = |conversion: Conversion| {
        let mut refused = BTreeSet::new();
        for (len, fill) in (0..=40).flat_map(|len| [(len, 1), (len, 255)]) {
            for room in 0..=80 {
                refused.extend(convert_by_both(
                    conversion,
                    &vec![fill; len],
                    &vec![0x5a; room],
                ));
                count += 1;
            }
        }
        let mut numbers = vec![11, 16];
        match conversion.source().bits() {
            8 => {}
            16 => numbers.push(10),
            _ => numbers.extend([10, 12]),
        }
        assert_eq!(refused, BTreeSet::from_iter(numbers), "{conversion:?}");
    };
    for depth in DEPTHS {
        for conversion in OF_ONE_DEPTH {
            check(conversion(depth));
        }
        for to in DEPTHS {
            check(Conversion::ChangeDepth(depth, to));
        }
    }
    count
}

/// What each of several conversions gives, in order.
type Answers<const N: usize> = [Result<Converted, reference::Refusal>; N];

/// The answer of a conversion that counts no clipped pixels.
fn unclipped(answer: Result<usize, kiosk::Refusal>) -> Result<Converted, reference::Refusal> {
    said(answer.map(|pixels| Converted { pixels, clipped: 0 }))
}

/// Both runs by the library: its answers, and the five destinations after it.
fn both_runs(depth: u32, picture: &[u8], before: [&[u8]; 5]) -> (Answers<5>, [Vec<u8>; 5]) {
    let (runs, after) = all_guarded(before, 0xa5, |[codes, ycc, back, direct, round]| {
        kiosk::both_runs(depth, picture, codes, ycc, back, direct, round)
    });
    let [codes, ycc, back] = [runs.codes, runs.ycc, runs.back].map(unclipped);
    let [direct, round] = [runs.direct, runs.round].map(|answer| said(answer.map(counts)));
    ([codes, ycc, back, direct, round], after)
}

/// The same by the reference, call by call.
fn both_runs_by_calls(
    depth: u32,
    picture: &[u8],
    before: [&[u8]; 5],
) -> (Answers<5>, [Vec<u8>; 5]) {
    let [mut codes, mut ycc, mut back, mut direct, mut round] = before.map(<[u8]>::to_vec);
    let answers = [
        convert(Conversion::FromSrgb(depth), picture, &mut codes),
        convert(Conversion::ToLumaChroma(depth), &codes, &mut ycc),
        convert(Conversion::FromLumaChroma(depth), &ycc, &mut back),
        convert(Conversion::ToSrgb(depth), &codes, &mut direct),
        convert(Conversion::ToSrgb(depth), &back, &mut round),
    ];
    (answers, [codes, ycc, back, direct, round])
}

/// A round trip by the library and by the reference, call by call: answers and every byte.
fn compare_trip(depth: u32, codes: &[u8], before: [&[u8]; 2]) -> Answers<2> {
    let (trip, after) = all_guarded(before, 0xa5, |[ycc, back]| {
        kiosk::round_trip(depth, codes, ycc, back)
    });
    let [mut ycc, mut back] = before.map(<[u8]>::to_vec);
    let expected = [
        convert(Conversion::ToLumaChroma(depth), codes, &mut ycc),
        convert(Conversion::FromLumaChroma(depth), &ycc, &mut back),
    ];
    assert_eq!(
        ([trip.there, trip.again].map(unclipped), after),
        (expected, [ycc, back]),
        "round trip of {codes:?} at {depth} bits over {before:?}"
    );
    expected
}

/// Short buffers with something in them, of lengths that fit or not, through both runs and round trips: each
/// conversion is accepted or refused by itself, so all answers and bytes are those of the reference's calls one
/// after another. Every pattern of accepted and refused conversions occurs, and of pixels clipped by the last two.
pub fn runs_with_refusals() -> u64 {
    const ROUNDS: u64 = 300_000;
    let mut random = Random::new(7);
    let (mut patterns, mut trips) = (BTreeSet::new(), BTreeSet::new());
    let mut clippings = BTreeSet::new();
    // Mostly `pixels` whole pixels, else another number of them, or any length.
    let length = |random: &mut Random, pixels: u64, bytes: u64| match random.below(16) {
        0 => random.below(4 * bytes),
        1..4 => random.below(4) * bytes,
        _ => pixels * bytes,
    };
    for _ in 0..ROUNDS {
        let depth = match random.below(8) {
            0 => random.pick(&ANY_DEPTH),
            _ => random.pick(&DEPTHS),
        };
        let pixels = random.below(4);
        // Codes that every depth has; one may be too great, or 0, which chroma may not be.
        let mut wide_buffer = || {
            let bytes = length(&mut random, pixels, 6) as usize;
            let mut codes = wide((0..12).map(|_| 1 + random.below(1023) as i64));
            if random.below(3) == 0 {
                let k = 2 * random.below(12) as usize;
                let fault: u16 = random.pick(&[0, 0, 1024, 4096, 65_535]);
                codes[k..k + 2].copy_from_slice(&fault.to_le_bytes());
            }
            codes.truncate(bytes);
            codes
        };
        let wide = [wide_buffer(), wide_buffer(), wide_buffer()];
        let mut narrow_buffer = || {
            let bytes = length(&mut random, pixels, 3) as usize;
            random.bytes(bytes)
        };
        let (picture, narrow) = (narrow_buffer(), [narrow_buffer(), narrow_buffer()]);
        let before = [&wide[0][..], &wide[1], &wide[2], &narrow[0], &narrow[1]];
        let (answers, after) = both_runs(depth, &picture, before);
        assert_eq!(
            (answers, after),
            both_runs_by_calls(depth, &picture, before),
            "both runs of {picture:?} at {depth} bits over {before:?}"
        );
        patterns.insert(answers.map(|answer| answer.is_ok()));
        let clipped = |answer: Result<Converted, _>| answer.is_ok_and(|done| done.clipped > 0);
        clippings.insert([answers[3], answers[4]].map(clipped));
        let answers = compare_trip(depth, before[0], [before[1], before[2]]);
        trips.insert(answers.map(|answer| answer.is_ok()));
    }
    assert_eq!((patterns.len(), trips.len()), (1 << 5, 1 << 2));
    assert_eq!(clippings.len(), 1 << 2);
    2 * ROUNDS
}
