//! Benchmarks: nanoseconds a pixel of each operation, its checks included, beside plain C, C by hand for SSE2, and
//! memcpy. Run with `cargo run --release -p bench`, and with ` -- 20000` behind it for that size alone.
//! ` -- before` times the conversions by an earlier library too, whose archive `KIOSK_BEFORE` names. ` -- stickers` times
//! stickers alone, and ` -- printer` a printer's turns.

#![deny(unsafe_code)]

mod buffer;
mod c;
mod printer;
mod stickers;

use buffer::Buffer;
use kiosk::{Conversion, Converted, Refusal, Tint};
use std::cell::RefCell;
use std::hint::black_box;
use std::num::NonZeroUsize;
use std::time::Instant;

/// Pixels that stay in the cache, a million of them, and more than any cache holds.
const SIZES: [usize; 3] = [20_000, 1_000_000, 8_000_000];

/// The width of an operation's name in a table.
const NAME: usize = 23;

/// A way to compute an operation's result: its answer is the pixel count.
type Version<'a, T> = &'a dyn Fn(&mut [T]) -> i64;

/// The best of many rounds for each version, in nanoseconds a pixel. A round takes 200,000 pixels at least; of a small
/// picture there are more rounds, because others disturb a short time more.
fn best<T>(pixels: usize, dst: &mut [T], versions: &[Version<T>]) -> Vec<f64> {
    let rounds = (20_000_000 / pixels).clamp(11, 101);
    let turns = (200_000 / pixels).max(1);
    best_of(rounds, turns, dst, versions)
        .iter()
        .map(|time| time * 1e9 / pixels as f64)
        .collect()
}

/// The best of so many rounds for each version, in seconds. A round takes every version, one after the other and for so
/// many turns, so that all meet the same pace of the machine.
fn best_of<T>(rounds: usize, turns: usize, dst: &mut [T], versions: &[Version<T>]) -> Vec<f64> {
    let mut times = vec![f64::INFINITY; versions.len()];
    for _ in 0..rounds {
        for (time, version) in times.iter_mut().zip(versions) {
            version(dst);
            let start = Instant::now();
            for _ in 0..turns {
                black_box(version(black_box(&mut *dst)));
            }
            *time = time.min(start.elapsed().as_secs_f64() / turns as f64);
        }
    }
    times
}

/// The numbers that all versions write.
fn agreed<T: Copy + Default + PartialEq>(
    pixels: usize,
    dst: &mut [T],
    versions: &[Version<T>],
) -> Buffer<T> {
    assert_eq!(versions[0](dst), pixels as i64);
    let expected = Buffer::source(dst);
    for version in versions {
        dst.fill(T::default());
        assert_eq!(version(dst), pixels as i64);
        assert!(*dst == *expected, "a version differs");
    }
    expected
}

/// A goal in a table, where there may be none.
fn shown(goal: Option<f64>) -> String {
    goal.map_or("-".into(), |goal| format!("{goal:.2}"))
}

/// What one operation takes: by the library, by plain C, by hand, and a copy of as many bytes as it writes.
struct Times {
    library: f64,
    plain: f64,
    sse2: Option<f64>,
    copy: f64,
}

impl Times {
    /// Times versions, the library's first and then plain C's, that must write the same `room` numbers.
    fn of<T: Copy + Default + PartialEq>(
        pixels: usize,
        room: usize,
        versions: &[Version<T>],
    ) -> Times {
        let mut dst = Buffer::destination(room);
        let expected = agreed(pixels, &mut dst, versions);
        let copy = |dst: &mut [T]| {
            dst.copy_from_slice(black_box(&expected));
            pixels as i64
        };
        let copied: [Version<T>; 1] = [&copy];
        let times = best(pixels, &mut dst, &[versions, &copied].concat());
        Times {
            library: times[0],
            plain: times[1],
            sse2: (versions.len() > 2).then(|| times[2]),
            copy: times[times.len() - 1],
        }
    }

    /// The library's time over that of the better C.
    fn ratio(&self) -> f64 {
        self.library / self.sse2.map_or(self.plain, |sse2| sse2.min(self.plain))
    }

    fn print(&self, operation: &Operation, pixels: usize) {
        let sse2 = self.sse2.map_or("-".into(), |sse2| format!("{sse2:.3}"));
        let goal = shown(operation.goal);
        println!(
            "{:<NAME$} {pixels:>9} {:>8.3} {:>8.3} {sse2:>8} {:>8.2} {goal:>6} {:>9.2}",
            operation.name,
            self.library,
            self.plain,
            self.ratio(),
            self.library / self.copy
        );
    }
}

/// Numbers that look random, the same at every run.
fn noise(count: usize) -> impl Iterator<Item = u64> {
    let mut state = 0x9e37_79b9_7f4a_7c15u64;
    (0..count).map(move |_| {
        state ^= state << 13;
        state ^= state >> 7;
        state ^= state << 17;
        state >> 16
    })
}

/// A picture of smooth colours with some noise, as a camera gives, in 8-bit sRGB.
fn photograph(pixels: usize) -> Vec<u8> {
    // Three waves that rise and fall, of different lengths.
    let wave = |at: usize, length: usize| {
        let phase = at % (2 * length);
        phase.min(2 * length - phase) * 223 / length
    };
    noise(3 * pixels)
        .enumerate()
        .map(|(k, x)| (wave(k / 3, [311, 743, 1733][k % 3]) as u64 + x % 32) as u8)
        .collect()
}

/// The photograph with more contrast: much of it is black or white, and none of it beyond.
fn full_range(pixels: usize) -> Vec<u8> {
    let stretched = |value: u8| (2 * i32::from(value) - 128).clamp(0, 255) as u8;
    photograph(pixels).into_iter().map(stretched).collect()
}

/// What is converted.
#[derive(Clone, Copy, Debug, PartialEq, Eq)]
enum Source {
    Photograph,
    FullRange,
    AnyColours,
}

impl Source {
    /// So many pixels in the form that a conversion reads.
    fn of(self, conversion: Conversion, pixels: usize) -> Vec<u8> {
        match self {
            Source::Photograph => in_form(conversion, photograph(pixels)),
            Source::FullRange => in_form(conversion, full_range(pixels)),
            Source::AnyColours => any_colours(conversion, pixels),
        }
    }
}

/// A picture of sRGB in the form that a conversion reads.
fn in_form(conversion: Conversion, srgb: Vec<u8>) -> Vec<u8> {
    let step = |conversion: Conversion, src: Vec<u8>| {
        let mut dst = vec![0; conversion.needed(src.len())];
        converted(kiosk::convert(conversion, &src, &mut dst));
        dst
    };
    let codes = |depth| step(Conversion::FromSrgb { depth }, srgb.clone());
    match conversion {
        Conversion::FromSrgb { .. } => srgb,
        Conversion::ToSrgb { depth }
        | Conversion::ChangeDepth { from: depth, .. }
        | Conversion::ToLumaChroma { depth }
        | Conversion::ToEsycc { depth }
        | Conversion::ToSycc { depth } => codes(depth),
        Conversion::FromLumaChroma { depth } => {
            step(Conversion::ToLumaChroma { depth }, codes(depth))
        }
        Conversion::FromEsycc { depth } => step(Conversion::ToEsycc { depth }, codes(depth)),
        Conversion::FromSycc { depth } => step(Conversion::ToSycc { depth }, codes(depth)),
    }
}

fn codes(depth: u32, pixels: usize) -> Vec<u8> {
    Source::Photograph.of(Conversion::ToSrgb { depth }, pixels)
}

fn answer(result: Result<usize, Refusal>) -> i64 {
    result.expect("a sound picture is converted") as i64
}

fn converted(result: Result<Converted, Refusal>) -> i64 {
    answer(result.map(|done| done.pixels))
}

/// Samples that no picture has: any numbers but 0, so that most pixels of luma and chroma are clipped on the way back,
/// and most of e-sRGB on the way to sRGB.
fn any_samples(depth: u32, pixels: usize) -> Vec<u8> {
    noise(3 * pixels)
        .map(|x| (x % ((1 << depth) - 1)) as u16 + 1)
        .flat_map(u16::to_le_bytes)
        .collect()
}

/// So many pixels of any samples, in the form that a conversion reads.
fn any_colours(conversion: Conversion, pixels: usize) -> Vec<u8> {
    match conversion {
        Conversion::FromSrgb { .. } | Conversion::FromSycc { .. } => {
            let mut bytes = any_samples(16, pixels);
            bytes.truncate(3 * pixels);
            bytes
        }
        Conversion::ToSrgb { depth }
        | Conversion::ChangeDepth { from: depth, .. }
        | Conversion::ToLumaChroma { depth }
        | Conversion::FromLumaChroma { depth }
        | Conversion::ToEsycc { depth }
        | Conversion::FromEsycc { depth }
        | Conversion::ToSycc { depth } => any_samples(depth, pixels),
    }
}

/// Does a version have a conversion? It then converts an empty picture.
fn has(version: c::Convert, conversion: Conversion) -> bool {
    version(conversion, &[], &mut []).is_some()
}

fn time_conversion(conversion: Conversion, src: &[u8], pixels: usize) -> Times {
    let src = Buffer::source(src);
    let room = conversion.needed(src.len());
    let src = &src;
    let library = |dst: &mut [u8]| converted(kiosk::convert(conversion, src, dst));
    let by =
        |version: c::Convert| move |dst: &mut [u8]| given(version, conversion, src, dst).answer;
    let (plain, sse2) = (by(c::plain), by(c::sse2));
    let mut versions: Vec<Version<u8>> = vec![&library, &plain];
    check_clipped(c::plain, conversion, src);
    if has(c::sse2, conversion) {
        versions.push(&sse2);
        check_clipped(c::sse2, conversion, src);
    }
    Times::of(pixels, room, &versions)
}

fn given(version: c::Convert, conversion: Conversion, src: &[u8], dst: &mut [u8]) -> c::Given {
    version(conversion, src, dst).expect("the version has it")
}

/// A version that is timed must count what the library counts.
fn check_clipped(version: c::Convert, conversion: Conversion, src: &[u8]) {
    let mut dst = vec![0; conversion.needed(src.len())];
    let done = kiosk::convert(conversion, src, &mut dst).expect("a sound picture is converted");
    let clipped = given(version, conversion, src, &mut dst).clipped;
    assert_eq!(clipped, done.clipped, "a version counts otherwise");
}

/// A conversion by the library before, if it has it, and by this one.
fn conversion_before_and_after(
    conversion: Conversion,
    source: Source,
    pixels: usize,
) -> Option<[f64; 2]> {
    if !has(c::before, conversion) {
        return None;
    }
    let src = Buffer::source(&source.of(conversion, pixels));
    // The clipped pixels are not compared: the library before may not count them.
    let before = |dst: &mut [u8]| given(c::before, conversion, &src, dst).answer;
    let after = |dst: &mut [u8]| converted(kiosk::convert(conversion, &src, dst));
    Some(before_and_after(
        pixels,
        conversion.needed(src.len()),
        [&before, &after],
    ))
}

/// Code to light by both, if the library before has it at this depth: it then converts an empty picture.
fn light_before_and_after(depth: u32, pixels: usize) -> Option<[f64; 2]> {
    if c::before_light(depth, &[], &mut []) < 0 {
        return None;
    }
    let src = Buffer::source(&codes_for_light(depth, pixels));
    let before = |dst: &mut [i32]| c::before_light(depth, &src, dst);
    let after = |dst: &mut [i32]| answer(kiosk::code_to_light(depth, &src, dst));
    Some(before_and_after(pixels, 3 * pixels, [&before, &after]))
}

/// The times of both, which must write the same.
fn before_and_after<T: Copy + Default + PartialEq>(
    pixels: usize,
    room: usize,
    versions: [Version<T>; 2],
) -> [f64; 2] {
    let mut dst = Buffer::destination(room);
    agreed(pixels, &mut dst, &versions);
    let times = best(pixels, &mut dst, &versions);
    [times[0], times[1]]
}

/// Depth down from 12 bits to 10, in times of depth up from 10 to 12.
fn down_over_up(pixels: usize) -> f64 {
    let change = |from, to| Conversion::ChangeDepth { from, to };
    let twelve = Buffer::source(&codes(12, pixels));
    let ten = Buffer::source(&codes(10, pixels));
    let down = |dst: &mut [u8]| converted(kiosk::convert(change(12, 10), &twelve, dst));
    let up = |dst: &mut [u8]| converted(kiosk::convert(change(10, 12), &ten, dst));
    ratio(pixels, 6 * pixels, [&down, &up])
}

/// Code to light at 16 bits, in times of 12.
fn sixteen_over_twelve(pixels: usize) -> f64 {
    let [sixteen, twelve] = [16, 12].map(|depth| Buffer::source(&codes_for_light(depth, pixels)));
    let at_sixteen = |dst: &mut [i32]| answer(kiosk::code_to_light(16, &sixteen, dst));
    let at_twelve = |dst: &mut [i32]| answer(kiosk::code_to_light(12, &twelve, dst));
    ratio(pixels, 3 * pixels, [&at_sixteen, &at_twelve])
}

/// The time of one operation over that of another. The two take turns, as versions do.
fn ratio<T: Copy + Default>(pixels: usize, room: usize, operations: [Version<T>; 2]) -> f64 {
    let times = best(pixels, &mut Buffer::destination(room), &operations);
    times[0] / times[1]
}

/// Ratios that have a goal: a name, the goal, and the function that measures it.
const RATIOS: [(&str, f64, fn(usize) -> f64); 2] = [
    ("12 to 10 / 10 to 12", 1.25, down_over_up),
    ("light of 16 / of 12", 1.5, sixteen_over_twelve),
];

/// The photograph's codes, at 16 bits with noise below the steps of sRGB too: else all of them would be those of 12-bit
/// codes.
fn codes_for_light(depth: u32, pixels: usize) -> Vec<u8> {
    let mut codes = codes(depth, pixels);
    if depth == 16 {
        for (low, x) in codes.iter_mut().step_by(2).zip(noise(3 * pixels)) {
            *low += (x % 128) as u8;
        }
    }
    codes
}

fn time_code_to_light(depth: u32, pixels: usize) -> Times {
    let src = Buffer::source(&codes_for_light(depth, pixels));
    let library = |dst: &mut [i32]| answer(kiosk::code_to_light(depth, &src, dst));
    let plain = |dst: &mut [i32]| c::plain_light(depth, &src, dst);
    Times::of(pixels, 3 * pixels, &[&library, &plain])
}

fn time_light_to_code(depth: u32, pixels: usize) -> Times {
    let mut light = vec![0; 3 * pixels];
    answer(kiosk::code_to_light(
        depth,
        &codes(depth, pixels),
        &mut light,
    ));
    let src = Buffer::source(&light);
    let library = |dst: &mut [u8]| answer(kiosk::light_to_code(depth, &src, dst));
    let plain = |dst: &mut [u8]| c::light_to_code(depth, &src, dst);
    Times::of(pixels, 6 * pixels, &[&library, &plain])
}

/// Codes through light that is moved by up to 18 millionths, up and down.
fn time_through_light(depth: u32, pixels: usize) -> Times {
    let src = Buffer::source(&codes(depth, pixels));
    let moves: Vec<i32> = noise(3 * pixels).map(|x| (x % 37) as i32 - 18).collect();
    let moves = Buffer::source(&moves);
    let light = RefCell::new(Buffer::destination(3 * pixels));
    let library = |dst: &mut [u8]| {
        let light = &mut light.borrow_mut();
        answer(kiosk::through_light(depth, &src, &moves, light, dst))
    };
    let plain = |dst: &mut [u8]| {
        let light = &mut light.borrow_mut();
        c::through_light(depth, &src, &moves, light, dst)
    };
    Times::of(pixels, 6 * pixels, &[&library, &plain])
}

/// The photograph's pixels as tints of a kind, which its values divided by 255 are made to.
fn tints(kind: fn([f64; 3]) -> Tint, pixels: usize) -> Vec<Tint> {
    photograph(pixels)
        .chunks_exact(3)
        .map(|p| kind([p[0], p[1], p[2]].map(|value| f64::from(value) / 255.0)))
        .collect()
}

/// Tints one by one, a call each.
fn time_tints(tints: &[Tint]) -> Times {
    let by = |convert: fn(Tint, &mut [u16; 3]) -> i64| {
        move |dst: &mut [u16]| {
            let pixels = dst.chunks_exact_mut(3).map(TryFrom::try_from);
            let pairs = tints.iter().zip(pixels);
            pairs
                .map(|(&tint, pixel)| convert(tint, pixel.expect("three codes")))
                .sum()
        }
    };
    let library = by(|tint, pixel| {
        *pixel = kiosk::tint_to_pixel(tint).expect("a finite tint is converted");
        1
    });
    Times::of(tints.len(), 3 * tints.len(), &[&library, &by(c::tint)])
}

/// The light of the 12-bit level after the last that a code has, where the last line at 16 bits ends.
const LIGHT_BEYOND: u32 = 1_680_998;

/// The tables that plain C searches, read off the library: it is plain C's loops that are timed.
fn set_tables() {
    let codes: Vec<u8> = (1536..4096u16)
        .flat_map(|code| [code; 3])
        .flat_map(u16::to_le_bytes)
        .collect();
    let mut numbers = vec![0; codes.len() / 2];
    kiosk::code_to_light(12, &codes, &mut numbers).expect("12-bit codes have a light");
    let mut light = [LIGHT_BEYOND; 2561];
    for (entry, number) in light.iter_mut().zip(numbers.chunks_exact(3)) {
        *entry = number[0] as u32;
    }
    let mut ten = [0; 640];
    let mut twelve = [0; 2560];
    fill_thresholds(10, 384, &mut ten);
    fill_thresholds(12, 1536, &mut twelve);
    c::set_tables(&light, &ten, &twelve);
}

fn fill_thresholds(depth: u32, offset: u16, thresholds: &mut [u32]) {
    let lights: Vec<i32> = (0..2_100_000).collect();
    let mut codes = vec![0; 2 * lights.len()];
    kiosk::light_to_code(depth, &lights, &mut codes).expect("light has codes");
    let mut level = 0;
    for (q, code) in codes.chunks_exact(2).enumerate() {
        let reached = usize::from(u16::from_le_bytes([code[0], code[1]]) - offset);
        while level < reached {
            level += 1;
            thresholds[level] = q as u32;
        }
    }
    assert_eq!(level + 1, thresholds.len());
}

enum Call {
    Convert(Conversion, Source),
    CodeToLight(u32),
    LightToCode(u32),
    ThroughLight(u32),
    /// Tints of a kind, which red, green and blue from 0 to 1 are made to.
    Tint(fn([f64; 3]) -> Tint),
}

/// The most nanoseconds that a tint may take.
const TINT_LIMIT: f64 = 1000.0;

/// How long e-sRGB to sRGB may take, in times of the library that did not count clipped pixels yet.
const COUNT_LIMIT: f64 = 1.5;

/// What is timed, and the goal if there is one: how long it may take, in times of the better C.
struct Operation {
    name: String,
    goal: Option<f64>,
    call: Call,
}

impl Operation {
    fn time(&self, pixels: usize) -> Times {
        match self.call {
            Call::Convert(conversion, source) => {
                time_conversion(conversion, &source.of(conversion, pixels), pixels)
            }
            Call::CodeToLight(depth) => time_code_to_light(depth, pixels),
            Call::LightToCode(depth) => time_light_to_code(depth, pixels),
            Call::ThroughLight(depth) => time_through_light(depth, pixels),
            Call::Tint(kind) => time_tints(&tints(kind, pixels)),
        }
    }

    /// Tints are timed at one size: each is a call of its own, so that their number changes nothing.
    fn is_timed_at(&self, pixels: usize) -> bool {
        !matches!(self.call, Call::Tint(_)) || pixels <= SIZES[0]
    }

    /// How long it may take, in times of the library before: what is inside sRGB's gamut, on the way to sRGB.
    fn goal_over_before(&self) -> Option<f64> {
        match self.call {
            Call::Convert(Conversion::ToSrgb { .. }, source) if source != Source::AnyColours => {
                Some(COUNT_LIMIT)
            }
            _ => None,
        }
    }

    fn is_missed(&self, times: &Times) -> bool {
        let slow = matches!(self.call, Call::Tint(_)) && TINT_LIMIT <= times.library;
        slow || self.goal.is_some_and(|goal| goal < times.ratio())
    }
}

/// Conversions at some depths, and the goal that each has: a name for each depth, and the conversion.
type Conversions = (f64, &'static [u32], fn(u32) -> (String, Conversion));

const CONVERSIONS: [Conversions; 11] = [
    (1.1, &[10, 16], |depth| {
        let name = format!("sRGB to e-sRGB {depth}");
        (name, Conversion::FromSrgb { depth })
    }),
    (0.9, &[10, 12, 16], |depth| {
        let name = format!("e-sRGB {depth} to sRGB");
        (name, Conversion::ToSrgb { depth })
    }),
    (1.2, &[12], |to| depth_change(10, to)),
    (1.2, &[10], |to| depth_change(12, to)),
    (1.2, &[12], |to| depth_change(16, to)),
    (1.75, &[10, 12, 16], |depth| {
        let name = format!("luma and chroma {depth}");
        (name, Conversion::ToLumaChroma { depth })
    }),
    (1.0, &[10, 12, 16], |depth| {
        let name = format!("back to e-sRGB {depth}");
        (name, Conversion::FromLumaChroma { depth })
    }),
    (0.7, &[10, 12, 16], |depth| {
        let name = format!("e-sRGB {depth} to e-sYCC");
        (name, Conversion::ToEsycc { depth })
    }),
    (0.7, &[10, 12, 16], |depth| {
        let name = format!("e-sYCC {depth} to e-sRGB");
        (name, Conversion::FromEsycc { depth })
    }),
    (0.7, &[10, 12, 16], |depth| {
        let name = format!("e-sRGB {depth} to sYCC");
        (name, Conversion::ToSycc { depth })
    }),
    (0.7, &[10, 12, 16], |depth| {
        let name = format!("sYCC to e-sRGB {depth}");
        (name, Conversion::FromSycc { depth })
    }),
];

fn depth_change(from: u32, to: u32) -> (String, Conversion) {
    let name = format!("e-sRGB {from} to {to}");
    (name, Conversion::ChangeDepth { from, to })
}

/// Conversions of a source, at some depths. They have no goal beside C.
fn of_source(
    source: Source,
    depths: &[u32],
    of_depth: fn(u32) -> (String, Conversion),
) -> Vec<Operation> {
    let operation = |(name, conversion)| Operation {
        name,
        goal: None,
        call: Call::Convert(conversion, source),
    };
    depths.iter().map(|&d| operation(of_depth(d))).collect()
}

fn operations() -> Vec<Operation> {
    let operation = |name, goal, call| Operation { name, goal, call };
    let mut all = Vec::new();
    for (goal, depths, of_depth) in CONVERSIONS {
        for (name, conversion) in depths.iter().copied().map(of_depth) {
            let call = Call::Convert(conversion, Source::Photograph);
            all.push(operation(name, Some(goal), call));
        }
    }
    all.extend(of_source(Source::AnyColours, &[10, 16], |depth| {
        let name = format!("{depth} to sRGB, any colours");
        (name, Conversion::ToSrgb { depth })
    }));
    all.extend(of_source(Source::AnyColours, &[10], |depth| {
        let name = format!("back {depth}, any colours");
        (name, Conversion::FromLumaChroma { depth })
    }));
    for depth in [10, 12, 16] {
        let name = format!("code {depth} to light");
        all.push(operation(name, Some(1.5), Call::CodeToLight(depth)));
    }
    for depth in [10, 12] {
        let name = format!("light to code {depth}");
        all.push(operation(name, Some(1.2), Call::LightToCode(depth)));
    }
    for depth in [10, 12] {
        let name = format!("through moved light {depth}");
        all.push(operation(name, Some(1.2), Call::ThroughLight(depth)));
    }
    let code = |channels: [f64; 3]| Tint::Code(channels.map(|x| (255.0 * x) as u8));
    all.push(operation("tint of codes".into(), None, Call::Tint(code)));
    let nonlinear = Call::Tint(Tint::Nonlinear);
    all.push(operation("tint, nonlinear".into(), None, nonlinear));
    all.push(operation(
        "tint of light".into(),
        None,
        Call::Tint(Tint::Light),
    ));
    all
}

/// The sizes that words name, in pixels, or these.
fn sizes(words: impl Iterator<Item = String>, or: &[usize]) -> Vec<usize> {
    let named: Vec<usize> = words
        .map(|word| word.parse::<NonZeroUsize>())
        .map(|size| size.expect("a size is a number of pixels").get())
        .collect();
    if named.is_empty() {
        or.to_vec()
    } else {
        named
    }
}

/// Times every operation at these sizes, and says which take longer than their goal.
fn compare(operations: &[Operation], sizes: &[usize]) {
    println!("ns a pixel, the best of 11 to 101 rounds, checks of the input included; / is the library's time over the other's");
    println!(
        "{:<NAME$} {:>9} {:>8} {:>8} {:>8} {:>8} {:>6} {:>9}",
        "operation", "pixels", "library", "plain C", "SSE2 C", "/ C", "goal", "/ memcpy"
    );
    let mut missed = Vec::new();
    for &pixels in sizes {
        for operation in operations.iter().filter(|o| o.is_timed_at(pixels)) {
            let times = operation.time(pixels);
            times.print(operation, pixels);
            if operation.is_missed(&times) {
                missed.push(format!("{} at {pixels}", operation.name));
            }
        }
        for (name, goal, measure) in RATIOS {
            let found = measure(pixels);
            println!("{name:<NAME$} {pixels:>9} {found:>8.2} {goal:>33.2}");
            if goal < found {
                missed.push(format!("{name} at {pixels}"));
            }
        }
    }
    print_missed(&missed);
}

fn print_missed(missed: &[String]) {
    println!("goals missed: {}", missed.len());
    for miss in missed {
        println!("  {miss}");
    }
}

/// Times every conversion and code to light that the library before has, by it and by this one, and says which take
/// longer than their goal.
fn compare_with_before(operations: &[Operation], sizes: &[usize]) {
    println!("ns a pixel, the best of 11 to 101 rounds, checks of the input included");
    println!(
        "{:<NAME$} {:>9} {:>8} {:>8} {:>14} {:>6}",
        "operation", "pixels", "before", "after", "after / before", "goal"
    );
    let mut missed = Vec::new();
    for &pixels in sizes {
        for operation in operations {
            let found = match operation.call {
                Call::Convert(conversion, source) => {
                    conversion_before_and_after(conversion, source, pixels)
                }
                Call::CodeToLight(depth) => light_before_and_after(depth, pixels),
                Call::LightToCode(_) | Call::ThroughLight(_) | Call::Tint(_) => None,
            };
            let Some([before, after]) = found else {
                continue;
            };
            let (name, ratio) = (&operation.name, after / before);
            let goal = operation.goal_over_before();
            println!(
                "{name:<NAME$} {pixels:>9} {before:>8.3} {after:>8.3} {ratio:>14.2} {:>6}",
                shown(goal)
            );
            if goal.is_some_and(|goal| goal < ratio) {
                missed.push(format!("{name} at {pixels}"));
            }
        }
    }
    print_missed(&missed);
}

fn show_growth(operations: &[Operation]) {
    println!("\nhow the library's time grows with size, ns a pixel");
    let sizes = [100, 1_000, 10_000, 100_000, 1_000_000];
    println!(
        "{:<NAME$} {}",
        "pixels",
        sizes.map(|pixels| format!("{pixels:>9}")).join(" ")
    );
    for operation in operations.iter().filter(|o| o.name.contains("10")) {
        let times = sizes.map(|pixels| format!("{:>9.3}", operation.time(pixels).library));
        println!("{:<NAME$} {}", operation.name, times.join(" "));
    }
}

fn main() {
    set_tables();
    let mut operations = operations();
    let mut words = std::env::args().skip(1).peekable();
    if words.next_if(|word| word == "before").is_some() {
        operations.extend(of_source(Source::FullRange, &[10, 12, 16], |depth| {
            let name = format!("{depth} to sRGB, full range");
            (name, Conversion::ToSrgb { depth })
        }));
        return compare_with_before(&operations, &sizes(words, &[1_000_000]));
    }
    if words.next_if(|word| word == "stickers").is_some() {
        return stickers::compare();
    }
    if words.next_if(|word| word == "printer").is_some() {
        return printer::compare();
    }
    let sizes = sizes(words, &SIZES);
    compare(&operations, &sizes);
    if sizes == SIZES {
        show_growth(&operations);
        stickers::compare();
        printer::compare();
    }
}

#[cfg(test)]
mod tests {
    use super::*;

    /// The start of a source, sometimes with the greatest code or a sample that no code is, and on the way to sRGB with
    /// black, white and the codes beyond them.
    fn disturbed(
        conversion: Conversion,
        source: &[u8],
        next: &mut impl FnMut(usize) -> usize,
    ) -> Vec<u8> {
        let mut src = source.to_vec();
        if let Conversion::ToSrgb { depth } = conversion {
            let (black, white) = (3 << (depth - 3), (3 << (depth - 3)) + (255 << (depth - 9)));
            for sample in src.chunks_exact_mut(2) {
                if next(8) == 0 {
                    let code: u16 = [black - 1, black, white, white + 1][next(4)];
                    sample.copy_from_slice(&code.to_le_bytes());
                }
            }
        }
        if !src.is_empty() && next(3) == 0 {
            let (at, last) = (next(src.len()) / 2 * 2, src.len() - 1);
            src[at] = [0, 255][next(2)];
            src[(at + 1).min(last)] = [0, 3, 15, 255][next(4)];
        }
        src
    }

    /// Converts by the library and by each version that has the conversion, which must give the same answer, bytes and
    /// clipped pixels. The library before is not asked for these. Gives what the library gives.
    fn agree(conversion: Conversion, src: &[u8]) -> Result<Converted, Refusal> {
        let room = conversion.needed(src.len());
        let mut dst = vec![7; room];
        let done = kiosk::convert(conversion, src, &mut dst);
        let (expected, clipped) = match done {
            Ok(done) => (done.pixels as i64, done.clipped),
            Err(refusal) => (-i64::from(refusal.fault.number()), 0),
        };
        let versions: [(c::Convert, bool); 3] =
            [(c::plain, true), (c::sse2, true), (c::before, false)];
        for (version, counts) in versions {
            let mut other = vec![7; room];
            let Some(found) = version(conversion, src, &mut other) else {
                continue;
            };
            assert_eq!(found.answer, expected, "{conversion:?} of {src:?}");
            assert!(other == dst, "{conversion:?} of {src:?}");
            assert!(
                !counts || found.clipped == clipped,
                "{conversion:?} of {src:?} clips {clipped}, and not {}",
                found.clipped
            );
        }
        done
    }

    /// Sources of every length up to 40 pixels and a byte, of pictures and of any samples: the C versions agree with the
    /// library, and the library before does, if `KIOSK_BEFORE` names one.
    #[test]
    fn the_c_versions_agree_with_the_library() {
        let mut numbers = noise(usize::MAX);
        let mut next = |below: usize| numbers.next().expect("one more") as usize % below;
        let (mut refused, mut clipped) = (0, 0);
        for operation in operations() {
            let Call::Convert(conversion, source) = operation.call else {
                continue;
            };
            for source in [source, Source::AnyColours].map(|source| source.of(conversion, 81)) {
                for len in 0..=241 {
                    let src = disturbed(conversion, &source[..len], &mut next);
                    match agree(conversion, &src) {
                        Ok(done) => clipped += done.clipped,
                        Err(_) => refused += 1,
                    }
                }
            }
        }
        assert!(refused > 100, "only {refused} sources were refused");
        assert!(clipped > 100, "only {clipped} pixels were clipped");
    }

    /// Every code of every depth to light, as many lights to codes, and what is refused: plain C gives the library's answer
    /// and numbers.
    #[test]
    fn plain_c_agrees_on_light() {
        set_tables();
        let mut refused = 0;
        for (depth, last) in [(10, 1023), (12, 4095), (16, 65_535), (12, 4096), (11, 1023)] {
            let codes: Vec<u8> = (0..=last)
                .flat_map(|x: u16| [x.to_le_bytes(); 3])
                .flatten()
                .collect();
            for len in [codes.len(), codes.len() - 1, codes.len() - 2] {
                let src = &codes[..len];
                let (mut dst, mut other) = (vec![7; len / 2], vec![7; len / 2]);
                let expected = told(kiosk::code_to_light(depth, src, &mut dst));
                refused += u32::from(expected < 0);
                assert_eq!(c::plain_light(depth, src, &mut other), expected);
                assert!(dst == other, "{len} bytes of codes of {depth} bits");
                let (mut back, mut again) = (vec![7; 2 * dst.len()], vec![7; 2 * dst.len()]);
                let expected = told(kiosk::light_to_code(depth, &dst, &mut back));
                assert_eq!(c::light_to_code(depth, &dst, &mut again), expected);
                assert!(
                    back == again,
                    "light of {len} bytes of codes of {depth} bits"
                );
                agree_on_moved_light(depth, src, len / 2);
            }
        }
        assert_eq!(refused, 12);
    }

    /// Codes through light, each number of it moved by any number, with as many moves or one more: the same of both.
    fn agree_on_moved_light(depth: u32, codes: &[u8], numbers: usize) {
        for extra in [0, 1] {
            let moves: Vec<i32> = noise(numbers + extra)
                .map(|x| x as i32 >> (x >> 43))
                .collect();
            let [mut light, mut other] = [(); 2].map(|()| vec![7; numbers]);
            let [mut back, mut again] = [(); 2].map(|()| vec![7; codes.len()]);
            let library = kiosk::through_light(depth, codes, &moves, &mut light, &mut back);
            let plain = c::through_light(depth, codes, &moves, &mut other, &mut again);
            assert_eq!(plain, told(library));
            assert!(light == other && back == again, "moved, {depth} bits");
        }
    }

    /// The answer as C gives it.
    fn told(result: Result<usize, Refusal>) -> i64 {
        result.map_or_else(|refusal| -i64::from(refusal.fault.number()), |n| n as i64)
    }

    /// Doubles of any bits, near the codes and halfway between them: plain C gives the library's answer and pixel.
    #[test]
    fn plain_c_agrees_on_tints() {
        set_tables();
        let mut bits = noise(usize::MAX).zip(noise(usize::MAX).skip(1));
        let mut next = |near: bool| {
            let (a, b) = bits.next().expect("there is always one more");
            if near {
                ((a % 8200) as f64 / 2.0 - 1536.0) / 2040.0
            } else {
                f64::from_bits(a << 48 ^ b)
            }
        };
        let mut refused = 0;
        for turn in 0..300_000 {
            let channels = [next(turn % 2 == 0), next(turn % 3 == 0), next(true)];
            let code = Tint::Code(channels.map(|x| x as u8));
            for tint in [Tint::Nonlinear(channels), Tint::Light(channels), code] {
                let found = kiosk::tint_to_pixel(tint);
                let mut pixel = [7; 3];
                let answer = c::tint(tint, &mut pixel);
                refused += usize::from(found.is_err());
                let expected = found.map_or_else(
                    |refusal| (-i64::from(refusal.fault.number()), [7; 3]),
                    |codes| (1, codes),
                );
                assert_eq!((answer, pixel), expected, "{tint:?}");
            }
        }
        assert!(refused > 100, "only {refused} tints were refused");
    }
}
