//! The proved library against the second implementation, from outside. Seeds are fixed; the parts run side by
//! side, each prints what it compared, and a difference fails the program, with the input and both outputs.

#![forbid(unsafe_code)]

mod parts;

use std::thread;
use std::time::Instant;

/// A part of the tests: what it compares, and the function that gives how many.
type Part = (&'static str, fn() -> u64);

const PARTS: [Part; 53] = [
    (
        "samples: every code of every depth",
        parts::pictures::every_sample,
    ),
    (
        "sRGB pixels through the whole chain, all 2^24 at three depths",
        parts::pictures::every_srgb_pixel,
    ),
    (
        "e-sRGB pixels and luma and chroma, with edges",
        parts::pictures::pixels_with_edges,
    ),
    (
        "e-sRGB pixels to e-sYCC, with edges and greys",
        parts::ycc::to_esycc,
    ),
    (
        "e-sYCC pixels to e-sRGB, with edges and greys",
        parts::ycc::from_esycc,
    ),
    (
        "e-sRGB pixels to sYCC, with edges and greys",
        parts::ycc::to_sycc,
    ),
    (
        "sYCC pixels to e-sRGB, all 2^24 at three depths",
        parts::ycc::from_sycc,
    ),
    (
        "pixels clipped to sRGB: every code in each channel",
        parts::clipped::every_code,
    ),
    (
        "pixels clipped to sRGB, in pictures of any colours and of edges",
        parts::clipped::pictures,
    ),
    (
        "pictures with no pixel clipped, one at each position, and all",
        parts::clipped::positions,
    ),
    (
        "calls of Convert: every length from 0 to 40 bytes",
        parts::pictures::every_length,
    ),
    (
        "calls of Convert with faults and wrong lengths",
        parts::pictures::refusals,
    ),
    (
        "chains of conversions, each accepted or refused by itself",
        parts::pictures::runs_with_refusals,
    ),
    ("codes to light: every code", parts::light::every_code),
    (
        "light at 16 bits: every code near the exact light",
        parts::light::near_the_exact_light,
    ),
    (
        "light to codes: every light from -2,100,000 to 2,100,000",
        parts::light::every_light,
    ),
    (
        "calls of light: every length from 0 to 40",
        parts::light::every_length,
    ),
    (
        "calls of light with faults and wrong lengths",
        parts::light::refusals,
    ),
    (
        "codes through moved light: every code and every move that it keeps",
        parts::moved::every_code,
    ),
    (
        "light of each code beside that of the code before",
        parts::moved::every_step_up,
    ),
    (
        "calls of moved light: every length from 0 to 14 bytes",
        parts::moved::every_length,
    ),
    (
        "calls of moved light with any moves, faults and wrong lengths",
        parts::moved::any_moves,
    ),
    (
        "tints: every code and halfway point, with neighbours",
        parts::tints::every_code,
    ),
    (
        "tints: the ends of the doubles, and what is not finite",
        parts::tints::ends,
    ),
    (
        "tints: any bits, and doubles near the codes",
        parts::tints::any_bits,
    ),
    (
        "stickers of few pixels, with ties, equal tints and every kind of budget",
        parts::stickers::small,
    ),
    (
        "stickers with ties, by rules that the test tells apart",
        parts::stickers::ties,
    ),
    (
        "stickers of blocks of pixels and one more or less",
        parts::stickers::blocks,
    ),
    (
        "stickers of 65,536 pixels, and of more",
        parts::stickers::largest,
    ),
    (
        "calls of stickers: every length from 0 to 40 bytes",
        parts::stickers::every_length,
    ),
    (
        "calls of stickers: each sample and each code of the tints at fault",
        parts::stickers::every_place,
    ),
    (
        "calls of stickers with several faults",
        parts::stickers::refusals,
    ),
    (
        "printers with every list of one to three small arrivals",
        parts::printer::every_small_list,
    ),
    ("printers with lists of many shapes", parts::printer::shapes),
    (
        "printers with a greedy kiosk, and full ones",
        parts::printer::unfair,
    ),
    (
        "printers whose prints and waits the test counts by itself",
        parts::printer::promises,
    ),
    (
        "printers of 100,000 turns, and of so many that all prints are made",
        parts::printer::longest,
    ),
    (
        "calls of the printer: numbers at and beyond each limit, in each place",
        parts::printer::limits,
    ),
    (
        "calls of the printer: turns that fall, in each place",
        parts::printer::falling_turns,
    ),
    (
        "calls of the printer: the most arrivals and more, and each at fault",
        parts::printer::most_arrivals,
    ),
    (
        "calls of the printer with several faults",
        parts::printer::faults,
    ),
    (
        "spools laid out, found, walked, listed, written in the other layout, damaged and cut",
        parts::spools::spools,
    ),
    (
        "spools and records of every kind with every number of bits",
        parts::spools::every_kind_and_bits,
    ),
    (
        "lists of records laid out, with faults",
        parts::spools::layouts,
    ),
    (
        "spools of both layouts, each byte damaged",
        parts::strided::every_byte,
    ),
    (
        "spools of both layouts, several bytes damaged",
        parts::strided::several_bytes,
    ),
    (
        "spools of both layouts, cut and made longer",
        parts::strided::every_length,
    ),
    (
        "headers of both layouts, and files shorter than these",
        parts::strided::headers,
    ),
    (
        "strides at their limits, and pixels at the file's end",
        parts::strided::strides,
    ),
    (
        "strided spools with several faults, and their order",
        parts::strided::faults_in_order,
    ),
    (
        "spools in the other layout and back, with frames over each other",
        parts::strided::there_and_back,
    ),
    (
        "spools of both layouts with no frame, the most and one more",
        parts::strided::fewest_and_most,
    ),
    (
        "spools that the other layout makes too long",
        parts::strided::longest,
    ),
];

fn main() {
    let running = PARTS.map(|(what, part)| {
        let timed = move || {
            let start = Instant::now();
            (part(), start.elapsed().as_secs_f64())
        };
        (what, thread::spawn(timed))
    });
    for (what, part) in running {
        let (count, seconds) = part.join().expect("a part has failed");
        println!("{count:>12} {what} ({seconds:.1} s)");
    }
}
