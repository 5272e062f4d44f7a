//! Prints what this implementation gives for the examples of rules 10.6 and 10.7, for the codes at which clipping to
//! sRGB begins, for both runs of the blue of rule 10.5 and for a walk over the sample file. The program `vectors` over
//! the proved library must print the same.

use reference::spool::FRAME_LIMIT;
use reference::{light, samples, spool};

fn spool_with(count: u16, width: u16, length: usize) -> Vec<u8> {
    let mut file = vec![0; length];
    file[0..2].copy_from_slice(&count.to_le_bytes());
    file[4..8].copy_from_slice(&12u32.to_le_bytes());
    file[8..12].copy_from_slice(&(length as u32).to_le_bytes());
    file[12..16].copy_from_slice(&28u32.to_le_bytes());
    file[16..18].copy_from_slice(&width.to_le_bytes());
    file[18..20].copy_from_slice(&1u16.to_le_bytes());
    file[20] = 1;
    file[21] = 8;
    file
}

/// The file samples/two-frames.spool, but for its pixels.
fn two_frames() -> Vec<u8> {
    let first = spool::Record {
        width: 2,
        height: 1,
        kind: 1,
        bits: 8,
        copies: 1,
        order: 501,
        ..spool::Record::default()
    };
    let second = spool::Record {
        width: 1,
        kind: 2,
        bits: 10,
        copies: 3,
        ..first
    };
    let mut file = vec![0; 56];
    spool::lay_out(&[first, second], 7, &mut file).expect("the records stand");
    file
}

fn depths() {
    let depths = [
        (10, 12, 1023),
        (12, 10, 1538),
        (12, 10, 1539),
        (12, 10, 4095),
        (16, 10, 65_535),
        (16, 12, 65_535),
    ];
    for (from, to, code) in depths {
        println!(
            "depth {from} {to} {code} {}",
            samples::change_depth(from, to, code)
        );
    }
}

/// Black and white of each depth, each with the code beyond it.
fn clipped() {
    let ends = [
        (10, [383, 384, 894, 895]),
        (12, [1535, 1536, 3576, 3577]),
        (16, [24_575, 24_576, 57_216, 57_217]),
    ];
    for (depth, codes) in ends {
        for code in codes {
            let (sample, clipped) = samples::to_srgb(depth, code);
            println!("srgb {depth} {code} {sample} {}", u8::from(clipped));
        }
    }
}

fn runs() {
    let blue = [0, 0, 255];
    for depth in [10, 12] {
        let codes = blue.map(|sample| samples::from_srgb(depth, sample));
        let ycc = samples::to_luma_chroma(depth, codes);
        let back = samples::from_luma_chroma(depth, ycc);
        let [direct, round] =
            [codes, back].map(|pixel| pixel.map(|code| samples::to_srgb(depth, code).0));
        let row = [codes, ycc, back, direct, round].concat();
        println!(
            "runs {depth} {}",
            row.iter().map(i64::to_string).collect::<Vec<_>>().join(" ")
        );
    }
}

fn spools() {
    for width in [8192, 8193] {
        let file = spool_with(1, width, 28 + 3 * 8192);
        let refusal = spool::find(&file, 0).map_or_else(|refusal| refusal.number, |_| 0);
        println!("width {width} {refusal}");
    }
    for count in [FRAME_LIMIT, FRAME_LIMIT + 1] {
        let file = spool_with(count as u16, 0, 12 + 16 * count);
        let refusal = spool::open(&file).map_or_else(|refusal| refusal.number, |_| 0);
        println!("frames {count} {refusal}");
    }
    let file = two_frames();
    let mut next = 0;
    for _ in 0..3 {
        let found;
        (found, next) = spool::step(&file, next);
        match found {
            Ok(record) => println!("step {} {next}", record.offset),
            Err(refusal) => println!("step refused {} {next}", refusal.number),
        }
    }
}

fn patches() {
    // Y of the table, in hundred-thousandths as printed there.
    for y in [0, 1010, 3030, 7071, 14141, 29293, 59596, 79798, 100000] {
        let light = 10 * y;
        println!(
            "patch {light} {} {}",
            light::to_code(10, light),
            light::to_code(12, light)
        );
    }
}

fn main() {
    depths();
    clipped();
    runs();
    spools();
    patches();
}
