//! The kiosk command: what it prints and writes, and that bad input gives a clear error and no output.

mod shared;

use shared::{fails, folder, kiosk, one_frame, text, wide};
use std::fs::{self, File};
use std::path::{Path, PathBuf};
use std::process::Command;

/// The listing of the sample spool.
const LISTING: &str = include_str!("../../../samples/two-frames.txt");

/// The sample spool: two frames, of sRGB and of 10-bit e-sRGB; with red and blue for pixels.
fn spool() -> Vec<u8> {
    let mut file = include_bytes!("../../../samples/two-frames.spool").to_vec();
    file[44..50].copy_from_slice(&[255, 0, 0, 0, 0, 255]);
    for (k, code) in [384u16, 384, 894].into_iter().enumerate() {
        file[50 + 2 * k..52 + 2 * k].copy_from_slice(&code.to_le_bytes());
    }
    file
}

fn with_spool(name: &str) -> PathBuf {
    let folder = folder(name);
    fs::write(folder.join("in.spool"), spool()).expect("the spool is written");
    folder
}

#[test]
fn lists_the_frames() {
    let folder = with_spool("lists");
    let listed = kiosk(&folder, &["list", "in.spool"]);
    assert!(listed.status.success());
    assert_eq!(text(&listed.stdout), LISTING);
    assert!(listed.stderr.is_empty());
    // A file with a frame that is refused still opens.
    let mut damaged = spool();
    damaged[12 + 8] = 9;
    fs::write(folder.join("damaged.spool"), damaged).expect("written");
    let listed = kiosk(&folder, &["list", "damaged.spool"]);
    assert!(listed.status.success());
    let mut lines: Vec<&str> = LISTING.lines().collect();
    lines[1] = "0 refused 6";
    assert_eq!(text(&listed.stdout), lines.join("\n") + "\n");
    assert!(listed.stderr.is_empty());
}

/// A file that is refused: its listing on standard output, the refusal in words on standard error, and status 1.
#[test]
fn lists_a_refusal() {
    let folder = folder("refusals");
    let refused = |words: &[&str], number: u8, error: &str| {
        let listed = kiosk(&folder, words);
        assert_eq!(text(&listed.stdout), format!("refused {number}\n"));
        assert_eq!(
            text(&listed.stderr),
            format!("kiosk: {}: {error}\n", words[1])
        );
        assert_eq!(listed.status.code(), Some(1));
    };
    let file = |name: &str, bytes: &[u8]| {
        fs::write(folder.join(name), bytes).expect("written");
    };
    file("empty", &[]);
    refused(
        &["list", "empty"],
        1,
        "refusal 1: the spool is shorter than its header",
    );
    file("cut", &spool()[..55]);
    refused(
        &["list", "cut"],
        2,
        "refusal 2: the length in the header is not the file's",
    );
    let mut frames = spool();
    frames[0] = 97;
    file("frames", &frames);
    refused(
        &["list", "frames"],
        3,
        "refusal 3: a spool has at most 96 frames",
    );
    let mut table = spool();
    table[4] = 11;
    file("table", &table);
    refused(
        &["list", "table"],
        4,
        "refusal 4: the record table is not inside the file behind the header",
    );
    // The longest file that is listed, one byte more, and one without an end.
    let mut long = spool();
    long.resize(65_536, 0);
    long[8..12].copy_from_slice(&65_536u32.to_le_bytes());
    file("long", &long);
    assert_eq!(text(&kiosk(&folder, &["list", "long"]).stdout), LISTING);
    long.push(0);
    long[8..12].copy_from_slice(&65_537u32.to_le_bytes());
    file("longer", &long);
    let too_long = "refusal 15: a listing takes at most 65,536 bytes";
    refused(&["list", "longer"], 15, too_long);
    refused(&["list", "/dev/zero"], 15, too_long);
}

#[test]
fn output_that_cannot_be_written() {
    let folder = with_spool("full");
    for words in [
        &["list", "in.spool"][..],
        &["check", "in.spool"],
        &["compare", "in.spool", "0"],
        &["--help"],
    ] {
        let failed = Command::new(env!("CARGO_BIN_EXE_kiosk"))
            .args(words)
            .current_dir(&folder)
            .stdout(File::create("/dev/full").expect("a device that is always full"))
            .output()
            .expect("the command runs");
        assert_eq!(failed.status.code(), Some(1));
        assert!(text(&failed.stderr).starts_with("kiosk: standard output: No space left"));
    }
}

#[test]
fn converts_by_every_chain() {
    let folder = with_spool("converts");
    let forms = [
        "srgb",
        "esrgb10",
        "esrgb12",
        "esrgb16",
        "lumachroma10",
        "lumachroma12",
        "lumachroma16",
        "esycc10",
        "esycc12",
        "esycc16",
        "sycc",
    ];
    for frame in ["0", "1"] {
        for form in forms {
            let done = kiosk(
                &folder,
                &[
                    "convert",
                    "in.spool",
                    frame,
                    "--to",
                    form,
                    "--out",
                    "one.spool",
                ],
            );
            assert!(done.status.success(), "{}", text(&done.stderr));
            // From what was written to every form again.
            for again in forms {
                let words = [
                    "convert",
                    "one.spool",
                    "0",
                    "--to",
                    again,
                    "--out",
                    "two.spool",
                ];
                let done = kiosk(&folder, &words);
                assert!(done.status.success(), "{}", text(&done.stderr));
            }
        }
        for light in ["light10", "light12", "light16"] {
            let words = [
                "convert", "in.spool", frame, "--to", light, "--out", "light",
            ];
            assert!(kiosk(&folder, &words).status.success());
        }
    }
    // Blue of 10-bit e-sRGB.
    let light = fs::read(folder.join("light")).expect("light");
    assert_eq!(light, [0, 0, 1_000_000].map(i32::to_le_bytes).concat());
    let raw = [
        "convert", "in.spool", "0", "--to", "esrgb12", "--raw", "--out", "raw",
    ];
    assert!(kiosk(&folder, &raw).status.success());
    let raw = fs::read(folder.join("raw")).expect("pixels");
    assert_eq!(
        &raw[..6],
        [3576u16, 1536, 1536].map(u16::to_le_bytes).concat()
    );
    let left = fs::read_dir(&folder).expect("the folder").count();
    assert_eq!(left, 5, "no temporary file is left");
}

/// Rule 10.6: a tie, the nearest, and the greatest code.
#[test]
fn brings_codes_to_a_smaller_depth() {
    let folder = folder("depth");
    let mut file = spool();
    // The bits of the second frame, and its pixel.
    file[12 + 16 + 9] = 12;
    file[50..56].copy_from_slice(&[1538u16, 1539, 4095].map(u16::to_le_bytes).concat());
    fs::write(folder.join("in.spool"), file).expect("the spool is written");
    let words = [
        "convert", "in.spool", "1", "--to", "esrgb10", "--raw", "--out", "raw",
    ];
    let done = kiosk(&folder, &words);
    assert!(done.status.success(), "{}", text(&done.stderr));
    let raw = fs::read(folder.join("raw")).expect("pixels");
    assert_eq!(raw, [385u16, 385, 1023].map(u16::to_le_bytes).concat());
}

/// The pixels of a frame in another form.
fn raw(folder: &Path, file: &str, form: &str) -> Vec<u8> {
    let words = [
        "convert",
        file,
        "0",
        "--to",
        form,
        "--raw",
        "--out",
        "raw.pixels",
    ];
    let done = kiosk(folder, &words);
    assert!(done.status.success(), "{words:?}: {}", text(&done.stderr));
    fs::read(folder.join("raw.pixels")).expect("pixels")
}

/// Rule 10.2: levels of 16 bits between those of 12 have a light of their own, and at 12 bits that of the nearest code.
/// A 12-bit frame has the same light at both depths.
#[test]
fn converts_to_light_at_sixteen_bits() {
    let folder = folder("light16");
    let numbers = |lights: &[i32]| lights.iter().flat_map(|q| q.to_le_bytes()).collect();
    let holds = |file: &str, form: &str, lights: &[i32]| {
        let expected: Vec<u8> = numbers(lights);
        assert_eq!(raw(&folder, file, form), expected, "{file} as {form}");
    };
    let sixteen = one_frame(2, 16, &wide(&[24_580, 24_572, 65_535, 0, 24_584, 57_216]));
    fs::write(folder.join("sixteen"), sixteen).expect("the spool is written");
    let lights = [10, -10, 1_680_904, -527_115, 19, 1_000_000];
    holds("sixteen", "light16", &lights);
    let lights = [0, 0, 1_679_489, -527_115, 38, 1_000_000];
    holds("sixteen", "light12", &lights);
    let twelve = one_frame(2, 12, &wide(&[1537, 1535, 4095]));
    fs::write(folder.join("twelve"), twelve).expect("the spool is written");
    for form in ["light12", "light16"] {
        holds("twelve", form, &[38, -38, 1_679_489]);
    }
}

/// Red and blue of sRGB to the standard's YCC, written raw and as a spool, and that spool's frame to its own form.
#[test]
fn converts_to_esycc_and_sycc() {
    let folder = with_spool("ycc");
    for (form, kind_and_bits, pixels) in [
        ("esycc10", "4 10", wide(&[306, 426, 768, 117, 768, 470])),
        (
            "esycc12",
            "4 12",
            wide(&[1224, 1703, 3072, 467, 3072, 1882]),
        ),
        (
            "esycc16",
            "4 16",
            wide(&[19_595, 27_239, 49_152, 7_471, 49_152, 30_104]),
        ),
        ("sycc", "5 8", vec![76, 85, 255, 29, 255, 107]),
    ] {
        assert_eq!(raw(&folder, "in.spool", form), pixels, "{form}");
        let words = ["convert", "in.spool", "0", "--to", form, "--out", form];
        assert!(kiosk(&folder, &words).status.success());
        let listed = text(&kiosk(&folder, &["list", form]).stdout);
        let line = format!("0 501 {kind_and_bits} 2 1 1 28");
        assert_eq!(listed.lines().nth(1), Some(&line[..]));
        // To its own form it is copied.
        assert_eq!(raw(&folder, form, form), pixels, "{form}");
    }
}

/// The same red and blue back: as codes, as a preview and compared.
#[test]
fn takes_frames_of_esycc_and_sycc() {
    let folder = folder("from-ycc");
    let esycc = one_frame(4, 10, &wide(&[306, 426, 768, 117, 768, 470]));
    let sycc = one_frame(5, 8, &[76, 85, 255, 29, 255, 107]);
    for (file, codes, lines) in [
        (esycc, [894, 384, 385, 384, 384, 895], 2),
        (sycc, [894, 383, 385, 385, 384, 894], 6),
    ] {
        fs::write(folder.join("ycc"), file).expect("written");
        assert_eq!(raw(&folder, "ycc", "esrgb10"), wide(&codes));
        let words = ["preview", "ycc", "0", "--out", "x.png"];
        assert!(kiosk(&folder, &words).status.success());
        assert!(has_row(&folder, &[0, 255, 0, 1, 0, 0, 255]));
        // At its own depth, or at each.
        let compared = text(&kiosk(&folder, &["compare", "ycc", "0"]).stdout);
        assert_eq!(compared.matches("channels:").count(), lines);
    }
}

/// To sRGB, sYCC goes by way of 16 bits. By way of 10 this pixel would become (142, 169, 191), of 12 (141, 169, 191).
#[test]
fn brings_sycc_to_srgb_by_the_finest_codes() {
    let folder = folder("finest");
    fs::write(folder.join("sycc"), one_frame(5, 8, &[163, 143, 112])).expect("written");
    assert_eq!(raw(&folder, "sycc", "srgb"), [141, 169, 190]);
}

/// Frames of e-sYCC are judged, also where they are copied; a chroma of 0 is sound, as it is not in luma and chroma.
#[test]
fn judges_esycc() {
    let folder = folder("judged");
    let file = |name: &str, kind, bits, samples: &[u16]| {
        let file = one_frame(kind, bits, &wide(samples));
        fs::write(folder.join(name), file).expect("written");
    };
    file("zero", 4, 10, &[0, 0, 0]);
    assert_eq!(raw(&folder, "zero", "esycc10"), [0; 6]);
    file("zero3", 3, 10, &[0, 0, 0]);
    file("great", 4, 10, &[1023, 1023, 1024]);
    file("bits", 4, 8, &[0, 0, 0]);
    file("wide", 5, 10, &[0, 0, 0]);
    for (name, error) in [
        ("zero3", "refusal 13: a chroma sample has code 0 (byte 2)"),
        (
            "great",
            "refusal 12: a sample is above the greatest of its depth (byte 4)",
        ),
        ("bits", "refusal 6: kind and bits are no pair"),
        ("wide", "refusal 6: kind and bits are no pair"),
    ] {
        for form in ["lumachroma10", "esycc10", "sycc", "light12"] {
            let words = ["convert", name, "0", "--to", form, "--out", "out"];
            fails(&folder, &words, 1, error);
        }
        fails(&folder, &["preview", name, "0", "--out", "out"], 1, error);
        fails(&folder, &["compare", name, "0"], 1, error);
    }
}

#[test]
fn compares_both_runs() {
    let folder = with_spool("compares");
    let compared = kiosk(&folder, &["compare", "in.spool", "1"]);
    assert!(compared.status.success());
    assert_eq!(
        text(&compared.stdout),
        "10 bits: 3 channels: 2 equal, 0 one less, 1 one more, 0 further\n\
         10 bits, brought to 8: 3 channels: 2 equal, 0 one less, 1 one more, 0 further\n"
    );
    // Red and blue of sRGB, at each depth (rules 10.4 and 10.5). A channel that comes back one below black is clipped.
    let compared = kiosk(&folder, &["compare", "in.spool", "0"]);
    assert!(compared.status.success());
    assert_eq!(
        text(&compared.stdout),
        "10 bits: 6 channels: 4 equal, 1 one less, 1 one more, 0 further\n\
         10 bits, brought to 8: 6 channels: 5 equal, 0 one less, 1 one more, 0 further\n\
         10 bits, after the round trip: 1 of 2 pixels have a colour that sRGB cannot hold\n\
         12 bits: 6 channels: 5 equal, 0 one less, 1 one more, 0 further\n\
         12 bits, brought to 8: 6 channels: 6 equal, 0 one less, 0 one more, 0 further\n\
         16 bits: 6 channels: 5 equal, 1 one less, 0 one more, 0 further\n\
         16 bits, brought to 8: 6 channels: 6 equal, 0 one less, 0 one more, 0 further\n\
         16 bits, after the round trip: 1 of 2 pixels have a colour that sRGB cannot hold\n"
    );
    // Luma and chroma are compared by the codes that they stand for.
    let words = [
        "convert",
        "in.spool",
        "1",
        "--to",
        "lumachroma10",
        "--out",
        "ycc",
    ];
    assert!(kiosk(&folder, &words).status.success());
    let compared = kiosk(&folder, &["compare", "ycc", "0"]);
    assert!(compared.status.success());
    assert_eq!(text(&compared.stdout).lines().count(), 2);
}

/// What steady prints of a frame, with these words behind it.
fn steady(folder: &Path, frame: &[&str]) -> String {
    let moved = kiosk(folder, &[&["steady"], frame].concat());
    assert!(moved.status.success(), "{}", text(&moved.stderr));
    assert!(moved.stderr.is_empty());
    text(&moved.stdout)
}

/// Rule 6.10: 18 and 72 millionths bring every code back. The codes next to black's, and both ends, show that 19 and 76
/// do not (rule 10.2), and that light beyond every code is clipped.
#[test]
fn moves_light() {
    let folder = with_spool("moves");
    let pixels = wide(&[1536, 1537, 1535, 3576, 0, 4095]);
    fs::write(folder.join("twelve"), one_frame(2, 12, &pixels)).expect("written");
    assert_eq!(
        steady(&folder, &["twelve", "0"]),
        "12 bits, light moved up by 18 millionths: 6 channels: 6 equal, 0 one less, 0 one more, 0 further\n\
         12 bits, light moved down by 18 millionths: 6 channels: 6 equal, 0 one less, 0 one more, 0 further\n"
    );
    assert_eq!(
        steady(&folder, &["twelve", "0", "--by", "19"]),
        "12 bits, light moved up by 19 millionths: 6 channels: 4 equal, 0 one less, 2 one more, 0 further\n\
         12 bits, light moved down by 19 millionths: 6 channels: 4 equal, 2 one less, 0 one more, 0 further\n"
    );
    assert_eq!(
        steady(&folder, &["twelve", "0", "--by", "2147483647"]),
        "12 bits, light moved up by 2,147,483,647 millionths: 6 channels: 1 equal, 0 one less, 0 one more, 5 further\n\
         12 bits, light moved down by 2,147,483,647 millionths: 6 channels: 1 equal, 0 one less, 0 one more, 5 further\n"
    );
    // A frame of 10 bits, with two channels of black.
    let moved = steady(&folder, &["in.spool", "1"]);
    assert_eq!(
        moved
            .matches("by 72 millionths: 3 channels: 3 equal")
            .count(),
        2
    );
    let moved = steady(&folder, &["in.spool", "1", "--by", "76"]);
    assert!(moved.contains("up by 76 millionths: 3 channels: 1 equal, 0 one less, 2 one more"));
    // Frames without codes of 10 or 12 bits.
    fs::write(
        folder.join("sixteen"),
        one_frame(2, 16, &wide(&[24_576, 8, 65_535])),
    )
    .expect("written");
    for frame in [["in.spool", "0"], ["sixteen", "0"]] {
        let moved = steady(&folder, &frame);
        let starts: Vec<&str> = moved
            .lines()
            .filter_map(|line| line.split(" millionths").next())
            .collect();
        assert_eq!(
            starts,
            [
                "10 bits, light moved up by 72",
                "10 bits, light moved down by 72",
                "12 bits, light moved up by 18",
                "12 bits, light moved down by 18"
            ]
        );
        assert_eq!(
            moved.matches("0 one less, 0 one more, 0 further").count(),
            4
        );
    }
}

#[test]
fn moves_no_light() {
    let folder = with_spool("moves-none");
    let high = one_frame(2, 10, &wide(&[1023, 1024, 0]));
    fs::write(folder.join("high"), high).expect("written");
    fails(&folder, &["steady", "high", "0"], 1, "refusal 12");
    fails(&folder, &["steady", "in.spool", "2"], 1, "refusal 5");
    fails(&folder, &["steady", "missing", "0"], 1, "missing");
    fails(
        &folder,
        &["steady", "in.spool"],
        2,
        "steady wants other words",
    );
    for (by, error) in [
        ("-1", "-1 is no number of millionths"),
        ("1.5", "1.5 is no number of millionths"),
        (
            "2147483648",
            "2147483648 millionths are more than 2,147,483,647",
        ),
    ] {
        fails(&folder, &["steady", "in.spool", "1", "--by", by], 2, error);
    }
    fails(
        &folder,
        &["steady", "in.spool", "1", "--out", "x"],
        2,
        "this command has no option --out",
    );
    fails(
        &folder,
        &["compare", "in.spool", "1", "--by", "1"],
        2,
        "this command has no option --by",
    );
}

#[test]
fn previews_as_png() {
    let folder = with_spool("previews");
    let words = ["preview", "in.spool", "0", "--out", "x.png"];
    assert!(kiosk(&folder, &words).status.success());
    let png = fs::read(folder.join("x.png")).expect("the picture");
    assert_eq!(&png[..8], b"\x89PNG\r\n\x1a\n");
    assert!(has_row(&folder, &[0, 255, 0, 0, 0, 0, 255]));
}

/// Does x.png hold a row: a byte for no filter, then the pixels?
fn has_row(folder: &Path, row: &[u8]) -> bool {
    let png = fs::read(folder.join("x.png")).expect("the picture");
    png.windows(row.len()).any(|window| window == row)
}

/// Rule 10.8, as people write numbers.
#[test]
fn converts_tints() {
    let folder = folder("tints");
    for (words, pixel) in [
        (["--code", "0,128,255"], "1536 2560 3576\n"),
        (["--nonlinear", "0,1,1.25"], "1536 3576 4086\n"),
        (["--nonlinear", "-1, 1e308, -0"], "0 4095 1536\n"),
        (["--light", "0.00313,3.131e-3,-1e308"], "1618 1619 0\n"),
    ] {
        let tinted = kiosk(&folder, &["tint", words[0], words[1]]);
        assert_eq!(text(&tinted.stdout), pixel, "{words:?}");
        assert!(tinted.status.success());
        assert!(tinted.stderr.is_empty());
    }
    for (words, channel) in [
        (["--nonlinear", "nan,0,0"], "channel 0, red"),
        (["--nonlinear", "1,-inf,NaN"], "channel 1, green"),
        (["--light", "1,1,infinity"], "channel 2, blue"),
        // No double is near to it but an infinity.
        (["--light", "0,1e400,0"], "channel 1, green"),
    ] {
        let error = format!(
            "kiosk: {} {}: refusal 17: a channel of the tint is infinite or not a number ({channel})\n",
            words[0], words[1]
        );
        fails(&folder, &["tint", words[0], words[1]], 1, &error);
    }
    let wrong = |words: &[&str], error| fails(&folder, &[&["tint"], words].concat(), 2, error);
    let one_of = "tint wants one of --code, --nonlinear, --light";
    wrong(&[], one_of);
    wrong(&["--code", "1,2,3", "--light", "1,2,3"], one_of);
    wrong(&["1,2,3"], "tint wants other words");
    wrong(&["--code"], "--code wants a value");
    wrong(&["--code", "1,2,3", "--raw"], "no option --raw");
    let value = |value, error| wrong(&["--code", value], error);
    value("1,2", "--code 1,2: 2 numbers, where a tint has three");
    value("1,2,3,4", "4 numbers");
    value("1,2,256", "\"256\" is not a whole number from 0 to 255");
    value("1,-2,3", "\"-2\" is not");
    value("", "\"\" is not");
    wrong(&["--light", "1,red,3"], "\"red\" is not a number");
}

#[test]
fn bad_input_fails_clearly() {
    let folder = with_spool("fails");
    fs::write(folder.join("short"), [1; 11]).expect("written");
    let mut damaged = spool();
    damaged[50..52].copy_from_slice(&1024u16.to_le_bytes());
    fs::write(folder.join("damaged"), damaged).expect("written");
    fs::create_dir(folder.join("folder")).expect("made");
    let out = "out";

    fails(&folder, &[], 2, "no command");
    fails(&folder, &["shrink", "in.spool"], 2, "unknown command");
    fails(&folder, &["list"], 2, "usage");
    fails(&folder, &["list", "in.spool", "--raw"], 2, "option");
    fails(&folder, &["list", "missing"], 1, "missing: No such file");
    fails(&folder, &["list", "folder"], 1, "folder: Is a directory");
    fails(&folder, &["compare", "short", "0"], 1, "refusal 1:");
    fails(
        &folder,
        &["compare", "in.spool", "2"],
        1,
        "frame 2: refusal 5: no frame has this number",
    );
    let great = "99999999999999999999999999";
    fails(&folder, &["compare", "in.spool", great], 1, "refusal 5");
    fails(
        &folder,
        &["compare", "in.spool", "-1"],
        2,
        "no frame number",
    );
    fails(
        &folder,
        &["compare", "in.spool", "one"],
        2,
        "no frame number",
    );
    fails(
        &folder,
        &["compare", "damaged", "1"],
        1,
        "refusal 12: a sample is above the greatest of its depth (byte 0)",
    );
    fails(
        &folder,
        &["preview", "in.spool", "0"],
        2,
        "--out is missing",
    );
    fails(
        &folder,
        &["preview", "damaged", "1", "--out", out],
        1,
        "refusal 12",
    );
    fails(
        &folder,
        &["preview", "in.spool", "0", "--out", "folder"],
        1,
        "folder:",
    );
    fails(
        &folder,
        &["preview", "in.spool", "0", "--out", "none/x.png"],
        1,
        "none/x.png: No such file",
    );
    fails(
        &folder,
        &["preview", "in.spool", "0", "--out", "/"],
        1,
        "/:",
    );
    fails(
        &folder,
        &["convert", "in.spool", "0", "--out", out],
        2,
        "--to is missing",
    );
    for form in [
        "cmyk", "esycc", "esycc8", "esycc11", "sycc8", "sycc10", "light", "light8",
    ] {
        fails(
            &folder,
            &["convert", "in.spool", "0", "--to", form, "--out", out],
            2,
            &format!("{form} is no form of a picture"),
        );
    }
    fails(
        &folder,
        &["convert", "in.spool", "0", "--to"],
        2,
        "--to wants a value",
    );
    fails(
        &folder,
        &["convert", "in.spool", "5", "--to", "srgb", "--out", out],
        1,
        "refusal 5",
    );
    fails(
        &folder,
        &["convert", "damaged", "1", "--to", "light10", "--out", out],
        1,
        "refusal 12",
    );
}

#[test]
fn help_is_no_failure() {
    let folder = folder("help");
    for words in [&["--help"][..], &["convert", "--help"], &["-h"]] {
        let helped = kiosk(&folder, words);
        assert!(helped.status.success());
        assert!(text(&helped.stdout).starts_with("usage: kiosk list FILE"));
    }
}
