//! Strided spools: each command takes a frame with gaps as it takes the same frame without, and relayout.

mod shared;

use kiosk::FRAME_LIMIT;
use shared::{fails, folder, kiosk, one_frame, text, wide};
use std::fs;
use std::path::Path;

/// The sample: a frame of two rows with a gap between them, and one of a row alone.
const SAMPLE: &[u8] = include_bytes!("../../../samples/gapped.spool");

fn write(folder: &Path, name: &str, bytes: &[u8]) {
    fs::write(folder.join(name), bytes).expect("written");
}

fn read(folder: &Path, name: &str) -> Vec<u8> {
    fs::read(folder.join(name)).expect("the file is there")
}

/// A frame: kind, bits, width and pixels.
type Picture = (u8, u8, usize, Vec<u8>);

/// A spool with these frames: plain, or strided with a gap of so many bytes behind each row but the last.
fn spool(frames: &[Picture], gap: Option<usize>) -> Vec<u8> {
    let (header, record) = if gap.is_some() { (16, 20) } else { (12, 16) };
    let count = frames.len() as u16;
    let (mut table, mut pixels) = (Vec::new(), Vec::new());
    for (kind, bits, width, bytes) in frames {
        let row = width * if *bits == 8 { 3 } else { 6 };
        let offset = header + record * frames.len() + pixels.len();
        table.extend((offset as u32).to_le_bytes());
        table.extend((*width as u16).to_le_bytes());
        table.extend(((bytes.len() / row) as u16).to_le_bytes());
        // One copy, order 1.
        table.extend([*kind, *bits, 1, 0, 1, 0, 0, 0]);
        if let Some(gap) = gap {
            table.extend(((row + gap) as u32).to_le_bytes());
        }
        let rows: Vec<&[u8]> = bytes.chunks(row).collect();
        // No sample is as great as two bytes of a gap.
        pixels.extend(rows.join(&vec![0xff; gap.unwrap_or(0)][..]));
    }
    let length = header + table.len() + pixels.len();
    let first = if gap.is_some() { 65_535 } else { count };
    let mut file = [first, 7].map(u16::to_le_bytes).concat();
    file.extend(
        [header as u32, length as u32]
            .map(u32::to_le_bytes)
            .concat(),
    );
    if gap.is_some() {
        file.extend([count, 20].map(u16::to_le_bytes).concat());
    }
    [file, table, pixels].concat()
}

/// A frame of each kind, in rows of two pixels. All but the last have pixels that sRGB cannot hold.
fn frames() -> Vec<Picture> {
    let codes = [
        894, 384, 384, 383, 640, 640, 384, 894, 384, 640, 640, 895, 384, 384, 894, 400, 500, 600,
    ];
    let twelve: Vec<u16> = codes.iter().map(|code| 4 * code).collect();
    let sixteen: Vec<u16> = codes.iter().map(|code| 64 * code).collect();
    vec![
        (2, 10, 2, wide(&codes)),
        (3, 12, 2, wide(&twelve)),
        (4, 16, 2, wide(&sixteen)),
        (5, 8, 2, (0..18).map(|k| 255 - 13 * k).collect()),
        (1, 8, 2, (0..24).map(|k| 10 * k).collect()),
    ]
}

/// Runs the same words on the same frames without gaps and with gaps of some lengths: status, what is printed and said,
/// and what is written to `out` are the same. The words are for each frame.
fn same_with_gaps(name: &str, words: &[&str]) {
    let folder = folder(name);
    write(
        &folder,
        "tints",
        include_bytes!("../../../samples/tints.txt"),
    );
    for number in 0..frames().len() {
        let number = number.to_string();
        let words: Vec<&str> = words
            .iter()
            .map(|&word| if word == "FRAME" { &number } else { word })
            .collect();
        let run = |gap| {
            write(&folder, "in", &spool(&frames(), gap));
            let done = kiosk(&folder, &words);
            assert!(done.status.success(), "{words:?}: {}", text(&done.stderr));
            let out = fs::read(folder.join("out")).ok();
            (text(&done.stdout), text(&done.stderr), out)
        };
        let plain = run(None);
        assert!(plain.2.is_some() || !plain.0.is_empty());
        for gap in [0, 1, 2, 3, 6, 100] {
            assert_eq!(run(Some(gap)), plain, "{words:?} with a gap of {gap}");
        }
    }
}

#[test]
fn converts_frames_with_gaps() {
    for form in [
        "srgb",
        "esrgb10",
        "esrgb12",
        "esrgb16",
        "lumachroma10",
        "esycc12",
        "sycc",
        "light12",
    ] {
        let words = ["convert", "in", "FRAME", "--to", form, "--out", "out"];
        same_with_gaps("gaps-convert", &words);
        let words = [
            "convert", "in", "FRAME", "--to", form, "--raw", "--out", "out",
        ];
        same_with_gaps("gaps-raw", &words);
    }
}

#[test]
fn compares_previews_and_checks_frames_with_gaps() {
    same_with_gaps("gaps-compare", &["compare", "in", "FRAME"]);
    let words = ["preview", "in", "FRAME", "--out", "out"];
    same_with_gaps("gaps-preview", &words);
    same_with_gaps("gaps-check", &["check", "in"]);
}

#[test]
fn makes_stickers_of_frames_with_gaps() {
    let words = [
        "stickers", "in", "FRAME", "--tints", "tints", "--out", "out",
    ];
    same_with_gaps("gaps-stickers", &words);
}

/// The sample's pixels: red, green, blue and white, without the gap.
#[test]
fn takes_the_sample() {
    let folder = folder("gaps-sample");
    write(&folder, "in", SAMPLE);
    let listed = kiosk(&folder, &["list", "in"]);
    let listing = include_str!("../../../samples/gapped.txt");
    assert_eq!(text(&listed.stdout), listing);
    assert!(listed.status.success());
    let words = [
        "convert", "in", "0", "--to", "srgb", "--raw", "--out", "out",
    ];
    assert!(kiosk(&folder, &words).status.success());
    let pixels = [255, 0, 0, 0, 255, 0, 0, 0, 255, 255, 255, 255];
    assert_eq!(read(&folder, "out"), pixels);
    // As a spool it is plain, with the shop, the copies and the order that it had.
    let words = ["convert", "in", "0", "--to", "srgb", "--out", "out"];
    assert!(kiosk(&folder, &words).status.success());
    let mut plain = vec![1, 0, 7, 0, 12, 0, 0, 0, 40, 0, 0, 0];
    plain.extend([28, 0, 0, 0, 2, 0, 2, 0, 1, 8, 1, 0, 246, 1, 0, 0]);
    plain.extend(pixels);
    assert_eq!(read(&folder, "out"), plain);
}

/// A sample at fault in the third row: the byte that is named counts without the gaps before it.
#[test]
fn names_bytes_without_gaps() {
    let folder = folder("gaps-bytes");
    write(
        &folder,
        "tints",
        include_bytes!("../../../samples/tints.txt"),
    );
    let mut codes = [384u16; 18];
    codes[16] = 1024;
    write(&folder, "in", &spool(&[(2, 10, 2, wide(&codes))], Some(5)));
    let error = "in: frame 0: refusal 12: a sample is above the greatest of its depth (byte 32)";
    for words in [
        &["convert", "in", "0", "--to", "srgb", "--out", "out"][..],
        &["convert", "in", "0", "--to", "light10", "--out", "out"],
        &["compare", "in", "0"],
        &["preview", "in", "0", "--out", "out"],
        &["stickers", "in", "0", "--tints", "tints", "--out", "out"],
    ] {
        fails(&folder, words, 1, error);
    }
    let checked = kiosk(&folder, &["check", "in"]);
    let line = error.replace("in: frame", "frame") + "\n";
    assert_eq!(text(&checked.stdout), line);
}

/// Refusals that only strided spools get, listed, checked and said.
#[test]
fn tells_of_wrong_strides_and_sizes_of_records() {
    let folder = folder("gaps-refused");
    let mut file = SAMPLE.to_vec();
    file[32] = 5;
    write(&folder, "stride", &file);
    let listed = text(&kiosk(&folder, &["list", "stride"]).stdout);
    let lines: Vec<&str> = listed.lines().collect();
    assert_eq!(lines[1..], ["0 refused 21", "1 502 2 12 1 1 3 70"]);
    let checked = kiosk(&folder, &["check", "stride"]);
    let refusal = "refusal 21: the stride is below a row's own bytes";
    let sound = "frame 1: sound, 0 of 1 pixels have a colour that sRGB cannot hold";
    assert_eq!(
        text(&checked.stdout),
        format!("frame 0: {refusal}\n{sound}\n")
    );
    assert_eq!(checked.status.code(), Some(1));
    let said = format!("kiosk: stride: frame 0: {refusal}\n");
    fails(&folder, &["compare", "stride", "0"], 1, &said);
    file[14] = 16;
    write(&folder, "size", &file);
    let refusal = "refusal 20: the header has another size of records than 20 bytes\n";
    let listed = kiosk(&folder, &["list", "size"]);
    assert_eq!(text(&listed.stdout), "refused 20\n");
    assert_eq!(text(&listed.stderr), format!("kiosk: size: {refusal}"));
    fails(&folder, &["check", "size"], 1, refusal);
}

fn relayout(folder: &Path, from: &str, to: &str) {
    let done = kiosk(folder, &["relayout", from, "--out", to]);
    assert!(done.status.success(), "{}", text(&done.stderr));
    assert!(done.stdout.is_empty() && done.stderr.is_empty());
}

/// There and back, with every kind of frame, with none, and in place.
#[test]
fn writes_the_other_layout() {
    let folder = folder("relayout");
    for frames in [frames(), Vec::new()] {
        let (plain, strided) = (spool(&frames, None), spool(&frames, Some(0)));
        write(&folder, "plain", &plain);
        relayout(&folder, "plain", "there");
        assert_eq!(read(&folder, "there"), strided);
        relayout(&folder, "there", "back");
        assert_eq!(read(&folder, "back"), plain);
        relayout(&folder, "plain", "plain");
        assert_eq!(read(&folder, "plain"), strided);
    }
    let sample = include_bytes!("../../../samples/two-frames.spool");
    write(&folder, "plain", sample);
    relayout(&folder, "plain", "there");
    relayout(&folder, "there", "back");
    assert_eq!(read(&folder, "back"), sample);
    // A row alone has no gap, whatever its stride.
    let pixels = [1, 2, 3, 4, 5, 6];
    let one_row = (1, 8, 2, pixels.to_vec());
    write(&folder, "row", &spool(&[one_row], Some(1000)));
    relayout(&folder, "row", "plain");
    assert_eq!(read(&folder, "plain"), one_frame(1, 8, &pixels));
}

#[test]
fn refuses_the_other_layout() {
    let folder = folder("relayout-refused");
    let refused = |name: &str, bytes: &[u8], error: &str| {
        write(&folder, name, bytes);
        let said = format!("kiosk: {name}: {error}");
        fails(&folder, &["relayout", name, "--out", "out"], 1, &said);
    };
    let stride = "refusal 21: the stride is below a row's own bytes, or leaves gaps that a plain spool cannot have";
    let outside = "refusal 8: the pixels are not inside the file behind the header";
    refused("gaps", SAMPLE, &format!("{stride} (record 0)\n"));
    let mut file = spool(&frames(), Some(0));
    file[16 + 3 * 20 + 16] -= 1;
    refused("stride", &file, &format!("{stride} (record 3)\n"));
    file[16 + 2 * 20] = 0xff;
    refused("outside", &file, &format!("{outside} (record 2)\n"));
    file[16 + 20 + 8] = 9;
    refused(
        "kind",
        &file,
        "refusal 6: kind and bits are no pair that a picture has (record 1)\n",
    );
    file[14] = 0;
    refused("size", &file, "refusal 20: the header has another size");
    refused(
        "short",
        &file[..15],
        "refusal 1: the spool is shorter than its header\n",
    );
    let too_long = "refusal 14: the spool would be longer than 4,294,967,295 bytes\n";
    refused("long", &long_together(), too_long);
}

/// A plain spool of the most frames, all over the same bytes: by themselves they are longer than a spool can be.
fn long_together() -> Vec<u8> {
    let start = 12 + 16 * FRAME_LIMIT;
    let rows = (1 << 32) / (3 * 8192 * FRAME_LIMIT) + 1;
    let length = start + 3 * 8192 * rows;
    let mut file = (FRAME_LIMIT as u16).to_le_bytes().to_vec();
    file.extend([7, 0, 12, 0, 0, 0]);
    file.extend((length as u32).to_le_bytes());
    // So many rows of 8,192 pixels of sRGB; one copy, order 1.
    let mut record = (start as u32).to_le_bytes().to_vec();
    record.extend([0, 32]);
    record.extend((rows as u16).to_le_bytes());
    record.extend([1, 8, 1, 0, 1, 0, 0, 0]);
    file.extend(record.repeat(FRAME_LIMIT));
    file.resize(length, 0);
    file
}

#[test]
fn wants_its_words() {
    let folder = folder("relayout-words");
    write(&folder, "in", SAMPLE);
    let wrong = |words: &[&str], error| fails(&folder, &[&["relayout"], words].concat(), 2, error);
    wrong(&["in"], "--out is missing");
    wrong(&["--out", "out"], "relayout wants other words");
    wrong(&["in", "0", "--out", "out"], "relayout wants other words");
    wrong(&["in", "--out"], "--out wants a value");
    wrong(&["in", "--raw", "--out", "out"], "no option --raw");
    fails(
        &folder,
        &["relayout", "missing", "--out", "out"],
        1,
        "missing: No such file",
    );
    fails(
        &folder,
        &["relayout", ".", "--out", "out"],
        1,
        ".: Is a directory",
    );
    write(&folder, "plain", &spool(&frames(), None));
    let none = "none/out: No such file";
    fails(
        &folder,
        &["relayout", "plain", "--out", "none/out"],
        1,
        none,
    );
}
