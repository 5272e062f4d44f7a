//! The listing, by the program `list`, which rust/test.sh makes, and by the library's function: on sample files
//! against stored output, and on these, on damaged spools and at the limits against the second implementation.

#![forbid(unsafe_code)]

use outside::{sound_records, spool_file, Random};
use reference::spool::{listing, Layout, Record, FRAME_LIMIT};
use std::fs::{self, File};
use std::path::Path;
use std::process::{Command, Stdio};

/// Files, under the line that stands over each listing in listings.txt.
const SAMPLES: [(&str, &[u8]); 14] = [
    (
        "a good frame, then one refused by 6, a good one, one each by 7 and 8, a good one",
        b"\x06\x00\x07\x00\x0c\x00\x00\x00\x6f\x00\x00\x00\
          \x6c\x00\x00\x00\x01\x00\x01\x00\x01\x08\x01\x00\x01\x00\x00\x00\
          \x6c\x00\x00\x00\x01\x00\x01\x00\x01\x0a\x01\x00\x02\x00\x00\x00\
          \x6c\x00\x00\x00\x01\x00\x01\x00\x01\x08\x01\x00\x03\x00\x00\x00\
          \x6c\x00\x00\x00\x00\x00\x01\x00\x01\x08\x01\x00\x04\x00\x00\x00\
          \x6d\x00\x00\x00\x01\x00\x01\x00\x01\x08\x01\x00\x05\x00\x00\x00\
          \x6c\x00\x00\x00\x01\x00\x01\x00\x01\x08\x01\x00\x06\x00\x00\x00\
          \x01\x02\x03",
    ),
    (
        "a frame of e-sYCC and one of sYCC, then each with the other's bits",
        b"\x04\x00\x07\x00\x0c\x00\x00\x00\x52\x00\x00\x00\
          \x4c\x00\x00\x00\x01\x00\x01\x00\x04\x0a\x01\x00\x01\x00\x00\x00\
          \x4c\x00\x00\x00\x01\x00\x01\x00\x05\x08\x01\x00\x02\x00\x00\x00\
          \x4c\x00\x00\x00\x01\x00\x01\x00\x04\x08\x01\x00\x03\x00\x00\x00\
          \x4c\x00\x00\x00\x01\x00\x01\x00\x05\x0a\x01\x00\x04\x00\x00\x00\
          \x01\x02\x03\x04\x05\x06",
    ),
    (
        "no frames",
        b"\x00\x00\x07\x00\x0c\x00\x00\x00\x0c\x00\x00\x00",
    ),
    (
        "shorter than a header: 1",
        b"\x00\x00\x07\x00\x0c\x00\x00\x00\x0c\x00\x00",
    ),
    (
        "another length in the header: 2",
        b"\x00\x00\x07\x00\x0c\x00\x00\x00\x0d\x00\x00\x00",
    ),
    (
        "97 frames: 3",
        b"\x61\x00\x07\x00\x0c\x00\x00\x00\x0c\x00\x00\x00",
    ),
    (
        "a table inside the header: 4",
        b"\x00\x00\x07\x00\x0b\x00\x00\x00\x0c\x00\x00\x00",
    ),
    (
        "a table past the file: 4",
        b"\x01\x00\x07\x00\x0c\x00\x00\x00\x0c\x00\x00\x00",
    ),
    (
        "strided: a frame with a gap, one refused by 21, a row with a long stride, one refused by 8, a good one",
        b"\xff\xff\x07\x00\x10\x00\x00\x00\x7b\x00\x00\x00\x05\x00\x14\x00\
          \x74\x00\x00\x00\x01\x00\x02\x00\x01\x08\x01\x00\x01\x00\x00\x00\x04\x00\x00\x00\
          \x74\x00\x00\x00\x01\x00\x02\x00\x01\x08\x01\x00\x02\x00\x00\x00\x02\x00\x00\x00\
          \x78\x00\x00\x00\x01\x00\x01\x00\x01\x08\x01\x00\x03\x00\x00\x00\xff\xff\xff\xff\
          \x75\x00\x00\x00\x01\x00\x02\x00\x01\x08\x01\x00\x04\x00\x00\x00\x04\x00\x00\x00\
          \x75\x00\x00\x00\x01\x00\x02\x00\x01\x08\x01\x00\x05\x00\x00\x00\x03\x00\x00\x00\
          \x01\x02\x03\x04\x05\x06\x07",
    ),
    (
        "strided, no frames",
        b"\xff\xff\x07\x00\x10\x00\x00\x00\x10\x00\x00\x00\x00\x00\x14\x00",
    ),
    (
        "strided, shorter than a header: 1",
        b"\xff\xff\x07\x00\x10\x00\x00\x00\x0f\x00\x00\x00\x00\x00\x14",
    ),
    (
        "strided, 97 records of 16 bytes: 20",
        b"\xff\xff\x07\x00\x10\x00\x00\x00\x10\x00\x00\x00\x61\x00\x10\x00",
    ),
    (
        "strided, 97 frames: 3",
        b"\xff\xff\x07\x00\x10\x00\x00\x00\x10\x00\x00\x00\x61\x00\x14\x00",
    ),
    (
        "strided, a table inside the header: 4",
        b"\xff\xff\x07\x00\x0f\x00\x00\x00\x10\x00\x00\x00\x00\x00\x14\x00",
    ),
];

/// 96 frames of one pixel each, all of the same three bytes.
fn fullest() -> Vec<u8> {
    let mut file = b"\x60\x00\x07\x00\x0c\x00\x00\x00\x0f\x06\x00\x00".to_vec();
    for order in 0..96 {
        file.extend(b"\x0c\x06\x00\x00\x01\x00\x01\x00\x01\x08\x01\x00");
        file.extend([order, 0, 0, 0]);
    }
    file.extend([0; 3]);
    file
}

fn program() -> Command {
    Command::new(Path::new(env!("CARGO_MANIFEST_DIR")).join("../../target/bin/list"))
}

/// What `list` prints for a file, which is put under a name; the library and the reference say the same.
fn list(file: &[u8], name: &str) -> String {
    let input = Path::new(env!("CARGO_TARGET_TMPDIR")).join(name);
    fs::write(&input, file).expect("room for a file");
    let ran = program()
        .stdin(File::open(&input).expect("the file that was written"))
        .output()
        .expect("target/bin/list");
    assert!(ran.status.success());
    let printed = String::from_utf8(ran.stdout).expect("plain text");
    let expected = listing(file);
    assert_eq!(printed, expected, "list, of {file:?}");
    assert_eq!(kiosk::listing(file), expected, "the library, of {file:?}");
    printed
}

/// Every spool under samples/, each with its listing beside it.
#[test]
fn sample_files() {
    let folder = Path::new(env!("CARGO_MANIFEST_DIR")).join("../../samples");
    let mut spools = 0;
    for entry in fs::read_dir(folder).expect("the samples") {
        let path = entry.expect("a sample").path();
        if path.extension().is_some_and(|end| end == "spool") {
            let file = fs::read(&path).expect("a spool");
            let expected = fs::read_to_string(path.with_extension("txt")).expect("its listing");
            assert_eq!(list(&file, "file"), expected, "{}", path.display());
            spools += 1;
        }
    }
    assert!(spools > 0);
}

#[test]
fn samples_as_stored() {
    let longer = vec![0; 65_537];
    let fullest = fullest();
    let mut files = SAMPLES.to_vec();
    files.push(("longer than 65,536 bytes: 15", &longer));
    files.push(("96 frames", &fullest));
    let mut text = String::new();
    for (what, file) in files {
        text += &format!("{what}\n{}", list(file, "sample"));
    }
    assert_eq!(text, include_str!("listings.txt"));
}

/// Spools of random records in both layouts, with a byte or two of header or table changed.
#[test]
fn damaged_spools() {
    let mut random = Random::new(8);
    for round in 0..400 {
        let layout = [Layout::Plain, Layout::Strided][round % 2];
        let frames = 1 + random.below(6) as usize;
        let records = sound_records(layout, frames, &mut random);
        let mut file = spool_file(layout, &records, random.number() as u16, &mut random);
        let behind = layout.header() + layout.record() * frames;
        for _ in 0..random.below(3) {
            let at = random.below(behind as u64) as usize;
            file[at] = random.number() as u8;
        }
        list(&file, "damaged");
    }
}

/// Spools of the most frames and of the lengths around the greatest that is listed; with the file's length in the
/// header, and with another.
#[test]
fn limits() {
    let frame = Record {
        width: 8192,
        height: 1,
        kind: 2,
        bits: 16,
        copies: u16::MAX,
        order: u32::MAX,
        offset: 10_000,
        ..Record::default()
    }
    .gapless();
    let lengths = [65_534, 65_535, 65_536, 65_537, 65_538, 70_000, 1 << 20];
    let layouts = [Layout::Plain, Layout::Strided];
    for (length, layout) in lengths.into_iter().flat_map(|n| layouts.map(|l| (n, l))) {
        let mut file = layout.write_header(FRAME_LIMIT as u16, 0, length as u32);
        file.extend(frame.write(layout).repeat(FRAME_LIMIT));
        file.resize(length, 0);
        let printed = list(&file, "long");
        let lines = if length <= 65_536 { 1 + FRAME_LIMIT } else { 1 };
        assert_eq!(printed.lines().count(), lines, "{length} bytes");
        file[8] ^= 1;
        let refusal = if length <= 65_536 { 2 } else { 15 };
        assert_eq!(list(&file, "long"), format!("refused {refusal}\n"));
    }
}

/// Input that cannot be read prints no listing, and neither goes unsaid on standard error. The program's
/// status does not tell it.
#[test]
fn what_cannot_be_read_or_written_is_said() {
    let folder = File::open(env!("CARGO_TARGET_TMPDIR")).expect("a folder");
    let ran = program().stdin(folder).output().expect("target/bin/list");
    assert!(ran.stdout.is_empty());
    assert_eq!(ran.stderr, b"list: standard input cannot be read\n");

    let full = File::options().write(true).open("/dev/full");
    let ran = program()
        .stdin(Stdio::null())
        .stdout(full.expect("a device that is always full"))
        .output()
        .expect("target/bin/list");
    assert_eq!(ran.stderr, b"list: standard output cannot be written\n");
}
