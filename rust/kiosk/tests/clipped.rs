//! The pixels that sRGB cannot hold: what convert, preview and compare say of them, and the command check.

mod shared;

use kiosk::{Record, FRAME_LIMIT};
use shared::{fails, folder, kiosk, one_frame, text, wide};
use std::fs::{self, File};
use std::path::Path;
use std::process::{Command, Output, Stdio};
use std::thread;
use std::time::{Duration, Instant};

/// Below black, black and white, above white: with 10 bits, two of three pixels are clipped.
const TEN: [u16; 9] = [383, 384, 384, 384, 894, 640, 384, 894, 895];

fn write(folder: &Path, name: &str, bytes: &[u8]) {
    fs::write(folder.join(name), bytes).expect("written");
}

fn sentence(clipped: usize, pixels: usize) -> String {
    format!("{clipped} of {pixels} pixels have a colour that sRGB cannot hold")
}

/// A spool with these frames, each of a kind, bits, width and its pixels.
fn spool(frames: &[(u8, u8, u16, Vec<u8>)]) -> Vec<u8> {
    let records: Vec<Record> = frames
        .iter()
        .map(|(kind, bits, width, pixels)| Record {
            width: *width,
            height: (pixels.len() / usize::from(*width) / if *bits == 8 { 3 } else { 6 }) as u16,
            kind: *kind,
            bits: *bits,
            ..Record::default()
        })
        .collect();
    let pixels: Vec<u8> = frames.iter().flat_map(|frame| frame.3.clone()).collect();
    let start = 12 + 16 * frames.len();
    let mut file = vec![0; start + pixels.len()];
    kiosk::lay_out(&records, 7, &mut file).expect("the records stand");
    file[start..].copy_from_slice(&pixels);
    file
}

/// A frame, and how many of its pixels are clipped.
type Clipped = (u8, u8, u16, Vec<u8>, usize);

fn spool_of(frames: &[Clipped]) -> Vec<u8> {
    let frames = frames.iter().cloned();
    spool(&frames.map(|f| (f.0, f.1, f.2, f.3)).collect::<Vec<_>>())
}

/// Frames of one pixel or more of every kind.
fn of_every_kind() -> Vec<Clipped> {
    vec![
        (1, 8, 2, vec![0, 0, 0, 255, 255, 255], 0),
        (2, 10, 3, wide(&TEN), 2),
        (2, 10, 2, wide(&[384, 384, 384, 894, 894, 894]), 0),
        (2, 12, 1, wide(&[1536, 1535, 3576]), 1),
        (2, 12, 1, wide(&[1536, 1536, 3576]), 0),
        (2, 16, 1, wide(&[24_576, 57_217, 24_576]), 1),
        (2, 16, 1, wide(&[24_576, 57_216, 24_576]), 0),
        // Rule 10.4: the red channel's neighbour comes back as 383.
        (3, 10, 1, wide(&[536, 426, 767]), 1),
        (3, 12, 1, wide(&[2048, 2048, 2048]), 0),
        // Blue, which comes back as (384, 384, 895).
        (4, 10, 1, wide(&[117, 768, 470]), 1),
        (4, 16, 1, wide(&[32_768, 32_768, 32_768]), 0),
        // White, which comes back with a red of 57,306, and a grey.
        (5, 8, 2, vec![255, 128, 128, 128, 128, 128], 1),
        (5, 8, 1, vec![128, 128, 128], 0),
    ]
}

/// Convert and preview say how many, with the file and the frame, and still succeed; where none are, they say nothing.
#[test]
fn told_on_the_way_to_srgb() {
    let folder = folder("told");
    let frames = of_every_kind();
    write(&folder, "in", &spool_of(&frames));
    for (number, (kind, _, width, _, clipped)) in frames.into_iter().enumerate() {
        let said = if clipped == 0 {
            String::new()
        } else {
            let count = sentence(clipped, usize::from(width));
            format!("kiosk: in: frame {number}: {count}\n")
        };
        let number = number.to_string();
        for words in [
            &["preview", "in", &number, "--out", "out"][..],
            &["convert", "in", &number, "--to", "srgb", "--out", "out"],
            &[
                "convert", "in", &number, "--to", "srgb", "--raw", "--out", "out",
            ],
        ] {
            let done = kiosk(&folder, words);
            assert!(done.status.success(), "{words:?}");
            assert_eq!(text(&done.stderr), said, "{words:?} of kind {kind}");
            assert!(done.stdout.is_empty());
            fs::remove_file(folder.join("out")).expect("the file is written");
        }
    }
}

/// The bytes are those of before; only the way to sRGB counts.
#[test]
fn written_as_before() {
    let folder = folder("as-before");
    write(&folder, "in", &one_frame(2, 10, &wide(&TEN)));
    for (form, says) in [
        ("srgb", true),
        ("esrgb12", false),
        ("lumachroma10", false),
        ("esycc10", false),
        ("sycc", false),
        ("light10", false),
    ] {
        let words = ["convert", "in", "0", "--to", form, "--raw", "--out", form];
        let done = kiosk(&folder, &words);
        assert!(done.status.success());
        assert_eq!(!done.stderr.is_empty(), says, "{form}");
    }
    let srgb = fs::read(folder.join("srgb")).expect("pixels");
    assert_eq!(srgb, [0, 0, 0, 0, 255, 128, 0, 255, 255]);
}

/// A file that cannot be written is what is told; and what cannot be told is an error, not a panic.
#[test]
fn what_cannot_be_written_or_told() {
    let folder = folder("untold");
    write(&folder, "in", &one_frame(2, 10, &wide(&TEN)));
    let words = ["preview", "in", "0", "--out", "none/x.png"];
    fails(&folder, &words, 1, "kiosk: none/x.png: No such file");
    let said = text(&kiosk(&folder, &words).stderr);
    assert!(!said.contains("sRGB"), "{said}");
    for words in [
        &["preview", "in", "0", "--out", "x.png"][..],
        &["convert", "in", "0", "--to", "srgb", "--out", "x"],
        &["preview", "in", "1", "--out", "y.png"],
    ] {
        let failed = Command::new(env!("CARGO_BIN_EXE_kiosk"))
            .args(words)
            .current_dir(&folder)
            .stderr(File::create("/dev/full").expect("a device that is always full"))
            .status()
            .expect("the command runs");
        assert_eq!(failed.code(), Some(1), "{words:?}");
    }
}

/// What compare prints of one frame.
fn compared(folder: &Path, kind: u8, bits: u8, pixels: &[u8]) -> String {
    write(folder, "in", &one_frame(kind, bits, pixels));
    let done = kiosk(folder, &["compare", "in", "0"]);
    assert!(done.status.success());
    assert!(done.stderr.is_empty());
    text(&done.stdout)
}

/// Compare has a line for the frame, one for what came back, both or none.
#[test]
fn compared_before_and_after() {
    let folder = folder("before-after");
    let lines = |report: String| -> Vec<String> { report.lines().map(String::from).collect() };
    // A level of -1 comes back as black; the grey is never clipped.
    let report = compared(&folder, 2, 10, &wide(&[383, 384, 384, 640, 640, 640]));
    assert_eq!(
        report,
        "10 bits: 6 channels: 5 equal, 0 one less, 1 one more, 0 further\n\
         10 bits, brought to 8: 6 channels: 6 equal, 0 one less, 0 one more, 0 further\n\
         10 bits: 1 of 2 pixels have a colour that sRGB cannot hold\n"
    );
    // Red, whose green comes back as 383.
    let report = lines(compared(&folder, 2, 10, &wide(&[894, 384, 384])));
    let after = "10 bits, after the round trip: 1 of 1 pixels have a colour that sRGB cannot hold";
    assert_eq!(report[2..], [after]);
    let report = lines(compared(&folder, 2, 10, &wide(&[1023, 1023, 0])));
    let before = "10 bits: 1 of 1 pixels have a colour that sRGB cannot hold";
    assert_eq!(report[2..], [before, after]);
    // White of sYCC, by the codes that it has at each depth.
    let report = lines(compared(&folder, 5, 8, &[255, 128, 128]));
    for (k, depth) in [10, 12, 16].into_iter().enumerate() {
        let line = format!("{depth} bits: {}", sentence(1, 1));
        assert_eq!(report[4 * k + 2], line, "{report:?}");
    }
    assert_eq!(lines(compared(&folder, 5, 8, &[128; 3])).len(), 6);
}

/// Check finds what preview finds, of every kind.
#[test]
fn checks_sound_frames() {
    let folder = folder("sound");
    let frames = of_every_kind();
    write(&folder, "in", &spool_of(&frames));
    let checked = kiosk(&folder, &["check", "in"]);
    let lines: String = frames
        .iter()
        .enumerate()
        .map(|(k, frame)| {
            let count = sentence(frame.4, usize::from(frame.2));
            format!("frame {k}: sound, {count}\n")
        })
        .collect();
    assert_eq!(text(&checked.stdout), lines);
    assert!(checked.stderr.is_empty());
    assert_eq!(checked.status.code(), Some(0));
}

/// Frames that are refused by their records, and by their samples, between sound ones.
#[test]
fn checks_refused_frames() {
    let folder = folder("refused");
    let black = || wide(&[384; 3]);
    let mut file = spool(&[
        (2, 10, 1, black()),
        (2, 10, 2, wide(&[1023, 1023, 1023, 1024, 0, 1025])),
        (3, 12, 1, wide(&[0, 1, 0])),
        (4, 10, 1, wide(&[0, 0, 1024])),
        (2, 10, 1, black()),
        (2, 10, 1, black()),
        (2, 10, 1, black()),
        (2, 10, 1, wide(&[0; 3])),
    ]);
    // Frames 4 to 6: no kind, no width, and pixels inside the header.
    file[12 + 4 * 16 + 8] = 9;
    file[12 + 5 * 16 + 4] = 0;
    file[12 + 6 * 16..12 + 6 * 16 + 4].fill(0);
    write(&folder, "in", &file);
    let checked = kiosk(&folder, &["check", "in"]);
    assert_eq!(
        text(&checked.stdout),
        "frame 0: sound, 0 of 1 pixels have a colour that sRGB cannot hold\n\
         frame 1: refusal 12: a sample is above the greatest of its depth (byte 6)\n\
         frame 2: refusal 13: a chroma sample has code 0 (byte 4)\n\
         frame 3: refusal 12: a sample is above the greatest of its depth (byte 4)\n\
         frame 4: refusal 6: kind and bits are no pair that a picture has\n\
         frame 5: refusal 7: the width or height is 0 or above 8,192\n\
         frame 6: refusal 8: the pixels are not inside the file behind the header\n\
         frame 7: sound, 1 of 1 pixels have a colour that sRGB cannot hold\n"
    );
    assert_eq!(
        text(&checked.stderr),
        "kiosk: in: 6 of 8 frames are refused\n"
    );
    assert_eq!(checked.status.code(), Some(1));
}

/// A frame of several pieces: all its pixels are counted, and a sample at fault has its place in the frame.
#[test]
fn checks_large_frames() {
    let folder = folder("large");
    let (width, height) = (777u16, 300u16);
    let pixels = usize::from(width) * usize::from(height);
    // One pixel in seven is clipped, and the first and the last are.
    let codes: Vec<u16> = (0..pixels)
        .flat_map(|k| {
            [
                384,
                640,
                if k % 7 == 0 || k + 1 == pixels {
                    895
                } else {
                    894
                },
            ]
        })
        .collect();
    let clipped = codes.iter().filter(|&&code| code == 895).count();
    write(&folder, "in", &spool(&[(2, 10, width, wide(&codes))]));
    let checked = kiosk(&folder, &["check", "in"]);
    let line = format!("frame 0: sound, {}\n", sentence(clipped, pixels));
    assert_eq!(text(&checked.stdout), line);
    let previewed = kiosk(&folder, &["preview", "in", "0", "--out", "x.png"]);
    let said = format!("kiosk: in: frame 0: {}\n", sentence(clipped, pixels));
    assert_eq!(text(&previewed.stderr), said);
    for sample in [0, 3 * pixels / 2, 3 * pixels - 1] {
        let mut faulty = codes.clone();
        faulty[sample] = 1024;
        faulty[3 * pixels - 1] = 1024;
        write(&folder, "in", &spool(&[(2, 10, width, wide(&faulty))]));
        let checked = text(&kiosk(&folder, &["check", "in"]).stdout);
        let place = format!("(byte {})\n", 2 * sample);
        assert!(checked.starts_with("frame 0: refusal 12:"), "{checked}");
        assert!(checked.ends_with(&place), "{checked}");
    }
}

#[test]
fn checks_files_without_frames() {
    let folder = folder("no-frames");
    write(&folder, "none", &spool(&[]));
    let checked = kiosk(&folder, &["check", "none"]);
    assert_eq!(text(&checked.stdout), "no frames\n");
    assert!(checked.stderr.is_empty());
    assert_eq!(checked.status.code(), Some(0));
    write(&folder, "empty", &[]);
    let short = "kiosk: empty: refusal 1: the spool is shorter than its header\n";
    fails(&folder, &["check", "empty"], 1, short);
    let file = one_frame(2, 10, &wide(&TEN));
    write(&folder, "cut", &file[..file.len() - 1]);
    let cut = "kiosk: cut: refusal 2: the length in the header is not the file's\n";
    fails(&folder, &["check", "cut"], 1, cut);
    fails(&folder, &["check", "missing"], 1, "missing: No such file");
    fails(&folder, &["check", "."], 1, ".: Is a directory");
    fails(&folder, &["check"], 2, "check wants other words");
    fails(
        &folder,
        &["check", "cut", "0"],
        2,
        "check wants other words",
    );
    let raw = "this command has no option --raw";
    fails(&folder, &["check", "cut", "--raw"], 2, raw);
}

/// A reader that has gone changes nothing of the status.
#[test]
fn checks_without_a_reader() {
    let folder = folder("unread");
    write(&folder, "sound", &one_frame(2, 10, &wide(&TEN)));
    write(&folder, "refused", &one_frame(2, 10, &wide(&[1024; 3])));
    let check = |file: &str, stdout: Stdio| {
        Command::new(env!("CARGO_BIN_EXE_kiosk"))
            .args(["check", file])
            .current_dir(&folder)
            .stdout(stdout)
            .output()
            .expect("the command runs")
    };
    for (file, status, error) in [
        ("sound", 0, ""),
        ("refused", 1, "kiosk: refused: 1 of 1 frames are refused\n"),
    ] {
        let (reader, writer) = std::io::pipe().expect("a pipe");
        drop(reader);
        let checked = check(file, writer.into());
        assert_eq!(checked.status.code(), Some(status));
        assert_eq!(text(&checked.stderr), error);
    }
}

/// A spool whose frames all have the same 8 million pixels, a check of which takes long.
fn long_spool(frames: usize) -> Vec<u8> {
    let start = 12 + 16 * frames;
    let length = start + 6 * 4096 * 2048;
    let mut file = (frames as u16).to_le_bytes().to_vec();
    file.extend([7, 0, 12, 0, 0, 0]);
    file.extend((length as u32).to_le_bytes());
    for _ in 0..frames {
        file.extend((start as u32).to_le_bytes());
        // 4,096 times 2,048 pixels of luma and chroma of 16 bits; one copy, order 1.
        file.extend([0, 16, 0, 8, 3, 16, 1, 0, 1, 0, 0, 0]);
    }
    file.resize(length, 0x80);
    file
}

/// The lines of a terminal that was sent a text, without blanks at their ends.
fn shown(text: &str) -> Vec<String> {
    let line = |text: &str| {
        let mut line = Vec::new();
        for part in text.split('\r') {
            let overwritten = part.len().min(line.len());
            line.splice(..overwritten, part.bytes());
        }
        String::from_utf8_lossy(&line).trim_end().to_string()
    };
    text.split('\n').map(line).collect()
}

/// The check of a spool on a pipe and, at the same time, on a terminal that `script` makes: what each gives, and the
/// shorter time.
fn on_pipe_and_terminal(folder: &Path) -> (Output, Output, Duration) {
    let command = format!("'{}' check in", env!("CARGO_BIN_EXE_kiosk"));
    let timed = |run: &dyn Fn() -> Output| {
        let start = Instant::now();
        (run(), start.elapsed())
    };
    let on_terminal = || {
        Command::new("script")
            .args(["-qec", &command, "/dev/null"])
            .current_dir(folder)
            .stdin(Stdio::null())
            .output()
            .expect("script runs")
    };
    thread::scope(|scope| {
        let piped = scope.spawn(|| timed(&|| kiosk(folder, &["check", "in"])));
        let (terminal, time) = timed(&on_terminal);
        let (piped, other_time) = piped.join().expect("the command runs");
        (piped, terminal, time.min(other_time))
    })
}

/// Long work has a bar on a terminal, between whole lines and erased at the end, and none on a pipe.
#[test]
fn progress_on_a_terminal() {
    if Command::new("script").arg("--version").output().is_err() {
        println!("no script here: the bar is not tried on a terminal");
        return;
    }
    let folder = folder("progress");
    let mut frames = 15;
    let (piped, terminal) = loop {
        write(&folder, "in", &long_spool(frames));
        let (piped, terminal, time) = on_pipe_and_terminal(&folder);
        // Also where the processors are busy, that is long after the first bar is due.
        if time > Duration::from_secs(2) {
            break (piped, terminal);
        }
        assert!(frames < FRAME_LIMIT, "the longest check took {time:?} only");
        frames = FRAME_LIMIT.min(2 * frames);
    };
    let mut lines: Vec<String> = (0..frames)
        .map(|k| format!("frame {k}: sound, {}", sentence(0, 4096 * 2048)))
        .collect();
    lines.push(String::new());
    assert_eq!(text(&piped.stdout), lines.join("\n"));
    assert_eq!(text(&piped.stderr), "");
    assert!(piped.status.success() && terminal.status.success());
    let sent = text(&terminal.stdout);
    assert!(sent.contains("\r[#") && sent.contains("%"), "{sent:?}");
    assert_eq!(shown(&sent), lines);
}
