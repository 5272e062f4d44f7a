//! Stickers on the command line: what is printed and written, and that bad input gives a clear error and no file.

#[path = "shared/png.rs"]
mod png;
mod shared;

use kiosk::{Record, Stickers, TINT_CODES};
use shared::{fails, folder, kiosk, one_frame, text, wide};
use std::fs::{self, File};
use std::path::{Path, PathBuf};
use std::process::Command;

fn write(folder: &Path, name: &str, bytes: &[u8]) {
    fs::write(folder.join(name), bytes).expect("written");
}

fn written(folder: &Path, name: &str) -> Vec<u8> {
    fs::read(folder.join(name)).expect("the file is written")
}

/// White tints, but for tint 5, (10, 0, 0), and tint 9, (0, 20, 0).
fn tints() -> [u16; TINT_CODES] {
    let mut tints = [4095; TINT_CODES];
    tints[3 * 5..3 * 5 + 3].copy_from_slice(&[10, 0, 0]);
    tints[3 * 9..3 * 9 + 3].copy_from_slice(&[0, 20, 0]);
    tints
}

/// Tints as a text, a line for each.
fn listed(tints: &[u16; TINT_CODES]) -> String {
    let line = |tint: &[u16]| format!("{} {} {}\n", tint[0], tint[1], tint[2]);
    tints.chunks_exact(3).map(line).collect()
}

/// A folder with tints and a frame of these codes.
fn with_codes(name: &str, tints: &[u16; TINT_CODES], codes: &[u16]) -> PathBuf {
    let folder = folder(name);
    write(&folder, "tints", listed(tints).as_bytes());
    write(&folder, "in", &one_frame(2, 12, &wide(codes)));
    folder
}

/// A folder with the tints and a frame of the pixels (10, 0, 0), (0, 20, 0) and black.
fn with_frame(name: &str) -> PathBuf {
    with_codes(name, &tints(), &[10, 0, 0, 0, 20, 0, 0, 0, 0])
}

/// The words of a call, and further ones.
fn stickers<'a>(more: &[&'a str]) -> Vec<&'a str> {
    let words = [
        "stickers", "in", "0", "--tints", "tints", "--out", "numbers",
    ];
    [&words, more].concat()
}

/// What a call prints that succeeds and says nothing else.
fn printed(folder: &Path, more: &[&str]) -> String {
    let done = kiosk(folder, &stickers(more));
    assert_eq!(text(&done.stderr), "", "{more:?}");
    assert!(done.status.success(), "{more:?}");
    text(&done.stdout)
}

/// With tints 5 and 9 the distances are 0, 0 and 10, with 5 alone 0, 30 and 10, and with white 12,275, 12,265 and
/// 12,285. The third choice is the first with 5, and the 40th the first with both.
#[test]
fn looks_at_as_many_choices_as_asked() {
    let folder = with_frame("budgets");
    let holds = |more: &[&str], lines: [&str; 3], numbers: [u8; 3]| {
        let [first, looked, bound] = lines;
        let expected = format!(
            "{first}\nchoices looked at: {looked} of 1820\nsum with all 16 tints: 10\n{bound}\n"
        );
        assert_eq!(printed(&folder, more), expected, "{more:?}");
        assert_eq!(written(&folder, "numbers"), numbers, "{more:?}");
    };
    let best = "no choice has a smaller sum";
    for (budget, looked) in [
        (None, "1820"),
        (Some("1820"), "1820"),
        (Some("1821"), "1820"),
        (Some("0001819"), "1819"),
        (Some("40"), "40"),
        (Some("99999999999999999999999999"), "1820"),
    ] {
        let more = budget.map_or(vec![], |budget| vec!["--budget", budget]);
        holds(&more, ["tints 0, 1, 5, 9\nsum 10", looked, best], [5, 9, 5]);
    }
    let bound = "no choice has a sum smaller by more than 30";
    let lines = ["tints 0, 1, 2, 5\nsum 40", "39", bound];
    holds(&["--budget", "39"], lines, [5; 3]);
    let bound = "no choice has a sum smaller by more than 36815";
    let lines = ["tints 0, 1, 2, 3\nsum 36825", "1", bound];
    holds(&["--budget", "1"], lines, [0; 3]);
    let left = fs::read_dir(&folder).expect("the folder").count();
    assert_eq!(left, 3, "no temporary file is left");
}

/// Rule 10.10, ties: the pixel (0, 0, 1) is 1 away from tints 0 and 1, whose lumas 0.228 and 0 are the same when they
/// are rounded; (5, 5, 25) is 25 away from tints 2 and 3, whose lumas are 10 and 5; and (10, 10, 10) is tint 2.
#[test]
fn takes_the_darkest_of_those_as_near() {
    let mut tints = [4095; TINT_CODES];
    tints[..12].copy_from_slice(&[0, 0, 2, 0, 0, 0, 10, 10, 10, 0, 0, 40]);
    let folder = with_codes("ties", &tints, &[0, 0, 1, 5, 5, 25, 10, 10, 10]);
    assert_eq!(
        printed(&folder, &["--budget", "1"]),
        "tints 0, 1, 2, 3\nsum 26\nchoices looked at: 1 of 1820\nsum with all 16 tints: 26\n\
         no choice has a smaller sum\n"
    );
    assert_eq!(written(&folder, "numbers"), [0, 3, 2]);
}

/// Numbers that look random, the same at every run.
fn noise(seed: u32) -> impl FnMut(u32) -> u32 {
    let mut state = seed;
    move |below| {
        state = state.wrapping_mul(1_664_525).wrapping_add(1_013_904_223);
        (state >> 16) % below
    }
}

/// Frames of every kind: the bytes and the report are those of the wrapper, for what `convert` makes of the frame.
#[test]
fn takes_frames_of_every_kind() {
    let folder = folder("kinds");
    let mut next = noise(1);
    let tints = [0; TINT_CODES].map(|_: u16| next(4096) as u16);
    write(&folder, "tints", listed(&tints).as_bytes());
    for (kind, bits) in [
        (1, 8),
        (2, 10),
        (2, 12),
        (2, 16),
        (3, 10),
        (3, 16),
        (4, 12),
        (5, 8),
    ] {
        let pixels = match bits {
            8 => (0..240).map(|_| next(256) as u8).collect(),
            _ => wide(&[0; 240].map(|_: u16| 1 + next((1 << bits) - 1) as u16)),
        };
        write(&folder, "in", &one_frame(kind, bits, &pixels));
        let words = [
            "convert", "in", "0", "--to", "esrgb12", "--raw", "--out", "codes",
        ];
        assert!(kiosk(&folder, &words).status.success());
        let mut numbers = vec![0; 80];
        let chosen = kiosk::stickers(&written(&folder, "codes"), &tints, 300, &mut numbers);
        let report = printed(&folder, &["--budget", "300"]);
        assert_eq!(written(&folder, "numbers"), numbers, "{kind} {bits}");
        assert_eq!(report, in_words(chosen.expect("the picture is sound")));
    }
}

/// The report of a choice that may not be the best.
fn in_words(chosen: Stickers) -> String {
    format!(
        "tints {}\nsum {}\nchoices looked at: {} of 1820\nsum with all 16 tints: {}\n\
         no choice has a sum smaller by more than {}\n",
        chosen.tints.map(|number| number.to_string()).join(", "),
        chosen.sum,
        chosen.looked,
        chosen.least,
        chosen.sum - chosen.least
    )
}

/// A spool with one frame of 12-bit e-sRGB.
fn spool(width: u16, height: u16, pixels: &[u8]) -> Vec<u8> {
    let record = Record {
        width,
        height,
        kind: 2,
        bits: 12,
        ..Record::default()
    };
    let mut file = vec![0; 28 + pixels.len()];
    kiosk::lay_out(&[record], 7, &mut file).expect("the record stands");
    file[28..].copy_from_slice(pixels);
    file
}

/// Two rows in black, white, a red and the greatest code, which sRGB cannot hold: the pixels of the preview are theirs.
#[test]
fn previews_in_the_tints() {
    let folder = folder("previews-tints");
    let mut tints = [2000; TINT_CODES];
    tints[..12].copy_from_slice(&[
        1536, 1536, 1536, 3576, 3576, 3576, 3576, 1540, 1539, 4095, 4095, 4095,
    ]);
    write(&folder, "tints", listed(&tints).as_bytes());
    let pixels = [
        [1530, 1540, 1530],
        [3576, 3570, 3570],
        [3576, 1600, 1600],
        [4095, 4095, 4000],
        [1536, 1536, 1536],
        [4000, 4095, 4095],
    ];
    write(&folder, "in", &spool(3, 2, &wide(pixels.as_flattened())));
    let done = kiosk(&folder, &stickers(&["--preview", "x.png"]));
    assert!(done.status.success());
    assert_eq!(written(&folder, "numbers"), [0, 1, 2, 3, 0, 3]);
    assert!(text(&done.stdout).starts_with("tints 0, 1, 2, 3\n"));
    // Two pixels get the greatest code.
    assert_eq!(
        text(&done.stderr),
        "kiosk: in: frame 0: 2 of 6 pixels have a colour that sRGB cannot hold\n"
    );
    let png = written(&folder, "x.png");
    assert_eq!(&png[..8], b"\x89PNG\r\n\x1a\n");
    assert_eq!(&png[16..24], [0, 0, 0, 3, 0, 0, 0, 2]);
    let rows = [
        [0, 0, 0, 0, 255, 255, 255, 255, 1, 0],
        [0, 255, 255, 255, 0, 0, 0, 255, 255, 255],
    ];
    assert_eq!(png::rows_of(&png), rows.concat());
}

/// Files of the same tints: numbers in one line, with commas, with comments, and as another system ends its lines.
#[test]
fn reads_tints_as_people_write_them() {
    let folder = with_frame("texts");
    let expected = printed(&folder, &[]);
    let numbers: Vec<String> = tints().map(|code| code.to_string()).to_vec();
    let lines = listed(&tints());
    for tints in [
        numbers.join(" "),
        numbers.join(","),
        numbers.join(" ,\t\n\n"),
        format!("# 16 tints: 1 2 3\n{}", numbers.join(", ")) + ",",
        lines.replace('\n', " # white? 7, 8\r\n"),
        lines.replace(' ', "\u{2003}") + "#",
        lines.replace(" 20 ", " 00020 ") + &"# padding\n".repeat(6000),
    ] {
        write(&folder, "tints", tints.as_bytes());
        assert_eq!(printed(&folder, &[]), expected, "{tints}");
        assert_eq!(written(&folder, "numbers"), [5, 9, 5]);
    }
}

/// The sample of tints, for the first of the sample's frames. Its values 1 to 6 are codes of 8, 16 and 24, and of 32,
/// 40 and 48 above black's, which is tint 0.
#[test]
fn takes_the_sample() {
    let folder = folder("tints-sample");
    for name in ["two-frames.spool", "tints.txt"] {
        let samples = Path::new(env!("CARGO_MANIFEST_DIR")).join("../../samples");
        fs::copy(samples.join(name), folder.join(name)).expect("copied");
    }
    let words = "stickers two-frames.spool 0 --tints tints.txt --out numbers";
    let done = kiosk(&folder, &words.split(' ').collect::<Vec<_>>());
    assert!(done.status.success());
    assert_eq!(
        text(&done.stdout),
        "tints 0, 1, 2, 3\nsum 168\nchoices looked at: 1820 of 1820\nsum with all 16 tints: 168\n\
         no choice has a smaller sum\n"
    );
    assert_eq!(written(&folder, "numbers"), [0, 0]);
}

/// A file of tints that must be refused.
fn tints_fail(folder: &Path, tints: &[u8], error: &str) {
    write(folder, "tints", tints);
    let error = format!("kiosk: tints: {error}\n");
    fails(folder, &stickers(&["--preview", "x.png"]), 1, &error);
}

#[test]
fn wrong_tints_fail_clearly() {
    let folder = with_frame("wrong-tints");
    for count in [0, 1, 47, 49, 96] {
        let error = format!("{count} numbers, where 16 tints have 48");
        tints_fail(&folder, "7\n".repeat(count).as_bytes(), &error);
    }
    let none = "0 numbers, where 16 tints have 48";
    tints_fail(&folder, b"# 1 2 3", none);
    for (word, shown) in [
        ("red", "red"),
        ("-20", "-20"),
        ("+20", "+20"),
        ("2.0", "2.0"),
        ("0x14", "0x14"),
        ("2\u{661}", "2\u{661}"),
        ("\0", "\\0"),
        (&"x".repeat(1000), "xxxxxxxxxxxxxxxxxxxx.."),
    ] {
        let tints = listed(&tints()).replace(" 20 ", &format!(" {word} "));
        let error = format!("line 10: \"{shown}\" is not a whole number");
        tints_fail(&folder, tints.as_bytes(), &error);
    }
    let error = "not a text: byte 6 is not UTF-8";
    tints_fail(&folder, b"1 2 3 \xff\xfe", error);
    let long = "longer than 65536 bytes, the most that a file of tints has";
    tints_fail(&folder, &[b'7'; 65_537], long);
    tints_fail(&folder, &vec![0; 1 << 20], long);
    let one = "1 numbers, where 16 tints have 48";
    tints_fail(&folder, &[b'7'; 65_536], one);
}

/// Codes above the greatest: the line, the tint and the channel of the first, and what is written there.
#[test]
fn tints_above_the_greatest_code() {
    let folder = with_frame("great-tints");
    let great = "9".repeat(30);
    for (old, new, place) in [
        ("0 20 0", "0 4096 0", "line 10: tint 9, green, is 4096"),
        ("10 0 0", "65535 0 0", "line 6: tint 5, red, is 65535"),
        ("10 0 0", "10 0 70000", "line 6: tint 5, blue, is 70000"),
        (
            "10 0 0",
            &format!("{great} 0 9999"),
            "line 6: tint 5, red, is 99999999999999999999..",
        ),
    ] {
        let tints = listed(&tints()).replace(old, new);
        let error = format!("refusal 12: {place}, above 4,095");
        tints_fail(&folder, tints.as_bytes(), &error);
    }
}

/// Words that are missing, wrong or too many, and files that cannot be read or written.
#[test]
fn wrong_words_fail_clearly() {
    let folder = with_frame("wrong-words");
    let usage = |words: &[&str], error: &str| fails(&folder, words, 2, error);
    usage(&["stickers", "in"], "stickers wants other words");
    usage(&["stickers", "in", "0", "1"], "stickers wants other words");
    usage(&["stickers", "in", "0"], "--tints is missing");
    let words = ["stickers", "in", "0", "--tints", "tints"];
    usage(&words, "--out is missing");
    usage(&[&words[..], &["--out"]].concat(), "--out wants a value");
    usage(&stickers(&["--raw"]), "this command has no option --raw");
    usage(&stickers(&["--preview"]), "--preview wants a value");
    for budget in ["ten", "", "-1", "1.5", "+1", "0x10"] {
        let error = format!("kiosk: {budget} is no budget\n");
        usage(&stickers(&["--budget", budget]), &error);
    }
    let same = "--out and --preview name the same file";
    usage(&stickers(&["--preview", "numbers"]), same);
    let words = [
        "stickers", "in", "x", "--tints", "tints", "--out", "numbers",
    ];
    usage(&words, "x is no frame number");
    usage(&["list", "in", "--budget", "1"], "no option --budget");

    let failed = |words: &[&str], error: &str| fails(&folder, words, 1, error);
    let tints = |file| ["stickers", "in", "0", "--tints", file, "--out", "numbers"];
    failed(&tints("missing"), "kiosk: missing: No such file");
    failed(&tints("."), "kiosk: .: Is a directory");
    failed(
        &tints("/dev/zero"),
        "kiosk: /dev/zero: longer than 65536 bytes",
    );
    let frame = |file, frame| ["stickers", file, frame, "--tints", "tints", "--out", "x"];
    failed(&frame("missing", "0"), "kiosk: missing: No such file");
    failed(&frame("in", "1"), "kiosk: in: frame 1: refusal 5:");
    failed(&frame("tints", "0"), "kiosk: tints: frame 0: refusal 2:");
}

#[test]
fn refused_pictures_leave_no_file() {
    let folder = with_frame("refused-stickers");
    let refused = |more: &[&str], error: &str| {
        let error = format!("kiosk: in: frame 0: {error}\n");
        let words = stickers(&[&["--preview", "x.png"], more].concat());
        fails(&folder, &words, 1, &error);
    };
    let budget = "refusal 18: a budget of 0 lets no choice be looked at";
    refused(&["--budget", "0"], budget);
    refused(&["--budget", "000"], budget);
    let great = "refusal 12: a sample is above the greatest of its depth (byte 4)";
    write(&folder, "in", &one_frame(2, 12, &wide(&[0, 4095, 4096])));
    refused(&["--budget", "0"], great);
    write(&folder, "in", &one_frame(2, 10, &wide(&[0, 1023, 1024])));
    refused(&[], great);
    let many = "refusal 19: a picture for stickers has at most 65,536 pixels";
    write(&folder, "in", &spool(257, 256, &vec![0; 6 * 257 * 256]));
    refused(&["--budget", "0"], budget);
    refused(&["--budget", "1"], many);
    refused(&[], many);
    // As many as there may be.
    write(&folder, "in", &spool(256, 256, &vec![0; 6 * 65_536]));
    assert!(printed(&folder, &[]).starts_with("tints 0, 1, 2, 5\nsum 655360\n"));
    assert_eq!(written(&folder, "numbers"), vec![5; 65_536]);
}

/// A preview that cannot be written: nothing is. The numbers that cannot be: the preview stays, and the status says it.
#[test]
fn files_that_cannot_be_written() {
    let folder = with_frame("unwritten");
    let preview = stickers(&["--preview", "none/x.png"]);
    fails(&folder, &preview, 1, "kiosk: none/x.png: No such file");
    let preview = stickers(&["--preview", "."]);
    fails(&folder, &preview, 1, "kiosk: .: a folder has this name");
    let out = |out| ["stickers", "in", "0", "--tints", "tints", "--out", out];
    fails(&folder, &out("none/numbers"), 1, "kiosk: none/numbers:");
    let both = [&out("none/numbers")[..], &["--preview", "x.png"]].concat();
    let failed = kiosk(&folder, &both);
    assert_eq!(failed.status.code(), Some(1));
    assert!(failed.stdout.is_empty());
    assert!(folder.join("x.png").exists());
    let full = Command::new(env!("CARGO_BIN_EXE_kiosk"))
        .args(stickers(&[]))
        .current_dir(&folder)
        .stdout(File::create("/dev/full").expect("a device that is always full"))
        .output()
        .expect("the command runs");
    assert_eq!(full.status.code(), Some(1));
    assert!(text(&full.stderr).starts_with("kiosk: standard output: No space left"));
}
