//! The printer on the command line: what is printed, written and drawn, and that bad input gives a clear error and no
//! file.

#[path = "shared/png.rs"]
mod png;
mod shared;

use kiosk::{Arrival, IDLE};
use shared::{fails, folder, kiosk, one_frame, text, wide};
use std::fs::{self, File};
use std::path::{Path, PathBuf};
use std::process::Command;

/// Three kiosks with prints, and a fourth whose prints come in turn 9.
///
/// | turn | arrives          | made for | wait |
/// | 0    | 3 for 0, 1 for 5 | 0        | 0    |
/// | 1    | 2 for 2          | 2        | 0    |
/// | 2    |                  | 5        | 2    |
/// | 3    |                  | 0        | 3    |
/// | 4    | 1 + 1 for 5      | 2        | 3    |
/// | 5    |                  | 5        | 1    |
/// | 6    |                  | 0        | 6    |
/// | 7    |                  | 5        | 3    |
/// | 8    |                  | none     |      |
/// | 9    | 4 for 1          | 1        | 0    |
const EXAMPLE: &str = "0,0,3\n0,5,1\n1,2,2\n4,5,1\n4,5,1\n9,1,4\n";

const SERVED: [u8; 10] = [0, 2, 5, 0, 2, 5, 0, 5, IDLE, 1];

const HEADING: &str =
    "kiosk  arrived     made  waiting  longest wait   mean wait  oldest waiting\n";

fn write(folder: &Path, name: &str, bytes: impl AsRef<[u8]>) {
    fs::write(folder.join(name), bytes).expect("written");
}

fn written(folder: &Path, name: &str) -> Vec<u8> {
    fs::read(folder.join(name)).expect("the file is written")
}

/// A folder with the example.
fn with_example(name: &str) -> PathBuf {
    let folder = folder(name);
    write(&folder, "in.csv", EXAMPLE);
    folder
}

/// The words of a call, and further ones.
fn printer<'a>(turns: &'a str, more: &[&'a str]) -> Vec<&'a str> {
    [&["printer", "in.csv", "--turns", turns], more].concat()
}

/// What a call prints that succeeds and says nothing else.
fn printed(folder: &Path, turns: &str, more: &[&str]) -> String {
    let done = kiosk(folder, &printer(turns, more));
    assert_eq!(text(&done.stderr), "", "{turns} {more:?}");
    assert!(done.status.success(), "{turns} {more:?}");
    text(&done.stdout)
}

/// A summary as its words: those of each kiosk with prints, by its number, of all, and of prints that come later.
fn summary(rows: &[(usize, &str)], all: &str, later: Option<usize>) -> String {
    let row = |name: &str, words: &str| {
        let words: Vec<&str> = words.split(' ').collect();
        let [arrived, made, waiting, longest, mean, oldest] = words[..] else {
            panic!("six words: {words:?}");
        };
        format!("{name:>5}{arrived:>9}{made:>9}{waiting:>9}{longest:>14}{mean:>12}{oldest:>16}\n")
    };
    let mut summary = HEADING.to_string();
    for number in 0..8 {
        let found = rows.iter().find(|(kiosk, _)| *kiosk == number);
        let words = found.map_or("0 0 0 - - -", |(_, words)| words);
        summary += &row(&number.to_string(), words);
    }
    summary += &row("all", all);
    if let Some(later) = later {
        summary += &format!("prints that arrive after the turns simulated: {later}\n");
    }
    summary
}

/// The example up to several turns: what is printed, and the bytes of --out.
#[test]
fn waits_of_the_example() {
    let folder = with_example("printer-example");
    let holds = |turns: usize, rows: &[(usize, &str)], all: &str, later: Option<usize>| {
        let report = printed(&folder, &turns.to_string(), &["--out", "served"]);
        assert_eq!(report, summary(rows, all, later), "{turns}");
        assert_eq!(written(&folder, "served"), SERVED[..turns]);
        // Without files the summary is the same.
        assert_eq!(printed(&folder, &turns.to_string(), &[]), report);
    };
    holds(0, &[], "0 0 0 - - -", Some(12));
    // Three prints are made, with waits of 0, 0 and 2: in the mean two thirds.
    let rows = [
        (0, "3 1 2 0 0.00 2"),
        (2, "2 1 1 0 0.00 1"),
        (5, "1 1 0 2 2.00 -"),
    ];
    holds(3, &rows, "6 3 3 2 0.67 2", Some(6));
    // Kiosk 0's last print has waited since turn 0. Both of kiosk 5 have just come.
    let rows = [
        (0, "3 2 1 3 1.50 4"),
        (2, "2 2 0 3 1.50 -"),
        (5, "3 1 2 2 2.00 0"),
    ];
    holds(5, &rows, "8 5 3 3 1.60 4", Some(4));
    // Waits of 0, 3 and 6; of 0 and 3; of 2, 1 and 3.
    let rows = [
        (0, "3 3 0 6 3.00 -"),
        (2, "2 2 0 3 1.50 -"),
        (5, "3 3 0 3 2.00 -"),
    ];
    holds(9, &rows, "8 8 0 6 2.25 -", Some(4));
    let more = [&rows[..], &[(1, "4 1 3 0 0.00 0")]].concat();
    holds(10, &more, "12 9 3 6 2.00 0", None);
    let left = fs::read_dir(&folder).expect("the folder").count();
    assert_eq!(left, 2, "no temporary file is left");
}

/// The same arrivals as people and programs write them.
#[test]
fn reads_arrivals_as_people_write_them() {
    let folder = with_example("printer-texts");
    let expected = printed(&folder, "9", &[]);
    for arrivals in [
        EXAMPLE.trim_end().to_string(),
        EXAMPLE.replace('\n', "\r\n"),
        EXAMPLE.replace('\n', "\n\n  \t\n"),
        EXAMPLE.replace(',', " ,\t"),
        EXAMPLE.replace('\n', "  # 1,2,3\n"),
        EXAMPLE.replace(",5,", ",00000000000000000000005,"),
        format!("turn,kiosk,prints\n{EXAMPLE}"),
        format!("# Prints\n\n Turn , KIOSK,prints # at the counter\r\n{EXAMPLE}#"),
        format!("\u{feff}turn,kiosk,prints\r\n{EXAMPLE}"),
        EXAMPLE.to_string() + &"# padding\n".repeat(26_000),
    ] {
        write(&folder, "in.csv", &arrivals);
        assert_eq!(printed(&folder, "9", &[]), expected, "{arrivals}");
    }
    for nothing in ["", "\n\n", "# 1,2,3", "turn,kiosk,prints\n"] {
        write(&folder, "in.csv", nothing);
        let report = printed(&folder, "3", &["--out", "served"]);
        assert_eq!(report, summary(&[], "0 0 0 - - -", None), "{nothing}");
        assert_eq!(written(&folder, "served"), [IDLE; 3]);
    }
}

/// A text of arrivals that must be refused, whatever is asked for.
fn arrivals_fail(folder: &Path, arrivals: impl AsRef<[u8]>, error: &str) {
    write(folder, "in.csv", arrivals);
    let error = format!("kiosk: in.csv: {error}\n");
    for turns in ["0", "7"] {
        for plot in ["x.png", "x.svg"] {
            let words = printer(turns, &["--out", "served", "--plot", plot]);
            fails(folder, &words, 1, &error);
        }
    }
}

#[test]
fn wrong_lines_fail_clearly() {
    let folder = with_example("printer-lines");
    for (line, count) in [
        ("7", "1 field"),
        ("7,1", "2 fields"),
        ("7 1 2", "1 field"),
        ("7;1;2", "1 field"),
        ("7,1,2,", "4 fields"),
        ("7,1,2,3", "4 fields"),
        ("7,1 # ,2", "2 fields"),
    ] {
        let error = format!("line 4: {count}, where an arrival has turn, kiosk and prints");
        arrivals_fail(&folder, format!("# one\n1,1,1\n\n{line}\n"), &error);
    }
    for (line, field) in [
        ("x,1,2", "turn \"x\""),
        ("7,-1,2", "kiosk \"-1\""),
        ("7,1,+2", "prints \"+2\""),
        ("7,1,2.0", "prints \"2.0\""),
        ("7,0x1,2", "kiosk \"0x1\""),
        ("7,,2", "kiosk \"\""),
        (" , , ", "turn \"\""),
        ("1 000,1,2", "turn \"1 000\""),
        ("\u{661},1,2", "turn \"\u{661}\""),
        ("7,1,\0", "prints \"\\0\""),
        ("turn,kiosk,prints", "turn \"turn\""),
        ("7,1,\"2\"", "prints \"\\\"2\\\"\""),
    ] {
        let error = format!("line 2: {field} is not a whole number");
        arrivals_fail(&folder, format!("1,1,1\n{line}\nx"), &error);
    }
    let long = format!("7,{},1", "x".repeat(1000));
    let error = "line 1: kiosk \"xxxxxxxxxxxxxxxxxxxx..\" is not a whole number";
    arrivals_fail(&folder, long, error);
    let order = "line 1: turn \"kiosk\" is not a whole number";
    arrivals_fail(&folder, "kiosk,turn,prints\n", order);
}

/// Files that are no text, or too long.
#[test]
fn wrong_files_fail_clearly() {
    let folder = with_example("printer-files");
    let spool = one_frame(2, 12, &wide(&[255, 0, 0]));
    arrivals_fail(&folder, spool, "not a text: byte 28 is not UTF-8");
    let long = "longer than 262144 bytes, the most that a file of arrivals has";
    arrivals_fail(&folder, [b'#'; 262_145], long);
    write(&folder, "in.csv", [b'#'; 262_144]);
    let nothing = summary(&[], "0 0 0 - - -", None);
    assert_eq!(printed(&folder, "1", &[]), nothing);
    let file = |file| ["printer", file, "--turns", "1", "--out", "served"];
    let failed = |name, error: &str| fails(&folder, &file(name), 1, error);
    failed("missing", "kiosk: missing: No such file");
    failed(".", "kiosk: .: Is a directory");
    failed("/dev/zero", "kiosk: /dev/zero: longer than 262144 bytes");
}

/// Arrivals beyond each limit: the line, and what is written there. Of several faults the first is named.
#[test]
fn refused_arrivals_fail_clearly() {
    let folder = with_example("printer-refused");
    let great = "9".repeat(30);
    let cut = "9".repeat(20) + "..";
    for (line, wrong) in [
        ("5,8,1", "kiosk 8 is not 0 to 7".to_string()),
        ("5,4294967296,1", "kiosk 4294967296 is not 0 to 7".into()),
        ("100000,9,0", "kiosk 9 is not 0 to 7".into()),
        ("5,7,0", "0 prints are not 1 to 999".into()),
        ("5,7,1000", "1000 prints are not 1 to 999".into()),
        (
            "3,7,4294967297",
            "4294967297 prints are not 1 to 999".into(),
        ),
        ("100000,7,1", "turn 100000 is not below 100,000".into()),
        (
            "4294967301,7,1",
            "turn 4294967301 is not below 100,000".into(),
        ),
        (
            &format!("{great},7,1"),
            format!("turn {cut} is not below 100,000"),
        ),
        ("3,7,1", "turn 3 is before turn 0005 of line 3".into()),
    ] {
        let arrivals = format!("turn,kiosk,prints\n4,0,999\n0005,7,1\n# wrong:\n{line}\n0,9,0\n");
        arrivals_fail(&folder, arrivals, &format!("refusal 22: line 5: {wrong}"));
    }
    // The least and the greatest of each number.
    write(
        &folder,
        "in.csv",
        "0,0,1\n0,7,999\n99999,0,1\n99999,7,999\n",
    );
    let rows = [(0, "1 1 0 0 0.00 -"), (7, "999 1 998 1 1.00 1")];
    let expected = summary(&rows, "1000 2 998 1 0.50 1", Some(1_000));
    assert_eq!(printed(&folder, "2", &[]), expected);
}

/// A thousand arrivals stand, and one more does not; it is told apart from a fault before it.
#[test]
fn one_arrival_too_many() {
    let folder = folder("printer-many");
    let most = "turn,kiosk,prints\n".to_string() + &"5,3,1\n".repeat(1_000);
    write(&folder, "in.csv", &most);
    let rows = [(3, "1000 5 995 4 2.00 4")];
    let expected = summary(&rows, "1000 5 995 4 2.00 4", None);
    assert_eq!(printed(&folder, "10", &[]), expected);
    let error = "refusal 22: line 1003: this is arrival number 1,001, and 1,000 are the most";
    arrivals_fail(&folder, format!("{most}# one more\n5,3,1\n5,9,1\n"), error);
    let error = "refusal 22: line 1001: kiosk 8 is not 0 to 7";
    let wrong = most.trim_end().trim_end_matches("5,3,1");
    arrivals_fail(&folder, format!("{wrong}5,8,1\n5,3,1\n"), error);
}

/// As many prints as there can be, all in the last turn that there can be: they are made in the turns that may be
/// asked for, and are those of the wrapper.
#[test]
fn simulates_until_every_print_is_made() {
    let folder = folder("printer-longest");
    let kiosks = (0..1_000).map(|k| k * k % 8);
    let list: String = kiosks.clone().map(|k| format!("99999,{k},999\n")).collect();
    write(&folder, "in.csv", list);
    let report = printed(&folder, "1099000", &["--out", "served", "--plot", "x.png"]);
    let all = report.lines().nth(9).expect("the line for all");
    let all: Vec<&str> = all.split_whitespace().collect();
    assert_eq!(all[..5], ["all", "999000", "999000", "0", "998999"]);
    // Waits of 0 to 998,999.
    assert_eq!(all[5..], ["499499.50", "-"]);
    let arrivals: Vec<Arrival> = kiosks
        .map(|kiosk| Arrival {
            turn: 99_999,
            kiosk,
            prints: 999,
        })
        .collect();
    let mut served = vec![0; 1_099_000];
    assert_eq!(kiosk::printer(&arrivals, &mut served), Ok(1_099_000));
    assert!(written(&folder, "served") == served);
    assert_ne!(served[1_098_998], IDLE);
    assert_eq!(served[1_098_999], IDLE);
}

/// The size of a plot, and where its lanes begin.
const SIZE: [usize; 2] = [1040, 600];
const LEFT: usize = 144;
const TOP: usize = 76;
const PITCH: usize = 60;

const WHITE: [u8; 3] = [255; 3];
const BACKGROUND: [u8; 3] = [241, 243, 244];
const AREA: [u8; 3] = [26, 115, 185];

/// The pixels of a plot, by x and y.
fn pixels(folder: &Path, name: &str) -> impl Fn(usize, usize) -> [u8; 3] {
    let png = written(folder, name);
    assert_eq!(&png[..8], b"\x89PNG\r\n\x1a\n");
    let [width, height] = SIZE.map(|size| (size as u32).to_be_bytes());
    assert_eq!(png[16..24], [width, height].concat());
    assert_eq!(&png[png.len() - 8..png.len() - 4], b"IEND");
    let rows = png::rows_of(&png);
    let row = 1 + 3 * SIZE[0];
    assert_eq!(rows.len(), row * SIZE[1]);
    assert!(rows.iter().step_by(row).all(|&filter| filter == 0));
    move |x, y| {
        let pixel = &rows[row * y + 1 + 3 * x..][..3];
        [pixel[0], pixel[1], pixel[2]]
    }
}

/// The example's lane of kiosk 0, whose oldest print is 0 to 6 turns old in turns 0 to 6: the edges of a turn are 800
/// ninths of a pixel apart, and a turn of waiting is 50 sixths of a pixel high.
#[test]
fn draws_the_example_twice() {
    let folder = with_example("printer-plots");
    let report = printed(&folder, "9", &["--plot", "x.svg"]);
    assert_eq!(printed(&folder, "9", &["--plot", "x.PNG"]), report);
    let svg = text(&written(&folder, "x.svg"));
    let path = "M144 126V126H232V118H321V109H410V101H499V93H588V84H677V76H766V126H944V126Z";
    assert!(svg.contains(&format!("<path d=\"{path}\" fill=\"#1a73b9\"/>\n")));
    let pixel = pixels(&folder, "x.PNG");
    let edges = [232, 321, 410, 499, 588, 677, 766, 944];
    let tops = [126, 118, 109, 101, 93, 84, 76, 126];
    for (k, top) in tops.into_iter().enumerate() {
        let left = if k == 0 { LEFT } else { edges[k - 1] };
        // A line for each turn is under the area, and over the lane.
        for x in [left + 1, edges[k] - 1] {
            let colours: Vec<[u8; 3]> = (TOP..TOP + 50).map(|y| pixel(x, y)).collect();
            let (above, area) = colours.split_at(top - TOP);
            assert!(above.iter().all(|&c| c == BACKGROUND), "{x}");
            assert!(area.iter().all(|&c| c == AREA), "{x}");
        }
    }
}

/// Eight lanes, named, of one scale; those of kiosks without prints are empty.
#[test]
fn draws_eight_lanes() {
    let folder = with_example("printer-lanes");
    let report = printed(&folder, "9", &["--plot", "x.Svg"]);
    assert!(report.starts_with(HEADING));
    let svg = text(&written(&folder, "x.Svg"));
    assert!(svg.starts_with("<?xml version=\"1.0\" encoding=\"UTF-8\"?>\n<svg xmlns="));
    assert!(svg.contains(" width=\"1040\" height=\"600\" viewBox=\"0 0 1040 600\""));
    assert!(svg.ends_with("</text>\n</svg>\n"));
    let count = |part: &str| svg.matches(part).count();
    assert_eq!(count("<path d=\"M144 "), 8);
    for kiosk in 0..8 {
        assert_eq!(count(&format!(">kiosk {kiosk}</text>")), 1);
    }
    let (caption, turn) = (
        ">9 turns, longest wait 6 turns, 0 prints still",
        ">turn</text>",
    );
    assert_eq!((count(caption), count(turn)), (1, 1));
    // The scale of every lane, the longest wait, and the label of turn 6.
    assert_eq!(count(">6</text>"), 10);
    assert_eq!(count(">-</text>"), 5);
    printed(&folder, "9", &["--plot", "x.png"]);
    let pixel = pixels(&folder, "x.png");
    for kiosk in 0..8 {
        let lane = TOP + kiosk * PITCH..TOP + kiosk * PITCH + 50;
        let areas = lane.filter(|&y| (LEFT..LEFT + 800).any(|x| pixel(x, y) == AREA));
        // The longest waits are 6 turns of kiosk 0, and 3 of kiosks 2 and 5.
        let expected = [50, 0, 25, 0, 0, 25, 0, 0];
        assert_eq!(areas.count(), expected[kiosk], "kiosk {kiosk}");
        assert_eq!(pixel(LEFT - 1, TOP + kiosk * PITCH), WHITE);
    }
}

/// More turns than columns: no age is lost. Kiosk 6's print is made in turn 1,001, one turn after it came, and two of
/// 1,600 turns are a column. Of kiosk 1's, 1,598 are made; the oldest of those that still wait came in turn 5. The
/// same call draws the same.
#[test]
fn draws_more_turns_than_columns() {
    let folder = folder("printer-columns");
    write(&folder, "in.csv", "0,1,999\n5,1,999\n1000,5,1\n1000,6,1\n");
    printed(&folder, "1600", &["--plot", "x.svg"]);
    let svg = text(&written(&folder, "x.svg"));
    assert!(svg.contains(">1,600 turns, longest wait 1,594 turns, 400 prints still waiting"));
    assert!(svg.contains("\"M144 486V486H644V485H645V486H944V486Z\""));
    printed(&folder, "1600", &["--plot", "y.svg"]);
    assert_eq!(text(&written(&folder, "y.svg")), svg);
}

/// Prints that still wait at the end are drawn too: kiosks 4 to 7 are not served in four turns, and wait for up to
/// three.
#[test]
fn draws_prints_that_still_wait() {
    let folder = folder("printer-still");
    let each: String = (0..8).map(|kiosk| format!("0,{kiosk},1\n")).collect();
    write(&folder, "in.csv", each);
    printed(&folder, "4", &["--plot", "x.svg"]);
    let svg = text(&written(&folder, "x.svg"));
    assert!(svg.contains(">4 turns, longest wait 3 turns, 4 prints still waiting at the end<"));
    for base in [366, 426, 486, 546] {
        let [one, two, three] = [base - 17, base - 33, base - 50];
        let steps = format!("V{base}H344V{one}H544V{two}H744V{three}H944");
        assert!(svg.contains(&format!("\"M144 {base}{steps}V{base}Z\"")));
    }
    printed(&folder, "1", &["--plot", "x.svg"]);
    let svg = text(&written(&folder, "x.svg"));
    assert!(svg.contains(">1 turn, longest wait 0 turns, 7 prints still waiting at the end<"));
}

/// Plots of nothing: no turns, and no prints.
#[test]
fn draws_empty_plots() {
    let folder = with_example("printer-empty");
    write(&folder, "none.csv", "");
    for (file, turns, caption) in [
        ("in.csv", "0", ">0 turns, no prints<"),
        ("none.csv", "1", ">1 turn, no prints<"),
        ("none.csv", "5000", ">5,000 turns, no prints<"),
    ] {
        for plot in ["x.svg", "x.png"] {
            let done = kiosk(
                &folder,
                &["printer", file, "--turns", turns, "--plot", plot],
            );
            assert!(done.status.success(), "{turns}");
        }
        let svg = text(&written(&folder, "x.svg"));
        assert!(svg.contains(caption), "{svg}");
        assert_eq!(svg.matches("<path ").count(), 8);
        let pixel = pixels(&folder, "x.png");
        let has_area = |y| (0..SIZE[0]).any(|x| pixel(x, y) == AREA);
        assert!(!(0..SIZE[1]).any(has_area));
        assert_eq!(pixel(LEFT + 50, TOP + 7 * PITCH + 49), BACKGROUND);
    }
}

/// Words that are missing, wrong or too many.
#[test]
fn wrong_words_fail_clearly() {
    let folder = with_example("printer-words");
    let usage = |words: &[&str], error: &str| fails(&folder, words, 2, error);
    usage(&["printer"], "printer wants other words");
    usage(&["printer", "--turns", "1"], "printer wants other words");
    let two = ["printer", "in.csv", "in.csv", "--turns", "1"];
    usage(&two, "printer wants other words");
    usage(&["printer", "in.csv"], "--turns is missing");
    let out = ["printer", "in.csv", "--out", "served"];
    usage(&out, "--turns is missing");
    let none = ["printer", "in.csv", "--turns"];
    usage(&none, "--turns wants a value");
    for turns in ["ten", "", "-1", "1.5", "+1", "0x10", "1,000"] {
        let error = format!("kiosk: {turns} is no number of turns\n");
        usage(&printer(turns, &["--out", "served"]), &error);
    }
    for turns in ["1099001", "4294967296", "99999999999999999999999999"] {
        let error =
            format!("kiosk: {turns} turns are more than 1,099,000, by which every print is made\n");
        usage(&printer(turns, &["--out", "served"]), &error);
    }
    let with = |more: &[&str], error: &str| usage(&printer("9", more), error);
    with(&["--raw"], "this command has no option --raw");
    with(&["--out"], "--out wants a value");
    with(&["--plot"], "--plot wants a value");
    for plot in ["x.jpg", "x", "png", ".svg", "x.png.txt", "x.svgz", "x.", ""] {
        let error = format!("kiosk: {plot} does not end in .png or .svg, as a plot does\n");
        with(&["--plot", plot, "--out", "served"], &error);
    }
    let same = "--out and --plot name the same file";
    with(&["--plot", "x.png", "--out", "x.png"], same);
    // Nothing is read before the words are right.
    let missing = ["printer", "missing", "--turns", "9", "--plot", "x.jpg"];
    usage(&missing, "x.jpg does not end in .png or .svg");
    usage(&["list", "in.csv", "--turns", "1"], "no option --turns");
}

/// A plot that cannot be written: nothing is. Bytes that cannot be: the plot stays, and the status says it.
#[test]
fn files_that_cannot_be_written() {
    let folder = with_example("printer-unwritten");
    fs::create_dir(folder.join("x.svg")).expect("a folder");
    let failed = |more: &[&str], error: &str| fails(&folder, &printer("9", more), 1, error);
    let plot = ["--plot", "none/x.png", "--out", "served"];
    failed(&plot, "kiosk: none/x.png: No such file");
    let plot = ["--plot", "x.svg", "--out", "served"];
    failed(&plot, "kiosk: x.svg: a folder has this name");
    failed(
        &["--out", "none/served"],
        "kiosk: none/served: No such file",
    );
    let both = printer("9", &["--out", "none/served", "--plot", "x.png"]);
    let done = kiosk(&folder, &both);
    assert_eq!(done.status.code(), Some(1));
    assert!(done.stdout.is_empty());
    assert!(folder.join("x.png").exists());
    let full = Command::new(env!("CARGO_BIN_EXE_kiosk"))
        .args(printer("9", &[]))
        .current_dir(&folder)
        .stdout(File::create("/dev/full").expect("a device that is always full"))
        .output()
        .expect("the command runs");
    assert_eq!(full.status.code(), Some(1));
    assert!(text(&full.stderr).starts_with("kiosk: standard output: No space left"));
}

/// The sample of arrivals, for the turns that its comment speaks of.
#[test]
fn takes_the_sample() {
    let folder = folder("printer-sample");
    let sample = Path::new(env!("CARGO_MANIFEST_DIR")).join("../../samples/arrivals.csv");
    fs::copy(sample, folder.join("in.csv")).expect("copied");
    let report = printed(&folder, "540", &["--out", "served", "--plot", "x.png"]);
    let rows = [
        (0, "14 14 0 23 8.71 -"),
        (1, "9 9 0 19 6.78 -"),
        (2, "276 276 0 172 85.41 -"),
        (3, "44 44 0 50 24.52 -"),
        (4, "17 17 0 43 20.24 -"),
        (5, "26 26 0 25 11.50 -"),
        (6, "42 30 12 19 8.07 19"),
    ];
    assert_eq!(report, summary(&rows, "428 416 12 172 61.82 19", None));
    let served = written(&folder, "served");
    assert_eq!(served.len(), 540);
    let idle = served.iter().filter(|&&byte| byte == IDLE).count();
    assert_eq!(idle, 540 - 416);
    let pixel = pixels(&folder, "x.png");
    assert_eq!(pixel(LEFT + 350, TOP + 2 * PITCH + 49), AREA);
}
