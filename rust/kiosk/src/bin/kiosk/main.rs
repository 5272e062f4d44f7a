//! The kiosk command: lists, checks, converts, compares and previews the frames of a spool file, says what moved light
//! does to them, chooses stickers for them, writes a spool in the other layout, converts tints, and simulates the turns of a printer that kiosks share.

#![forbid(unsafe_code)]

mod arrivals;
mod check;
mod compare;
mod drawing;
mod font;
mod form;
mod output;
mod plot;
mod png;
mod printer;
mod progress;
mod raster;
mod steady;
mod stickers;
mod svg;
mod text;
mod tint;
mod waits;

use form::{Form, Target};
use kiosk::{Fault, Frame, Record, Refusal};
use std::collections::BTreeMap;
use std::ffi::{OsStr, OsString};
use std::fs::File;
use std::io::{self, Read, Write};
use std::path::{Path, PathBuf};
use std::process::ExitCode;

const USAGE: &str = "\
usage: kiosk list FILE
       kiosk check FILE
       kiosk convert FILE FRAME --to FORM --out FILE [--raw]
       kiosk compare FILE FRAME
       kiosk steady FILE FRAME [--by N]
       kiosk preview FILE FRAME --out FILE.png
       kiosk stickers FILE FRAME --tints FILE --out FILE [--budget N]
                      [--preview FILE.png]
       kiosk relayout FILE --out FILE
       kiosk tint --code R,G,B | --nonlinear R,G,B | --light R,G,B
       kiosk printer ARRIVALS.csv --turns N [--out FILE]
                     [--plot FILE.png|FILE.svg]

list      prints a heading and a line for each frame of a spool file, or a line
          with `refused` and a number, and why on standard error. A file of more
          than 65,536 bytes is refused
check     prints a line for each frame: the refusal that it gets, or that it is
          sound and how many of its pixels have a colour that sRGB cannot hold,
          with a channel darker than black or lighter than white. Status 1 if a
          frame is refused
convert   writes a plain spool with the one frame, converted, or with --raw only its
          pixels. FORM is srgb, esrgb10, esrgb12, esrgb16, lumachroma10,
          lumachroma12, lumachroma16, esycc10, esycc12, esycc16, sycc, light10,
          light12 or light16. At a smaller depth a code becomes the nearest. Light is
          written raw, as signed 32-bit numbers of millionths of reference white,
          the low byte first.
          To srgb it says on standard error how many pixels sRGB cannot hold, if any
compare   takes the frame through luma and chroma and back, one of sRGB or sYCC at
          each depth, and says how many channels come back equal, one less or one
          more, also at 8 bits, and how many pixels sRGB cannot hold, before and
          after
steady    takes the frame's codes to light, moves it all up and then all down by N
          millionths of reference white, and says how many channels come back equal,
          one less or one more. A frame without codes of 10 or 12 bits is taken at
          both depths. All come back equal if N is at most 72 at 10 bits and 18 at
          12, which is what is taken if N is not given
preview   writes the frame as an 8-bit PNG picture, and says on standard error how
          many pixels sRGB cannot hold, if any
stickers  chooses four of 16 tints for a frame of at most 65,536 pixels: those from
          which its codes differ least in sum, if each pixel gets the nearest. It
          writes one byte for each pixel, the number of its tint from 0 to 15: the
          nearest of the four, and the darkest of those that are as near. With
          --preview it writes a PNG picture in the four tints too. It prints the
          four numbers, the sum, and by how much another choice can be better. The
          tints are 48 codes of 12-bit e-sRGB in a text file, three for each, with
          white space or commas between them; # begins a comment. N is how many of
          the 1820 choices are looked at, if not all
relayout  writes the spool in the other layout: a plain one strided, without gaps,
          and a strided one plain, which is refused if a frame has gaps between its
          rows
tint      prints a colour as a pixel of 12-bit e-sRGB: three codes from 0 to 4095.
          Codes of 8-bit sRGB are from 0 to 255. Nonlinear numbers have black at 0
          and white at 1, light has reference white at 1, and both may be any
          finite number: what a code cannot hold is clipped
printer   simulates N turns of a printer that kiosks 0 to 7 share. In each turn
          prints arrive first; then one is made, for the first kiosk with prints
          waiting, going round from the one behind the last kiosk served. It
          prints a line for each kiosk and one for all: the prints that arrived,
          were made and still wait at the end, the longest and the mean wait of
          those made, and how long the oldest of those that still wait has
          waited. The wait of a print is the number of turns from the one in
          which it arrives to the one in which it is made, 0 if that is the
          same, or to the last turn if it still waits. The prints of a kiosk are
          made in the order in which they arrive. --out writes one byte for each
          turn, the kiosk or 255 for none. --plot draws how long the oldest
          print of each kiosk has waited at each turn. ARRIVALS.csv has a line
          for each arrival, with turn, kiosk and prints, and commas between
          them: at most 1000 arrivals, in turns that ascend or are equal, from 0
          to 99999, of 1 to 999 prints. The line turn,kiosk,prints may be in
          front of them; # begins a comment. N is at most 1099000, by which all
          prints are made

A spool is plain, or strided: then its first two bytes are 65535, and each frame
has a stride, the bytes from one row to the next, which may leave gaps between
rows. Gaps are left out of what is converted, and a byte of a frame that is named
in an error is counted without them.

A spool has at most 96 frames, which count from 0. The exit status is 0, 1 where
something is refused or cannot be read or written, and 2 for a wrong command
line.
";

/// The greatest length that a spool's header can say.
const SPOOL_LIMIT: usize = u32::MAX as usize;

/// What ends the command early.
enum Failure {
    /// A wrong command line.
    Usage(String),
    /// Something refused, or not to be read or written.
    Failed(String),
}

impl Failure {
    fn usage(message: impl Into<String>) -> Self {
        Failure::Usage(message.into())
    }

    fn about(subject: &Path, cause: impl std::fmt::Display) -> Self {
        Failure::Failed(format!("{}: {cause}", subject.display()))
    }
}

fn main() -> ExitCode {
    let words: Vec<OsString> = std::env::args_os().skip(1).collect();
    match run(&words) {
        Ok(()) => ExitCode::SUCCESS,
        Err(Failure::Usage(message)) => failed(2, &format!("kiosk: {message}\n{USAGE}")),
        Err(Failure::Failed(message)) => failed(1, &format!("kiosk: {message}\n")),
    }
}

/// Where nobody can be told why, the status still says that it failed.
fn failed(status: u8, why: &str) -> ExitCode {
    let _ = io::stderr().write_all(why.as_bytes());
    ExitCode::from(status)
}

/// The options, and whether each has a value.
const OPTIONS: [(&str, bool); 12] = [
    ("--to", true),
    ("--out", true),
    ("--raw", false),
    ("--by", true),
    ("--code", true),
    ("--nonlinear", true),
    ("--light", true),
    ("--tints", true),
    ("--budget", true),
    ("--preview", true),
    ("--turns", true),
    ("--plot", true),
];

/// A command's words, sorted.
struct Words<'a> {
    plain: Vec<&'a OsStr>,
    /// The options by name; one without a value is its own.
    options: BTreeMap<&'static str, &'a OsStr>,
}

impl<'a> Words<'a> {
    fn sorted(words: &'a [OsString]) -> Result<Self, Failure> {
        let mut plain = Vec::new();
        let mut options = BTreeMap::new();
        let mut rest = words.iter();
        while let Some(word) = rest.next() {
            if !word.as_encoded_bytes().starts_with(b"--") {
                plain.push(word.as_os_str());
                continue;
            }
            let Some((name, has_value)) = OPTIONS.into_iter().find(|(name, _)| word == name) else {
                return Err(Failure::usage(format!("unknown option {}", word.display())));
            };
            let value = if has_value { rest.next() } else { Some(word) };
            let value = value.ok_or_else(|| Failure::usage(format!("{name} wants a value")))?;
            options.insert(name, value.as_os_str());
        }
        Ok(Words { plain, options })
    }

    /// Refuses options that a command does not have.
    fn only(&self, names: &[&str]) -> Result<(), Failure> {
        match self.options.keys().find(|name| !names.contains(name)) {
            Some(name) => Err(Failure::usage(format!("this command has no option {name}"))),
            None => Ok(()),
        }
    }

    fn wanted(&self, name: &str) -> Result<&'a OsStr, Failure> {
        let value = self.options.get(name).copied();
        value.ok_or_else(|| Failure::usage(format!("{name} is missing")))
    }

    fn out(&self) -> Result<&'a Path, Failure> {
        self.wanted("--out").map(Path::new)
    }

    /// What stickers are to be made of, and where they go.
    fn stickers(&self) -> Result<stickers::Asked<'a>, Failure> {
        let asked = stickers::Asked {
            tints: Path::new(self.wanted("--tints")?),
            budget: match self.options.get("--budget") {
                Some(word) => number(word, "budget")?,
                None => kiosk::CHOICES,
            },
            out: self.out()?,
            preview: self.options.get("--preview").copied().map(Path::new),
        };
        if asked.preview == Some(asked.out) {
            return Err(Failure::usage("--out and --preview name the same file"));
        }
        Ok(asked)
    }

    /// By how many millionths light is to be moved, if the words say so.
    fn moves(&self) -> Result<Option<i32>, Failure> {
        self.options
            .get("--by")
            .copied()
            .map(millionths)
            .transpose()
    }

    /// How long a printer is to be simulated, and where its files go.
    fn printer(&self) -> Result<printer::Asked<'a>, Failure> {
        let asked = printer::Asked {
            turns: turns(self.wanted("--turns")?)?,
            out: self.options.get("--out").copied().map(Path::new),
            plot: self.options.get("--plot").copied().map(plot).transpose()?,
        };
        let plot = asked.plot.as_ref().map(|plot| plot.path);
        if plot.is_some() && plot == asked.out {
            return Err(Failure::usage("--out and --plot name the same file"));
        }
        Ok(asked)
    }

    fn target(&self) -> Result<Target, Failure> {
        let name = self.wanted("--to")?;
        let target = name.to_str().and_then(Target::named);
        target.ok_or_else(|| Failure::usage(format!("{} is no form of a picture", name.display())))
    }

    /// The one option of a tint, and its value.
    fn tint(&self) -> Result<(&'static str, &'a OsStr), Failure> {
        let mut given = self.options.iter();
        match (given.next(), given.next()) {
            (Some((option, value)), None) => Ok((option, value)),
            _ => Err(Failure::usage(format!(
                "tint wants one of {}",
                tint::OPTIONS.join(", ")
            ))),
        }
    }
}

fn run(words: &[OsString]) -> Result<(), Failure> {
    let Some((command, rest)) = words.split_first() else {
        return Err(Failure::usage("no command"));
    };
    if words.iter().any(|word| word == "--help" || word == "-h") {
        return print(USAGE);
    }
    run_command(command, &Words::sorted(rest)?)
}

/// The commands, for those that are given the wrong words.
const COMMANDS: [&str; 10] = [
    "list", "check", "compare", "steady", "preview", "convert", "stickers", "relayout", "tint",
    "printer",
];

fn run_command(command: &OsStr, words: &Words) -> Result<(), Failure> {
    match (command.to_str(), words.plain.as_slice()) {
        (Some("list"), [file]) => {
            words.only(&[])?;
            list(Path::new(file))
        }
        (Some("check"), [file]) => {
            words.only(&[])?;
            check::run(Path::new(file))
        }
        (
            Some(command @ ("compare" | "steady" | "preview" | "convert" | "stickers")),
            [file, frame],
        ) => run_for_frame(command, Path::new(file), frame, words),
        (Some("relayout"), [file]) => {
            words.only(&["--out"])?;
            relayout(Path::new(file), words.out()?)
        }
        (Some("tint"), []) => {
            words.only(&tint::OPTIONS)?;
            let (option, value) = words.tint()?;
            tint(option, value)
        }
        (Some("printer"), [file]) => {
            words.only(&["--turns", "--out", "--plot"])?;
            printer::run(Path::new(file), words.printer()?)
        }
        (Some(command), _) if COMMANDS.contains(&command) => {
            Err(Failure::usage(format!("{command} wants other words")))
        }
        _ => Err(Failure::usage(format!(
            "unknown command {}",
            command.display()
        ))),
    }
}

/// The commands for one frame.
fn run_for_frame(command: &str, file: &Path, frame: &OsStr, words: &Words) -> Result<(), Failure> {
    let frame_number = || number(frame, "frame number");
    match command {
        "compare" => {
            words.only(&[])?;
            print_report(file, frame_number()?, compare::report)
        }
        "steady" => {
            words.only(&["--by"])?;
            let (number, by) = (frame_number()?, words.moves()?);
            print_report(file, number, |form, pixels| {
                steady::report(form, pixels, by)
            })
        }
        "preview" => {
            words.only(&["--out"])?;
            preview(file, frame_number()?, words.out()?)
        }
        "convert" => {
            words.only(&["--to", "--out", "--raw"])?;
            let raw = words.options.contains_key("--raw");
            let (target, out) = (words.target()?, words.out()?);
            convert(file, frame_number()?, target, raw, out)
        }
        _ => {
            words.only(&["--tints", "--budget", "--out", "--preview"])?;
            stickers::run(file, frame_number()?, words.stickers()?)
        }
    }
}

/// A whole number, for what is named. One that is too great for the machine is no frame's either, as a budget it is
/// more than enough, and so many turns are not simulated.
fn number(word: &OsStr, what: &str) -> Result<usize, Failure> {
    match word.to_str() {
        Some(digits) if !digits.is_empty() && digits.bytes().all(|b| b.is_ascii_digit()) => {
            Ok(digits.parse().unwrap_or(usize::MAX))
        }
        _ => Err(Failure::usage(format!("{} is no {what}", word.display()))),
    }
}

/// A number of millionths that light can be moved by.
fn millionths(word: &OsStr) -> Result<i32, Failure> {
    i32::try_from(number(word, "number of millionths")?).map_err(|_| {
        Failure::usage(format!(
            "{} millionths are more than {}, the most that light is moved by",
            word.display(),
            text::grouped(i32::MAX as usize)
        ))
    })
}

/// A number of turns to simulate.
fn turns(word: &OsStr) -> Result<usize, Failure> {
    let turns = number(word, "number of turns")?;
    if turns > printer::TURNS_LIMIT {
        return Err(Failure::usage(format!(
            "{} turns are more than {}, by which every print is made",
            word.display(),
            text::grouped(printer::TURNS_LIMIT)
        )));
    }
    Ok(turns)
}

/// A plot's file, of a format that its name tells.
fn plot(file: &OsStr) -> Result<printer::Plot<'_>, Failure> {
    printer::Plot::named(Path::new(file)).ok_or_else(|| {
        Failure::usage(format!(
            "{} does not end in .png or .svg, as a plot does",
            file.display()
        ))
    })
}

/// A file's bytes; of one with more than `limit` one byte more, which is enough to know that it is longer.
fn read_within(path: &Path, limit: usize) -> Result<Vec<u8>, Failure> {
    let mut bytes = Vec::new();
    File::open(path)
        .and_then(|file| file.take(limit as u64 + 1).read_to_end(&mut bytes))
        .map_err(|error| Failure::about(path, error))?;
    Ok(bytes)
}

fn read(path: &Path) -> Result<Vec<u8>, Failure> {
    let bytes = read_within(path, SPOOL_LIMIT)?;
    if bytes.len() > SPOOL_LIMIT {
        return Err(Failure::about(path, "longer than any spool"));
    }
    Ok(bytes)
}

/// Writes to standard output.
fn print(text: &str) -> Result<(), Failure> {
    write("standard output", &mut io::stdout().lock(), text)
}

/// Writes to a stream. A reader that has seen enough is no fault.
fn write(name: &str, stream: &mut impl Write, text: &str) -> Result<(), Failure> {
    match stream
        .write_all(text.as_bytes())
        .and_then(|()| stream.flush())
    {
        Ok(()) => Ok(()),
        Err(error) if error.kind() == io::ErrorKind::BrokenPipe => Ok(()),
        Err(error) => Err(Failure::about(Path::new(name), error)),
    }
}

/// Says on standard error how many pixels of a frame were clipped, if any were.
fn tell_clipped(place: &Path, record: &Record, clipped: usize) -> Result<(), Failure> {
    if clipped == 0 {
        return Ok(());
    }
    let pixels = usize::from(record.width) * usize::from(record.height);
    let said = format!(
        "kiosk: {}: {}\n",
        place.display(),
        form::beyond_srgb(clipped, pixels)
    );
    write("standard error", &mut io::stderr().lock(), &said)
}

fn list(path: &Path) -> Result<(), Failure> {
    let text = kiosk::listing(&read_within(path, kiosk::LISTING_LIMIT)?);
    print(&text)?;
    // The whole listing of a refused file is the refusal's number.
    let Some(number) = text.strip_prefix("refused ") else {
        return Ok(());
    };
    let fault = number.trim_end().parse().ok().and_then(Fault::numbered);
    Err(match fault {
        Some(fault) => Failure::about(path, Refusal { fault, place: None }),
        None => Failure::about(path, text.trim_end()),
    })
}

/// A frame of a spool file, with words for the place of an error.
fn found<'a>(path: &Path, file: &'a [u8], number: usize) -> Result<(Frame<'a>, PathBuf), Failure> {
    let place = PathBuf::from(format!("{}: frame {number}", path.display()));
    let frame = kiosk::find(file, number).map_err(|refusal| Failure::about(&place, refusal))?;
    Ok((frame, place))
}

fn convert(
    path: &Path,
    number: usize,
    target: Target,
    raw: bool,
    out: &Path,
) -> Result<(), Failure> {
    let file = read(path)?;
    let (frame, place) = found(path, &file, number)?;
    let refused = |refusal| Failure::about(&place, refusal);
    let from = Form::of(&frame.record).map_err(refused)?;
    let pixels = frame.packed();
    let form = match target {
        Target::Light(depth) => {
            let light = form::light(from, depth, &pixels).map_err(refused)?;
            return save(out, &light);
        }
        Target::Picture(form) => form,
    };
    let picture = form::converted(from, form, &pixels).map_err(refused)?;
    if raw {
        save(out, &picture.pixels)?;
    } else {
        let shop = kiosk::open(&file).map_err(refused)?.shop;
        let spool = form::spool_of(frame.record, form, shop, &picture.pixels).map_err(refused)?;
        save(out, &spool)?;
    }
    tell_clipped(&place, &frame.record, picture.clipped)
}

fn save(out: &Path, bytes: &[u8]) -> Result<(), Failure> {
    output::write(out, bytes).map_err(|error| Failure::about(out, error))
}

/// Prints what is said of a frame's pixels.
fn print_report(
    path: &Path,
    number: usize,
    report: impl FnOnce(Form, &[u8]) -> Result<String, Refusal>,
) -> Result<(), Failure> {
    let file = read(path)?;
    let (frame, place) = found(path, &file, number)?;
    let text = Form::of(&frame.record)
        .and_then(|form| report(form, &frame.packed()))
        .map_err(|refusal| Failure::about(&place, refusal))?;
    print(&text)
}

fn preview(path: &Path, number: usize, out: &Path) -> Result<(), Failure> {
    let file = read(path)?;
    let (frame, place) = found(path, &file, number)?;
    let picture = Form::of(&frame.record)
        .and_then(|form| form::converted(form, Form::Srgb, &frame.packed()))
        .map_err(|refusal| Failure::about(&place, refusal))?;
    let png = png::encoded(frame.record.width, frame.record.height, &picture.pixels);
    save(out, &png)?;
    tell_clipped(&place, &frame.record, picture.clipped)
}

fn relayout(path: &Path, out: &Path) -> Result<(), Failure> {
    let spool = kiosk::relayout(&read(path)?).map_err(|refusal| Failure::about(path, refusal))?;
    save(out, &spool)
}

fn tint(option: &str, value: &OsStr) -> Result<(), Failure> {
    let given = PathBuf::from(format!("{option} {}", value.display()));
    let tint = tint::parsed(option, &value.to_string_lossy())
        .map_err(|wrong| Failure::usage(format!("{}: {wrong}", given.display())))?;
    let [red, green, blue] =
        kiosk::tint_to_pixel(tint).map_err(|refusal| Failure::about(&given, refusal))?;
    print(&format!("{red} {green} {blue}\n"))
}
