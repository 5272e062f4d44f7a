//! The printer that kiosks share: who is served in each turn, and who waits how long.

use crate::drawing::Drawing;
use crate::waits::{Tally, Waits};
use crate::{arrivals, plot, print, raster, save, svg, text, Failure};
use kiosk::{Arrival, ARRIVAL_LIMIT, PRINT_LIMIT, TURN_LIMIT};
use std::path::Path;

/// What is asked for.
pub struct Asked<'a> {
    pub turns: usize,
    pub out: Option<&'a Path>,
    pub plot: Option<Plot<'a>>,
}

/// A plot's file.
pub struct Plot<'a> {
    pub path: &'a Path,
    format: Format,
}

enum Format {
    Png,
    Svg,
}

impl<'a> Plot<'a> {
    /// The plot of a file whose extension names a format.
    pub fn named(path: &'a Path) -> Option<Self> {
        let extension = path.extension()?.to_str()?;
        let format = match extension.to_lowercase().as_str() {
            "png" => Format::Png,
            "svg" => Format::Svg,
            _ => return None,
        };
        Some(Plot { path, format })
    }

    fn encoded(&self, drawing: &Drawing) -> Vec<u8> {
        match self.format {
            Format::Png => raster::encoded(drawing),
            Format::Svg => svg::encoded(drawing).into_bytes(),
        }
    }
}

/// The most turns that are simulated: so many that every print of the longest list is made, even if all of them arrive in
/// the last turn that they may. Every turn after that would be without a print.
pub const TURNS_LIMIT: usize = TURN_LIMIT as usize + ARRIVAL_LIMIT * PRINT_LIMIT as usize;

/// The most bytes of a file of arrivals: room for long comments in each of the most lines.
const ARRIVALS_LIMIT: usize = 262_144;

pub fn run(path: &Path, asked: Asked) -> Result<(), Failure> {
    let text = text::read(path, ARRIVALS_LIMIT, "arrivals")?;
    let entries = arrivals::parsed(&text).map_err(|wrong| Failure::about(path, wrong))?;
    let arrivals: Vec<Arrival> = entries.iter().map(|entry| entry.arrival).collect();
    let mut served = vec![0; asked.turns];
    kiosk::printer(&arrivals, &mut served)
        .map_err(|refusal| Failure::about(path, arrivals::refused(&refusal, &entries)))?;
    let waits = Waits::of(&arrivals, &served, plot::COLUMNS);
    // The plot comes first: where it cannot be written, no file is.
    if let Some(plot) = asked.plot {
        save(plot.path, &plot.encoded(&plot::drawn(&waits)))?;
    }
    if let Some(out) = asked.out {
        save(out, &served)?;
    }
    print(&report(&waits))
}

/// The summary: a line for each kiosk and one for all, and one for what arrives too late, if anything does.
fn report(waits: &Waits) -> String {
    let names = [
        "kiosk",
        "arrived",
        "made",
        "waiting",
        "longest wait",
        "mean wait",
        "oldest waiting",
    ];
    let mut report = line(names.map(String::from));
    for (number, kiosk) in waits.kiosks.iter().enumerate() {
        report += &row(number.to_string(), &kiosk.tally);
    }
    report += &row("all".into(), &waits.all());
    if waits.later > 0 {
        let later = waits.later;
        report += &format!("prints that arrive after the turns simulated: {later}\n");
    }
    report
}

fn row(name: String, tally: &Tally) -> String {
    let turns = |number: Option<usize>| number.map_or("-".into(), |number| number.to_string());
    let mean = tally.mean_hundredths().map_or("-".into(), |hundredths| {
        format!("{}.{:02}", hundredths / 100, hundredths % 100)
    });
    line([
        name,
        tally.arrived.to_string(),
        tally.made.to_string(),
        tally.waiting().to_string(),
        turns(tally.longest),
        mean,
        turns(tally.oldest),
    ])
}

/// The columns are wide enough for every list and every number of turns.
fn line([name, arrived, made, waiting, longest, mean, oldest]: [String; 7]) -> String {
    format!(
        "{name:>5}  {arrived:>7}  {made:>7}  {waiting:>7}  {longest:>12}  {mean:>10}  {oldest:>14}\n"
    )
}
