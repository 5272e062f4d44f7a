//! Arrivals at the printer as a text: a line for each, with turn, kiosk and prints.

use crate::text::{counted, cut, grouped, uncommented};
use kiosk::{Arrival, Refusal, ARRIVAL_LIMIT, KIOSKS, PRINT_LIMIT, TURN_LIMIT};

/// The fields of a line. A heading has these names, in upper or lower case.
const FIELDS: [&str; 3] = ["turn", "kiosk", "prints"];

/// An arrival, and where and how it is written.
pub struct Entry<'a> {
    /// The number of its line, from 1.
    line: usize,
    fields: [&'a str; 3],
    pub arrival: Arrival,
}

/// The arrivals of a text, or what is wrong with it. How many there are, and whether their numbers are within the
/// limits, only the library decides.
pub fn parsed(text: &str) -> Result<Vec<Entry<'_>>, String> {
    // Programs that make tables put this mark in front of UTF-8.
    let text = text.strip_prefix('\u{feff}').unwrap_or(text);
    let mut lines = lines(text).peekable();
    lines.next_if(|&(_, line)| is_heading(line));
    lines.map(|(number, line)| entry(number, line)).collect()
}

/// The lines that hold more than a comment, each with its number, from 1.
fn lines(text: &str) -> impl Iterator<Item = (usize, &str)> {
    text.lines()
        .enumerate()
        .map(|(k, line)| (k + 1, uncommented(line).trim()))
        .filter(|(_, line)| !line.is_empty())
}

fn fields(line: &str) -> impl Iterator<Item = &str> {
    line.split(',').map(str::trim)
}

fn is_heading(line: &str) -> bool {
    fields(line).map(str::to_lowercase).eq(FIELDS)
}

fn entry(number: usize, line: &str) -> Result<Entry<'_>, String> {
    let fields: Vec<&str> = fields(line).collect();
    let count = fields.len();
    let fields: [&str; 3] = fields.try_into().map_err(|_| {
        let count = counted(count, "field");
        format!("line {number}: {count}, where an arrival has turn, kiosk and prints")
    })?;
    let mut numbers = [0; 3];
    for ((place, field), name) in numbers.iter_mut().zip(fields).zip(FIELDS) {
        *place = whole(field).ok_or_else(|| {
            let field = cut(field);
            format!("line {number}: {name} {field:?} is not a whole number")
        })?;
    }
    let [turn, kiosk, prints] = numbers;
    Ok(Entry {
        line: number,
        fields,
        arrival: Arrival {
            turn,
            kiosk,
            prints,
        },
    })
}

/// A whole number. One that 32 bits do not hold becomes their greatest, which is beyond every limit too.
fn whole(field: &str) -> Option<u32> {
    let is_whole = !field.is_empty() && field.bytes().all(|b| b.is_ascii_digit());
    is_whole.then(|| field.parse().unwrap_or(u32::MAX))
}

/// The refusal of a list, with the line of the arrival at fault and what is wrong there. The refusal's own words are
/// kept where nothing wrong is found.
pub fn refused(refusal: &Refusal, entries: &[Entry]) -> String {
    let found = refusal.place.and_then(|place| {
        let wrong = wrong(entries, place)?;
        Some((entries.get(place)?.line, wrong))
    });
    match found {
        Some((line, wrong)) => format!("refusal {}: line {line}: {wrong}", refusal.fault.number()),
        None => refusal.to_string(),
    }
}

/// The first limit that an arrival breaks, in the order in which the header names them.
fn wrong(entries: &[Entry], place: usize) -> Option<String> {
    let Entry {
        fields, arrival, ..
    } = entries.get(place)?;
    let [turn, kiosk, prints] = fields.map(cut);
    if arrival.kiosk as usize >= KIOSKS {
        return Some(format!("kiosk {kiosk} is not 0 to {}", KIOSKS - 1));
    }
    if !(1..=PRINT_LIMIT).contains(&arrival.prints) {
        return Some(format!("{prints} prints are not 1 to {PRINT_LIMIT}"));
    }
    if arrival.turn >= TURN_LIMIT {
        let limit = grouped(TURN_LIMIT as usize);
        return Some(format!("turn {turn} is not below {limit}"));
    }
    let before = place.checked_sub(1).and_then(|place| entries.get(place));
    if let Some(before) = before.filter(|before| arrival.turn < before.arrival.turn) {
        let (line, later) = (before.line, cut(before.fields[0]));
        return Some(format!("turn {turn} is before turn {later} of line {line}"));
    }
    let (number, limit) = (grouped(place + 1), grouped(ARRIVAL_LIMIT));
    (place >= ARRIVAL_LIMIT)
        .then(|| format!("this is arrival number {number}, and {limit} are the most"))
}

#[cfg(test)]
mod tests {
    use super::*;
    use kiosk::Fault;

    fn said(text: &str, place: Option<usize>) -> String {
        let fault = Fault::WrongArrival;
        let entries = parsed(text).expect("lines of three numbers");
        refused(&Refusal { fault, place }, &entries)
    }

    /// An arrival with every fault: as each is mended, the next is named.
    #[test]
    fn faults_in_the_order_of_the_header() {
        for (line, wrong) in [
            ("100000,8,0", "kiosk 8 is not 0 to 7"),
            ("100000,7,0", "0 prints are not 1 to 999"),
            ("100000,7,1000", "1000 prints are not 1 to 999"),
            ("100000,7,999", "turn 100000 is not below 100,000"),
            ("4,7,999", "turn 4 is before turn 5 of line 1"),
        ] {
            let expected = format!("refusal 22: line 3: {wrong}");
            assert_eq!(said(&format!("5,0,1\n\n{line}\n"), Some(1)), expected);
        }
    }

    #[test]
    fn one_arrival_too_many() {
        let expected =
            "refusal 22: line 1001: this is arrival number 1,001, and 1,000 are the most";
        assert_eq!(said(&"5,0,1\n".repeat(1002), Some(1000)), expected);
    }

    /// A place without a fault, one that no arrival has, and none: the refusal speaks for itself.
    #[test]
    fn there_are_always_words() {
        for place in [Some(1), Some(2), None] {
            let fault = Fault::WrongArrival;
            let own = Refusal { fault, place }.to_string();
            assert_eq!(said("5,0,1\n5,7,999\n", place), own);
        }
    }
}
