//! The plot of who waits how long at the printer: a lane for each kiosk, in which the height at each turn is the age
//! of its oldest print waiting. All lanes have one scale, so that a kiosk that waits longer than others stands out.

use crate::drawing::{Anchor, Colour, Drawing, Shape};
use crate::text::{counted, grouped};
use crate::waits::{Kiosk, Waits};
use kiosk::KIOSKS;

/// The columns of pixels for turns, which are the most bins of turns that are told apart.
pub const COLUMNS: usize = 800;

const WIDTH: u16 = 1040;
const HEIGHT: u16 = 600;

/// Where the turns begin: on the left of it is room for a lane's name and the greatest number of turns.
const LEFT: i32 = 144;
const RIGHT: i32 = LEFT + COLUMNS as i32;

/// Where the first lane begins, how high a lane is, and how far it is to the next.
const TOP: i32 = 76;
const LANE: i32 = 50;
const PITCH: i32 = 60;
const BOTTOM: i32 = TOP + (KIOSKS as i32 - 1) * PITCH + LANE;

/// More labels of turns would be too close to each other.
const MOST_INTERVALS: usize = 8;

const WHITE: Colour = [255; 3];
const INK: Colour = [32, 33, 36];
const FAINT_INK: Colour = [95, 99, 104];
const BACKGROUND: Colour = [241, 243, 244];
const GRID: Colour = [218, 220, 224];
const BASE: Colour = [128, 134, 139];
const AREA: Colour = [26, 115, 185];

pub fn drawn(waits: &Waits) -> Drawing {
    // Where nobody waits, a lane is still one turn high: nothing is divided by 0.
    let scale = waits.all().longest_of_all().unwrap_or(0).max(1);
    let mut shapes = vec![rectangle([0, 0], [WIDTH.into(), HEIGHT.into()], WHITE)];
    shapes.extend(heading(waits));
    shapes.extend((0..KIOSKS).map(|number| {
        let size = [COLUMNS as i32, LANE];
        rectangle([LEFT, top(number)], size, BACKGROUND)
    }));
    shapes.extend(turns(waits.turns));
    for (number, kiosk) in waits.kiosks.iter().enumerate() {
        shapes.extend(lane(number, kiosk, scale));
    }
    Drawing {
        width: WIDTH,
        height: HEIGHT,
        shapes,
    }
}

fn top(lane: usize) -> i32 {
    TOP + lane as i32 * PITCH
}

fn rectangle([left, top]: [i32; 2], [width, height]: [i32; 2], colour: Colour) -> Shape {
    Shape::Rectangle {
        left,
        top,
        width,
        height,
        colour,
    }
}

fn text(x: i32, baseline: i32, anchor: Anchor, words: String, colour: Colour) -> Shape {
    Shape::Text {
        x,
        baseline,
        anchor,
        bold: false,
        words,
        colour,
    }
}

/// The title, a line on what is shown, and the names of the columns beside the lanes.
fn heading(waits: &Waits) -> [Shape; 4] {
    let title = Shape::Text {
        x: LEFT,
        baseline: 24,
        anchor: Anchor::Start,
        bold: true,
        words: "Age of the oldest print waiting at each kiosk, in turns".into(),
        colour: INK,
    };
    [
        title,
        text(LEFT, 44, Anchor::Start, caption(waits), FAINT_INK),
        text(LEFT - 8, TOP - 12, Anchor::End, "turns".into(), FAINT_INK),
        text(
            RIGHT + 10,
            TOP - 12,
            Anchor::Start,
            "longest".into(),
            FAINT_INK,
        ),
    ]
}

fn caption(waits: &Waits) -> String {
    let all = waits.all();
    let turns = counted(waits.turns, "turn");
    let Some(longest) = all.longest_of_all() else {
        return format!("{turns}, no prints");
    };
    let longest = counted(longest, "turn");
    let left = counted(all.waiting(), "print");
    format!("{turns}, longest wait {longest}, {left} still waiting at the end")
}

/// The axis of turns under the lanes, and a line through all lanes at each of its labels.
fn turns(count: usize) -> Vec<Shape> {
    let label = BOTTOM + 18;
    let mut shapes = Vec::new();
    for turn in (0..=count).step_by(interval(count)) {
        let x = LEFT + (turn * COLUMNS / count.max(1)) as i32;
        shapes.push(rectangle([x, TOP], [1, BOTTOM + 5 - TOP], GRID));
        shapes.push(text(x, label, Anchor::Middle, grouped(turn), FAINT_INK));
    }
    let middle = (LEFT + RIGHT) / 2;
    shapes.push(text(middle, label + 20, Anchor::Middle, "turn".into(), INK));
    shapes
}

/// The turns from one label to the next: 1, 2 or 5, or ten, a hundred and so on times that.
fn interval(count: usize) -> usize {
    let mut power = 1;
    loop {
        let fits = |step: &usize| count / step <= MOST_INTERVALS;
        if let Some(step) = [power, 2 * power, 5 * power].into_iter().find(fits) {
            return step;
        }
        power *= 10;
    }
}

/// A kiosk's name, the scale, the ages, and the longest wait.
fn lane(number: usize, kiosk: &Kiosk, scale: usize) -> [Shape; 6] {
    let (top, base) = (top(number), top(number) + LANE);
    let longest = kiosk.tally.longest_of_all();
    let longest = longest.map_or("-".into(), grouped);
    [
        text(12, top + 30, Anchor::Start, format!("kiosk {number}"), INK),
        text(LEFT - 8, top + 9, Anchor::End, grouped(scale), FAINT_INK),
        text(LEFT - 8, base, Anchor::End, "0".into(), FAINT_INK),
        Shape::Steps {
            left: LEFT,
            base,
            steps: steps(&kiosk.ages, scale),
            colour: AREA,
        },
        rectangle([LEFT, base], [COLUMNS as i32, 1], BASE),
        text(RIGHT + 10, top + 30, Anchor::Start, longest, INK),
    ]
}

/// The ages as steps, one for neighbours of the same height.
fn steps(ages: &[usize], scale: usize) -> Vec<(i32, i32)> {
    let mut steps: Vec<(i32, i32)> = Vec::new();
    for (bin, &age) in ages.iter().enumerate() {
        let right = LEFT + ((bin + 1) * COLUMNS / ages.len()) as i32;
        let height = height(age, scale);
        match steps.last_mut() {
            Some(last) if last.1 == height => last.0 = right,
            _ => steps.push((right, height)),
        }
    }
    steps
}

/// The height of an age in pixels, to the nearest. Every age but 0 can be seen.
fn height(age: usize, scale: usize) -> i32 {
    let nearest = (2 * age * LANE as usize + scale) / (2 * scale);
    nearest.max(usize::from(age > 0)) as i32
}

#[cfg(test)]
mod tests {
    use super::*;
    use crate::font;
    use kiosk::{Arrival, IDLE};

    #[test]
    fn heights_in_a_lane() {
        assert_eq!(height(0, 1), 0);
        assert_eq!(height(1, 1), LANE);
        assert_eq!(height(400, 400), LANE);
        assert_eq!(height(1, 1_000_000), 1);
        // 50 x 3 / 100 is half-way from one pixel to two.
        assert_eq!(height(3, 100), 2);
    }

    #[test]
    fn labels_are_not_too_close() {
        for (count, step) in [
            (0, 1),
            (8, 1),
            (9, 2),
            (17, 2),
            (18, 5),
            (44, 5),
            (45, 10),
            (100, 20),
            (1_099_000, 200_000),
        ] {
            assert_eq!(interval(count), step, "{count}");
        }
    }

    /// Neighbours of one height are one step, and the last ends where the lane does.
    #[test]
    fn steps_over_the_whole_lane() {
        let expected = [(LEFT + 400, 0), (LEFT + 600, 25), (RIGHT, 50)];
        assert_eq!(steps(&[0, 0, 1, 2], 2), expected);
        assert_eq!(steps(&[], 1), []);
        let ages: Vec<usize> = (0..COLUMNS).map(|bin| bin % 2).collect();
        assert_eq!(steps(&ages, 1).len(), COLUMNS);
        assert_eq!(steps(&[7; 3], 7), [(RIGHT, LANE)]);
    }

    /// Every character of every text has dots: those of plots without turns, without prints, and with prints that
    /// wait.
    #[test]
    fn the_font_has_every_character() {
        let arrivals = [[0, 3, 2], [1, 4, 900]].map(|[turn, kiosk, prints]| Arrival {
            turn,
            kiosk,
            prints,
        });
        let mut served = vec![4; 800];
        served[0] = 3;
        for waits in [
            Waits::of(&[], &[], COLUMNS),
            Waits::of(&[], &[IDLE; 1_234], COLUMNS),
            Waits::of(&arrivals, &served, COLUMNS),
        ] {
            for shape in drawn(&waits).shapes {
                let Shape::Text { words, .. } = shape else {
                    continue;
                };
                for character in words.chars().filter(|&c| c != ' ') {
                    assert!(font::dots(character).next().is_some(), "{words}");
                }
            }
        }
    }
}
