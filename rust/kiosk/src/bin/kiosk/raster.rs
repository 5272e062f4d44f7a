//! A drawing as pixels.

use crate::drawing::{Anchor, Colour, Drawing, Shape};
use crate::{font, png};

/// The file of a PNG picture.
pub fn encoded(drawing: &Drawing) -> Vec<u8> {
    let mut picture = Picture::white(drawing.width, drawing.height);
    for shape in &drawing.shapes {
        picture.draw(shape);
    }
    png::encoded(drawing.width, drawing.height, &picture.pixels)
}

struct Picture {
    width: i32,
    height: i32,
    /// Three bytes each, row by row.
    pixels: Vec<u8>,
}

impl Picture {
    fn white(width: u16, height: u16) -> Picture {
        Picture {
            width: width.into(),
            height: height.into(),
            pixels: vec![255; 3 * usize::from(width) * usize::from(height)],
        }
    }

    fn draw(&mut self, shape: &Shape) {
        match shape {
            Shape::Rectangle {
                left,
                top,
                width,
                height,
                colour,
            } => self.fill([*left, *top], [*width, *height], *colour),
            Shape::Steps {
                left,
                base,
                steps,
                colour,
            } => {
                let mut from = *left;
                for &(right, height) in steps {
                    self.fill([from, base - height], [right - from, height], *colour);
                    from = right;
                }
            }
            Shape::Text {
                x,
                baseline,
                anchor,
                bold,
                words,
                colour,
            } => {
                let start = start(*x, *anchor, words);
                self.write(start, *baseline, words, *colour);
                // The same once more, one pixel to the right, makes every stroke twice as wide.
                if *bold {
                    self.write(start + 1, *baseline, words, *colour);
                }
            }
        }
    }

    /// Fills a rectangle, as far as it is inside the picture.
    fn fill(&mut self, [left, top]: [i32; 2], [width, height]: [i32; 2], colour: Colour) {
        let columns = left.clamp(0, self.width)..(left + width).clamp(0, self.width);
        for y in top.max(0)..(top + height).min(self.height) {
            for x in columns.clone() {
                let at = 3 * (y * self.width + x) as usize;
                self.pixels[at..at + 3].copy_from_slice(&colour);
            }
        }
    }

    fn write(&mut self, start: i32, baseline: i32, words: &str, colour: Colour) {
        for (left, character) in (start..).step_by(font::ADVANCE as usize).zip(words.chars()) {
            for [column, row] in font::dots(character) {
                let dot = [left + column, baseline - font::ASCENT + row];
                self.fill(dot, [1, 1], colour);
            }
        }
    }
}

/// Where a text starts.
fn start(x: i32, anchor: Anchor, words: &str) -> i32 {
    let length = font::ADVANCE * words.chars().count() as i32;
    match anchor {
        Anchor::Start => x,
        Anchor::Middle => x - length / 2,
        Anchor::End => x - length,
    }
}

#[cfg(test)]
mod tests {
    use super::*;

    /// The picture's pixels, a character each: black ones as `#`.
    fn shown(shapes: &[Shape]) -> Vec<String> {
        let mut picture = Picture::white(8, 4);
        for shape in shapes {
            picture.draw(shape);
        }
        let shown = |pixel: &[u8]| if pixel == [0; 3] { '#' } else { '.' };
        let row = |row: &[u8]| row.chunks_exact(3).map(shown).collect();
        picture.pixels.chunks_exact(24).map(row).collect()
    }

    #[test]
    fn rectangles_are_cut_at_the_edges() {
        let rectangle = |left, top, width, height| Shape::Rectangle {
            left,
            top,
            width,
            height,
            colour: [0; 3],
        };
        let shapes = [
            rectangle(-2, -1, 3, 2),
            rectangle(6, 2, 9, 9),
            rectangle(9, 0, 1, 1),
            rectangle(-5, 1, 2, 1),
            rectangle(3, 1, 2, 1),
        ];
        assert_eq!(
            shown(&shapes),
            ["#.......", "...##...", "......##", "......##"]
        );
    }

    #[test]
    fn steps_stand_on_their_base() {
        let steps = Shape::Steps {
            left: 1,
            base: 3,
            steps: vec![(3, 1), (4, 0), (6, 3)],
            colour: [0; 3],
        };
        assert_eq!(
            shown(&[steps]),
            ["....##..", "....##..", ".##.##..", "........"]
        );
    }

    #[test]
    fn texts_by_their_anchor() {
        assert_eq!(start(100, Anchor::Start, "1,000"), 100);
        assert_eq!(start(100, Anchor::Middle, "1,000"), 100 - 17);
        assert_eq!(start(100, Anchor::End, "1,000"), 100 - 35);
    }
}
