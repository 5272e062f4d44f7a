//! A drawing: shapes one over another, in whole pixels from the upper left corner. `svg` and `raster` make files of it.

/// Red, green and blue, 8-bit sRGB.
pub type Colour = [u8; 3];

pub struct Drawing {
    pub width: u16,
    pub height: u16,
    pub shapes: Vec<Shape>,
}

pub enum Shape {
    Rectangle {
        left: i32,
        top: i32,
        width: i32,
        height: i32,
        colour: Colour,
    },
    /// The area between a line of steps and its base.
    Steps {
        left: i32,
        base: i32,
        /// Where each step ends on the right, and its height above the base.
        steps: Vec<(i32, i32)>,
        colour: Colour,
    },
    Text {
        x: i32,
        baseline: i32,
        anchor: Anchor,
        bold: bool,
        words: String,
        colour: Colour,
    },
}

/// What part of a text is at its x.
#[derive(Clone, Copy)]
pub enum Anchor {
    Start,
    Middle,
    End,
}
