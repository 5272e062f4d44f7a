//! A drawing as an SVG file.

use crate::drawing::{Anchor, Colour, Drawing, Shape};

/// Capitals of this size are nearly as high as those of the font of `raster`.
const FONT: &str = "font-family=\"DejaVu Sans, Helvetica, Arial, sans-serif\" font-size=\"12.5\"";

pub fn encoded(drawing: &Drawing) -> String {
    let Drawing { width, height, .. } = drawing;
    let shapes: String = drawing.shapes.iter().map(element).collect();
    format!(
        "<?xml version=\"1.0\" encoding=\"UTF-8\"?>\n\
         <svg xmlns=\"http://www.w3.org/2000/svg\" width=\"{width}\" height=\"{height}\" \
         viewBox=\"0 0 {width} {height}\" {FONT}>\n{shapes}</svg>\n"
    )
}

/// A shape's line.
fn element(shape: &Shape) -> String {
    match shape {
        Shape::Rectangle {
            left,
            top,
            width,
            height,
            colour,
        } => format!(
            "<rect x=\"{left}\" y=\"{top}\" width=\"{width}\" height=\"{height}\" fill=\"{}\"/>\n",
            hexadecimal(*colour)
        ),
        Shape::Steps {
            left,
            base,
            steps,
            colour,
        } => format!(
            "<path d=\"M{left} {base}{}V{base}Z\" fill=\"{}\"/>\n",
            outline(*base, steps),
            hexadecimal(*colour)
        ),
        Shape::Text {
            x,
            baseline,
            anchor,
            bold,
            words,
            colour,
        } => format!(
            "<text x=\"{x}\" y=\"{baseline}\" text-anchor=\"{}\" font-weight=\"{}\" fill=\"{}\">{}</text>\n",
            named(*anchor),
            if *bold { "bold" } else { "normal" },
            hexadecimal(*colour),
            escaped(words)
        ),
    }
}

/// Up or down to each step's height, then on to where it ends.
fn outline(base: i32, steps: &[(i32, i32)]) -> String {
    let step = |(right, height): &(i32, i32)| format!("V{}H{right}", base - height);
    steps.iter().map(step).collect()
}

fn hexadecimal([red, green, blue]: Colour) -> String {
    format!("#{red:02x}{green:02x}{blue:02x}")
}

fn named(anchor: Anchor) -> &'static str {
    match anchor {
        Anchor::Start => "start",
        Anchor::Middle => "middle",
        Anchor::End => "end",
    }
}

fn escaped(words: &str) -> String {
    words
        .replace('&', "&amp;")
        .replace('<', "&lt;")
        .replace('>', "&gt;")
}

#[cfg(test)]
mod tests {
    use super::*;

    #[test]
    fn shapes_as_elements() {
        let steps = Shape::Steps {
            left: 10,
            base: 50,
            steps: vec![(12, 0), (15, 40)],
            colour: [1, 2, 255],
        };
        assert_eq!(
            element(&steps),
            "<path d=\"M10 50V50H12V10H15V50Z\" fill=\"#0102ff\"/>\n"
        );
        let text = Shape::Text {
            x: 7,
            baseline: 8,
            anchor: Anchor::End,
            bold: true,
            words: "1 < 2 & 3".into(),
            colour: [0; 3],
        };
        assert_eq!(
            element(&text),
            "<text x=\"7\" y=\"8\" text-anchor=\"end\" font-weight=\"bold\" fill=\"#000000\">1 &lt; 2 &amp; 3</text>\n"
        );
    }
}
