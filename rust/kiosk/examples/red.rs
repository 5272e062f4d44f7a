//! One red pixel from 8-bit sRGB to 12-bit e-sRGB.

use kiosk::{convert, Conversion, Refusal};

fn main() -> Result<(), Refusal> {
    let mut codes = [0; 6];
    let done = convert(Conversion::FromSrgb { depth: 12 }, &[255, 0, 0], &mut codes)?;
    let red = u16::from_le_bytes([codes[0], codes[1]]);
    println!("{} pixel, red code {red}", done.pixels);
    Ok(())
}
