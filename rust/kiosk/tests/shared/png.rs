//! PNG pictures, for the tests of commands that write them.

/// The rows of a PNG picture whose data are stored, each behind the byte of its filter.
pub fn rows_of(png: &[u8]) -> Vec<u8> {
    let data = png.windows(4).position(|name| name == b"IDAT");
    let mut rest = &png[data.expect("picture data") + 4 + 2..];
    let mut rows = Vec::new();
    loop {
        let length = usize::from(u16::from_le_bytes([rest[1], rest[2]]));
        rows.extend(&rest[5..5 + length]);
        if rest[0] == 1 {
            return rows;
        }
        rest = &rest[5 + length..];
    }
}
