//! What the tests of the command share.

use std::fs;
use std::path::{Path, PathBuf};
use std::process::{Command, Output};

/// A folder of its own for each test.
pub fn folder(name: &str) -> PathBuf {
    let folder = Path::new(env!("CARGO_TARGET_TMPDIR")).join(name);
    let _ = fs::remove_dir_all(&folder);
    fs::create_dir_all(&folder).expect("a folder for the test");
    folder
}

pub fn kiosk(folder: &Path, words: &[&str]) -> Output {
    Command::new(env!("CARGO_BIN_EXE_kiosk"))
        .args(words)
        .current_dir(folder)
        .output()
        .expect("the command runs")
}

pub fn text(bytes: &[u8]) -> String {
    String::from_utf8_lossy(bytes).into_owned()
}

/// A spool with one frame, in one row.
pub fn one_frame(kind: u8, bits: u8, pixels: &[u8]) -> Vec<u8> {
    let width = pixels.len() / if bits == 8 { 3 } else { 6 };
    let mut file = vec![1, 0, 7, 0, 12, 0, 0, 0];
    file.extend((28 + pixels.len() as u32).to_le_bytes());
    // Behind the header and the record, as one row; one copy, order 1.
    let record = [[28, 0, 0, 0], [width as u8, 0, 1, 0], [kind, bits, 1, 0]];
    file.extend(record.concat());
    file.extend(1u32.to_le_bytes());
    file.extend(pixels);
    file
}

pub fn wide(samples: &[u16]) -> Vec<u8> {
    samples.iter().flat_map(|x| x.to_le_bytes()).collect()
}

/// Runs words that must fail: with this status, an error that holds these words, and no file written.
pub fn fails(folder: &Path, words: &[&str], status: i32, error: &str) {
    let before = fs::read_dir(folder).expect("the folder").count();
    let failed = kiosk(folder, words);
    let said = text(&failed.stderr);
    assert_eq!(failed.status.code(), Some(status), "{words:?}: {said}");
    assert!(said.contains(error), "{words:?}: {said}");
    assert!(!said.contains("panicked"), "{words:?}: {said}");
    assert!(failed.stdout.is_empty(), "{words:?}");
    let after = fs::read_dir(folder).expect("the folder").count();
    assert_eq!(before, after, "{words:?} leaves a file");
}
