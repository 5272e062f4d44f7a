//! The C programs under c/, compiled against include/kiosk.h with warnings as errors, as C and as C++, and run.

use std::collections::BTreeSet;
use std::path::{Path, PathBuf};
use std::process::Command;

/// Compiles a program as the given language of the given standard and gives what it prints.
fn run(program: &str, compiler: &str, language: &str, standard: &str) -> String {
    let package = Path::new(env!("CARGO_MANIFEST_DIR"));
    let root = package.join("../..");
    let binary = PathBuf::from(env!("CARGO_TARGET_TMPDIR")).join(format!("{program}-{standard}"));
    let compiled = Command::new(compiler)
        .arg(format!("-std={standard}"))
        .args([
            "-O2",
            "-Wall",
            "-Wextra",
            "-Wpedantic",
            "-Wconversion",
            "-Werror",
        ])
        .arg("-I")
        .arg(root.join("include"))
        .args(["-x", language])
        .arg(package.join("c").join(format!("{program}.c")))
        .args(["-x", "none"])
        .arg(root.join("target/staticlib/libkiosk.a"))
        .arg("-o")
        .arg(&binary)
        .output()
        .expect("a compiler");
    assert!(
        compiled.status.success(),
        "{}",
        String::from_utf8_lossy(&compiled.stderr)
    );
    let ran = Command::new(&binary).output().expect("the program runs");
    assert!(
        ran.status.success(),
        "{}",
        String::from_utf8_lossy(&ran.stderr)
    );
    String::from_utf8(ran.stdout).expect("plain text")
}

/// The same as C and, where the machine has a C++ compiler, as C++.
fn run_both(program: &str, standard: &str) -> Vec<String> {
    let mut said = vec![run(program, "cc", "c", standard)];
    if Command::new("c++").arg("--version").output().is_ok() {
        said.push(run(program, "c++", "c++", "c++17"));
    } else {
        println!("no c++ here: {program} is not tried as C++");
    }
    said
}

#[test]
fn every_function() {
    for said in run_both("calls", "c11") {
        print!("{said}");
        assert!(said.ends_with(" checks from C, 0 failed\n"));
    }
}

/// The names in a C text that begin with `kiosk_` and stand before a bracket: functions, declared or called.
fn functions(text: &str) -> BTreeSet<&str> {
    text.match_indices("kiosk_")
        .filter_map(|(start, _)| {
            let rest = &text[start..];
            let end = rest.find(|c: char| !(c.is_ascii_alphanumeric() || c == '_'))?;
            rest[end..].starts_with('(').then_some(&rest[..end])
        })
        .collect()
}

/// The header has the functions of the archive, and calls.c calls them all.
#[test]
fn no_function_is_left_out() {
    let root = Path::new(env!("CARGO_MANIFEST_DIR")).join("../..");
    let listed = Command::new("nm")
        .args(["--defined-only", "-g", "-P"])
        .arg(root.join("target/staticlib/libkiosk.a"))
        .output()
        .expect("nm, which comes with the compiler");
    let names = String::from_utf8(listed.stdout).expect("plain names");
    // A name is the first word of its line.
    let exported: BTreeSet<&str> = names
        .lines()
        .filter_map(|line| line.split(' ').next())
        .filter(|name| name.starts_with("kiosk_"))
        .collect();
    let declared = functions(include_str!("../../../include/kiosk.h"));
    let called = functions(include_str!("../c/calls.c"));
    assert!(declared.contains("kiosk_open"));
    assert_eq!(declared, exported);
    assert_eq!(declared, called);
}

/// The wrapper has the header's numbers.
#[test]
fn numbers_of_the_header() {
    let header = include_str!("../../../include/kiosk.h");
    let [at_ten, at_twelve] = kiosk::STEADY.map(|(_, most)| most as usize);
    let numbers: [(&str, usize); 9] = [
        ("STEADY_AT_10_BITS", at_ten),
        ("STEADY_AT_12_BITS", at_twelve),
        ("TINT_CODES", kiosk::TINT_CODES),
        ("PRINTER_KIOSKS", kiosk::KIOSKS),
        ("PRINTER_IDLE", kiosk::IDLE.into()),
        ("ARRIVAL_LIMIT", kiosk::ARRIVAL_LIMIT),
        ("TURN_LIMIT", kiosk::TURN_LIMIT as usize),
        ("PRINT_LIMIT", kiosk::PRINT_LIMIT as usize),
        ("FRAME_LIMIT", kiosk::FRAME_LIMIT),
    ];
    for (name, number) in numbers {
        let line = format!("#define KIOSK_{name} {number}");
        assert!(header.lines().any(|of_it| of_it == line), "{line}");
    }
}

#[test]
fn the_example() {
    for said in run_both("example", "c99") {
        assert_eq!(said, "1 pixel, red code 3576\n");
    }
}
