//! Links libkiosk.a. Where it is missing or older than the Rattle sources, `tools/archive` proves the library and makes
//! it, as the script `kiosk` at the root does, which also shows how far it is.

use std::path::{Path, PathBuf};
use std::process::Command;
use std::time::SystemTime;
use std::{env, fs, io};

fn main() {
    if let Err(message) = link() {
        eprintln!("error: {message}");
        std::process::exit(1);
    }
}

fn link() -> Result<(), String> {
    let package = PathBuf::from(env::var("CARGO_MANIFEST_DIR").map_err(|e| e.to_string())?);
    let root = package
        .ancestors()
        .nth(2)
        .ok_or("the package does not stand in the repository")?;
    let archive = root.join("target/staticlib/libkiosk.a");
    let sources = [root.join("crates"), root.join("crates.txt")];
    for source in &sources {
        println!("cargo:rerun-if-changed={}", source.display());
    }
    println!("cargo:rerun-if-changed={}", archive.display());

    let newest = sources.iter().filter_map(|s| newest_in(s)).max();
    if changed(&archive).is_none_or(|made| newest.is_some_and(|newest| made < newest)) {
        // Cargo shows this when the proof is done.
        println!("cargo:warning=the library was proved first, by `tools/archive`");
        let start = SystemTime::now();
        let made = Command::new(root.join("tools/archive"))
            .output()
            .map_err(|e| format!("`tools/archive` cannot be run: {e}"))?;
        if !made.status.success() {
            return Err(format!(
                "`tools/archive` failed:\n{}{}",
                String::from_utf8_lossy(&made.stdout),
                String::from_utf8_lossy(&made.stderr)
            ));
        }
        // What is changed during the proof is newer than the archive.
        set_changed(&archive, start).map_err(|e| format!("{}: {e}", archive.display()))?;
    }
    let folder = archive.parent().ok_or("the archive has no folder")?;
    println!("cargo:rustc-link-search=native={}", folder.display());
    println!("cargo:rustc-link-lib=static=kiosk");
    // For the build scripts of packages that depend on this one.
    println!("cargo:archive={}", archive.display());
    Ok(())
}

fn changed(path: &Path) -> Option<SystemTime> {
    fs::metadata(path).ok()?.modified().ok()
}

fn set_changed(path: &Path, time: SystemTime) -> io::Result<()> {
    fs::File::options()
        .append(true)
        .open(path)?
        .set_modified(time)
}

/// When a file, or the newest file of a folder, was last changed.
fn newest_in(path: &Path) -> Option<SystemTime> {
    if !path.is_dir() {
        return changed(path);
    }
    fs::read_dir(path)
        .ok()?
        .flatten()
        // What a check keeps is no source.
        .filter(|entry| entry.file_name() != "out")
        .filter_map(|entry| newest_in(&entry.path()))
        .max()
}
