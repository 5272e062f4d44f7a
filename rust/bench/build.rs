//! Compiles the C versions with the system's compiler at -O3: plain C, and on x86-64 the one by hand for SSE2. Links
//! the library that this one is compared with, under other names.

use std::path::{Path, PathBuf};
use std::process::Command;
use std::{env, fs};

fn main() {
    println!("cargo:rerun-if-changed=c");
    println!("cargo:rerun-if-env-changed=CC");
    let out = PathBuf::from(env::var_os("OUT_DIR").expect("cargo sets OUT_DIR"));
    let archive = out.join("libversions.a");
    let compiler = env::var_os("CC").unwrap_or_else(|| "cc".into());
    let mut versions = vec!["plain"];
    if env::var("CARGO_CFG_TARGET_ARCH").is_ok_and(|arch| arch == "x86_64") {
        versions.push("sse2");
    }
    // ar would add to an archive that is there.
    let _ = fs::remove_file(&archive);
    for version in versions {
        let object = out.join(version).with_extension("o");
        run(Command::new(&compiler)
            .args(["-std=c11", "-O3", "-Wall", "-Wextra", "-Werror", "-c"])
            .arg(format!("c/{version}.c"))
            .arg("-o")
            .arg(&object));
        run(Command::new("ar").arg("rcs").arg(&archive).arg(&object));
    }
    println!("cargo:rustc-link-search=native={}", out.display());
    println!("cargo:rustc-link-lib=static=versions");
    link_before(&out);
}

/// Links the archive that `KIOSK_BEFORE` names, or else the library itself, as `before_to_srgb` and so on. All other
/// names in it become private.
fn link_before(out: &Path) {
    println!("cargo:rerun-if-env-changed=KIOSK_BEFORE");
    let archive = env::var_os("KIOSK_BEFORE")
        .or_else(|| env::var_os("DEP_KIOSK_ARCHIVE"))
        .expect("the package kiosk says where its archive is");
    println!("cargo:rerun-if-changed={}", archive.display());
    let mut objcopy = Command::new("objcopy");
    for name in [
        "from_srgb",
        "to_srgb",
        "change_depth",
        "to_luma_chroma",
        "from_luma_chroma",
        "code_to_light",
    ] {
        objcopy
            .arg(format!("--redefine-sym=kiosk_{name}=before_{name}"))
            .arg(format!("--keep-global-symbol=before_{name}"));
    }
    run(objcopy.arg(&archive).arg(out.join("libbefore.a")));
    println!("cargo:rustc-link-lib=static=before");
}

fn run(command: &mut Command) {
    match command.status() {
        Ok(status) if status.success() => {}
        Ok(status) => stop(&format!("{command:?}: {status}")),
        Err(error) => stop(&format!("{command:?}: {error}")),
    }
}

fn stop(message: &str) -> ! {
    eprintln!("error: {message}");
    std::process::exit(1)
}
