//! Finds the archive of the proved functions, and says how to make it where it is missing.

use std::env;
use std::path::PathBuf;
use std::process::exit;

const FOLDER: &str = "YERONDATT_ARCHIVE_DIR";

fn main() {
    println!("cargo:rerun-if-env-changed={FOLDER}");
    println!("cargo:rerun-if-changed=build.rs");
    let arch = variable("CARGO_CFG_TARGET_ARCH");
    if arch != "x86_64" {
        stop(&format!(
            "the archive is for x86-64, and this build is for {arch}: give cargo `--target x86_64-unknown-linux-gnu`"
        ));
    }
    let folder = folder();
    let archive = folder.join("libyerondatt.a");
    println!("cargo:rerun-if-changed={}", archive.display());
    if !archive.is_file() {
        stop(&format!(
            "{} is missing. `rt lib --cpu x86-64`, run in crates/yerondatt, makes it; where it stands elsewhere, name its folder in {FOLDER}",
            archive.display()
        ));
    }
    println!("cargo:rustc-link-search=native={}", folder.display());
    println!("cargo:rustc-link-lib=static=yerondatt");
}

/// The folder that the variable names, or else the one that the toolchain writes to.
fn folder() -> PathBuf {
    match env::var_os(FOLDER) {
        Some(folder) => PathBuf::from(folder),
        None => {
            let here = PathBuf::from(variable("CARGO_MANIFEST_DIR"));
            here.parent().unwrap_or(&here).join("crates/yerondatt/out")
        }
    }
}

fn variable(name: &str) -> String {
    env::var(name).unwrap_or_else(|_| stop(&format!("cargo sets {name}, and it isn't set")))
}

fn stop(why: &str) -> ! {
    eprintln!("yerondatt: {why}");
    exit(1)
}
