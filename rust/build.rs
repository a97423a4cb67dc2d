//! Finds the proved static library for the linking that `src/ffi.rs` asks for. It never fails, since
//! `cargo check` and `cargo doc` need no library: it says what is missing, and goes on.

use std::env;
use std::path::{Path, PathBuf};

const ARCHIVE: &str = "libledgerwren.a";

/// Names the archive's folder where it is not the repository's own.
const FOLDER: &str = "LEDGERWREN_LIB_DIR";

/// Never there, so that cargo asks anew at each build: an archive that is moved in may have an old date.
const NO_FILE: &str = "no-such-file";

fn main() {
    let folder = folder();
    let archive = folder.join(ARCHIVE);
    println!("cargo:rerun-if-env-changed={FOLDER}");
    println!("cargo:rerun-if-changed={}", archive.display());
    // The test in C links it by itself.
    println!("cargo:rustc-env=LEDGERWREN_ARCHIVE={}", archive.display());
    match fault(&archive) {
        None => println!("cargo:rustc-link-search=native={}", folder.display()),
        Some(fault) => {
            // Without the folder a build ends in rustc's own line, that there is no such library.
            println!("cargo:warning={fault}");
            println!("cargo:rerun-if-changed={NO_FILE}");
        }
    }
}

fn folder() -> PathBuf {
    let package = env::var_os("CARGO_MANIFEST_DIR").expect("cargo names the package's folder");
    let package = PathBuf::from(package);
    match env::var_os(FOLDER) {
        Some(folder) => package.join(folder),
        None => package.with_file_name("target").join("staticlib"),
    }
}

/// Why the archive cannot be linked, and what to do.
fn fault(archive: &Path) -> Option<String> {
    let told = |name: &str| env::var(name).unwrap_or_default();
    if told("CARGO_CFG_TARGET_ARCH") != "x86_64" || told("CARGO_CFG_TARGET_OS") != "linux" {
        return Some(format!(
            "{ARCHIVE} is x86-64 code for Linux and cannot be linked for {}: build with \
             `--target x86_64-unknown-linux-gnu`",
            told("TARGET")
        ));
    }
    if !archive.is_file() {
        return Some(format!(
            "{} is missing: run `./staticlib` at the root of the repository, or name its folder in \
             {FOLDER}",
            archive.display()
        ));
    }
    None
}
