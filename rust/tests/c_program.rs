//! A program in C includes the header, links the library and checks an answer of each call. The same
//! program with another layout's names does not link.

mod common;

use std::fs;
use std::path::{Path, PathBuf};
use std::process::{Command, Output};

/// Names the compiler, with words behind it, where it is not `cc`.
const COMPILER: &str = "LEDGERWREN_CC";

const FLAGS: [&str; 5] = ["-std=c99", "-O1", "-Wall", "-Wextra", "-Werror"];

/// What the names of the calls begin with, in this layout and in one that never was.
const VERSION: &str = "ledgerwren1_";
const ANOTHER: &str = "ledgerwren0_";

fn word(path: &Path) -> &str {
    path.to_str().expect("a path in UTF-8")
}

/// Compiles a program with the header in a folder, and links it with the library.
fn build(header: &str, source: &str, program: &Path) -> Output {
    let mut compiler = common::words(COMPILER);
    if compiler.is_empty() {
        compiler.push("cc".to_string());
    }
    let output = Command::new(&compiler[0])
        .args(&compiler[1..])
        .args(FLAGS)
        .args(["-I", header, source, env!("LEDGERWREN_ARCHIVE"), "-lc"])
        .args(["-o", word(program)])
        .current_dir(env!("CARGO_MANIFEST_DIR"))
        .env("LC_ALL", "C")
        .output();
    output.unwrap_or_else(|error| {
        panic!(
            "the C compiler {} does not start: {error}; install one, or name another in {COMPILER}",
            compiler[0]
        )
    })
}

#[test]
fn c_gets_the_answers() {
    let program = Path::new(env!("CARGO_TARGET_TMPDIR")).join("calls");
    let built = build("include", "tests/calls.c", &program);
    let told = String::from_utf8_lossy(&built.stderr);
    assert!(built.status.success(), "{told}");

    let ran = common::start(word(&program)).output();
    let ran = ran.expect("the program in C");
    let told = String::from_utf8_lossy(&ran.stdout);
    assert!(ran.status.success(), "{}\n{told}", ran.status);
    assert_eq!(told, "");
}

/// Copies a file to a folder, with the names of another layout's calls.
fn rename_calls(file: &str, folder: &Path) -> PathBuf {
    let file = Path::new(env!("CARGO_MANIFEST_DIR")).join(file);
    let text = fs::read_to_string(&file).expect("a file of this crate");
    assert!(text.contains(VERSION), "{} names no call", file.display());
    let copy = folder.join(file.file_name().expect("a file's name"));
    fs::write(&copy, text.replace(VERSION, ANOTHER)).expect("the folder can be written");
    copy
}

#[test]
fn c_compiled_against_another_layout_does_not_link() {
    let folder = Path::new(env!("CARGO_TARGET_TMPDIR")).join("another_layout");
    fs::create_dir_all(&folder).expect("a folder for another layout");
    rename_calls("include/ledgerwren.h", &folder);
    let source = rename_calls("tests/calls.c", &folder);
    let built = build(word(&folder), word(&source), &folder.join("calls"));
    let told = String::from_utf8_lossy(&built.stderr);
    assert!(!built.status.success(), "it was linked");
    // The linker's words, not the compiler's: each says them a little differently.
    for word in ["undefined", "ledgerwren0_parse"] {
        assert!(told.contains(word), "{told}");
    }
}
