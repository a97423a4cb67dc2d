//! What tests that start programs share.

use std::env;
use std::process::Command;

/// Where cargo is told how to start a program for x86-64 on another machine.
const RUNNER: &str = "CARGO_TARGET_X86_64_UNKNOWN_LINUX_GNU_RUNNER";

/// The words in a variable of the environment.
pub fn words(variable: &str) -> Vec<String> {
    let text = env::var(variable).unwrap_or_default();
    text.split_whitespace().map(str::to_string).collect()
}

/// A command that starts a program for x86-64.
pub fn start(program: &str) -> Command {
    let mut words = words(RUNNER);
    words.push(program.to_string());
    let mut command = Command::new(&words[0]);
    command.args(&words[1..]);
    command
}
