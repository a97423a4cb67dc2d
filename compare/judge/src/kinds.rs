//! The definition `kind_of` of crates/demands: which kind of the crate's errors each number stands for.

use std::collections::HashMap;
use std::fmt::Debug;
use std::sync::OnceLock;
use std::{env, fs};

static KINDS: OnceLock<HashMap<u8, String>> = OnceLock::new();

/// The kind that the definition gives a number; empty where it gives none.
pub fn of(number: u8) -> &'static str {
    KINDS
        .get_or_init(read)
        .get(&number)
        .map_or("", String::as_str)
}

/// An error's kind: its variant's name.
pub fn name(error: &impl Debug) -> String {
    let text = format!("{error:?}");
    text.split('(').next().unwrap_or("").to_string()
}

/// Lines like `(choose (n =? 5) PduInvalidLength`.
fn read() -> HashMap<u8, String> {
    let file = env::var("REFUSAL_KINDS").expect("REFUSAL_KINDS names the file of kind_of");
    let text = fs::read_to_string(file).expect("the file of kind_of can be read");
    text.lines().filter_map(row).collect()
}

fn row(line: &str) -> Option<(u8, String)> {
    let (number, kind) = line.split_once("(n =? ")?.1.split_once(") ")?;
    Some((number.parse().ok()?, kind.trim().to_string()))
}
