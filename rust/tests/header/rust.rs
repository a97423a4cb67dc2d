//! What the Rust crate declares.

use crate::interface::{Interface, TYPE_PREFIX};
use crate::syntax::{between, c_type, constants, in_c, repr_c_structs, typed_names};
use crate::syntax::{without_comments, Constants};
use ledgerwren::{Check, Layer};
use std::collections::BTreeMap;

const BOUNDARY: &str = include_str!("../../src/ffi.rs");
const REFUSAL: &str = include_str!("../../src/refusal.rs");

/// The checks of reading, from number 1 on.
pub const READING: [Check; 17] = [
    Check::PartTooShort,
    Check::InvalidData,
    Check::InvalidFlags,
    Check::InvalidVector,
    Check::InvalidLength,
    Check::NameNotTerminated,
    Check::NameNotUtf8,
    Check::InvalidPriority,
    Check::InvalidSyncAddress,
    Check::InvalidUniverse,
    Check::InvalidPage,
    Check::InvalidUniverseOrder,
    Check::MissingField,
    Check::LengthBeyondPart,
    Check::CountDiffersFromLength,
    Check::LengthDiffersFromPart,
    Check::NoStartCode,
];

/// The layers, from place 1 on.
pub const LAYERS: [Layer; 6] = [
    Layer::Preamble,
    Layer::Root,
    Layer::Framing,
    Layer::Dmp,
    Layer::Discovery,
    Layer::UniverseList,
];

pub fn boundary() -> &'static str {
    BOUNDARY
}

/// The structs and functions of ffi.rs, with `Refusal`, which stands in a file of its own.
pub fn declared(boundary: &str) -> Interface {
    let mut interface = Interface::default();
    for (name, fields) in [boundary, REFUSAL].into_iter().flat_map(repr_c_structs) {
        interface.add_struct(&format!("{TYPE_PREFIX}{name}"), in_c(fields));
    }
    let text = without_comments(boundary);
    let (block, _) =
        between(&text, "extern \"C\" {", "\n}").expect("the block of foreign functions");
    for declaration in block
        .split_terminator(';')
        .filter(|text| text.contains("fn "))
    {
        let (name, rest) = between(declaration, "fn ", "(").expect("a function's name");
        let (parameters, result) = rest.split_once(") -> ").expect("a result");
        interface.add_function(name, in_c(typed_names(parameters)), c_type(result));
    }
    interface
}

pub fn kinds() -> Constants {
    constants(BOUNDARY)
}

/// The checks of refusal.rs, and whether its table says that they have a value.
pub fn with_value() -> BTreeMap<String, bool> {
    let (table, _) = between(REFUSAL, "static CHECKS", "\n];").expect("the table");
    let rows = table.split("Check::").skip(1);
    rows.map(|row| {
        let (check, _) = row.split_once(',').expect("a check's name");
        let (value, _) = between(row, "Value::", ",").expect("what its value is");
        (check.to_string(), value != "Nothing")
    })
    .collect()
}

/// The checks whose comment says what their value is.
pub fn with_described_value() -> Vec<String> {
    let (body, _) = between(REFUSAL, "pub enum Check {", "\n}").expect("the enum");
    let variants = body.split_inclusive(" = ");
    variants
        .filter(|text| text.contains("Its value:"))
        .filter_map(|text| text.split_whitespace().rev().nth(1))
        .map(str::to_string)
        .collect()
}

/// The variants of an enum of refusal.rs and their numbers.
pub fn variants(name: &str) -> Constants {
    let text = without_comments(REFUSAL);
    let (body, _) = between(&text, &format!("pub enum {name} {{"), "}").expect("the enum");
    let lines = body.split(',').filter_map(|line| line.split_once(" = "));
    lines
        .map(|(name, number)| (name.trim().to_string(), number.parse().expect("a number")))
        .collect()
}
