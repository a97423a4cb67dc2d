//! What a library offers to C: the same form for each file that declares it, so that two files can be
//! compared.

use std::collections::BTreeMap;
use std::fmt::Debug;

/// What stands before every name of the header.
pub const TYPE_PREFIX: &str = "Ledgerwren";

/// A field, a parameter or a result: its name and its type in C's words.
pub type Item = (String, String);

/// What the fingerprint begins with, and what it is multiplied by at each byte.
const FNV_START: u64 = 0xcbf2_9ce4_8422_2325;
const FNV_FACTOR: u64 = 0x100_0000_01b3;

/// Under this name a function's result is the last of its items.
pub const RESULT: &str = "-> result";

#[derive(Default)]
pub struct Interface {
    pub constants: BTreeMap<String, u32>,
    pub structs: BTreeMap<String, Vec<Item>>,
    pub functions: BTreeMap<String, Vec<Item>>,
}

impl Interface {
    /// Adds a function, whose parameters may each be two in C.
    pub fn add_function(&mut self, name: &str, parameters: Vec<Item>, result: String) {
        let mut items = parameters;
        items.push((RESULT.to_string(), result));
        let before = self.functions.insert(name.to_string(), items);
        assert!(before.is_none(), "{name} is declared twice");
    }

    pub fn add_struct(&mut self, name: &str, fields: Vec<Item>) {
        let before = self.structs.insert(name.to_string(), fields);
        assert!(before.is_none(), "{name} is declared twice");
    }

    /// A number that is another one for other structs and functions: FNV-1a over their names and types.
    pub fn fingerprint(&self) -> u64 {
        let text = format!("{:?}{:?}", self.structs, self.functions);
        text.bytes().fold(FNV_START, |number, byte| {
            (number ^ u64::from(byte)).wrapping_mul(FNV_FACTOR)
        })
    }

    /// A line for each constant, struct and function that the two do not have in common.
    pub fn differences(&self, other: &Interface) -> Vec<String> {
        let mut lines = of_maps(&self.constants, &other.constants);
        lines.extend(of_maps(&self.structs, &other.structs));
        lines.extend(of_maps(&self.functions, &other.functions));
        lines
    }
}

fn of_maps<T: PartialEq + Debug>(a: &BTreeMap<String, T>, b: &BTreeMap<String, T>) -> Vec<String> {
    let mut names: Vec<_> = a.keys().chain(b.keys()).collect();
    names.sort();
    names.dedup();
    let differing = names
        .into_iter()
        .filter(|name| a.get(*name) != b.get(*name));
    differing
        .map(|name| format!("{name}: {:?} is not {:?}", a.get(name), b.get(name)))
        .collect()
}
