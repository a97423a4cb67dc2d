//! What Rattle and Rust write alike: structs for C, parameters, constants.

use crate::interface::{Item, TYPE_PREFIX};

/// The text between `from` and the next `to` behind it, and what is behind that.
pub fn between<'a>(text: &'a str, from: &str, to: &str) -> Option<(&'a str, &'a str)> {
    text.split_once(from)?.1.split_once(to)
}

/// The text without `//` comments.
pub fn without_comments(text: &str) -> String {
    let lines = text
        .lines()
        .map(|line| line.split("//").next().unwrap_or(""));
    lines.collect::<Vec<_>>().join("\n")
}

/// The structs marked `#[repr(C)]`: their names and fields, with types as they are written.
pub fn repr_c_structs(text: &str) -> Vec<(String, Vec<Item>)> {
    let text = without_comments(text);
    let marked = text.split("#[repr(C)]").skip(1);
    marked
        .map(|rest| {
            let (name, rest) = between(rest, "struct ", "{").expect("a marked struct");
            let (fields, _) = rest.split_once('}').expect("the struct's end");
            (name.trim().to_string(), typed_names(fields))
        })
        .collect()
}

/// `name: type` pairs, separated by commas.
pub fn typed_names(text: &str) -> Vec<Item> {
    let pairs = text.split(',').filter_map(|pair| pair.split_once(':'));
    pairs
        .map(|(name, kind)| {
            let name = name.split_whitespace().last().expect("a name");
            (name.to_string(), kind.trim().to_string())
        })
        .collect()
}

/// Names and their values, in order.
pub type Constants = Vec<(String, u32)>;

/// The constants of type `u8`.
pub fn constants(text: &str) -> Constants {
    let text = without_comments(text);
    let declared = text.split("const ").skip(1);
    declared
        .filter_map(|rest| {
            let (name, value) = rest.split_once(';')?.0.split_once(": u8 = ")?;
            Some((name.to_string(), value.parse().ok()?))
        })
        .collect()
}

/// A type that is not a slice, in C's words. An array is its element's type with its length behind.
pub fn c_type(kind: &str) -> String {
    if let Some(element) = kind.strip_prefix("*const ") {
        return format!("const {} *", c_type(element));
    }
    if let Some(element) = kind.strip_prefix("*mut ") {
        return format!("{} *", c_type(element));
    }
    if let Some((element, length)) = between(kind, "[", "]").and_then(|(x, _)| x.split_once(';')) {
        return format!("{}[{}]", c_type(element), length.trim());
    }
    match kind {
        "u8" | "u16" | "u32" => format!("uint{}_t", &kind[1..]),
        "usize" => "size_t".to_string(),
        "bool" => "bool".to_string(),
        name => format!("{TYPE_PREFIX}{name}"),
    }
}

/// Names and types with the types in C's words.
pub fn in_c(items: Vec<Item>) -> Vec<Item> {
    let items = items.into_iter();
    items.map(|(name, kind)| (name, c_type(&kind))).collect()
}
