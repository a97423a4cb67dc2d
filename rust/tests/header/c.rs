//! What the C header declares.

use crate::interface::{Interface, Item};
use crate::syntax::between;

const HEADER: &str = include_str!("../../include/ledgerwren.h");

pub fn header() -> &'static str {
    HEADER
}

pub fn declared(header: &str) -> Interface {
    let text = without_comments(header);
    let mut interface = Interface::default();
    for line in text
        .lines()
        .filter_map(|line| line.strip_prefix("#define "))
    {
        if let Some((name, value)) = line.split_once(' ') {
            let value = value.trim().parse().expect("a constant's number");
            interface.constants.insert(name.to_string(), value);
        }
    }
    let text: Vec<_> = text.lines().filter(|line| !line.starts_with('#')).collect();
    let mut rest = text.join("\n");
    while let Some((fields, behind)) = between(&rest, "typedef struct {", "}") {
        let (name, behind) = behind.split_once(';').expect("a struct's name");
        interface.add_struct(
            name.trim(),
            fields.split_terminator(';').filter_map(item).collect(),
        );
        rest = behind.to_string();
    }
    for prototype in rest.split(';').filter(|text| text.contains('(')) {
        add_prototype(&mut interface, prototype);
    }
    interface
}

/// The refusals behind whose numbers a comment says what the value is.
pub fn with_value(header: &str) -> Vec<String> {
    let lines = header.lines().filter(|line| line.contains("/* value: "));
    lines
        .filter_map(|line| between(line, "#define LEDGERWREN_REFUSAL_", " "))
        .map(|(name, _)| name.to_string())
        .collect()
}

fn add_prototype(interface: &mut Interface, text: &str) {
    let (head, parameters) = text.split_once('(').expect("a prototype");
    let (name, result) = item(head).expect("a function's name");
    let parameters = parameters.trim_end().trim_end_matches(')').split(',');
    interface.add_function(&name, parameters.filter_map(item).collect(), result);
}

/// A declaration like `const uint8_t *name` or `uint8_t cid[16]`: its name and its type.
fn item(text: &str) -> Option<Item> {
    let text = text.split_whitespace().collect::<Vec<_>>().join(" ");
    let start = text.rfind([' ', '*'])? + 1;
    let (kind, name) = (text[..start].trim(), &text[start..]);
    Some(match name.find('[') {
        Some(length) => (
            name[..length].to_string(),
            format!("{kind}{}", &name[length..]),
        ),
        None => (name.to_string(), kind.to_string()),
    })
}

fn without_comments(text: &str) -> String {
    let mut kept = String::new();
    let mut rest = text;
    while let Some((before, comment)) = rest.split_once("/*") {
        kept += before;
        rest = comment.split_once("*/").expect("a comment's end").1;
    }
    kept + rest
}
