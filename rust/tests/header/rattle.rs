//! What the Rattle sources export.

use crate::interface::{Interface, Item, TYPE_PREFIX};
use crate::syntax::{between, c_type, constants, in_c, repr_c_structs, typed_names};
use crate::syntax::{without_comments, Constants};
use std::collections::BTreeMap;
use std::fs;
use std::path::Path;

/// The library for C, which alone has exports.
pub const EXPORTS: &str = "ledgerwren_c/lib.rt";

/// Libraries that are not exported, and whose refusals have no name in the header: those are their constants.
const NOT_EXPORTED: [&str; 3] = [
    "page_collector/lib.rt",
    "name_pattern/lib.rt",
    "universe_pages/lib.rt",
];

/// The first of the places; the constants before it are the numbers of refusals.
const FIRST_PLACE: &str = "NOWHERE";

/// What a check begins with that has a reason, and one that its number names.
const CHECKS: [&str; 2] = ["check (", "numbered ("];

/// The sources, by their paths below `crates`.
pub type Sources = BTreeMap<String, String>;

pub fn sources() -> Sources {
    files("src")
}

pub fn definitions() -> Sources {
    files("specs")
}

/// The files of one folder of each crate.
fn files(folder: &str) -> Sources {
    let crates = Path::new(env!("CARGO_MANIFEST_DIR")).join("../crates");
    let mut sources = Sources::new();
    for entry in fs::read_dir(&crates).expect("the folder crates") {
        let name = entry.expect("a folder of crates").file_name();
        // Not every crate has both folders.
        for file in fs::read_dir(crates.join(&name).join(folder))
            .into_iter()
            .flatten()
        {
            let file = file.expect("a file of a crate").path();
            let text = fs::read_to_string(&file).expect("a source file");
            let short = file.file_name().expect("a file's name");
            sources.insert(
                format!("{}/{}", name.to_string_lossy(), short.to_string_lossy()),
                text,
            );
        }
    }
    sources
}

/// The numbers that the checks of definitions tell, and whether their value is any but 0. A check is
/// `check (test) (refusal number place value) reason byte` or, where its number names it, as in writing,
/// `numbered (test) (refusal number place value)`.
pub fn with_value(definitions: &Sources) -> BTreeMap<u32, bool> {
    let mut told = BTreeMap::new();
    let checks = definitions
        .values()
        .flat_map(|text| CHECKS.into_iter().flat_map(|word| text.split(word).skip(1)));
    for check in checks {
        // A refusal that a theorem names stands behind no test.
        let Some((_, refusal)) = check.split_once(") (refusal ") else {
            continue;
        };
        let mut words = refusal.splitn(3, ' ');
        let Some(number) = words.next().and_then(|word| word.parse().ok()) else {
            continue;
        };
        let value = words.nth(1).expect("a refusal's value");
        let has = !value.starts_with("0)");
        let before = told.insert(number, has).unwrap_or(has);
        assert_eq!(before, has, "one check of {number} has a value, one not");
    }
    told
}

/// The same by the tables of reading and writing: rows like `or number =? 6 and .. and value =? 0`, the
/// first without `or`.
pub fn with_value_in_tables(definitions: &Sources) -> BTreeMap<u32, bool> {
    let tables = ["packet/Table.antt", "pack/Table.antt"].map(|name| &definitions[name]);
    let rows = tables.into_iter().flat_map(|text| text.lines());
    rows.filter_map(|row| {
        let row = row.trim_start();
        let row = row.strip_prefix("or ").unwrap_or(row);
        let (number, rest) = row.strip_prefix("number =? ")?.split_once(' ')?;
        Some((number.parse().ok()?, !rest.contains("value =? 0")))
    })
    .collect()
}

/// The refusals' numbers and the places, by their names in the crate `refusal`.
pub fn numbers_and_places(sources: &Sources) -> (Constants, Constants) {
    let mut numbers = constants(&sources["refusal/lib.rt"]);
    let first = numbers.iter().position(|(name, _)| name == FIRST_PLACE);
    let places = numbers.split_off(first.expect("the first place"));
    (numbers, places)
}

/// The numbers of refusals that only libraries tell which are not exported.
pub fn numbers_of_others(sources: &Sources) -> Vec<u32> {
    let others = NOT_EXPORTED
        .into_iter()
        .flat_map(|name| constants(&sources[name]));
    others.map(|(_, number)| number).collect()
}

pub fn kinds(sources: &Sources) -> Constants {
    constants(&sources["c_answers/lib.rt"])
}

/// The header as the sources have it: the exported functions, the structs that they name, and theirs.
pub fn exported(sources: &Sources) -> Interface {
    let mut interface = Interface::default();
    let (numbers, places) = numbers_and_places(sources);
    for (prefix, list) in [
        ("KIND", kinds(sources)),
        ("REFUSAL", numbers),
        ("PLACE", places),
    ] {
        let named = list.into_iter();
        let named = named.map(|(name, value)| (format!("LEDGERWREN_{prefix}_{name}"), value));
        interface.constants.extend(named);
    }
    add_functions(&mut interface, &sources[EXPORTS]);
    add_structs(&mut interface, &all_structs(sources));
    interface
}

fn add_functions(interface: &mut Interface, text: &str) {
    let text = without_comments(text);
    for rest in text.split("#[unsafe(no_mangle)]").skip(1) {
        let (name, rest) =
            between(rest, "pub extern \"C\" fn ", "(").expect("an exported function");
        let (parameters, rest) = rest.split_once(')').expect("the parameters' end");
        let (_, rest) = rest.split_once("->").expect("a result");
        let result = rest.split_whitespace().next().expect("a result's type");
        let parameters = typed_names(parameters);
        let parameters = parameters.into_iter().flat_map(in_registers).collect();
        interface.add_function(name, parameters, c_type(result));
    }
}

/// A slice is a pointer and a length; all else is itself.
fn in_registers((name, kind): Item) -> Vec<Item> {
    let Some((element, _)) = between(&kind, "[", "]").filter(|_| kind.starts_with('&')) else {
        return vec![(name, c_type(&kind))];
    };
    let pointer = if kind.starts_with("&mut ") {
        format!("*mut {element}")
    } else {
        format!("*const {element}")
    };
    let length = format!("{name}_len");
    in_c(vec![(name, pointer), (length, "usize".to_string())])
}

fn all_structs(sources: &Sources) -> BTreeMap<String, Vec<Item>> {
    let all = sources.values().flat_map(|text| repr_c_structs(text));
    all.map(|(name, fields)| (format!("{TYPE_PREFIX}{name}"), in_c(fields)))
        .collect()
}

/// Adds each struct that a function or an added struct names.
fn add_structs(interface: &mut Interface, all: &BTreeMap<String, Vec<Item>>) {
    let items = interface.functions.values().flatten();
    let mut wanted: Vec<String> = items.map(|(_, kind)| kind.clone()).collect();
    while let Some(name) = wanted.pop() {
        if !name.starts_with(TYPE_PREFIX) || interface.structs.contains_key(&name) {
            continue;
        }
        let fields = all
            .get(&name)
            .unwrap_or_else(|| panic!("no #[repr(C)] struct for {name}"));
        wanted.extend(fields.iter().map(|(_, kind)| kind.clone()));
        interface.add_struct(&name, fields.clone());
    }
}
