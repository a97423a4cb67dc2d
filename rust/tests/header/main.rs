//! The declarations for C and for Rust are those of the Rattle sources. A linker sees only the names of
//! the calls, so this test reads the three and compares each field and each parameter. It also sees to
//! it that those names have another version where the layout is another, that refusals have values
//! where the definitions give them one, and that they have one wording.

mod c;
mod interface;
mod rattle;
mod rust;
mod syntax;
mod words;

use interface::Interface;
use syntax::Constants;
use words::Words;

/// What the names of the calls begin with, which is the layout's version, and that layout's fingerprint.
const VERSION: &str = "ledgerwren1_";
const FINGERPRINT: u64 = 0xb2e6_3cff_8166_ea8c;

fn assert_same(declared: &Interface, exported: &Interface) {
    let differences = declared.differences(exported);
    assert!(differences.is_empty(), "{}", differences.join("\n"));
}

#[test]
fn the_header_declares_what_is_exported() {
    assert_same(
        &c::declared(c::header()),
        &rattle::exported(&rattle::sources()),
    );
}

#[test]
fn the_boundary_declares_what_is_exported() {
    let mut exported = rattle::exported(&rattle::sources());
    exported.constants.clear();
    assert_same(&rust::declared(rust::boundary()), &exported);
}

#[test]
fn the_exports_are_eight_functions_over_fourteen_structs() {
    // A reader of sources that finds nothing would find no difference either.
    let exported = rattle::exported(&rattle::sources());
    assert_eq!(exported.functions.len(), 8);
    assert_eq!(exported.structs.len(), 14);
    assert_eq!(exported.constants.len(), 4 + 27 + 7);
}

#[test]
fn another_layout_has_another_version() {
    let exported = rattle::exported(&rattle::sources());
    for name in exported.functions.keys() {
        assert!(name.starts_with(VERSION), "{name} has another version");
    }
    let found = exported.fingerprint();
    assert!(
        found == FINGERPRINT,
        "a struct or a call has changed: the names of the calls need the next version; \
         then write that version and {found:#x} in this test"
    );
}

/// `INVALID_PRIORITY` as `InvalidPriority`.
fn camel(name: &str) -> String {
    let words = name
        .split('_')
        .map(|word| word[..1].to_string() + &word[1..].to_lowercase());
    words.collect()
}

#[test]
fn the_enums_have_the_numbers_of_the_refusals() {
    let (numbers, places) = rattle::numbers_and_places(&rattle::sources());
    let in_rust =
        |list: Constants| -> Vec<_> { list.iter().map(|(name, n)| (camel(name), *n)).collect() };
    let mut checks = vec![("Unknown".to_string(), 0)];
    checks.extend(in_rust(numbers));
    assert_eq!(rust::variants("Check"), checks);
    // Nowhere is no layer.
    assert_eq!(rust::variants("Layer"), in_rust(places)[1..]);
}

#[test]
fn a_refusal_has_a_value_where_a_definition_gives_it_one() {
    let definitions = rattle::definitions();
    let defined = rattle::with_value(&definitions);
    let sources = rattle::sources();
    let (numbers, _) = rattle::numbers_and_places(&sources);
    let told: Vec<_> = numbers.iter().map(|(_, number)| *number).collect();
    let others = rattle::numbers_of_others(&sources);
    assert_eq!(
        defined.keys().copied().collect::<Vec<_>>(),
        [told.clone(), others].concat()
    );
    // Range and copying are no reading or writing, and have no table.
    let tabled = rattle::with_value_in_tables(&definitions);
    let in_a_table: Vec<_> = told.into_iter().filter(|number| *number < 30).collect();
    assert_eq!(tabled.keys().copied().collect::<Vec<_>>(), in_a_table);
    for (number, has) in tabled {
        assert_eq!(defined[&number], has, "the tables at {number}");
    }
    let in_c = c::with_value(c::header());
    let (in_rust, described) = (rust::with_value(), rust::with_described_value());
    for (name, number) in numbers {
        let (has, check) = (defined[&number], camel(&name));
        assert_eq!(in_c.contains(&name), has, "{name} in the header");
        assert_eq!(in_rust[&check], has, "{check} in the table");
        assert_eq!(described.contains(&check), has, "{check} in its comment");
    }
}

#[test]
fn checks_have_one_wording() {
    let sources = rattle::sources();
    let reasons = words::reasons(&sources);
    assert_eq!(reasons.len(), rust::READING.len());
    let told = (1..).zip(rust::READING).map(|(number, check)| {
        assert_eq!(check.number(), number, "{check:?}");
        check.to_string()
    });
    let in_rust: Words = reasons.into_iter().zip(told).collect();
    assert_eq!(words::answered(&sources, "wrong_words"), in_rust);
    assert_eq!(words::defined_for_reasons(&rattle::definitions()), in_rust);
}

#[test]
fn layers_have_one_wording() {
    let sources = rattle::sources();
    let (_, mut places) = rattle::numbers_and_places(&sources);
    // Nowhere is no layer, and the last layer is what is none of the others.
    places.remove(0);
    assert_eq!(places.len(), rust::LAYERS.len());
    places.last_mut().expect("the last layer").0 = words::ELSE.to_string();
    let told = places.into_iter().zip(rust::LAYERS);
    let in_rust: Words = told
        .map(|((name, place), layer)| {
            assert_eq!(layer as u32, place, "{layer:?}");
            (name, layer.to_string())
        })
        .collect();
    assert_eq!(words::answered(&sources, "layer_words"), in_rust);
    assert_eq!(words::defined_for_layers(&rattle::definitions()), in_rust);
}

#[test]
fn the_kinds_have_their_numbers() {
    // What is none of the others is a refusal, so that kind has no name in Rust.
    assert_eq!(rust::kinds(), rattle::kinds(&rattle::sources())[1..]);
}

/// Other types of the same size, other names, other orders.
fn edits(text: &str) -> Vec<String> {
    let mut edited = Vec::new();
    let lines: Vec<&str> = text.lines().collect();
    for (i, line) in lines.iter().enumerate() {
        let mut replace = |line: String| {
            let mut lines: Vec<&str> = lines.clone();
            lines[i] = &line;
            edited.push(lines.join("\n"));
        };
        for (from, to) in [
            ("uint8_t", "bool"),
            ("uint16_t", "int16_t"),
            ("size_t", "uint64_t"),
        ] {
            if line.contains(from) {
                replace(line.replacen(from, to, 1));
            }
        }
        if line.starts_with("    ") && line.ends_with(';') {
            replace(line.replace(';', "_;"));
        }
    }
    edited
}

#[test]
fn a_change_in_the_header_is_seen() {
    let exported = rattle::exported(&rattle::sources());
    let edited = edits(c::header());
    assert!(edited.len() > 60, "only {} edits were made", edited.len());
    for header in edited {
        assert!(
            !c::declared(&header).differences(&exported).is_empty(),
            "{header}"
        );
    }
}

/// Swaps two fields or parameters, which the test has to see in each file.
fn swapped(text: &str, first: &str, second: &str) -> String {
    let edited = text.replacen(&format!("{first}{second}"), &format!("{second}{first}"), 1);
    assert_ne!(edited, text, "{first}{second} is not there");
    edited
}

#[test]
fn another_order_is_seen() {
    let sources = rattle::sources();
    let exported = rattle::exported(&sources);
    let header = swapped(
        c::header(),
        "    bool preview_data;\n",
        "    bool stream_terminated;\n",
    );
    assert_eq!(c::declared(&header).differences(&exported).len(), 1);
    for (file, first, second) in [
        (
            "universe/lib.rt",
            "    pub highest: u8,\n",
            "    pub second: u8,\n",
        ),
        (
            rattle::EXPORTS,
            "    name: &[u8],\n",
            "    values: &[u8],\n",
        ),
    ] {
        let mut sources = sources.clone();
        let text = swapped(&sources[file], first, second);
        sources.insert(file.to_string(), text);
        let exported = rattle::exported(&sources);
        assert_eq!(
            c::declared(c::header()).differences(&exported).len(),
            1,
            "{file}"
        );
        assert!(!rust::declared(rust::boundary())
            .differences(&exported)
            .is_empty());
        assert_ne!(exported.fingerprint(), FINGERPRINT, "{file}");
    }
}
